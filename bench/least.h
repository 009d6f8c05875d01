// The least processor time of a call, for the programs that time ICU.
#include <algorithm>
#include <cstdio>
#include <cstdlib>
#include <ctime>
#include <string>

static const int CALLS = 20000;
static size_t total = 0;

static double processor_time() {
    timespec time;
    clock_gettime(CLOCK_PROCESS_CPUTIME_ID, &time);
    return double(time.tv_sec) * 1e9 + double(time.tv_nsec);
}

// The least processor time of a call, of the given number of batches.
template <typename Call>
static double least(int batches, Call call) {
    double found = 1e12;
    for (int batch = 0; batch < batches; batch++) {
        double start = processor_time();
        for (int i = 0; i < CALLS; i++) call();
        found = std::min(found, (processor_time() - start) / CALLS);
    }
    return found;
}
