/* Times runs of some programs that take turns: starts ROUNDS PROGRAM [WORD].. [-- PROGRAM [WORD]..]..

   A line for each: the least wall time in microseconds, the median of the ratios to the first program's run in the
   same round, the mean processor time of a run in microseconds, and the page faults of a run. */

#define _GNU_SOURCE
#include <fcntl.h>
#include <spawn.h>
#include <stdio.h>
#include <stdlib.h>
#include <string.h>
#include <sys/resource.h>
#include <sys/wait.h>
#include <time.h>

extern char **environ;

enum { MOST = 8 };

static double now(void) {
    struct timespec time;
    clock_gettime(CLOCK_MONOTONIC, &time);
    return time.tv_sec * 1e6 + time.tv_nsec / 1e3;
}

static double micros(struct timeval time) {
    return time.tv_sec * 1e6 + time.tv_usec;
}

static int by_size(const void *one, const void *other) {
    double first = *(const double *)one, second = *(const double *)other;
    return (first > second) - (first < second);
}

/* Runs a program with its output thrown away: its wall time and what it used. */
static double run(char **words, struct rusage *used) {
    posix_spawn_file_actions_t actions;
    posix_spawn_file_actions_init(&actions);
    posix_spawn_file_actions_addopen(&actions, 1, "/dev/null", O_WRONLY, 0);
    pid_t child;
    int status;
    double start = now();
    if (posix_spawn(&child, words[0], &actions, 0, words, environ) || wait4(child, &status, 0, used) < 0 || status)
        exit(fprintf(stderr, "%s did not run\n", words[0]));
    double took = now() - start;
    posix_spawn_file_actions_destroy(&actions);
    return took;
}

int main(int count, char **words) {
    int rounds = atoi(words[1]), programs = 0;
    char **commands[MOST];
    double least[MOST], processor[MOST] = {0}, faults[MOST] = {0}, *ratios[MOST];
    for (int at = 2; at < count && programs < MOST; programs++) {
        commands[programs] = words + at;
        least[programs] = 1e9;
        ratios[programs] = malloc(rounds * sizeof(double));
        while (at < count && strcmp(words[at], "--"))
            at++;
        if (at < count)
            words[at++] = 0;
    }
    for (int round = 0; round < rounds; round++) {
        double first = 0;
        for (int at = 0; at < programs; at++) {
            struct rusage used;
            double took = run(commands[at], &used);
            first = at ? first : took;
            least[at] = took < least[at] ? took : least[at];
            ratios[at][round] = took / first;
            processor[at] += micros(used.ru_utime) + micros(used.ru_stime);
            faults[at] += used.ru_minflt;
        }
    }
    for (int at = 0; at < programs; at++) {
        qsort(ratios[at], rounds, sizeof(double), by_size);
        printf("%.0f %.2f %.0f %.0f\n", least[at], ratios[at][rounds / 2], processor[at] / rounds, faults[at] / rounds);
    }
}
