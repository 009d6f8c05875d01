/* cc example.c $(pkg-config --cflags --libs fixed_decimal): rounds 1234.565 to cents and writes it as in German. */
#include <fixed_decimal.h>
#include <stdio.h>
#include <string.h>

int main(void) {
    const char *text = "1234.565", *tag = "de";
    uint8_t buffer[64];
    fd_call round = {.kind = FD_ROUND, .option = FD_HALF_EVEN, .increment = 1, .position = -2};
    fd_forms forms = {.format.start = 0, .format.count = strlen(tag)};
    fd_result answer = fd_convert((const uint8_t *)text, strlen(text), &forms, &round, 1, (const uint8_t *)tag,
                                  strlen(tag), buffer, sizeof buffer);
    if (answer.status != FD_OK) {
        fprintf(stderr, "error %u at %zu\n", answer.status, answer.at);
        return 1;
    }
    printf("%.*s\n", (int)answer.count, (char *)buffer); /* 1.234,56 */
    return 0;
}
