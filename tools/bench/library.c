/* library FILE TIMES: reads a drawing once and checks it from the cleared start by the library. Prints the answer, and the
 * processor seconds of the whole process and of the fastest check by the clock. library.py sets it beside the program. */
#include "ans_easy.h"
#include <stdio.h>
#include <time.h>

static double seconds(clockid_t clock) {
    struct timespec now;
    clock_gettime(clock, &now);
    return (double)now.tv_sec + (double)now.tv_nsec / 1e9;
}

int main(int argc, char **argv) {
    static uint8_t file[ANS_LONGEST_FILE + 1];
    double fastest = 1e9;
    uint32_t answer = 0;
    FILE *input = argc == 3 ? fopen(argv[1], "rb") : NULL;
    if (!input)
        return 2;
    setvbuf(input, NULL, _IONBF, 0);
    size_t length = fread(file, 1, sizeof file, input);
    for (int i = 0; i < atoi(argv[2]); i++) {
        struct ans_picture picture;
        struct ans_fault fault;
        double began = seconds(CLOCK_MONOTONIC);
        answer = ans_check_easily(file, length, ANS_CLEARED, &picture, &fault);
        double taken = seconds(CLOCK_MONOTONIC) - began;
        fastest = taken < fastest ? taken : fastest;
        if (answer == ANS_PASS)
            ans_free_picture(&picture);
    }
    printf("%u %.6f %.6f\n", answer, seconds(CLOCK_PROCESS_CPUTIME_ID), fastest);
    return 0;
}
