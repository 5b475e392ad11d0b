/* memory FILE..: what each call of ans_easy.h answers about each file if malloc refuses its first call, its second, and
 * so on. The last line says how many trials there were and how many failed. Built with a sanitizer, it also shows what
 * would stay unfreed. */
#include <stdio.h>
#include <stdlib.h>

static int before_refusal, was_refused;

static void *refusing_malloc(size_t size) {
    if (before_refusal-- == 0) {
        was_refused = 1;
        return NULL;
    }
    return malloc(size);
}

static void *refusing_realloc(void *memory, size_t size) {
    return was_refused || before_refusal == 0 ? NULL : realloc(memory, size);
}

#define malloc refusing_malloc
#define realloc refusing_realloc
#include "ans_easy.h"

static uint8_t file[ANS_LONGEST_FILE];
static size_t file_len;
static int trials, failed;

static enum ans_answer call(int which) {
    struct ans_picture picture = {0, 0, NULL, NULL};
    struct ans_fault fault;
    struct ans_row row;
    uint32_t parts;
    uint8_t *made = NULL;
    char *text = NULL;
    size_t size;
    enum ans_answer answer = ANS_PASS;
    switch (which) {
    case 0: answer = ans_check_easily(file, file_len, ANS_CLEARED, &picture, &fault); break;
    case 1: answer = ans_needs_easily(file, file_len, &parts, &fault); break;
    case 2: answer = ans_row_easily(file, file_len, &row); break;
    case 3: answer = ans_why_easily(file, file_len, &text); break;
    case 4: answer = ans_record_easily(file, file_len, &text); break;
    case 5: answer = ans_mend_easily(file, file_len, 255, 80, 0, 0, &made, &size, &text); break;
    case 6: answer = ans_redraw_easily(file, file_len, &made, &size, &text); break;
    }
    if (answer == ANS_NO_MEMORY && (made || text || picture.glyphs))
        answer = ANS_WRONG_NUMBER; /* an answer that must not come */
    ans_free_picture(&picture);
    free(made);
    free(text);
    return answer;
}

/* Refuses each request of a call in turn, until it makes no more. */
static void try_call(const char *name, int which) {
    enum ans_answer answer;
    for (int n = 0;; n++) {
        before_refusal = n;
        was_refused = 0;
        answer = call(which);
        trials++;
        if (was_refused ? answer != ANS_NO_MEMORY : answer != ANS_PASS && answer != ANS_REFUSED) {
            failed++;
            printf("%s: call %d answers %u at request %d\n", name, which, (unsigned)answer, n);
        }
        if (!was_refused)
            return;
    }
}

int main(int argc, char **argv) {
    for (int i = 1; i < argc; i++) {
        FILE *input = fopen(argv[i], "rb");
        if (!input)
            return 2;
        file_len = fread(file, 1, sizeof file, input);
        fclose(input);
        for (int which = 0; which < 7; which++)
            try_call(argv[i], which);
    }
    printf("%d trials, %d failed\n", trials, failed);
    return failed ? 1 : 0;
}
