/* A stand-in for the checker's module, behind the exports that the page calls. A file that begins with "never ends" or
 * "traps" does so, and each other one has no record. Pointers and lengths are 64-bit numbers, as the module's are. */
#include <stdint.h>

enum { REFUSED = 1, WORDS_OF_A_ROW = 64, FAULT_IN_A_ROW = 4 };

static int begins(const char *file, uint64_t file_len, const char *word) {
    uint64_t i = 0;
    while (word[i] && i < file_len && file[i] == word[i]) i++;
    return !word[i];
}

static void meet(uint64_t file, uint64_t file_len) {
    const char *text = (const char *)(uintptr_t)file;
    for (volatile int never = begins(text, file_len, "never ends"); never;) {}
    if (begins(text, file_len, "traps")) __builtin_trap();
}

static uint32_t write(const char *from, uint64_t text, uint64_t length, uint32_t answer) {
    uint64_t n = 0;
    for (; from[n]; n++) ((char *)(uintptr_t)text)[n] = from[n];
    *(uint64_t *)(uintptr_t)length = n;
    return answer;
}

uint32_t ans_size(uint64_t file, uint64_t file_len, uint64_t size, uint64_t fault) {
    uint32_t *words = (uint32_t *)(uintptr_t)fault;
    meet(file, file_len);
    words[0] = 1;
    words[1] = words[2] = words[4] = words[5] = 0;
    return REFUSED;
}

uint32_t ans_row_on(uint64_t file, uint64_t file_len, uint64_t rows, uint64_t rows_len, uint64_t bytes,
                    uint64_t bytes_len, uint64_t row) {
    uint32_t *words = (uint32_t *)(uintptr_t)row;
    for (int i = 0; i < WORDS_OF_A_ROW; i++) words[i] = i == FAULT_IN_A_ROW;
    return REFUSED;
}

uint32_t ans_why_on(uint64_t file, uint64_t file_len, uint64_t rows, uint64_t rows_len, uint64_t bytes,
                    uint64_t bytes_len, uint64_t text, uint64_t text_len, uint64_t length) {
    return write("verdict: refused\nfault: at 0, F1 no SAUCE record\n", text, length, REFUSED);
}

uint32_t ans_record(uint64_t file, uint64_t file_len, uint64_t text, uint64_t text_len, uint64_t length) {
    return write("verdict: refused\nat 0: F1 no SAUCE record\n", text, length, REFUSED);
}

uint32_t ans_mend_on(uint64_t file, uint64_t file_len, uint32_t classes, uint32_t add_record, uint32_t columns,
                     uint32_t lines, uint64_t rows, uint64_t rows_len, uint64_t bytes, uint64_t bytes_len,
                     uint64_t draft, uint64_t draft_len, uint64_t mended, uint64_t mended_len, uint64_t size,
                     uint64_t text, uint64_t text_len, uint64_t length) {
    *(uint64_t *)(uintptr_t)size = 0;
    return write("at 0: F1 no SAUCE record\n", text, length, REFUSED);
}

uint32_t ans_copy_fault_text(uint32_t number, uint64_t text, uint64_t text_len, uint64_t length) {
    return write("F1 no SAUCE record", text, length, 0);
}

uint32_t ans_copy_version(uint64_t text, uint64_t text_len, uint64_t length) {
    return write("stand-in", text, length, 0);
}
