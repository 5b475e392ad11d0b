/* ans_easy.h: the checker with memory from malloc, if you want one call. All its functions are in this file; they are
 * not proved, and only hand memory to those of ans.h, which are.
 *
 * Each answers as the call of its name in ans.h, or ANS_NO_MEMORY if malloc gave none, and never ANS_NO_ROOM. A text
 * is in UTF-8, ends in a zero byte, and is freed by free. There is one after ANS_PASS and ANS_REFUSED; otherwise it is
 * NULL.
 */
#ifndef ANS_EASY_H
#define ANS_EASY_H

#include "ans.h"
#include <stdlib.h>

/* A picture: columns times lines bytes of code page 437, and as many attributes, row by row. */
struct ans_picture {
    uint32_t columns, lines;
    uint8_t *glyphs, *attributes;
};

static inline void ans_free_picture(struct ans_picture *picture) {
    free(picture->glyphs);
    picture->glyphs = picture->attributes = NULL;
}

/* Scratch for a file from malloc, and its length. */
static inline void *ans_new_scratch(const uint8_t *file, size_t file_len, size_t *length) {
    struct ans_size size;
    struct ans_fault fault;
    *length = ans_size(file, file_len, &size, &fault) == ANS_PASS ? size.scratch : ANS_SCRATCH_ALIGNMENT;
    return malloc(*length);
}

/* Ends a text of ANS_LONGEST_TEXT + 1 bytes if it is to be kept, and frees it if not. */
static inline enum ans_answer ans_end_text(enum ans_answer answer, char **text, size_t length) {
    char *shorter = NULL;
    if (answer == ANS_PASS || answer == ANS_REFUSED) {
        (*text)[length] = '\0';
        shorter = (char *)realloc(*text, length + 1);
        if (shorter)
            *text = shorter;
        return answer;
    }
    free(*text);
    *text = NULL;
    return answer;
}

/* Checks a file as ans_check does. ANS_PASS: `picture` is set, and is freed by ans_free_picture. In every other case
 * there is nothing to free. */
static inline enum ans_answer ans_check_easily(const uint8_t *file, size_t file_len, uint32_t known,
                                               struct ans_picture *picture, struct ans_fault *fault) {
    struct ans_size size;
    enum ans_answer answer = ans_size(file, file_len, &size, fault);
    if (answer != ANS_PASS)
        return answer;
    void *scratch = malloc(size.scratch);
    uint8_t *cells = (uint8_t *)malloc(2 * size.cells);
    answer = ANS_NO_MEMORY;
    if (scratch && cells)
        answer = ans_check(file, file_len, known, scratch, size.scratch, cells, size.cells, cells + size.cells,
                           size.cells, fault);
    free(scratch);
    if (answer != ANS_PASS) {
        free(cells);
        return answer;
    }
    picture->columns = size.columns;
    picture->lines = size.lines;
    picture->glyphs = cells;
    picture->attributes = cells + size.cells;
    return ANS_PASS;
}

/* What a file relies on, as ans_needs says it. */
static inline enum ans_answer ans_needs_easily(const uint8_t *file, size_t file_len, uint32_t *parts,
                                               struct ans_fault *fault) {
    size_t scratch_len;
    void *scratch = ans_new_scratch(file, file_len, &scratch_len);
    enum ans_answer answer = ANS_NO_MEMORY;
    if (scratch)
        answer = ans_needs(file, file_len, scratch, scratch_len, parts, fault);
    free(scratch);
    return answer;
}

/* What there is to say of a file, in numbers, as ans_row says it. */
static inline enum ans_answer ans_row_easily(const uint8_t *file, size_t file_len, struct ans_row *row) {
    size_t scratch_len;
    void *scratch = ans_new_scratch(file, file_len, &scratch_len);
    enum ans_answer answer = ANS_NO_MEMORY;
    if (scratch)
        answer = ans_row(file, file_len, scratch, scratch_len, row);
    free(scratch);
    return answer;
}

/* Where and why a file is refused, or what it relies on and how to fix it, as ans_why says it. */
static inline enum ans_answer ans_why_easily(const uint8_t *file, size_t file_len, char **text) {
    size_t scratch_len, length = 0;
    void *scratch = ans_new_scratch(file, file_len, &scratch_len);
    enum ans_answer answer = ANS_NO_MEMORY;
    *text = (char *)malloc(ANS_LONGEST_TEXT + 1);
    if (scratch && *text)
        answer = ans_why(file, file_len, scratch, scratch_len, *text, ANS_LONGEST_TEXT, &length);
    free(scratch);
    return ans_end_text(answer, text, length);
}

/* What a file's record says, as ans_record gives it. */
static inline enum ans_answer ans_record_easily(const uint8_t *file, size_t file_len, char **text) {
    size_t length = 0;
    enum ans_answer answer = ANS_NO_MEMORY;
    *text = (char *)malloc(ANS_LONGEST_TEXT + 1);
    if (*text)
        answer = ans_record(file, file_len, *text, ANS_LONGEST_TEXT, &length);
    return ans_end_text(answer, text, length);
}

/* Fixes a file as ans_mend does. ANS_PASS: `mended` has `size` bytes, and is freed by free. Otherwise it is NULL. */
static inline enum ans_answer ans_mend_easily(const uint8_t *file, size_t file_len, uint32_t classes,
                                              uint32_t add_record, uint32_t columns, uint32_t lines,
                                              uint8_t **mended, size_t *size, char **text) {
    size_t room = file_len + ANS_MENDING_ROOM, length = 0;
    enum ans_answer answer = ANS_NO_MEMORY;
    *mended = NULL;
    *text = NULL;
    if (file_len > ANS_LONGEST_FILE)
        return ANS_TOO_LONG;
    if (classes & ANS_NAME_COLOURS)
        room = (9 * file_len + 8 < ANS_LONGEST_FILE ? 9 * file_len + 8 : ANS_LONGEST_FILE) + ANS_MENDING_ROOM;
    for (size_t i = 0; i < file_len; i++)
        room += file[i] == '\n';
    void *scratch = malloc(ANS_MOST_SCRATCH);
    uint8_t *draft = (uint8_t *)malloc(room);
    *mended = (uint8_t *)malloc(room);
    *text = (char *)malloc(ANS_LONGEST_TEXT + 1);
    if (scratch && draft && *mended && *text)
        answer = ans_mend(file, file_len, classes, add_record, columns, lines, scratch, ANS_MOST_SCRATCH, draft, room,
                          *mended, room, size, *text, ANS_LONGEST_TEXT, &length);
    free(scratch);
    free(draft);
    if (answer != ANS_PASS) {
        free(*mended);
        *mended = NULL;
    }
    return ans_end_text(answer, text, length);
}

/* Redraws a file as ans_redraw does, which is called twice: first for the size. ANS_PASS: `redrawn` has `size` bytes,
 * and is freed by free. Otherwise it is NULL. */
static inline enum ans_answer ans_redraw_easily(const uint8_t *file, size_t file_len, uint8_t **redrawn, size_t *size,
                                                char **text) {
    size_t scratch_len, room = 0, length = 0;
    void *scratch = ans_new_scratch(file, file_len, &scratch_len);
    enum ans_answer answer = ANS_NO_MEMORY;
    *redrawn = NULL;
    *text = (char *)malloc(ANS_LONGEST_TEXT + 1);
    if (scratch && *text)
        answer = ans_redraw(file, file_len, scratch, scratch_len, NULL, 0, size, *text, ANS_LONGEST_TEXT, &length);
    if (answer == ANS_NO_ROOM) {
        room = *size;
        *redrawn = (uint8_t *)malloc(room);
        answer = ANS_NO_MEMORY;
        if (*redrawn)
            answer = ans_redraw(file, file_len, scratch, scratch_len, *redrawn, room, size, *text, ANS_LONGEST_TEXT,
                                &length);
    }
    free(scratch);
    if (answer != ANS_PASS) {
        free(*redrawn);
        *redrawn = NULL;
    }
    return ans_end_text(answer, text, length);
}

#endif
