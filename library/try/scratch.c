/* scratch FILE..: for each file, what the calls answer on scratch of the size that ans_size gives, on less, and on
 * scratch that is aligned badly. The last line says how many trials there were and how many failed. */
#include "ans.h"
#include <stdio.h>
#include <stdlib.h>
#include <string.h>

static uint8_t file[ANS_LONGEST_FILE];
static size_t file_len;
static const char *name;
static int trials, failed;

static void want(const char *what, int holds) {
    trials++;
    if (!holds) {
        failed++;
        printf("%s: %s\n", name, what);
    }
}

/* All that the calls say of the file on one scratch. What a call does not set is 0. */
struct said {
    enum ans_answer check, needs, row_answer, why, redraw;
    uint32_t parts;
    struct ans_row row;
    struct ans_fault fault, needs_fault;
    size_t why_length, redrawn_length, size;
    uint8_t glyphs[64];
    char text[ANS_LONGEST_TEXT];
};

/* Says it on that many bytes, from `front` bytes after an address that malloc gives; the last byte ends that memory. */
static struct said *say(size_t front, size_t scratch_len, size_t cells, uint32_t known) {
    struct said *said = (struct said *)calloc(1, sizeof *said);
    uint8_t *memory = (uint8_t *)malloc(front + scratch_len + 1);
    uint8_t *scratch = scratch_len ? memory + front : NULL;
    uint8_t *glyphs = (uint8_t *)malloc(cells + 1), *attributes = (uint8_t *)malloc(cells + 1);
    if (!said || !memory || !glyphs || !attributes)
        exit(2);
    memory[front + scratch_len] = 0xA5;
    said->check =
        ans_check(file, file_len, known, scratch, scratch_len, glyphs, cells, attributes, cells, &said->fault);
    if (said->check == ANS_PASS)
        memcpy(said->glyphs, glyphs, cells < sizeof said->glyphs ? cells : sizeof said->glyphs);
    said->needs = ans_needs(file, file_len, scratch, scratch_len, &said->parts, &said->needs_fault);
    said->row_answer = ans_row(file, file_len, scratch, scratch_len, &said->row);
    said->why = ans_why(file, file_len, scratch, scratch_len, said->text, sizeof said->text, &said->why_length);
    said->redraw = ans_redraw(file, file_len, scratch, scratch_len, NULL, 0, &said->size, said->text, 0,
                              &said->redrawn_length);
    want("a byte after the scratch is written", memory[front + scratch_len] == 0xA5);
    free(memory);
    free(glyphs);
    free(attributes);
    return said;
}

/* Whether two rows have the same numbers. What is between these does not matter. */
static int is_same_row(const struct ans_row *a, const struct ans_row *b) {
    const struct ans_blame *of_a = &a->blame, *of_b = &b->blame;
    return memcmp(&a->passing, &b->passing, sizeof a->passing) == 0 && of_a->fault.number == of_b->fault.number &&
           of_a->fault.row == of_b->fault.row && of_a->fault.column == of_b->fault.column &&
           of_a->fault.offset == of_b->fault.offset && of_a->bytes.start == of_b->bytes.start &&
           of_a->bytes.length == of_b->bytes.length && memcmp(&of_a->low, &of_b->low, 2 * sizeof of_a->low) == 0 &&
           of_a->known == of_b->known && of_a->lines == of_b->lines && of_a->mends == of_b->mends &&
           a->parts.content == b->parts.content && a->parts.notes == b->parts.notes &&
           memcmp(&a->parts.comments, &b->parts.comments, sizeof a->parts.comments) == 0 &&
           memcmp(&a->fields, &b->fields, offsetof(struct ans_fields, aspect) + 4) == 0 &&
           a->fields.width == b->fields.width && a->fields.lines == b->fields.lines &&
           memcmp(&a->fields.font, &b->fields.font, 5 * sizeof a->fields.font) == 0;
}

static int is_same(const struct said *a, const struct said *b) {
    return a->check == b->check && a->needs == b->needs && a->row_answer == b->row_answer && a->why == b->why &&
           a->redraw == b->redraw && a->parts == b->parts && a->size == b->size && a->why_length == b->why_length &&
           a->fault.number == b->fault.number && a->needs_fault.offset == b->needs_fault.offset &&
           is_same_row(&a->row, &b->row) && memcmp(a->glyphs, b->glyphs, sizeof a->glyphs) == 0 &&
           memcmp(a->text, b->text, sizeof a->text) == 0;
}

static void compare(const char *what, const struct said *wanted, struct said *said) {
    want(what, is_same(wanted, said));
    free(said);
}

/* How many bytes the draft needs, whatever is asked for. */
static size_t mending_room(void) {
    size_t named = 9 * file_len + 8;
    return (named < ANS_LONGEST_FILE ? named : ANS_LONGEST_FILE) + file_len + ANS_MENDING_ROOM;
}

/* What ans_mend answers on that much scratch, and its file and its text in one. */
static enum ans_answer mend_on(size_t scratch_len, uint32_t classes, uint8_t *mended, size_t *size) {
    size_t room = mending_room(), length = 0;
    uint8_t *scratch = (uint8_t *)malloc(scratch_len), *draft = (uint8_t *)malloc(room);
    if (!scratch || !draft)
        exit(2);
    *size = 0;
    enum ans_answer answer = ans_mend(file, file_len, classes, 0, 0, 0, scratch, scratch_len, draft, room, mended, room,
                                      size, (char *)mended + room, ANS_LONGEST_TEXT, &length);
    memmove(mended + *size, mended + room, length);
    *size += length;
    free(scratch);
    free(draft);
    return answer;
}

static void try_mending(const char *what, size_t scratch_len, uint32_t classes) {
    size_t room = mending_room() + ANS_LONGEST_TEXT, size, most_size;
    uint8_t *mended = (uint8_t *)malloc(room), *with_most = (uint8_t *)malloc(room);
    if (!mended || !with_most)
        exit(2);
    enum ans_answer answer = mend_on(scratch_len, classes, mended, &size);
    enum ans_answer most = mend_on(ANS_MOST_SCRATCH, classes, with_most, &most_size);
    want(what, answer == most && size == most_size && memcmp(mended, with_most, size) == 0);
    want("ans_mend has no room on ANS_MOST_SCRATCH", most != ANS_NO_ROOM);
    free(mended);
    free(with_most);
}

static void try_too_little(const struct ans_size *size) {
    struct said *less = say(0, size->scratch - 1, size->cells, ANS_CLEARED);
    want("a call answers on a byte too few",
         less->check == ANS_NO_ROOM && less->needs == ANS_NO_ROOM && less->row_answer == ANS_NO_ROOM &&
             less->why == ANS_NO_ROOM && less->redraw == ANS_NO_ROOM && !less->why_length && !less->size);
    free(less);
    less = say(1, size->scratch + ANS_SCRATCH_ALIGNMENT - 2, size->cells, ANS_CLEARED);
    want("a call answers on a byte too few after a bad front", less->needs == ANS_NO_ROOM);
    free(less);
    less = say(0, size->scratch, size->cells - 1, ANS_CLEARED);
    want("a check answers on a cell too few", less->check == ANS_NO_ROOM && less->needs != ANS_NO_ROOM);
    free(less);
}

static void try_file(void) {
    struct ans_size size = {0, 0, 0, 0};
    struct ans_fault fault;
    enum ans_answer answer = ans_size(file, file_len, &size, &fault);
    if (answer != ANS_PASS)
        size.cells = size.scratch = 0;
    struct said *wanted = say(0, size.scratch, size.cells, ANS_CLEARED);
    want("no room on what ans_size gives", wanted->needs != ANS_NO_ROOM && wanted->row_answer == wanted->needs);
    compare("more scratch, another answer", wanted, say(0, size.scratch + 4096, size.cells, ANS_CLEARED));
    compare("other bits of known count", wanted, say(0, size.scratch, size.cells, UINT32_MAX));
    for (size_t front = 1; front < ANS_SCRATCH_ALIGNMENT; front++)
        compare("a bad front, another answer", wanted,
                say(front, size.scratch + ANS_SCRATCH_ALIGNMENT - front, size.cells, ANS_CLEARED));
    if (answer == ANS_PASS) {
        try_too_little(&size);
        try_mending("ans_mend needs more than ans_size gives", size.scratch,
                    ANS_TAKE_OUT | ANS_CRLF | ANS_JOIN_ROWS | ANS_NAME_COLOURS);
        try_mending("ans_mend needs more than all lines", 8193 * (24 + 4 * (size_t)size.columns), 255);
    } else {
        try_mending("a refused record, and ans_mend differs", ANS_MOST_SCRATCH, 255);
    }
    free(wanted);
}

/* The split of any length is within it, and has no more rows than are asked for. */
static void try_splits(void) {
    static const size_t lengths[] = {0, 1, 7, 8, 27, 28, 4119, 4120, ANS_MOST_SCRATCH, SIZE_MAX / 2};
    static uint64_t memory[2];
    for (size_t i = 0; i < sizeof lengths / sizeof *lengths; i++)
        for (size_t columns = 1; columns <= 1024; columns += 31) {
            struct ans_split split = ans_split_scratch(memory, lengths[i], columns, ANS_MOST_ROWS);
            want("a split is more than there is", split.rows_len * 24 + split.bytes_len == lengths[i]);
            want("a split has too many rows", split.rows_len <= ANS_MOST_ROWS);
            want("a split has too few bytes", split.bytes_len / (4 * columns) >= split.rows_len);
        }
    want("ANS_MOST_SCRATCH is wrong", ANS_MOST_SCRATCH == ANS_MOST_ROWS * 24 + ANS_MOST_BYTES);
}

int main(int argc, char **argv) {
    name = "no file";
    try_splits();
    for (int i = 1; i < argc; i++) {
        name = argv[i];
        FILE *input = fopen(name, "rb");
        if (!input)
            return 2;
        file_len = fread(file, 1, sizeof file, input);
        fclose(input);
        try_file();
    }
    printf("%d trials, %d failed\n", trials, failed);
    return failed ? 1 : 0;
}
