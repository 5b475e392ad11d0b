/* tell FILE: what the library says of a file, line by line. try.py compares it with the program. */
#include "ans_easy.h"
#include <stdio.h>
#include <string.h>

static uint8_t file[ANS_LONGEST_FILE + 1];

static void tell_fault(const char *before, const struct ans_fault *fault) {
    printf("%s %u %zu %u %u\n", before, fault->number, fault->offset, fault->row, fault->column);
}

static void tell_check(size_t file_len, uint32_t known) {
    struct ans_picture picture;
    struct ans_fault fault;
    enum ans_answer answer = ans_check_easily(file, file_len, known, &picture, &fault);
    printf("check %u", known);
    switch (answer) {
    case ANS_PASS:
        printf(" pass ");
        for (size_t i = 0; i < (size_t)picture.columns * picture.lines; i++)
            printf("%02x%02x", picture.glyphs[i], picture.attributes[i]);
        printf("\n");
        ans_free_picture(&picture);
        break;
    case ANS_REFUSED:
        tell_fault(" refused", &fault);
        break;
    case ANS_NO_MEMORY:
    case ANS_TOO_LONG:
    case ANS_NO_ROOM:
    case ANS_WRONG_NUMBER:
        printf(" answer %u\n", (unsigned)answer);
    }
}

static void tell_needs(size_t file_len) {
    uint32_t parts = 0;
    struct ans_fault fault;
    enum ans_answer answer = ans_needs_easily(file, file_len, &parts, &fault);
    printf("needs");
    if (answer == ANS_PASS)
        printf(" pass %u\n", parts);
    else if (answer == ANS_REFUSED)
        tell_fault(" refused", &fault);
    else
        printf(" answer %u\n", (unsigned)answer);
}

static void tell_piece(const char *name, struct ans_piece piece) {
    printf("%s %zu %zu ", name, piece.start, piece.length);
    for (size_t i = 0; i < piece.length; i++)
        printf("%02x", file[piece.start + i]);
    printf("\n");
}

static void tell_fields(const struct ans_fields *fields) {
    printf("fields %u %u %u", fields->is_there, fields->flags, fields->ice);
    printf(" %u %u %zu %zu\n", fields->spacing, fields->aspect, fields->width, fields->lines);
    tell_piece("font", fields->font);
    tell_piece("date", fields->date);
    tell_piece("title", fields->title);
    tell_piece("author", fields->author);
    tell_piece("group", fields->group);
}

static void tell_row(size_t file_len) {
    struct ans_row row;
    enum ans_answer answer = ans_row_easily(file, file_len, &row);
    printf("row %u\n", (unsigned)answer);
    if (answer != ANS_PASS && answer != ANS_REFUSED)
        return;
    const struct ans_passing *passing = &row.passing;
    const struct ans_blame *blame = &row.blame;
    printf("passing %u %u %u %u\n", passing->needs, passing->players, passing->needs_on_all_players,
           passing->taller_screens);
    tell_fault("fault", &blame->fault);
    tell_piece("bytes", blame->bytes);
    printf("low %zu %zu\nhigh %zu %zu\n", blame->low.row, blame->low.column, blame->high.row, blame->high.column);
    printf("known %u\nlines %u\nmends %u\n", blame->known, blame->lines, blame->mends);
    printf("content %zu\nnotes %u\n", row.parts.content, row.parts.notes);
    tell_piece("comments", row.parts.comments);
    tell_fields(&row.fields);
}

static void tell_text(const char *name, enum ans_answer answer, const char *text) {
    printf("%s %u %zu\n%s", name, (unsigned)answer, text ? strlen(text) : 0, text ? text : "");
}

static void tell_file(enum ans_answer answer, uint8_t *bytes, size_t size) {
    printf(" %zu\n", answer == ANS_PASS ? size : 0);
    if (answer == ANS_PASS)
        fwrite(bytes, 1, size, stdout);
    free(bytes);
}

static void tell_mend(size_t file_len, uint32_t classes, uint32_t add_record) {
    uint8_t *mended;
    size_t size = 0;
    char *text;
    enum ans_answer answer = ans_mend_easily(file, file_len, classes, add_record, 0, 0, &mended, &size, &text);
    printf("mend %u %u", classes, add_record);
    tell_file(answer, mended, size);
    tell_text("mended", answer, text);
    free(text);
}

static void tell_redraw(size_t file_len) {
    uint8_t *redrawn;
    size_t size = 0;
    char *text;
    enum ans_answer answer = ans_redraw_easily(file, file_len, &redrawn, &size, &text);
    printf("redraw");
    tell_file(answer, redrawn, size);
    tell_text("redrawn", answer, text);
    free(text);
}

static void tell_texts(size_t file_len) {
    char *text;
    enum ans_answer answer = ans_why_easily(file, file_len, &text);
    tell_text("why", answer, text);
    free(text);
    answer = ans_record_easily(file, file_len, &text);
    tell_text("record", answer, text);
    free(text);
}

int main(int argc, char **argv) {
    char version[16];
    size_t length = 0;
    FILE *input = argc == 2 ? fopen(argv[1], "rb") : NULL;
    if (!input) {
        fprintf(stderr, "usage: tell FILE\n");
        return 2;
    }
    size_t file_len = fread(file, 1, sizeof file, input);
    fclose(input);
    enum ans_answer answer = ans_copy_version(version, sizeof version, &length);
    printf("version %u %.*s\n", (unsigned)answer, (int)length, version);
    tell_check(file_len, 0);
    tell_check(file_len, ANS_SCREEN | ANS_CURSOR);
    tell_check(file_len, ANS_CLEARED);
    tell_needs(file_len);
    tell_row(file_len);
    tell_texts(file_len);
    tell_mend(file_len, 0, 0);
    tell_mend(file_len,
              ANS_TAKE_OUT | ANS_CRLF | ANS_JOIN_ROWS | ANS_LEAST_LINES | ANS_NAME_COLOURS | ANS_MIXED | ANS_ICE |
                  ANS_RECORD,
              80);
    tell_redraw(file_len);
    return 0;
}
