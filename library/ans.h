/* ans.h: the proved checker of ANSI art files (.ANS), for C and C++. Version 0.2.0.
 *
 * Link libans_c, which needs memcpy, memmove and memset and nothing else. No call asks for memory, keeps anything,
 * or calls back; calls share nothing, so threads may call at the same time. A call takes up to 100 KiB of stack.
 * ans_easy.h has the same calls with memory from malloc.
 *
 * What the checker promises of an answer is true if the caller keeps this:
 * - A pointer and the length after it are one array, which exists during the call, and may be read; an array that
 *   is not const may be written too. Only with the length 0 may a pointer be null.
 * - No array, structure or number that is written overlaps another argument.
 *
 * Whatever a call may write, and its answer does not say to be set, has any content afterwards. Lengths, sizes and
 * offsets are in bytes, and offsets count from the file's start. Texts are in UTF-8. No zero byte ends them, except
 * those that come as const char *.
 */
#ifndef ANS_H
#define ANS_H

#include <stddef.h>
#include <stdint.h>

#ifdef __cplusplus
extern "C" {
#endif

/* The version of this header, as a text and as a number to compare: 200 for 0.2.0. ans_copy_version gives the
 * library's. */
#define ANS_VERSION_MAJOR 0
#define ANS_VERSION_MINOR 2
#define ANS_VERSION_PATCH 0
#define ANS_VERSION "0.2.0"
#define ANS_VERSION_NUMBER (ANS_VERSION_MAJOR * 10000 + ANS_VERSION_MINOR * 100 + ANS_VERSION_PATCH)

/* The longest file that is checked, in bytes. */
#define ANS_LONGEST_FILE 16777216

/* Room for any text of ans_why, ans_record, ans_mend and ans_redraw. */
#define ANS_LONGEST_TEXT 65536

/* How scratch is best aligned, as malloc gives it. If scratch is aligned less well, up to 7 bytes at its start are
 * not used; lend that many more then. */
#define ANS_SCRATCH_ALIGNMENT 8

/* Scratch for any call and any file: for 8192 lines of 1024 columns. */
#define ANS_MOST_SCRATCH 33755160

/* How many bytes more than the file has ans_mend may need, besides what ANS_CRLF and ANS_NAME_COLOURS add. */
#define ANS_MENDING_ROOM 155

/* What a call answers. */
enum ans_answer {
    ANS_PASS = 0,
    ANS_REFUSED = 1,
    ANS_NO_MEMORY = 2,   /* only in ans_easy.h: malloc gave none */
    ANS_TOO_LONG = 3,    /* the file has more than ANS_LONGEST_FILE bytes */
    ANS_NO_ROOM = 4,     /* an array is too small */
    ANS_WRONG_NUMBER = 5 /* only from ans_mend: a number is above its largest */
};

/* The library returns a uint32_t. GCC and clang take unsigned int for an enum without negative values, which is the
 * same. */
typedef char ans_answer_is_a_uint32_t[sizeof(enum ans_answer) == sizeof(uint32_t) ? 1 : -1];

/* Parts of the start, added up. A part that is known is as on a cleared screen: blank cells, white on black; the cursor
 * and the saved cursor at the top left; the colours white on black; wrap on. */
enum {
    ANS_SCREEN = 1,
    ANS_CURSOR = 2,
    ANS_SAVED = 4,
    ANS_COLOURS = 8,
    ANS_WRAP = 16,
    ANS_CLEARED = 31
};

/* What ans_mend may change besides what it changes without being asked, added up: the flags of `anscheck mend`. */
enum {
    ANS_TAKE_OUT = 1,      /* remove refused sequences, such as screen modes, and what scrolls at the end */
    ANS_CRLF = 2,          /* turn line feeds into CR LF, if the drawing has no CR */
    ANS_JOIN_ROWS = 4,     /* remove the line ends after full rows, if each full row has one */
    ANS_LEAST_LINES = 8,   /* set the smallest number of lines that works, if the record has too few, or none */
    ANS_NAME_COLOURS = 16, /* add 37 and 40 after a 0 that something is printed in */
    ANS_MIXED = 32,        /* with ANS_CRLF or ANS_JOIN_ROWS: if only some need it */
    ANS_ICE = 64,          /* set the flag for bright backgrounds */
    ANS_RECORD = 128       /* repair the comment count, and remove an older record */
};

/* Why a file is refused: n for the fault Fn, and its offset. For F25 the row and the column of the cell, counted
 * from 1; otherwise both are 0. */
struct ans_fault {
    uint32_t number, row, column;
    size_t offset;
};

/* The size of a file's picture, its cells, columns * lines, and how many bytes of scratch a call needs for it. */
struct ans_size {
    uint32_t columns, lines;
    size_t cells, scratch;
};

/* Bytes of the file: that many, from this offset on. The length is 0 if there are none. */
struct ans_piece {
    size_t start, length;
};

/* A position on the screen, counted from 1; the row may be lines + 1. 0 and 0 if there is none. */
struct ans_place {
    size_t row, column;
};

/* For a file that passes from the cleared start; for any other all is 0. */
struct ans_passing {
    uint32_t needs;                /* the parts of the start that it relies on, as ans_needs gives them; 0: none, and
                                    * `anscheck table` says `pass`; other parts: it says `cleared` */
    uint32_t players;              /* the ways in which players differ that it runs into, ANS_PLAYERS_.., added up */
    uint32_t needs_on_all_players; /* if players is 0, or only ANS_PLAYERS_OWN_COLOURS, the parts that it relies on to
                                    * look the same on all players; with own colours, on all in named colours */
    uint32_t taller_screens;       /* 1: its picture is the same on every taller screen; 0: that was not shown */
};

/* For a file that is refused from the cleared start: its fault. For one that passes from there and needs a part of the
 * start: the fault that it has if nothing is known of the start. For one that needs nothing all is 0. */
struct ans_blame {
    struct ans_fault fault;
    struct ans_piece bytes;     /* the offending bytes; none for F1 to F8 and F25 */
    struct ans_place low, high; /* where the cursor is before the fault. Refused: twice the same, from the cleared
                                 * start. Passes: if it began at the top left, and at the bottom right, in the row
                                 * below the last line. None for F1 to F8 and F25; the cell of F25 is in the fault. */
    uint32_t known;             /* what the bytes are recognised as, ANS_KNOWN_.., or 0 */
    uint32_t lines;             /* for F5 and F19 to F21 the smallest number of lines with which it passes from the
                                 * cleared start, if there is one, or 0 */
    uint32_t mends;             /* 1 if a drawing that needs a part has room for the safe beginning, with which it
                                 * needs nothing, or 0 */
};

/* For a file whose record and layout are accepted; for any other all is 0. */
struct ans_parts {
    size_t content;            /* how many bytes of the file, from its start on, are the drawing */
    struct ans_piece comments; /* 64 bytes for each comment */
    uint32_t notes;            /* 1 << n for each note Nn, added up: 2 for N1, up to 64 for N6 */
};

/* The record in the file's last 128 bytes, accepted or not; if there is none all is 0. Texts are without trailing
 * blanks and zero bytes, and each byte is a character of code page 437. */
struct ans_fields {
    uint32_t is_there;   /* 1 */
    uint32_t flags;      /* the byte TFlags */
    uint32_t ice;        /* 1 if bit 7 of an attribute is a bright background, or 0 */
    uint32_t spacing;    /* 8 or 9, the width of a letter in pixels, or 0 if the flags do not say */
    uint32_t aspect;     /* 1 for pixels to be stretched, 2 for square ones, 0 if the flags do not say */
    size_t width, lines; /* as they are stated, except that a width of 0 is given as 80 */
    struct ans_piece font, date, title, author, group;
};

/* What `anscheck why` and `anscheck table` say of a file, in numbers. */
struct ans_row {
    struct ans_passing passing;
    struct ans_blame blame;
    struct ans_parts parts;
    struct ans_fields fields;
};

/* ---- What the library exports ----
 *
 * C and C++ call ans_size, ans_record and the three copies; the others, whose names end in _on, have calls below
 * without that ending, with one scratch instead of rows and bytes. Callers in other languages, and those who split
 * memory themselves, lend both: a screen needs lines + 1 rows, and 4 * columns * (lines + 1) bytes; ANS_MOST_ROWS
 * and ANS_MOST_BYTES are enough for every screen. With fewer a call answers ANS_NO_ROOM. */
#define ANS_MOST_ROWS 8193
#define ANS_MOST_BYTES 33558528

/* A row of a screen, in memory that is lent. Its content before and after a call does not matter. */
struct ans_screen_row {
    uint64_t held[3];
};

/* The size that a file's record states: 1 to 1024 columns and 1 to 8192 lines.
 * ANS_PASS: `size` is set. ANS_REFUSED: the record or the layout is refused, F1 to F8, and `fault` is set.
 * ANS_TOO_LONG. */
enum ans_answer ans_size(const uint8_t *file, size_t file_len, struct ans_size *size, struct ans_fault *fault);

/* The text of `anscheck sauce`: what a file's record says.
 * ANS_PASS: the record is accepted. ANS_REFUSED: it is not, and the text says why. After both `text` begins with the
 * text, and `length` says how many bytes it has. ANS_TOO_LONG, and `length` is 0. ANS_NO_ROOM: `text` has fewer bytes
 * than `length` then says. */
enum ans_answer ans_record(const uint8_t *file, size_t file_len, char *text, size_t text_len, size_t *length);

/* The library's version, and the texts of ans_fault_text and ans_note_text as the library has them. ANS_PASS: `text`
 * begins with the text, and `length` says how many bytes it has. ANS_REFUSED: there is none of this number.
 * ANS_NO_ROOM: `text` has fewer bytes than `length` then says. */
enum ans_answer ans_copy_version(char *text, size_t text_len, size_t *length);
enum ans_answer ans_copy_fault_text(uint32_t number, char *text, size_t text_len, size_t *length);
enum ans_answer ans_copy_note_text(uint32_t number, char *text, size_t text_len, size_t *length);

enum ans_answer ans_check_on(const uint8_t *file, size_t file_len, uint32_t known, struct ans_screen_row *rows,
                             size_t rows_len, uint8_t *bytes, size_t bytes_len, uint8_t *glyphs, size_t glyphs_len,
                             uint8_t *attributes, size_t attributes_len, struct ans_fault *fault);
enum ans_answer ans_needs_on(const uint8_t *file, size_t file_len, struct ans_screen_row *rows, size_t rows_len,
                             uint8_t *bytes, size_t bytes_len, uint32_t *parts, struct ans_fault *fault);
enum ans_answer ans_row_on(const uint8_t *file, size_t file_len, struct ans_screen_row *rows, size_t rows_len,
                           uint8_t *bytes, size_t bytes_len, struct ans_row *row);
enum ans_answer ans_why_on(const uint8_t *file, size_t file_len, struct ans_screen_row *rows, size_t rows_len,
                           uint8_t *bytes, size_t bytes_len, char *text, size_t text_len, size_t *length);
enum ans_answer ans_mend_on(const uint8_t *file, size_t file_len, uint32_t classes, uint32_t add_record,
                            uint32_t columns, uint32_t lines, struct ans_screen_row *rows, size_t rows_len,
                            uint8_t *bytes, size_t bytes_len, uint8_t *draft, size_t draft_len, uint8_t *mended,
                            size_t mended_len, size_t *size, char *text, size_t text_len, size_t *length);
enum ans_answer ans_redraw_on(const uint8_t *file, size_t file_len, struct ans_screen_row *rows, size_t rows_len,
                              uint8_t *bytes, size_t bytes_len, uint8_t *redrawn, size_t redrawn_len, size_t *size,
                              char *text, size_t text_len, size_t *length);

/* ---- How scratch is split ---- */

struct ans_split {
    struct ans_screen_row *rows;
    size_t rows_len;
    uint8_t *bytes;
    size_t bytes_len;
};

/* As many rows of that many columns, 1 to 1024, as there is scratch for, but no more than `most_rows`; the rest is
 * bytes. */
static inline struct ans_split ans_split_scratch(void *scratch, size_t scratch_len, size_t columns, size_t most_rows) {
    struct ans_split split = {NULL, 0, NULL, 0};
    size_t front = (ANS_SCRATCH_ALIGNMENT - (uintptr_t)scratch % ANS_SCRATCH_ALIGNMENT) % ANS_SCRATCH_ALIGNMENT;
    if (scratch_len <= front)
        return split;
    scratch_len -= front;
    split.rows = (struct ans_screen_row *)(void *)((uint8_t *)scratch + front);
    split.rows_len = scratch_len / (sizeof *split.rows + 4 * columns);
    if (split.rows_len > most_rows)
        split.rows_len = most_rows;
    split.bytes = (uint8_t *)(split.rows + split.rows_len);
    split.bytes_len = scratch_len - split.rows_len * sizeof *split.rows;
    return split;
}

/* Scratch for a file's own screen. If its record is refused no row and no byte is needed, and none is given. */
static inline struct ans_split ans_split_for(const uint8_t *file, size_t file_len, void *scratch, size_t scratch_len) {
    struct ans_size size;
    struct ans_fault fault;
    if (ans_size(file, file_len, &size, &fault) != ANS_PASS)
        return ans_split_scratch(NULL, 0, 1, 0);
    return ans_split_scratch(scratch, scratch_len, size.columns, (size_t)size.lines + 1);
}

/* ---- The calls ----
 *
 * `scratch` is memory for the length of a call: as many bytes as ans_size says, aligned to ANS_SCRATCH_ALIGNMENT. If
 * that does not answer ANS_PASS, a call needs none; NULL and 0 are enough. */

/* Checks a file from every start whose parts in `known` are known. Bits other than the five of ANS_CLEARED are
 * ignored.
 * ANS_PASS: the content shows the same picture from all of them. `glyphs` and `attributes` begin with its bytes, of
 * code page 437, and its attributes, row by row. ANS_REFUSED: `fault` is set. ANS_TOO_LONG. ANS_NO_ROOM: there is less
 * scratch than ans_size says, or fewer glyphs or attributes than it says cells. */
static inline enum ans_answer ans_check(const uint8_t *file, size_t file_len, uint32_t known, void *scratch,
                                        size_t scratch_len, uint8_t *glyphs, size_t glyphs_len, uint8_t *attributes,
                                        size_t attributes_len, struct ans_fault *fault) {
    struct ans_split split = ans_split_for(file, file_len, scratch, scratch_len);
    return ans_check_on(file, file_len, known, split.rows, split.rows_len, split.bytes, split.bytes_len, glyphs,
                        glyphs_len, attributes, attributes_len, fault);
}

/* What a file relies on.
 * ANS_PASS: it passes from the cleared start, and exactly if each part in `parts` is known. ANS_REFUSED: it does not
 * pass even from the cleared start, and `fault` is set. ANS_TOO_LONG. ANS_NO_ROOM: less scratch than ans_size says. */
static inline enum ans_answer ans_needs(const uint8_t *file, size_t file_len, void *scratch, size_t scratch_len,
                                        uint32_t *parts, struct ans_fault *fault) {
    struct ans_split split = ans_split_for(file, file_len, scratch, scratch_len);
    return ans_needs_on(file, file_len, split.rows, split.rows_len, split.bytes, split.bytes_len, parts, fault);
}

/* What `anscheck why` and `anscheck table` say of a file, in numbers, except hints, how often and where first players
 * differ, the two cells of F25, and the line `found:`.
 * ANS_PASS: it passes from the cleared start; whether from every start, row->passing.needs says. ANS_REFUSED: it does
 * not. After both `row` is set. ANS_TOO_LONG. ANS_NO_ROOM: less scratch than ans_size says. */
static inline enum ans_answer ans_row(const uint8_t *file, size_t file_len, void *scratch, size_t scratch_len,
                                      struct ans_row *row) {
    struct ans_split split = ans_split_for(file, file_len, scratch, scratch_len);
    return ans_row_on(file, file_len, split.rows, split.rows_len, split.bytes, split.bytes_len, row);
}

/* The text of `anscheck why`: where and why a file is refused, or what it relies on. The commands are not in it, in the
 * lines `fix:`, `everywhere:` and `more:`: ans_row says whether mending helps, and ans_mend and ans_redraw do it.
 * ANS_PASS, ANS_REFUSED: whether the file passes from the cleared start; `text` begins with the text, and `length`
 * says how many bytes it has. ANS_TOO_LONG, and `length` is 0. ANS_NO_ROOM: there is less scratch than ans_size says,
 * and `length` is 0; or `text` has fewer bytes than `length` then says. */
static inline enum ans_answer ans_why(const uint8_t *file, size_t file_len, void *scratch, size_t scratch_len,
                                      char *text, size_t text_len, size_t *length) {
    struct ans_split split = ans_split_for(file, file_len, scratch, scratch_len);
    return ans_why_on(file, file_len, split.rows, split.rows_len, split.bytes, split.bytes_len, text, text_len, length);
}

/* Fixes a file as `anscheck mend` does, so that it passes from every start, and gives the text of that.
 * `classes` is a sum of ANS_TAKE_OUT and those below it; other bits are ignored. `add_record` is the columns of the
 * record that is added to a file without one, 1 to 1024, or 0 for no record; `columns` those that the record is to
 * state, 1 to 1024, or 0 for no others; `lines` the number of lines that is set if the record has too few or none, 1
 * to 8192, or 0 for none. `draft` and `mended` need file_len + ANS_MENDING_ROOM bytes, with ANS_CRLF one more for each
 * line feed of the file; and with ANS_NAME_COLOURS 9 * file_len + 8 instead of file_len, or ANS_LONGEST_FILE if that is
 * less.
 * `scratch` is for the screen of the fixed file, which may have another number of lines. ANS_MOST_SCRATCH is always
 * enough. If `columns` is 0 and ans_size answers ANS_PASS for the file, 8193 * (24 + 4 * its columns) is enough; and
 * without `lines` and ANS_LEAST_LINES what it says. For any other file 4120 bytes for each line of the fixed one, and
 * for one line more, are enough.
 * ANS_PASS: `mended` begins with the fixed file, `size` says how many bytes it has, and the text says what was changed,
 * a line for each kind of change. If nothing had to be changed, the fixed file is the file, and the text is empty.
 * ANS_REFUSED: the file cannot be fixed this way, `size` is 0, and the text says why. After both `text` begins with
 * the text, and `length` says how many bytes it has. ANS_TOO_LONG. ANS_WRONG_NUMBER: the file is not too long, and
 * `add_record`, `columns` or `lines` is above its largest. ANS_NO_ROOM: `text` has fewer bytes than `length` then says,
 * and `mended` and `size` are as after ANS_PASS or ANS_REFUSED; or `length` is 0, and another array is too small. If
 * there is neither a fixed file nor a text, `size` and `length` are 0. */
static inline enum ans_answer ans_mend(const uint8_t *file, size_t file_len, uint32_t classes, uint32_t add_record,
                                       uint32_t columns, uint32_t lines, void *scratch, size_t scratch_len,
                                       uint8_t *draft, size_t draft_len, uint8_t *mended, size_t mended_len,
                                       size_t *size, char *text, size_t text_len, size_t *length) {
    struct ans_size stated;
    struct ans_fault fault;
    int is_known = columns == 0 && ans_size(file, file_len, &stated, &fault) == ANS_PASS;
    struct ans_split split = ans_split_scratch(scratch, scratch_len, is_known ? stated.columns : 1024, ANS_MOST_ROWS);
    return ans_mend_on(file, file_len, classes, add_record, columns, lines, split.rows, split.rows_len, split.bytes,
                       split.bytes_len, draft, draft_len, mended, mended_len, size, text, text_len, length);
}

/* Redraws a file as `anscheck redraw` does: writes the picture that it shows from the cleared start again from scratch,
 * in the plainest form, and gives the text of that. The redrawn file passes from every start. If `redrawn` has too few
 * bytes, `size` says how many it needs, so an empty one asks for that.
 * ANS_PASS: `redrawn` begins with the redrawn file, `size` says how many bytes it has, and the text says what was
 * changed, a line for each kind of change. ANS_REFUSED: the file does not pass from the cleared start, or the redrawn
 * one would have more than ANS_LONGEST_FILE bytes; `size` is 0, and the text says why. After both `text` begins with
 * the text, and `length` says how many bytes it has. ANS_TOO_LONG, and `size` and `length` are 0. ANS_NO_ROOM:
 * `redrawn` has fewer bytes than `size` then says, and `length` is 0; or `text` has fewer than `length` then says, and
 * `redrawn` and `size` are as after ANS_PASS or ANS_REFUSED; or there is less scratch than ans_size says, and both
 * are 0. */
static inline enum ans_answer ans_redraw(const uint8_t *file, size_t file_len, void *scratch, size_t scratch_len,
                                         uint8_t *redrawn, size_t redrawn_len, size_t *size, char *text,
                                         size_t text_len, size_t *length) {
    struct ans_split split = ans_split_for(file, file_len, scratch, scratch_len);
    return ans_redraw_on(file, file_len, split.rows, split.rows_len, split.bytes, split.bytes_len, redrawn, redrawn_len,
                         size, text, text_len, length);
}

/* ---- Constant texts ---- */

/* The tables begin. library/tables.py writes them. */
/* The ways in which players differ, added up. docs/PLAYERS.md explains each. */
enum {
    ANS_PLAYERS_WRAP_AT_ONCE = 1,
    ANS_PLAYERS_LINE_ENDS = 2,
    ANS_PLAYERS_HOME_ON_CLEAR = 4,
    ANS_PLAYERS_CLEAR_IN_COLOUR = 8,
    ANS_PLAYERS_SAVE_PLACE_ONLY = 16,
    ANS_PLAYERS_DOS_COLOURS = 32,
    ANS_PLAYERS_TAB_PRINTS = 64,
    ANS_PLAYERS_LINE_ERASED = 128,
    ANS_PLAYERS_WRAP_OFF = 256,
    ANS_PLAYERS_STOPS_AT_EDGE = 512,
    ANS_PLAYERS_PAGE_CONTROLS = 1024,
    ANS_PLAYERS_TERMINAL_CONTROLS = 2048,
    ANS_PLAYERS_OWN_COLOURS = 4096
};

/* What offending bytes are recognised as; 0 is nothing. */
enum {
    ANS_KNOWN_MUSIC = 1,
    ANS_KNOWN_FONT_SELECTION = 2,
    ANS_KNOWN_TRUE_COLOUR = 3,
    ANS_KNOWN_BRIGHT_BACKGROUNDS = 4,
    ANS_KNOWN_CURSOR_SWITCH = 5,
    ANS_KNOWN_DOS_MODE = 6,
    ANS_KNOWN_REASSIGNED_KEY = 7,
    ANS_KNOWN_UNCOUNTED_COMMENTS = 8,
    ANS_KNOWN_OLDER_RECORD = 9,
    ANS_KNOWN_ARROW = 10,
    ANS_KNOWN_TERMINAL = 11,
    ANS_KNOWN_ANOTHER_DRAWING = 12,
    ANS_KNOWN_X_BIN = 13,
    ANS_KNOWN_ZIP = 14,
    ANS_KNOWN_AVATAR = 15,
    ANS_KNOWN_BINARY_TEXT = 16,
    ANS_KNOWN_PC_BOARD = 17,
    ANS_KNOWN_PIPE = 18,
    ANS_KNOWN_WILDCAT = 19
};

/* The text of the fault Fn, such as "F21 scrolls". NULL: there is none. */
static inline const char *ans_fault_text(uint32_t number) {
    static const char *const texts[] = {
        NULL,
        "F1 no SAUCE record",
        "F2 SAUCE version is not 00",
        "F3 not Character/ANSi",
        "F4 comment block missing",
        "F5 number of lines not stated",
        "F6 width above 1024",
        "F7 lines above 8192",
        "F8 bytes after the end mark",
        "F9 broken sequence",
        "F10 number above 255",
        "F11 more than 16 parameters",
        "F12 content ends in a sequence",
        "F13 unknown sequence",
        "F14 wrong parameters",
        "F15 key reassigned",
        "F16 screen mode set",
        "F17 cursor report asked",
        NULL,
        "F19 place outside the screen",
        "F20 print below the stated lines",
        "F21 scrolls",
        "F22 print at an unknown place",
        "F23 erase at an unknown place",
        "F24 may scroll",
        "F25 cell stays unknown"
    };
    return number < sizeof texts / sizeof *texts ? texts[number] : NULL;
}

/* The text of the note Nn. NULL: there is none. */
static inline const char *ans_note_text(uint32_t number) {
    static const char *const texts[] = {
        NULL,
        "width 0 taken as 80",
        "no end mark after the content",
        "file size differs from the content",
        "date is not eight digits",
        "flag bits 5 to 7 are not zero",
        "a flag pair is 11"
    };
    return number < sizeof texts / sizeof *texts ? texts[number] : NULL;
}

/* What offending bytes are recognised as, such as "ANSI music". NULL: nothing. */
static inline const char *ans_known_text(uint32_t number) {
    static const char *const texts[] = {
        NULL,
        "ANSI music",
        "a font selection",
        "a 24-bit colour",
        "the switch for bright backgrounds",
        "the switch that hides or shows the cursor",
        "a screen mode of DOS",
        "a reassigned key",
        "comments that the record does not count",
        "an older record",
        "an arrow in the drawing",
        "a sequence of modern terminals",
        "another drawing",
        "an XBin file",
        "a ZIP archive",
        "a drawing in AVATAR codes",
        "BinaryText, pairs of a character and a colour",
        "text with PCBoard colour codes (@X1F)",
        "text with Renegade or Telegard colour codes (|07)",
        "text with Wildcat colour codes (@1F@)"
    };
    return number < sizeof texts / sizeof *texts ? texts[number] : NULL;
}

/* The name of one part of the start, such as "screen" for ANS_SCREEN. NULL: it is no part, or several. */
static inline const char *ans_part_name(uint32_t bit) {
    static const char *const texts[] = {
        "screen",
        "cursor",
        "saved",
        "colours",
        "wrap"
    };
    for (uint32_t i = 0; i < sizeof texts / sizeof *texts; i++)
        if (bit == (uint32_t)1 << i)
            return texts[i];
    return NULL;
}

/* The word for one way in which players differ, such as "wrap-at-once". NULL: it is none, or several. */
static inline const char *ans_player_word(uint32_t bit) {
    static const char *const texts[] = {
        "wrap-at-once",
        "line-ends",
        "home-on-clear",
        "clear-in-colour",
        "save-place-only",
        "dos-colours",
        "tab-prints",
        "line-erased",
        "wrap-off",
        "stops-at-edge",
        "page-controls",
        "terminal-controls",
        "own-colours"
    };
    for (uint32_t i = 0; i < sizeof texts / sizeof *texts; i++)
        if (bit == (uint32_t)1 << i)
            return texts[i];
    return NULL;
}
/* The tables end. */

#ifdef __cplusplus
}
#endif
#endif
