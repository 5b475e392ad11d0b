/* Plays contents on screens of libvterm, and writes what each shows.

   It is called with the columns and the rows. Standard input holds contents, one behind the other: how many bytes it
   has, four bytes, the lowest first, and the bytes, text in UTF-8. Each is played on a screen of its own. Of each it
   writes how many rows there are, four bytes, the lowest first, and their cells: first the rows that have scrolled off,
   then those of the screen. Of each cell it writes four bytes: the character, three bytes, the lowest first, and 0
   where nothing was written; and the attribute as DOS has it, white on black where a colour is the screen's own. Of the
   three bytes the highest bit is set where DOS has no such attribute, the next where the foreground is the screen's
   own, and the third where the background is. */
#include <stdint.h>
#include <stdio.h>
#include <stdlib.h>
#include <vterm.h>

static const uint8_t DOS[8] = {0, 4, 2, 6, 1, 5, 3, 7};
enum { OTHER = 0x800000, OWN_FOREGROUND = 0x400000, OWN_BACKGROUND = 0x200000 };

/* The cells that are still to be written, and how many rows they are. */
struct told { uint8_t *cells; size_t size, room; uint32_t rows; };

static unsigned colour_of(const VTermColor *colour, int is_own, unsigned own)
{
    return is_own ? own : DOS[colour->indexed.idx & 7];
}

static int is_of_dos(const VTermColor *colour, int is_own)
{
    return is_own || (VTERM_COLOR_IS_INDEXED(colour) && colour->indexed.idx < 8);
}

static void tell_cell(struct told *told, const VTermScreenCell *cell)
{
    int is_fore_own = VTERM_COLOR_IS_DEFAULT_FG(&cell->fg), is_back_own = VTERM_COLOR_IS_DEFAULT_BG(&cell->bg);
    unsigned attribute = colour_of(&cell->fg, is_fore_own, 7) | colour_of(&cell->bg, is_back_own, 0) << 4
        | (cell->attrs.bold ? 0x08 : 0) | (cell->attrs.blink ? 0x80 : 0);
    int is_other = cell->attrs.underline || cell->attrs.italic || cell->attrs.reverse || cell->attrs.strike
        || !is_of_dos(&cell->fg, is_fore_own) || !is_of_dos(&cell->bg, is_back_own);
    uint32_t character = cell->chars[0] | (is_other ? OTHER : 0) | (is_fore_own ? OWN_FOREGROUND : 0)
        | (is_back_own ? OWN_BACKGROUND : 0);
    if (told->size + 4 > told->room) {
        told->room = 2 * told->room + 65536;
        told->cells = realloc(told->cells, told->room);
        if (!told->cells)
            abort();
    }
    uint8_t bytes[4] = {character, character >> 8, character >> 16, attribute};
    for (int i = 0; i < 4; i++)
        told->cells[told->size++] = bytes[i];
}

static int tell_scrolled(int columns, const VTermScreenCell *cells, void *user)
{
    struct told *told = user;
    for (int column = 0; column < columns; column++)
        tell_cell(told, &cells[column]);
    told->rows++;
    return 1;
}

static void play(int columns, int rows, const char *content, size_t size)
{
    static const VTermScreenCallbacks callbacks = {.sb_pushline = tell_scrolled};
    struct told told = {0};
    VTerm *terminal = vterm_new(rows, columns);
    vterm_set_utf8(terminal, 1);
    VTermScreen *screen = vterm_obtain_screen(terminal);
    vterm_screen_set_callbacks(screen, &callbacks, &told);
    vterm_screen_reset(screen, 1);
    vterm_input_write(terminal, content, size);
    vterm_screen_flush_damage(screen);
    for (int row = 0; row < rows; row++, told.rows++)
        for (int column = 0; column < columns; column++) {
            VTermScreenCell cell;
            vterm_screen_get_cell(screen, (VTermPos){.row = row, .col = column}, &cell);
            tell_cell(&told, &cell);
        }
    uint8_t count[4] = {told.rows, told.rows >> 8, told.rows >> 16, told.rows >> 24};
    fwrite(count, 1, 4, stdout);
    fwrite(told.cells, 1, told.size, stdout);
    free(told.cells);
    vterm_free(terminal);
}

int main(int count, char **words)
{
    uint8_t head[4];
    while (count == 3 && fread(head, 1, 4, stdin) == 4) {
        size_t size = head[0] | head[1] << 8 | head[2] << 16 | (size_t)head[3] << 24;
        char *content = malloc(size + 1);
        if (!content || fread(content, 1, size, stdin) != size)
            return 1;
        play(atoi(words[1]), atoi(words[2]), content, size);
        free(content);
    }
    return 0;
}
