/* texts: the version and each constant text of ans.h, a line for each. ../try.py says which are wanted. */
#include "ans.h"
#include <stdio.h>

static void tell(const char *name, uint32_t number, const char *text) {
    if (text)
        printf("%s %u %s\n", name, number, text);
}

static void tell_number(uint32_t number) {
    tell("fault", number, ans_fault_text(number));
    tell("note", number, ans_note_text(number));
    tell("known", number, ans_known_text(number));
    tell("part", number, ans_part_name(number));
    tell("player", number, ans_player_word(number));
}

int main(void) {
    printf("version %s %d.%d.%d\n", ANS_VERSION, ANS_VERSION_MAJOR, ANS_VERSION_MINOR, ANS_VERSION_PATCH);
    for (uint32_t number = 0; number <= 8192; number++)
        tell_number(number);
    for (uint32_t bit = 14; bit < 32; bit++)
        tell_number((uint32_t)1 << bit);
    tell_number(UINT32_MAX);
    return ANS_VERSION_NUMBER >= 200 && ANS_VERSION_NUMBER < 10000 ? 0 : 1;
}
