/* The worked base collection, asked from C. docs/LINKING.md says how to build it. */
#include <stdio.h>
#include <string.h>
#include "lampsaffron.h"

/* Owner 0, Deed 1; signs 0, holds 1. Owner <= has signs; has signs backward <= Deed; Owner(0), by deed 4711.
   The question: signs, test Deed, signs backward. */
static const uint16_t rules[] = {0, 64, 65, 1}, facts[] = {0, 0, 4711};
static const uint16_t steps[] = {0, 0, 0, 1, 1, 1, 1, 2, 0, 2, 1, 3}, finals[] = {3}, none[1];
static uint8_t area[LAMPSAFFRON_AREA], spare[LAMPSAFFRON_AREA];

/* Whether the mark (s, t, B) stands in the first area. */
static int stands(unsigned s, unsigned t, unsigned concept) {
    unsigned place = s * 4096 + t * 128 + concept;
    return area[place / 8] >> (place % 8) & 1;
}

int main(void) {
    uint32_t count;
    for (uint16_t second = 0; second < 2; second++) {
        uint8_t number = lampsaffron_ask(2, 2, 2, 4, 0, rules, 4, none, 0, none, 0, none, 0,
            facts, 3, none, 0, steps, 12, finals, 1, 0, second, 64, area, sizeof area, spare, sizeof spare, &count);
        int marks = 0;
        for (unsigned s = 0; s < 32; s++)
            for (unsigned t = 0; t < 32; t++)
                for (unsigned concept = 0; concept < 128; concept++) marks += stands(s, t, concept);
        printf("(0, %d): number %d, count %u, marks %d\n", second, number, (unsigned)count, marks);
    }
    /* What the sheet says of Owner: a path leads from an owner in state 0 back to it in state 3, and none back in state 2. */
    for (unsigned t = 2; t < 4; t++) printf("(0, %u, Owner): %s\n", t, stands(0, t, 0) ? "marked" : "not marked");
    /* The sheet as it was stored while there were at most 16 states, and that area moved to the places of today. */
    static uint8_t stored[LAMPSAFFRON_AREA_OF_16], moved[LAMPSAFFRON_AREA];
    uint8_t back = lampsaffron_area_to_16(area, sizeof area, stored, sizeof stored);
    uint8_t forth = lampsaffron_area_from_16(stored, sizeof stored, moved, sizeof moved);
    printf("the area of 16 states: number %d; moved: number %d, %s\n", back, forth, memcmp(area, moved, sizeof area) ? "another sheet" : "the same sheet");
    /* Both pairs in one call, which works the collection out once. */
    static const uint16_t pairs[] = {0, 0, 0, 1};
    uint8_t numbers[2];
    uint32_t counts[2];
    if (!lampsaffron_ask_all(2, 2, 2, 4, 0, rules, 4, none, 0, none, 0, none, 0,
            facts, 3, none, 0, steps, 12, finals, 1, pairs, 4, 64, area, sizeof area, spare, sizeof spare,
            numbers, 2, counts, 2)) return 1;
    for (int k = 0; k < 2; k++)
        printf("(%d, %d) in a row: number %d, count %u\n", pairs[2 * k], pairs[2 * k + 1], numbers[k], (unsigned)counts[k]);
    /* The first pair, and then individual 0 alone: does a path of the question lead from it to anything? */
    static const uint16_t asks[] = {0, 0, 0, 1, 0, 0};
    if (lampsaffron_ask_row(2, 2, 2, 4, 0, rules, 4, none, 0, none, 0, none, 0,
            facts, 3, none, 0, steps, 12, finals, 1, asks, 6, 64, area, sizeof area, spare, sizeof spare,
            numbers, 2, counts, 2)) return 1;
    printf("(0, 0) in a row of asks: number %d, count %u\n", numbers[0], (unsigned)counts[0]);
    printf("0 alone in a row of asks: number %d, count %u\n", numbers[1], (unsigned)counts[1]);
    /* The same question from the marks of an expression: signs, test Deed, signs backward. */
    static const uint8_t marks_typed[] = {0x00, 0x41, 0x01};
    static uint16_t made_steps[LAMPSAFFRON_STEPS], made_finals[LAMPSAFFRON_FINALS];
    uint16_t states, steps_used, finals_used;
    if (lampsaffron_expression(marks_typed, 3, made_steps, LAMPSAFFRON_STEPS, made_finals, LAMPSAFFRON_FINALS,
            &states, &steps_used, &finals_used)) return 1;
    uint8_t number = lampsaffron_ask(2, 2, 2, states, 0, rules, 4, none, 0, none, 0, none, 0,
        facts, 3, none, 0, made_steps, steps_used, made_finals, finals_used, 0, 0, 64, area, sizeof area, spare, sizeof spare, &count);
    printf("(0, 0) by an expression of %d states: number %d, count %u\n", states, number, (unsigned)count);
    /* The list of the closed sheet, four numbers an entry; and that list held against the sheet, as it is and without its last entry. */
    static uint32_t list[LAMPSAFFRON_LIST];
    uint32_t entries, entry;
    if (lampsaffron_listing(2, 2, 2, 4, 0, rules, 4, none, 0, none, 0, none, 0,
            facts, 3, none, 0, steps, 12, finals, 1, list, LAMPSAFFRON_LIST, &entries)) return 1;
    const uint32_t *last = list + 4 * (entries - 1);
    printf("the list of the sheet: %u entries, the last (%u, %u, %u, %u)\n",
        (unsigned)entries, (unsigned)last[0], (unsigned)last[1], (unsigned)last[2], (unsigned)last[3]);
    uint8_t held = lampsaffron_departs(2, 2, 2, 4, 0, rules, 4, none, 0, none, 0, none, 0,
        facts, 3, none, 0, steps, 12, finals, 1, list, 4 * entries, &entry);
    printf("the list held against the sheet: number %d\n", held);
    uint8_t cut = lampsaffron_departs(2, 2, 2, 4, 0, rules, 4, none, 0, none, 0, none, 0,
        facts, 3, none, 0, steps, 12, finals, 1, list, 4 * (entries - 1), &entry);
    printf("without its last entry: number %d, departs at entry %u\n", cut, (unsigned)entry);
    /* Facts that clash, where nobody is both Owner and Deed: Owner(0) and signs(1, 0), for whom somebody signs is a Deed. Of these
       the one that is typed first is kept; Deed(1) is kept in any order. */
    static const uint16_t apart[] = {0, 1}, names_typed[] = {0, 0, 4711, 1, 1, 0}, roles_typed[] = {0, 1, 0, 4712};
    static const uint16_t orders[2][3] = {{0, 0, 1}, {1, 0, 0}};
    for (int k = 0; k < 2; k++) {
        uint8_t kept[3];
        if (lampsaffron_salvage(2, 2, 2, 4, 0, rules, 4, apart, 2, none, 0, none, 0,
                names_typed, 6, roles_typed, 4, steps, 12, finals, 1, orders[k], 3, kept, 3)) return 1;
        for (int i = 0; i < 3; i++)
            printf("%s%s fact %s", i ? ", " : "salvage: ", orders[k][i] ? "role" : "concept", kept[i] ? "kept" : "dropped");
        puts("");
    }
    return 0;
}
