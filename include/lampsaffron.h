/* The library's calls for C: one pair of individuals asked of a collection, one individual, a row of pairs, or a row of both; how many marks each round of its loop sheet
   makes; the tables of a question from an expression; two collections compared; the list of a closed sheet, and where another list departs from it; which facts salvage
   keeps; and a stored area of 16 states moved to the places of today, and back. docs/RULES.md, section 10, says what each takes and gives, and docs/LINKING.md how to link it. */
#ifndef LAMPSAFFRON_H
#define LAMPSAFFRON_H

#include <stdbool.h>
#include <stddef.h>
#include <stdint.h>

/* The bytes of each of the two areas. The mark (s, t, B) has place p = s * 4096 + t * 128 + B, and stands at bit p % 8, counted from the
   least, of byte p / 8. */
#define LAMPSAFFRON_AREA 16384

/* The bytes of an area that was stored while there were at most 16 states. The mark (s, t, B) has place p = s * 2048 + t * 128 + B there. */
#define LAMPSAFFRON_AREA_OF_16 4096

/* The most pairs of one row, and the most asks of one row. */
#define LAMPSAFFRON_PAIRS 256
#define LAMPSAFFRON_ASKS 256

/* The numbers of the most steps and of the most final states. */
#define LAMPSAFFRON_STEPS 4096
#define LAMPSAFFRON_FINALS 32

/* The numbers of the longest list of a sheet: four for each of 131,072 entries. */
#define LAMPSAFFRON_LIST 524288

/* The numbers of answers; 7 is never given. */
enum lampsaffron_number {
    LAMPSAFFRON_NO = 0,
    LAMPSAFFRON_YES = 1,
    LAMPSAFFRON_CONTRADICTION = 2,
    LAMPSAFFRON_ALLOWANCE_SPENT = 3,
    LAMPSAFFRON_BAD_COUNT = 4,
    LAMPSAFFRON_BAD_TABLE = 5,
    LAMPSAFFRON_BAD_NUMBER = 6,
    LAMPSAFFRON_BAD_ASK = 8,
    LAMPSAFFRON_NO_EXPRESSION = 12,
    LAMPSAFFRON_TOO_DEEP = 13,
    LAMPSAFFRON_ANOTHER_SHAPE = 14
};

/* Each table is a pointer to its 16-bit numbers, record after record, and how many numbers there are (not how many records).
   A rule and an exclusion have 2 numbers: left, right; a concept fact 3: name, individual, deed number; a role fact 4: role name, first, second,
   deed number; a step 4: kind, state, signed role or name, state; a final 1. A deed number is 0 where none is noted; each is allowed, and nothing
   that comes back depends on it but from lampsaffron_same_records.
   A pointer must not be null, even where its count is 0; no area may overlap anything else that is passed.
   Returns the number; *count gets its count. After 0, 1 and 3 the first area holds the sheet and the second zeros;
   after all else both are as they came. Every value of every number is answered. */
uint8_t lampsaffron_ask(
    uint16_t names, uint16_t roles, uint16_t individuals, uint16_t states, uint16_t start,
    const uint16_t *concept_rules, size_t concept_rules_len,
    const uint16_t *concept_exclusions, size_t concept_exclusions_len,
    const uint16_t *role_rules, size_t role_rules_len,
    const uint16_t *role_exclusions, size_t role_exclusions_len,
    const uint16_t *concept_facts, size_t concept_facts_len,
    const uint16_t *role_facts, size_t role_facts_len,
    const uint16_t *steps, size_t steps_len,
    const uint16_t *finals, size_t finals_len,
    uint16_t first, uint16_t second, uint32_t allowance,
    uint8_t *area, size_t area_len,
    uint8_t *spare, size_t spare_len,
    uint32_t *count);

/* The question with one named end: does a path of the question lead from this individual to any element at all, named or not? All else is as
   for lampsaffron_ask. */
uint8_t lampsaffron_ask_from(
    uint16_t names, uint16_t roles, uint16_t individuals, uint16_t states, uint16_t start,
    const uint16_t *concept_rules, size_t concept_rules_len,
    const uint16_t *concept_exclusions, size_t concept_exclusions_len,
    const uint16_t *role_rules, size_t role_rules_len,
    const uint16_t *role_exclusions, size_t role_exclusions_len,
    const uint16_t *concept_facts, size_t concept_facts_len,
    const uint16_t *role_facts, size_t role_facts_len,
    const uint16_t *steps, size_t steps_len,
    const uint16_t *finals, size_t finals_len,
    uint16_t first, uint32_t allowance,
    uint8_t *area, size_t area_len,
    uint8_t *spare, size_t spare_len,
    uint32_t *count);

/* A row of pairs asked of one collection: what lampsaffron_ask of each does, one after the other, with the same two areas. The collection is
   worked out once, and nothing is kept between calls. pairs has two numbers for each pair, the first individual and the second; the number of
   pair k goes to numbers[k] and its count to counts[k], and both areas are as after the last pair.
   The lengths fit where pairs_len is even and at most 2 * LAMPSAFFRON_PAIRS, and numbers_len and counts_len are each half of it.
   Returns true where they fit; else false, and then nothing is written. */
bool lampsaffron_ask_all(
    uint16_t names, uint16_t roles, uint16_t individuals, uint16_t states, uint16_t start,
    const uint16_t *concept_rules, size_t concept_rules_len,
    const uint16_t *concept_exclusions, size_t concept_exclusions_len,
    const uint16_t *role_rules, size_t role_rules_len,
    const uint16_t *role_exclusions, size_t role_exclusions_len,
    const uint16_t *concept_facts, size_t concept_facts_len,
    const uint16_t *role_facts, size_t role_facts_len,
    const uint16_t *steps, size_t steps_len,
    const uint16_t *finals, size_t finals_len,
    const uint16_t *pairs, size_t pairs_len,
    uint32_t allowance,
    uint8_t *area, size_t area_len,
    uint8_t *spare, size_t spare_len,
    uint8_t *numbers, size_t numbers_len,
    uint32_t *counts, size_t counts_len);

/* A row of asks of one collection, of pairs and of individuals: what lampsaffron_ask and lampsaffron_ask_from of each do, one after the other,
   with the same two areas; the collection is worked out once. asks has three numbers for each ask: its kind, 0 for a pair or 1 for one
   individual, then the first individual and the second, which is not read where the kind is 1; the number of ask k goes to numbers[k] and its
   count to counts[k], and both areas are as after the last ask.
   The lengths fit where asks_len is three times a number that is at most LAMPSAFFRON_ASKS, and numbers_len and counts_len are each that number.
   Returns 0 where all were asked; 5, the lengths do not fit; 6, they fit, and some kind is above 1. After 5 and 6 nothing is written. */
uint8_t lampsaffron_ask_row(
    uint16_t names, uint16_t roles, uint16_t individuals, uint16_t states, uint16_t start,
    const uint16_t *concept_rules, size_t concept_rules_len,
    const uint16_t *concept_exclusions, size_t concept_exclusions_len,
    const uint16_t *role_rules, size_t role_rules_len,
    const uint16_t *role_exclusions, size_t role_exclusions_len,
    const uint16_t *concept_facts, size_t concept_facts_len,
    const uint16_t *role_facts, size_t role_facts_len,
    const uint16_t *steps, size_t steps_len,
    const uint16_t *finals, size_t finals_len,
    const uint16_t *asks, size_t asks_len,
    uint32_t allowance,
    uint8_t *area, size_t area_len,
    uint8_t *spare, size_t spare_len,
    uint8_t *numbers, size_t numbers_len,
    uint32_t *counts, size_t counts_len);

/* How many marks each round of a collection's loop sheet makes: the counts, tables, allowance and areas of lampsaffron_ask, but no pair.
   marks is a row with a place for each round that is allowed, and more are left alone. Returns 4, 5 or 6 as the tests do, and 5 as well where
   marks_len is below the allowance, which is tested first of what is 5; 2, a contradiction; 3, the allowance is below the rounds needed; else 0.
   After 0 and 3 *rounds gets how many rounds were made, the smaller of those needed and those allowed, and marks[k] how many marks round k + 1
   added; these and states * (names + 2 * roles) are together the marks that stand in the first area, and the second area holds zeros.
   After all else nothing is written. */
uint8_t lampsaffron_marks(
    uint16_t names, uint16_t roles, uint16_t individuals, uint16_t states, uint16_t start,
    const uint16_t *concept_rules, size_t concept_rules_len,
    const uint16_t *concept_exclusions, size_t concept_exclusions_len,
    const uint16_t *role_rules, size_t role_rules_len,
    const uint16_t *role_exclusions, size_t role_exclusions_len,
    const uint16_t *concept_facts, size_t concept_facts_len,
    const uint16_t *role_facts, size_t role_facts_len,
    const uint16_t *steps, size_t steps_len,
    const uint16_t *finals, size_t finals_len,
    uint32_t allowance,
    uint8_t *area, size_t area_len,
    uint8_t *spare, size_t spare_len,
    uint32_t *marks, size_t marks_len,
    uint32_t *rounds);

/* The tables of steps and final states of a question typed as an expression, from its byte marks. Where the number is 0 they stand at the
   front of both rows, *steps_used and *finals_used get how many numbers each has, and *states how many states to declare; the start state is 0.
   Else nothing is written: 5, steps_len is below LAMPSAFFRON_STEPS or finals_len below LAMPSAFFRON_FINALS; 13, brackets too deep; 12, no
   expression; 14, more role and test marks than 31. What the marks read is not tested here: the call that asks does so. */
uint8_t lampsaffron_expression(
    const uint8_t *marks, size_t marks_len,
    uint16_t *steps, size_t steps_len,
    uint16_t *finals, size_t finals_len,
    uint16_t *states, uint16_t *steps_used, uint16_t *finals_used);

/* Whether two collections are the same as sets: both declare the same, and each table of both holds the same records, in whatever order and however
   often. Deed numbers count here, as they do nowhere else: two facts that differ only there are two records. Each collection is five counts and eight
   tables, as for lampsaffron_ask; neither has an allowance or an area.
   Returns 4, 5 or 6 where a test refuses the first collection, or else the second; else 1 where they are the same, and 0 where they are not.
   Nothing is written. */
uint8_t lampsaffron_same_records(
    uint16_t names, uint16_t roles, uint16_t individuals, uint16_t states, uint16_t start,
    const uint16_t *concept_rules, size_t concept_rules_len,
    const uint16_t *concept_exclusions, size_t concept_exclusions_len,
    const uint16_t *role_rules, size_t role_rules_len,
    const uint16_t *role_exclusions, size_t role_exclusions_len,
    const uint16_t *concept_facts, size_t concept_facts_len,
    const uint16_t *role_facts, size_t role_facts_len,
    const uint16_t *steps, size_t steps_len,
    const uint16_t *finals, size_t finals_len,
    uint16_t other_names, uint16_t other_roles, uint16_t other_individuals, uint16_t other_states, uint16_t other_start,
    const uint16_t *other_concept_rules, size_t other_concept_rules_len,
    const uint16_t *other_concept_exclusions, size_t other_concept_exclusions_len,
    const uint16_t *other_role_rules, size_t other_role_rules_len,
    const uint16_t *other_role_exclusions, size_t other_role_exclusions_len,
    const uint16_t *other_concept_facts, size_t other_concept_facts_len,
    const uint16_t *other_role_facts, size_t other_role_facts_len,
    const uint16_t *other_steps, size_t other_steps_len,
    const uint16_t *other_finals, size_t other_finals_len);

/* The list of the closed sheet of a collection: every mark once, with the round in which it first stands, sorted by the round, then by both states,
   then by the concept. The collection is five counts and eight tables, as for lampsaffron_ask, without an allowance and without areas. An entry has four
   numbers in list: the round, the state from which the mark leads, the state to which it leads, and its concept.
   Returns 4, 5 or 6 as the tests do, and 5 as well where list_len is below LAMPSAFFRON_LIST; 2, a contradiction, which has no sheet; else 0.
   After 0 the entries stand at the front of list, *entries gets how many they are, and the rest of list is as it was. After all else nothing is written. */
uint8_t lampsaffron_listing(
    uint16_t names, uint16_t roles, uint16_t individuals, uint16_t states, uint16_t start,
    const uint16_t *concept_rules, size_t concept_rules_len,
    const uint16_t *concept_exclusions, size_t concept_exclusions_len,
    const uint16_t *role_rules, size_t role_rules_len,
    const uint16_t *role_exclusions, size_t role_exclusions_len,
    const uint16_t *concept_facts, size_t concept_facts_len,
    const uint16_t *role_facts, size_t role_facts_len,
    const uint16_t *steps, size_t steps_len,
    const uint16_t *finals, size_t finals_len,
    uint32_t *list, size_t list_len,
    uint32_t *entries);

/* Where a list that another office sent departs from that of the collection's closed sheet. The collection is lent as for lampsaffron_listing, and the list
   has four numbers an entry, as that call gives them.
   Returns 4, 5 or 6 as the tests do, 5 as well where list_len is no multiple of four or above LAMPSAFFRON_LIST, and 6 as well where a state or the concept
   of an entry is not declared; 2, a contradiction, and then the list is not held against anything; 15, the list is not that of the sheet; else 0.
   After 15 *entry gets the first entry that departs, counted from 0, and where the list only ends too soon how many entries it has. After all else
   nothing is written. */
uint8_t lampsaffron_departs(
    uint16_t names, uint16_t roles, uint16_t individuals, uint16_t states, uint16_t start,
    const uint16_t *concept_rules, size_t concept_rules_len,
    const uint16_t *concept_exclusions, size_t concept_exclusions_len,
    const uint16_t *role_rules, size_t role_rules_len,
    const uint16_t *role_exclusions, size_t role_exclusions_len,
    const uint16_t *concept_facts, size_t concept_facts_len,
    const uint16_t *role_facts, size_t role_facts_len,
    const uint16_t *steps, size_t steps_len,
    const uint16_t *finals, size_t finals_len,
    const uint32_t *list, size_t list_len,
    uint32_t *entry);

/* Which facts of a collection salvage keeps. They are taken in the order typed, concept facts and role facts together, and each is kept unless, with those kept before it and all
   rules and exclusions, it makes a contradiction; else it is dropped. The collection is lent as for lampsaffron_listing. order has a number for each fact in the order typed, 0 for a
   concept fact and 1 for a role fact; those of one kind come in the order of their table. kept is a row of bytes with a place for each fact, and more are left alone.
   Returns 4, 5 or 6 as the tests do, and 5 as well where order has not as many 0s as there are concept facts, as many 1s as there are role facts and nothing else, or where kept_len
   is below order_len; else 0. 2 is not given: the kept facts make no contradiction. After 0 kept[k] is 1 where fact k of the order is kept, and 0 where it is dropped.
   After all else nothing is written. */
uint8_t lampsaffron_salvage(
    uint16_t names, uint16_t roles, uint16_t individuals, uint16_t states, uint16_t start,
    const uint16_t *concept_rules, size_t concept_rules_len,
    const uint16_t *concept_exclusions, size_t concept_exclusions_len,
    const uint16_t *role_rules, size_t role_rules_len,
    const uint16_t *role_exclusions, size_t role_exclusions_len,
    const uint16_t *concept_facts, size_t concept_facts_len,
    const uint16_t *role_facts, size_t role_facts_len,
    const uint16_t *steps, size_t steps_len,
    const uint16_t *finals, size_t finals_len,
    const uint16_t *order, size_t order_len,
    uint8_t *kept, size_t kept_len);

/* An area that was stored while there were at most 16 states, moved to the places of today. After 0 area has 1 at the place of each mark that stands in stored, and 0
   everywhere else: it is the area of the same collection's sheet after the same round.
   Returns 5 where stored_len is not LAMPSAFFRON_AREA_OF_16 or area_len not LAMPSAFFRON_AREA, and then nothing is written; else 0. The two areas may not overlap. */
uint8_t lampsaffron_area_from_16(
    const uint8_t *stored, size_t stored_len,
    uint8_t *area, size_t area_len);

/* And moved back: after 0 stored has 1 at the place of each mark that stands in area, and 0 everywhere else. A stored area that is moved and moved back is as it was.
   Returns 5 as above; else 6 where a state above 15 is marked; else 0. After 5 and 6 nothing is written. */
uint8_t lampsaffron_area_to_16(
    const uint8_t *area, size_t area_len,
    uint8_t *stored, size_t stored_len);

#endif
