/* The library driver of PROTOCOL.md: reads a call per line, asks lampsaffron_ask, lampsaffron_ask_from, lampsaffron_ask_all,
   lampsaffron_ask_row, lampsaffron_marks, lampsaffron_expression, lampsaffron_area_from_16, lampsaffron_area_to_16,
   lampsaffron_same_records, lampsaffron_listing, lampsaffron_departs or lampsaffron_salvage, writes what they gave and hashes.
   No stdio and no heap: only read and write, declared by hand, and static buffers. */
#include "lampsaffron.h"

extern long read(int from, void *bytes, size_t most);
extern long write(int to, const void *bytes, size_t length);

enum { TABLES = 8, MOST_NUMBERS = 65535, MOST_AREA = 131072, MOST_ENTRIES = 1024, MOST_ROOM = 131072, MOST_MADE = 8192, MOST_LIST = 525312, MOST_KEPT = 8192, GUARD = 64 };

/* The tables, those of a second collection, and after them the pairs or the asks of a row, or the order of facts. */
enum { OTHER = TABLES, ASKED = 2 * TABLES };
static uint16_t tables[ASKED + 1][MOST_NUMBERS + 1];
static size_t lengths[ASKED + 1];
static uint8_t areas[2][MOST_AREA + GUARD];

/* The entries of a row, and GUARD bytes behind each. */
static uint8_t row_numbers[MOST_ENTRIES + GUARD];
static uint32_t row_counts[MOST_ENTRIES + GUARD / 4];

/* A row of how many marks each round makes, and GUARD bytes behind it. */
static uint32_t round_marks[MOST_ROOM + GUARD / 4];

/* A row that a list is put into, with GUARD bytes behind it, or a list that is held against a sheet. */
static uint32_t list[MOST_LIST + GUARD / 4];

/* A row for the marks of facts, and GUARD bytes behind it. */
static uint8_t kept[MOST_KEPT + GUARD];

/* A row of marks, and the rows for the steps and finals that are made of it, with GUARD bytes behind each. */
static uint8_t marks[MOST_NUMBERS];
static size_t marks_length;
static uint16_t made[2][MOST_MADE + GUARD / 2];

/* The letters that a request of another kind than a pair begins with; none is a digit. */
enum { ROW = 'R', MIXED = 'Q', ONE = 'L', ROUNDS = 'N', EXPRESSION = 'M', FROM_16 = 'S', TO_16 = 'T', TWICE = 'P', LISTED = 'U', DEPARTS = 'V', SALVAGE = 'W' };

/* What a request says beside the tables and marks; one individual stands first in the pair. */
struct request {
    int kind;
    uint16_t counts[5], other_counts[5], pair[2];
    uint32_t allowance;
    size_t sizes[2], entries[2], room;
    uint8_t fills[2], fill;
};

static uint8_t input[65536];
static size_t input_at, input_end;

/* Once a line turns out not to be a request, the rest of it is only read over. */
static int bad;

/* The next character, or -1 at the end of the input. */
static int next_character(void) {
    if (input_at == input_end) {
        long got = read(0, input, sizeof input);
        if (got <= 0) return -1;
        input_at = 0;
        input_end = (size_t)got;
    }
    return input[input_at++];
}

/* Gives a character back, so that the end of a line is seen by whoever looks for it. */
static void step_back(void) {
    input_at--;
}

static int digit(int character) {
    if (character >= '0' && character <= '9') return character - '0';
    if (character >= 'A' && character <= 'F') return character - 'A' + 10;
    return -1;
}

static uint32_t number(int digits) {
    uint32_t value = 0;
    while (digits-- > 0 && !bad) {
        int character = next_character();
        int one = digit(character);
        if (one < 0) {
            bad = 1;
            if (character == '\n') step_back();
            return 0;
        }
        value = value * 16 + (uint32_t)one;
    }
    return value;
}

/* Reads to the end of the line; anything left there makes the line no request. */
static void end_of_line(void) {
    for (;;) {
        int character = next_character();
        if (character == '\n' || character < 0) return;
        bad = 1;
    }
}

static void fill(uint8_t *bytes, size_t length, uint8_t with) {
    while (length-- > 0) *bytes++ = with;
}

static const uint64_t hash_begin = UINT64_C(0xCBF29CE484222325);

static uint64_t mix(uint64_t mixed, uint8_t byte) {
    return (mixed ^ byte) * UINT64_C(0x00000100000001B3);
}

static uint64_t hash(const uint8_t *bytes, size_t length) {
    uint64_t mixed = hash_begin;
    while (length-- > 0) mixed = mix(mixed, *bytes++);
    return mixed;
}

/* Each number as two bytes, the low one first, whatever the machine's order is. */
static uint64_t hash_numbers(const uint16_t *numbers, size_t length) {
    uint64_t mixed = hash_begin;
    for (; length-- > 0; numbers++) mixed = mix(mix(mixed, (uint8_t)*numbers), (uint8_t)(*numbers >> 8));
    return mixed;
}

/* Each count as four bytes, likewise. */
static uint64_t hash_counts(const uint32_t *counts, size_t length) {
    uint64_t mixed = hash_begin;
    for (; length-- > 0; counts++)
        for (int shift = 0; shift < 32; shift += 8) mixed = mix(mixed, (uint8_t)(*counts >> shift));
    return mixed;
}

/* Something lent, and the bytes behind it, which are filled with the complement. */
static void fill_lent(void *bytes, size_t length, uint8_t with) {
    fill(bytes, length, with);
    fill((uint8_t *)bytes + length, GUARD, (uint8_t)~with);
}

static uint8_t output[16 * MOST_ENTRIES];
static size_t output_end;

static void put(uint64_t value, int digits) {
    while (digits-- > 0) output[output_end++] = (uint8_t)"0123456789ABCDEF"[value >> (4 * digits) & 15];
}

static void send_line(void) {
    size_t sent = 0;
    output[output_end++] = '\n';
    while (sent < output_end) {
        long put_out = write(1, output + sent, output_end - sent);
        if (put_out <= 0) return;
        sent += (size_t)put_out;
    }
}

/* A collection: its counts, and its tables from this one on. */
#define COLLECTION(counts, at) \
    (counts)[0], (counts)[1], (counts)[2], (counts)[3], (counts)[4], \
    tables[at], lengths[at], tables[(at) + 1], lengths[(at) + 1], tables[(at) + 2], lengths[(at) + 2], \
    tables[(at) + 3], lengths[(at) + 3], tables[(at) + 4], lengths[(at) + 4], tables[(at) + 5], lengths[(at) + 5], \
    tables[(at) + 6], lengths[(at) + 6], tables[(at) + 7], lengths[(at) + 7]

/* What the calls that ask have in common. */
#define LENT(asked) COLLECTION((asked)->counts, 0)

/* What stands before a call where a count is to be told. */
#define UNCOUNTED UINT32_C(0xFFFFFFFF)

/* A row of pairs, or of both kinds of ask. */
static int asks_row(int kind) {
    return kind == ROW || kind == MIXED;
}

static void answer_pair(const struct request *asked) {
    uint32_t count = UNCOUNTED;
    uint8_t given = lampsaffron_ask(
        LENT(asked), asked->pair[0], asked->pair[1], asked->allowance,
        areas[0], asked->sizes[0], areas[1], asked->sizes[1], &count);
    put(given, 2);
    put(count, 8);
}

static void answer_one(const struct request *asked) {
    uint32_t count = UNCOUNTED;
    uint8_t given = lampsaffron_ask_from(
        LENT(asked), asked->pair[0], asked->allowance,
        areas[0], asked->sizes[0], areas[1], asked->sizes[1], &count);
    put(given, 2);
    put(count, 8);
}

static void answer_row(const struct request *asked) {
    size_t numbers = asked->entries[0], counts = asked->entries[1];
    fill_lent(row_numbers, numbers, asked->fill);
    fill_lent(row_counts, sizeof *row_counts * counts, asked->fill);
    uint8_t given = asked->kind == MIXED
        ? lampsaffron_ask_row(
            LENT(asked), tables[ASKED], lengths[ASKED], asked->allowance,
            areas[0], asked->sizes[0], areas[1], asked->sizes[1], row_numbers, numbers, row_counts, counts)
        : lampsaffron_ask_all(
            LENT(asked), tables[ASKED], lengths[ASKED], asked->allowance,
            areas[0], asked->sizes[0], areas[1], asked->sizes[1], row_numbers, numbers, row_counts, counts);
    put(given, 2);
    for (size_t i = 0; i < numbers; i++) put(row_numbers[i], 2);
    put(hash(row_numbers + numbers, GUARD), 16);
    for (size_t i = 0; i < counts; i++) put(row_counts[i], 8);
    put(hash((const uint8_t *)(row_counts + counts), GUARD), 16);
}

static void answer_rounds(const struct request *asked) {
    uint32_t rounds = UNCOUNTED;
    fill_lent(round_marks, sizeof *round_marks * asked->room, asked->fill);
    uint8_t given = lampsaffron_marks(
        LENT(asked), asked->allowance,
        areas[0], asked->sizes[0], areas[1], asked->sizes[1], round_marks, asked->room, &rounds);
    put(given, 2);
    put(rounds, 8);
    put(hash_counts(round_marks, asked->room), 16);
    put(hash((const uint8_t *)(round_marks + asked->room), GUARD), 16);
}

static void answer_expression(const struct request *asked) {
    const size_t *lent = asked->entries;
    uint16_t told[3] = {0xFFFF, 0xFFFF, 0xFFFF};
    for (int i = 0; i < 2; i++) fill_lent(made[i], 2 * lent[i], asked->fill);
    put(lampsaffron_expression(marks, marks_length, made[0], lent[0], made[1], lent[1], &told[0], &told[1], &told[2]), 2);
    for (int i = 0; i < 3; i++) put(told[i], 4);
    for (int i = 0; i < 2; i++) put(hash_numbers(made[i], lent[i]), 16);
    for (int i = 0; i < 2; i++) put(hash((const uint8_t *)(made[i] + lent[i]), GUARD), 16);
}

static void answer_with_areas(const struct request *asked) {
    for (int i = 0; i < 2; i++) fill_lent(areas[i], asked->sizes[i], asked->fills[i]);
    if (asks_row(asked->kind)) answer_row(asked);
    else if (asked->kind == ONE) answer_one(asked);
    else if (asked->kind == ROUNDS) answer_rounds(asked);
    else answer_pair(asked);
    for (int i = 0; i < 2; i++) put(hash(areas[i], asked->sizes[i]), 16);
    for (int i = 0; i < 2; i++) put(hash(areas[i] + asked->sizes[i], GUARD), 16);
}

/* A stored area is moved to the places of today, or one of today to the stored places; the first of both is the one that is moved. */
static int moves(int kind) {
    return kind == FROM_16 || kind == TO_16;
}

static void answer_moved(const struct request *asked) {
    const size_t *sizes = asked->sizes;
    fill(areas[0] + sizes[0], GUARD, (uint8_t)~asked->fill);
    fill_lent(areas[1], sizes[1], asked->fill);
    put(asked->kind == TO_16 ? lampsaffron_area_to_16(areas[0], sizes[0], areas[1], sizes[1])
                             : lampsaffron_area_from_16(areas[0], sizes[0], areas[1], sizes[1]), 2);
    for (int i = 0; i < 2; i++) put(hash(areas[i], sizes[i]), 16);
    for (int i = 0; i < 2; i++) put(hash(areas[i] + sizes[i], GUARD), 16);
}

static void answer_twice(const struct request *asked) {
    put(lampsaffron_same_records(COLLECTION(asked->counts, 0), COLLECTION(asked->other_counts, OTHER)), 2);
}

static void answer_listed(const struct request *asked) {
    uint32_t entries = UNCOUNTED;
    fill_lent(list, sizeof *list * asked->room, asked->fill);
    put(lampsaffron_listing(COLLECTION(asked->counts, 0), list, asked->room, &entries), 2);
    put(entries, 8);
    put(hash_counts(list, asked->room), 16);
    put(hash((const uint8_t *)(list + asked->room), GUARD), 16);
}

static void answer_departs(const struct request *asked) {
    uint32_t entry = UNCOUNTED;
    put(lampsaffron_departs(COLLECTION(asked->counts, 0), list, asked->room, &entry), 2);
    put(entry, 8);
}

static void answer_salvage(const struct request *asked) {
    fill_lent(kept, asked->room, asked->fill);
    put(lampsaffron_salvage(COLLECTION(asked->counts, 0), tables[ASKED], lengths[ASKED], kept, asked->room), 2);
    put(hash(kept, asked->room), 16);
    put(hash(kept + asked->room, GUARD), 16);
}

static void answer(const struct request *asked) {
    if (asked->kind == EXPRESSION) answer_expression(asked);
    else if (asked->kind == LISTED) answer_listed(asked);
    else if (asked->kind == DEPARTS) answer_departs(asked);
    else if (asked->kind == SALVAGE) answer_salvage(asked);
    else if (asked->kind == TWICE) answer_twice(asked);
    else if (moves(asked->kind)) answer_moved(asked);
    else answer_with_areas(asked);
}

static void read_table(int which) {
    lengths[which] = number(4);
    for (size_t i = 0; i < lengths[which]; i++) tables[which][i] = (uint16_t)number(4);
}

static size_t length_within(int digits, size_t most) {
    size_t length = number(digits);
    if (length > most) bad = 1;
    return length;
}

static void read_marks(void) {
    marks_length = number(4);
    for (size_t i = 0; i < marks_length; i++) marks[i] = (uint8_t)number(2);
}

/* The entries of a row, or the numbers for steps and finals, and the byte that fills them. */
static void read_entries(struct request *asked, size_t most) {
    for (int i = 0; i < 2; i++) asked->entries[i] = length_within(4, most);
    asked->fill = (uint8_t)number(2);
}

/* The room of a row of counts or for a list, and the byte that fills it. */
static void read_room(struct request *asked, size_t most) {
    asked->room = length_within(8, most);
    asked->fill = (uint8_t)number(2);
}

/* The order of facts, and the room of the row for their marks and the byte that fills it. */
static void read_order(struct request *asked) {
    read_table(ASKED);
    asked->room = length_within(4, MOST_KEPT);
    asked->fill = (uint8_t)number(2);
}

/* The numbers of a list. */
static void read_list(struct request *asked) {
    asked->room = length_within(8, MOST_LIST);
    for (size_t i = 0; i < asked->room && !bad; i++) list[i] = number(8);
}

/* The area that is moved, and the length of the other and the byte that fills it. */
static void read_moved(struct request *asked) {
    asked->sizes[0] = length_within(8, MOST_AREA);
    for (size_t i = 0; i < asked->sizes[0] && !bad; i++) areas[0][i] = (uint8_t)number(2);
    asked->sizes[1] = length_within(8, MOST_AREA);
    asked->fill = (uint8_t)number(2);
}

/* The counts of a collection, and its tables from this one on. */
static void read_collection(uint16_t counts[5], int at) {
    for (int i = 0; i < 5; i++) counts[i] = (uint16_t)number(4);
    for (int i = 0; i < TABLES; i++) read_table(at + i);
}

/* How many individuals are asked of beside those in a row. */
static int individuals(int kind) {
    return kind == ROUNDS ? 0 : kind == ONE ? 1 : 2;
}

static void read_ask(struct request *asked) {
    read_collection(asked->counts, 0);
    if (asks_row(asked->kind)) read_table(ASKED);
    else
        for (int i = 0; i < individuals(asked->kind); i++) asked->pair[i] = (uint16_t)number(4);
    asked->allowance = number(8);
    for (int i = 0; i < 2; i++) asked->sizes[i] = length_within(8, MOST_AREA);
    for (int i = 0; i < 2; i++) asked->fills[i] = (uint8_t)number(2);
    if (asks_row(asked->kind)) read_entries(asked, MOST_ENTRIES);
    if (asked->kind == ROUNDS) read_room(asked, MOST_ROOM);
}

static struct request read_request(void) {
    struct request asked = {.kind = next_character()};
    if (asked.kind == EXPRESSION) {
        read_marks();
        read_entries(&asked, MOST_MADE);
    } else if (asked.kind == TWICE) {
        read_collection(asked.counts, 0);
        read_collection(asked.other_counts, OTHER);
    } else if (asked.kind == LISTED) {
        read_collection(asked.counts, 0);
        read_room(&asked, MOST_LIST);
    } else if (asked.kind == DEPARTS) {
        read_collection(asked.counts, 0);
        read_list(&asked);
    } else if (asked.kind == SALVAGE) {
        read_collection(asked.counts, 0);
        read_order(&asked);
    } else if (moves(asked.kind)) {
        read_moved(&asked);
    } else {
        if (!asks_row(asked.kind) && asked.kind != ONE && asked.kind != ROUNDS) step_back();
        read_ask(&asked);
    }
    end_of_line();
    return asked;
}

static void one_request(void) {
    bad = 0;
    struct request asked = read_request();
    output_end = 0;
    if (bad) output[output_end++] = '!';
    else answer(&asked);
    send_line();
}

int main(void) {
    while (next_character() >= 0) {
        step_back();
        one_request();
    }
    return 0;
}
