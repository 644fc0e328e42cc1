/*
 * Calls every exported function through the header and compares what it gives: the result, the
 * index, the values, and the tables with the places beside them. The tests on words are made on
 * bytes, and again on 16-bit codes that are equal and ordered as the bytes are: all but the page is
 * the same. Prints how many checks passed; the exit status is 1 if any failed.
 */
#include <cegridom.h>

#include <stdio.h>
#include <string.h>

static unsigned passed, failed;

#define CHECK(condition) check((condition), #condition, __LINE__)

static void check(int holds, const char *text, int line) {
    if (holds) {
        passed++;
    } else {
        failed++;
        fprintf(stderr, "line %d: not so: %s\n", line, text);
    }
}

/* What values and tables hold before a call. */
#define GUARD 0xdeadbeefu

static uint32_t index_, a, b, c, d;

static void reset(void) { index_ = a = b = c = d = GUARD; }

/* The longest words of most tests, which look at whole tables after every call; words up to the
   limit have tests of their own. */
#define LENGTH 4096

static uint32_t table[CEGRIDOM_MOST_RUN_PLACES(LENGTH) + 2];
static uint32_t work[CEGRIDOM_WORK_PLACES(LENGTH + 1) + 2];
static uint8_t longest[CEGRIDOM_LIMIT + 1];
static uint8_t rich[CEGRIDOM_LIMIT];
static uint8_t out[CEGRIDOM_PLAN_BYTES(LENGTH) + 1];
static uint8_t page[CEGRIDOM_PAGE_BYTES(CEGRIDOM_MOST_ENDS(LENGTH)) + 9];

#define TABLE_PLACES (sizeof table / sizeof *table)
#define WORK (sizeof work / sizeof *work)

static void fill(uint32_t *places, size_t count) {
    for (size_t i = 0; i < count; i++) {
        places[i] = GUARD;
    }
}

static int untouched(const uint32_t *places, size_t count) {
    for (size_t i = 0; i < count; i++) {
        if (places[i] != GUARD) {
            return 0;
        }
    }
    return 1;
}

/* The table begins with these numbers, and the place after them is untouched. */
static int begins(const uint32_t *places, const uint32_t *numbers, size_t count) {
    return memcmp(places, numbers, count * sizeof *numbers) == 0 && places[count] == GUARD;
}

#define NUMBERS(...) ((const uint32_t[]){__VA_ARGS__})
#define COUNT(...) (sizeof NUMBERS(__VA_ARGS__) / sizeof(uint32_t))
#define BEGINS(places, ...) begins((places), NUMBERS(__VA_ARGS__), COUNT(__VA_ARGS__))

/* A word of letters as pointer and length. */
#define WORD(text) ((const uint8_t *)(text)), (sizeof(text) - 1)

/* The longest unit that a block has. */
#define UNIT_MEMORY 256

/* What words are made of: bytes, or 16-bit codes for them, which keep their order. */
enum {
    BYTES,
    SAME_NUMBERS,
    /* the high byte alone tells them apart */
    HIGH_BYTE,
    /* on both sides of 0x8000 */
    ABOUT_SIGN,
    SPELLINGS
};

static int spelling = BYTES;

static uint16_t code_of(uint8_t symbol) {
    switch (spelling) {
    case HIGH_BYTE:
        return (uint16_t)(256 * symbol + 97);
    case ABOUT_SIGN:
        return (uint16_t)(0x7fa0 + symbol);
    default:
        return symbol;
    }
}

static uint16_t codes[CEGRIDOM_LIMIT + 1], second_codes[CEGRIDOM_LIMIT + 1];

static const uint16_t *coded(const uint8_t *word, size_t n, uint16_t *to) {
    for (size_t i = 0; i < n; i++) {
        to[i] = code_of(word[i]);
    }
    return word == NULL ? NULL : to;
}

/* The calls on words, by the form for what these are made of. */

static uint32_t in_width_part(const uint8_t *word, size_t n, uint32_t edition, uint32_t first,
                              uint32_t last, uint32_t *lent, size_t unit_places, uint32_t *unit,
                              uint32_t *turns, uint32_t *rest, uint32_t *block, uint32_t *index) {
    if (spelling == BYTES) {
        return cegridom_part(word, n, edition, first, last, lent, unit_places, unit, turns, rest,
                             block, index);
    }
    return cegridom_part_16(coded(word, n, codes), n, edition, first, last, lent, unit_places, unit,
                            turns, rest, block, index);
}

static uint32_t in_width_runs(const uint8_t *word, size_t n, uint32_t *lent, size_t places,
                              uint32_t *count, uint32_t *index) {
    if (spelling == BYTES) {
        return cegridom_runs(word, n, lent, places, count, index);
    }
    return cegridom_runs_16(coded(word, n, codes), n, lent, places, count, index);
}

static uint32_t in_width_nodes(const uint8_t *word, size_t n, uint32_t edition, uint32_t position,
                               uint32_t *lent, size_t places, uint32_t *count, uint32_t *index) {
    if (spelling == BYTES) {
        return cegridom_nodes(word, n, edition, position, lent, places, count, index);
    }
    return cegridom_nodes_16(coded(word, n, codes), n, edition, position, lent, places, count,
                             index);
}

static uint32_t in_width_best_split(const uint8_t *word, size_t n, uint32_t edition,
                                    uint32_t choice, uint32_t *ends, size_t end_places,
                                    uint32_t *lent_work, size_t work_places, uint32_t *size,
                                    uint32_t *index) {
    if (spelling == BYTES) {
        return cegridom_best_split(word, n, edition, choice, ends, end_places, lent_work,
                                   work_places, size, index);
    }
    return cegridom_best_split_16(coded(word, n, codes), n, edition, choice, ends, end_places,
                                  lent_work, work_places, size, index);
}

static uint32_t in_width_judge_split(const uint8_t *word, size_t n, uint32_t edition,
                                     const uint32_t *ends, size_t end_count, uint32_t *blocks,
                                     uint32_t *index) {
    if (spelling == BYTES) {
        return cegridom_judge_split(word, n, edition, ends, end_count, blocks, index);
    }
    return cegridom_judge_split_16(coded(word, n, codes), n, edition, ends, end_count, blocks,
                                   index);
}

static uint32_t in_width_path_of_split(const uint8_t *word, size_t n, uint32_t edition,
                                       const uint32_t *ends, size_t end_count, uint32_t *lent,
                                       size_t places, uint32_t *blocks, uint32_t *index) {
    if (spelling == BYTES) {
        return cegridom_path_of_split(word, n, edition, ends, end_count, lent, places, blocks,
                                      index);
    }
    return cegridom_path_of_split_16(coded(word, n, codes), n, edition, ends, end_count, lent,
                                     places, blocks, index);
}

static uint32_t in_width_judge_path(const uint8_t *word, size_t n, uint32_t edition,
                                    const uint32_t *numbers, size_t number_count, uint32_t *blocks,
                                    uint32_t *index) {
    if (spelling == BYTES) {
        return cegridom_judge_path(word, n, edition, numbers, number_count, blocks, index);
    }
    return cegridom_judge_path_16(coded(word, n, codes), n, edition, numbers, number_count, blocks,
                                  index);
}

static uint32_t in_width_write_page(const uint8_t *word, size_t n, uint32_t edition,
                                    const uint32_t *ends, size_t end_count, uint8_t *lent,
                                    size_t room, uint32_t *bytes, uint32_t *index) {
    if (spelling == BYTES) {
        return cegridom_write_page(word, n, edition, ends, end_count, lent, room, bytes, index);
    }
    return cegridom_write_page_16(coded(word, n, codes), n, edition, ends, end_count, lent, room,
                                  bytes, index);
}

static uint32_t in_width_which_first(const uint8_t *word, size_t n, const uint8_t *second, size_t m,
                                     uint32_t edition, uint32_t *lent, size_t work_places,
                                     uint32_t *which, uint32_t *index) {
    if (spelling == BYTES) {
        return cegridom_which_first(word, n, second, m, edition, lent, work_places, which, index);
    }
    return cegridom_which_first_16(coded(word, n, codes), n, coded(second, m, second_codes), m,
                                   edition, lent, work_places, which, index);
}

static uint32_t in_width_first_block(const uint8_t *word, size_t n, const uint8_t *second, size_t m,
                                     uint32_t edition, uint32_t *lent, size_t work_places,
                                     uint32_t *which, uint32_t *length) {
    if (spelling == BYTES) {
        return cegridom_first_block(word, n, second, m, edition, lent, work_places, which, length);
    }
    return cegridom_first_block_16(coded(word, n, codes), n, coded(second, m, second_codes), m,
                                   edition, lent, work_places, which, length);
}

static uint32_t in_width_best_squares(const uint8_t *word, size_t n, uint32_t choice,
                                      uint32_t *ends, size_t end_places, uint32_t *lent_work,
                                      size_t work_places, uint32_t *size, uint32_t *index) {
    if (spelling == BYTES) {
        return cegridom_best_squares(word, n, choice, ends, end_places, lent_work, work_places,
                                     size, index);
    }
    return cegridom_best_squares_16(coded(word, n, codes), n, choice, ends, end_places, lent_work,
                                    work_places, size, index);
}

static uint32_t in_width_judge_squares(const uint8_t *word, size_t n, const uint32_t *ends,
                                       size_t end_count, uint32_t *blocks, uint32_t *index) {
    if (spelling == BYTES) {
        return cegridom_judge_squares(word, n, ends, end_count, blocks, index);
    }
    return cegridom_judge_squares_16(coded(word, n, codes), n, ends, end_count, blocks, index);
}

/* Numbers that are no edition. */
static const uint32_t no_editions[] = {0, 3, 4294967295u};
#define NO_EDITIONS (sizeof no_editions / sizeof *no_editions)

/* Numbers that are no choice. */
static const uint32_t no_choices[] = {0, 3, 4294967295u};
#define NO_CHOICES (sizeof no_choices / sizeof *no_choices)

static void test_version(void) {
    char text[32];
    snprintf(text, sizeof text, "%d.%d", CEGRIDOM_VERSION_MAJOR, CEGRIDOM_VERSION_MINOR);
    CHECK(strcmp(CEGRIDOM_VERSION_STRING, text) == 0);
    CHECK(CEGRIDOM_VERSION == 1000 * CEGRIDOM_VERSION_MAJOR + CEGRIDOM_VERSION_MINOR);
    CHECK(cegridom_version() == CEGRIDOM_VERSION);
}

static void test_message(void) {
    static const char *const texts[] = {
        "accepted",
        "n above 70,000",
        "no split exists",
        "an end not above the one before it (0 before the first), or above n",
        "the piece up to this end is not a block; for squares, not a square; for a path, no run "
        "has that number, or its unit is above 256, or the run does not enclose the piece, or the "
        "piece is shorter than 2 x (edition 2: 3 x) the run's unit",
        "the last end (0 if there are none) is not n",
        "first below 1, last above n or first above last; for nodes, a position outside 1 to n",
        "fewer output places (for writing a plan or a page, bytes) than the answer needs",
        "a choice other than 1 or 2",
        "a working table under 4 x (n+1) places",
        "a path with an odd count of numbers",
        "bytes that are not one plan line, or whose count of ends differs from the one stated",
        "an edition other than 1 or 2",
        "unknown result",
    };
    for (uint32_t i = 0; i < sizeof texts / sizeof *texts; i++) {
        CHECK(strcmp(cegridom_message(i), texts[i]) == 0);
    }
    CHECK(strcmp(cegridom_message(4294967295u), "unknown result") == 0);
}

/* Whether a part is a block in each edition; what else is said of it does not depend on that. */
struct part_case {
    const char *word;
    uint32_t n, first, last, unit, turns, rest, block[2], units[9];
};

static const struct part_case part_cases[] = {
    {"ababa", 5, 1, 5, 2, 2, 1, {1, 0}, {1, 2, 2, 2, 2}},
    {"ababab", 6, 1, 6, 2, 3, 0, {1, 1}, {1, 2, 2, 2, 2, 2}},
    {"ababab", 6, 2, 6, 2, 2, 1, {1, 0}, {1, 2, 2, 2, 2}},
    {"aabaabaa", 8, 2, 4, 2, 1, 1, {0, 0}, {1, 2, 2}},
    {"aabaabaa", 8, 1, 8, 3, 2, 2, {1, 0}, {1, 1, 3, 3, 3, 3, 3, 3}},
    {"aabaabaab", 9, 1, 9, 3, 3, 0, {1, 1}, {1, 1, 3, 3, 3, 3, 3, 3, 3}},
    {"aabaaaba", 8, 1, 8, 4, 2, 0, {1, 0}, {1, 1, 3, 3, 3, 4, 4, 4}},
    {"baabaacb", 8, 2, 7, 6, 1, 0, {0, 0}, {1, 1, 3, 3, 3, 6}},
    {"a", 1, 1, 1, 1, 1, 0, {0, 0}, {1}},
    {"aaa", 3, 1, 2, 1, 2, 0, {1, 0}, {1, 1}},
    {"aaa", 3, 1, 3, 1, 3, 0, {1, 1}, {1, 1, 1}},
    {"a\0\377a\0\377", 6, 1, 6, 3, 2, 0, {1, 0}, {1, 2, 3, 3, 3, 3}},
};

/* What the part call is lent of the table, so that a place before it is watched too. */
static uint32_t *const units = table + 1;

static void part_accepted(const struct part_case *k, uint32_t edition, size_t places) {
    size_t length = CEGRIDOM_UNIT_PLACES(k->first, k->last);
    fill(table, TABLE_PLACES);
    reset();
    CHECK(in_width_part((const uint8_t *)k->word, k->n, edition, k->first, k->last, units, places,
                        &a, &b, &c, &d, &index_) == CEGRIDOM_ACCEPTED);
    CHECK(a == k->unit && b == k->turns && c == k->rest && d == k->block[edition - 1] &&
          index_ == 0);
    CHECK(memcmp(units, k->units, length * sizeof *units) == 0 && units[length - 1] == a);
    CHECK(table[0] == GUARD && untouched(units + length, TABLE_PLACES - 1 - length));
}

static void part_refused(const uint8_t *word, size_t n, uint32_t edition, uint32_t first,
                         uint32_t last, uint32_t *lent, size_t places, uint32_t result) {
    fill(table, TABLE_PLACES);
    reset();
    CHECK(in_width_part(word, n, edition, first, last, lent, places, &a, &b, &c, &d, &index_) ==
          result);
    CHECK(a == 0 && b == 0 && c == 0 && d == 0 && index_ == 0 && untouched(table, TABLE_PLACES));
}

/* A refusal that comes before 7, so whatever is lent. */
static void part_refused_first(const uint8_t *word, size_t n, uint32_t edition, uint32_t first,
                               uint32_t last, uint32_t result) {
    part_refused(word, n, edition, first, last, NULL, 0, result);
    part_refused(word, n, edition, first, last, units, 0, result);
    part_refused(word, n, edition, first, last, units, n + 1, result);
}

/* A part in a table with just the places that it needs, with more, and with fewer. */
static void parted(const struct part_case *k, uint32_t edition) {
    const uint8_t *word = (const uint8_t *)k->word;
    size_t length = CEGRIDOM_UNIT_PLACES(k->first, k->last);
    part_accepted(k, edition, length);
    part_accepted(k, edition, length + 1);
    part_accepted(k, edition, TABLE_PLACES - 2);
    part_refused(word, k->n, edition, k->first, k->last, units, length - 1,
                 CEGRIDOM_TOO_FEW_PLACES);
    part_refused(word, k->n, edition, k->first, k->last, NULL, 0, CEGRIDOM_TOO_FEW_PLACES);
}

static void test_part(void) {
    for (uint32_t edition = 1; edition <= 2; edition++) {
        for (size_t i = 0; i < sizeof part_cases / sizeof *part_cases; i++) {
            parted(&part_cases[i], edition);
        }
    }
    static const uint32_t outside[][2] = {{0, 1}, {1, 6}, {3, 2}, {0, 0}, {6, 6}, {1, 4294967295u}};
    for (size_t i = 0; i < sizeof outside / sizeof *outside; i++) {
        uint32_t first = outside[i][0], last = outside[i][1];
        for (uint32_t edition = 1; edition <= 2; edition++) {
            part_refused_first(WORD("ababa"), edition, first, last, CEGRIDOM_BAD_POSITION);
        }
        /* 12 comes before 6 */
        part_refused_first(WORD("ababa"), 3, first, last, CEGRIDOM_BAD_EDITION);
    }
    for (size_t i = 0; i < NO_EDITIONS; i++) {
        part_refused_first(WORD("ababa"), no_editions[i], 1, 5, CEGRIDOM_BAD_EDITION);
    }
    part_refused_first(NULL, 0, CEGRIDOM_EDITION_1, 1, 1, CEGRIDOM_BAD_POSITION);
    for (uint32_t edition = 0; edition <= 3; edition++) {
        /* 1 comes before 12 and 6 */
        part_refused_first(longest, CEGRIDOM_LIMIT + 1, edition, 0, 0, CEGRIDOM_TOO_LONG);
        part_refused_first(longest, CEGRIDOM_LIMIT + 1, edition, 1, 2, CEGRIDOM_TOO_LONG);
    }
}

/* A long word has a place for each of its symbols, all of them 1. */
static void test_longest_part(void) {
    fill(table, TABLE_PLACES);
    reset();
    CHECK(in_width_part(longest, LENGTH, 1, 1, LENGTH, units, LENGTH, &a,
                        &b, &c, &d, &index_) == CEGRIDOM_ACCEPTED);
    CHECK(a == 1 && b == LENGTH && c == 0 && d == 1 && index_ == 0);
    int ones = 1;
    for (size_t i = 0; i < LENGTH; i++) {
        ones &= units[i] == 1;
    }
    CHECK(ones && table[0] == GUARD && units[LENGTH] == GUARD);
    part_refused(longest, LENGTH, 1, 1, LENGTH, units, LENGTH - 1,
                 CEGRIDOM_TOO_FEW_PLACES);
}

static void test_unit_places(void) {
    /* an array's size, and operands that bind less than the macro's own operators */
    static uint32_t places[CEGRIDOM_UNIT_PLACES(1, LENGTH)];
    CHECK(sizeof places == LENGTH * sizeof *places);
    CHECK(CEGRIDOM_UNIT_PLACES(1, 1) == 1 && CEGRIDOM_UNIT_PLACES(3, 8) == 6);
    CHECK(2 * CEGRIDOM_UNIT_PLACES(1 | 2, 4 | 8) == 20);
    /* positions that are refused: nothing wraps around */
    const uint32_t least = 0, five = 5, most = 4294967295u;
    CHECK(CEGRIDOM_UNIT_PLACES(2, 1) == 0 && CEGRIDOM_UNIT_PLACES(five + 1, five) == 0);
    CHECK(CEGRIDOM_UNIT_PLACES(most, least) == 0);
    CHECK(CEGRIDOM_UNIT_PLACES(least, most) == (size_t)most + 1);
}

/* What the runs call is lent of the table, so that a place before it is watched too. */
static uint32_t *const records = table + 1;

static void runs_asked(const uint8_t *word, size_t n, uint32_t *lent, size_t places,
                       uint32_t result, uint32_t count) {
    fill(table, TABLE_PLACES);
    reset();
    CHECK(in_width_runs(word, n, lent, places, &a, &index_) == result);
    CHECK(a == count && index_ == 0);
}

static void runs_accepted(const uint8_t *word, size_t n, const uint32_t (*rows)[4], uint32_t count,
                          size_t places) {
    runs_asked(word, n, records, places, CEGRIDOM_ACCEPTED, count);
    CHECK(memcmp(records, rows, count * sizeof *rows) == 0);
    CHECK(table[0] == GUARD && untouched(records + 4 * count, TABLE_PLACES - 1 - 4 * count));
}

static void runs_refused(const uint8_t *word, size_t n, uint32_t *lent, size_t places,
                         uint32_t result) {
    runs_asked(word, n, lent, places, result, 0);
    CHECK(untouched(table, TABLE_PLACES));
}

/* The runs of a word, in a table with just the places that they need, with more, and with fewer:
   those for three numbers a run are too few. */
static void listed(const uint8_t *word, size_t n, const uint32_t (*rows)[4], uint32_t count) {
    size_t needed = CEGRIDOM_RUN_PLACES(count);
    runs_accepted(word, n, rows, count, needed);
    runs_accepted(word, n, rows, count, needed + 1);
    runs_accepted(word, n, rows, count, TABLE_PLACES - 2);
    if (count > 0) {
        runs_refused(word, n, records, needed - 1, CEGRIDOM_TOO_FEW_PLACES);
        runs_refused(word, n, records, 3 * count, CEGRIDOM_TOO_FEW_PLACES);
        runs_refused(word, n, NULL, 0, CEGRIDOM_TOO_FEW_PLACES);
    } else {
        runs_asked(word, n, NULL, 0, CEGRIDOM_ACCEPTED, 0);
    }
}

/* A word and its runs: first, last, unit and root of each. */
struct runs_case {
    const uint8_t *word;
    size_t n;
    uint32_t count, rows[10][4];
};

static const struct runs_case runs_cases[] = {
    {NULL, 0, 0, {{0}}},
    {WORD("ab"), 0, {{0}}},
    {WORD("aa"), 1, {{1, 2, 1, 1}}},
    {WORD("aabaabaa"), 4, {{1, 2, 1, 1}, {1, 8, 3, 1}, {4, 5, 1, 4}, {7, 8, 1, 7}}},
    /* runs 1 and 4 wind one unit from different starts */
    {WORD("ababbaba"), 4, {{1, 4, 2, 1}, {2, 7, 3, 3}, {4, 5, 1, 4}, {5, 8, 2, 6}}},
    {WORD("abababa"), 1, {{1, 7, 2, 1}}},
    {WORD("bababab"), 1, {{1, 7, 2, 2}}},
    {WORD("cabcabca"), 1, {{1, 8, 3, 2}}},
    /* roots that more than the first symbol decides */
    {WORD("abacabacab"), 1, {{1, 10, 4, 1}}},
    {WORD("abaaabaaabaa"), 4, {{1, 12, 4, 3}, {3, 5, 1, 3}, {7, 9, 1, 7}, {11, 12, 1, 11}}},
    /* the last position that a root can have */
    {WORD("bbbabbbabbbc"), 4, {{1, 3, 1, 1}, {1, 11, 4, 4}, {5, 7, 1, 5}, {9, 11, 1, 9}}},
    {WORD("abaabaababaabaabababa"),
     10,
     {{1, 9, 3, 3},
      {1, 19, 8, 3},
      {3, 4, 1, 3},
      {4, 14, 5, 6},
      {6, 7, 1, 6},
      {7, 11, 2, 7},
      {9, 17, 3, 11},
      {11, 12, 1, 11},
      {14, 15, 1, 14},
      {15, 21, 2, 15}}},
    {WORD("aabaabaacbbcbbcbb"),
     8,
     {{1, 2, 1, 1},
      {1, 8, 3, 1},
      {4, 5, 1, 4},
      {7, 8, 1, 7},
      {9, 17, 3, 10},
      {10, 11, 1, 10},
      {13, 14, 1, 13},
      {16, 17, 1, 16}}},
    /* symbols above 127 come after the others */
    {WORD("\200\1\200\1"), 1, {{1, 4, 2, 2}}},
    {WORD("\177\200\177\200"), 1, {{1, 4, 2, 1}}},
    {WORD("\310\144\310\144\310"), 1, {{1, 5, 2, 2}}},
    {WORD("\377\0\377\0"), 1, {{1, 4, 2, 2}}},
    {WORD("\200\377\200\177\200\377\200\177"), 1, {{1, 8, 4, 4}}},
};

static void test_runs(void) {
    CHECK(CEGRIDOM_RUN_PLACES(0) == 0 && CEGRIDOM_RUN_PLACES(1) == 4);
    CHECK(2 * CEGRIDOM_RUN_PLACES(1 + 2) == 24 && 24 / CEGRIDOM_RUN_PLACES(2) == 3);
    for (size_t i = 0; i < sizeof runs_cases / sizeof *runs_cases; i++) {
        const struct runs_case *k = &runs_cases[i];
        listed(k->word, k->n, k->rows, k->count);
    }
    static const uint32_t whole[][4] = {{1, LENGTH, 1, 1}};
    listed(longest, LENGTH, whole, 1);
    /* 1 comes before 7 */
    runs_refused(longest, CEGRIDOM_LIMIT + 1, NULL, 0, CEGRIDOM_TOO_LONG);
    runs_refused(longest, CEGRIDOM_LIMIT + 1, records, TABLE_PLACES - 2, CEGRIDOM_TOO_LONG);
}

/* A unit of so many symbols, two or more, which are x but for y at place k, wound twice: the runs
   are the whole word and the stretches of x. */
static void twice_wound(uint32_t unit, uint32_t k, uint8_t x, uint8_t y) {
    static uint8_t word[LENGTH];
    uint32_t rows[4][4], count = 0;
    const uint32_t stretches[][2] = {{1, k - 1}, {k + 1, k + unit - 1}, {k + unit + 1, 2 * unit}};
    for (uint32_t i = 0; i < 2 * unit; i++) {
        word[i] = i % unit == k - 1 ? y : x;
    }
    for (size_t i = 0; i < 3; i++) {
        uint32_t first = stretches[i][0], last = stretches[i][1];
        if (first < last) {
            const uint32_t row[] = {first, last, 1, first};
            memcpy(rows[count++], row, sizeof row);
        }
        if (i == 0) {
            /* of the units, the one that starts with y comes first, or the one right after y */
            const uint32_t row[] = {1, 2 * unit, unit, y < x ? k : k % unit + 1};
            memcpy(rows[count++], row, sizeof row);
        }
    }
    listed(word, 2 * unit, (const uint32_t(*)[4])rows, count);
}

/* A unit that comes first among those that wind it from other starts: from each of these it has its
   root, and the symbols from there on are the same. */
static void wound_from_each(const uint8_t *unit, uint32_t length) {
    uint8_t word[32];
    for (uint32_t start = 0; start < length; start++) {
        uint32_t root = start == 0 ? 1 : length - start + 1, found = 0;
        for (uint32_t i = 0; i < 2 * length; i++) {
            word[i] = unit[(start + i) % length];
        }
        fill(table, TABLE_PLACES);
        reset();
        CHECK(in_width_runs(word, 2 * length, records, TABLE_PLACES - 2, &a, &index_) == 0);
        for (uint32_t i = 0; i < a; i++) {
            const uint32_t *row = records + CEGRIDOM_RUN_PLACES(i);
            found += row[0] == 1 && row[1] == 2 * length && row[2] == length && row[3] == root;
        }
        CHECK(found == 1 && memcmp(word + root - 1, unit, length) == 0);
    }
}

#define FROM_EACH(unit) wound_from_each(WORD(unit))

static void test_roots(void) {
    /* any two symbols */
    for (uint32_t x = 0; x < 256; x++) {
        int agree = 1;
        for (uint32_t y = 0; y < 256; y++) {
            const uint8_t word[] = {(uint8_t)x, (uint8_t)y, (uint8_t)x, (uint8_t)y};
            if (x != y) {
                fill(table, 5);
                agree &= in_width_runs(word, 4, table, 4, &a, &index_) == 0 && a == 1 &&
                         BEGINS(table, 1, 4, 2, x < y ? 1 : 2);
            }
        }
        CHECK(agree);
    }
    static const uint8_t pairs[][2] = {{'a', 'b'}, {'b', 'a'}, {127, 128},
                                       {128, 127}, {0, 255},   {255, 0}};
    static const uint32_t lengths[] = {2, 3, 4, 5, 16};
    for (size_t i = 0; i < sizeof pairs / sizeof *pairs; i++) {
        for (size_t j = 0; j < sizeof lengths / sizeof *lengths; j++) {
            for (uint32_t k = 1; k <= lengths[j]; k++) {
                twice_wound(lengths[j], k, pairs[i][0], pairs[i][1]);
            }
        }
    }
    FROM_EACH("aabab");
    FROM_EACH("aabaabab");
    FROM_EACH("aabaacaabaad");
    FROM_EACH("\1\1\200\1\377");
    FROM_EACH("\177\200\177\377");
    FROM_EACH("\200\200\201\200\377");
    /* the longest units */
    twice_wound(LENGTH / 2, 1000, 'a', 'b');
    twice_wound(LENGTH / 2, LENGTH / 2, 255, 127);
    /* a...ac and then a...ab: they agree for long, and the second comes first */
    static uint8_t word[LENGTH];
    static const uint32_t rows[][4] = {{1, 1023, 1, 1},
                                       {1, 4096, 2048, 1025},
                                       {1025, 2047, 1, 1025},
                                       {2049, 3071, 1, 2049},
                                       {3073, 4095, 1, 3073}};
    for (uint32_t i = 0; i < LENGTH; i++) {
        word[i] = i % 1024 < 1023 ? 'a' : i % 2048 == 1023 ? 'c' : 'b';
    }
    listed(word, LENGTH, rows, 5);
}

/* The runs of aaaaaaabababa: 1 to 7 with unit 1, 7 to 13 with unit 2. Its blocks of edition 2 are
   fewer than those of edition 1, and so are its white nodes. */
#define BOTH "aaaaaaabababa"

/* The nodes at a position, of a table with just the places that they need. */
static void noded(const char *word, uint32_t edition, uint32_t position, const uint32_t *numbers,
                  size_t count) {
    size_t n = strlen(word);
    fill(table, 4);
    reset();
    CHECK(in_width_nodes((const uint8_t *)word, n, edition, position, table, count, &a, &index_) ==
          CEGRIDOM_ACCEPTED);
    CHECK(a == count && index_ == 0 && begins(table, numbers, count));
    if (count > 0) {
        fill(table, 4);
        reset();
        CHECK(in_width_nodes((const uint8_t *)word, n, edition, position, table, count - 1, &a,
                             &index_) == CEGRIDOM_TOO_FEW_PLACES);
        CHECK(a == 0 && index_ == 0 && untouched(table, 4));
    }
}

#define NODED(word, edition, position, ...) \
    noded(word, edition, position, NUMBERS(__VA_ARGS__), COUNT(__VA_ARGS__))

static void test_nodes(void) {
    NODED("aabaabaa", 1, 8, 2, 4);
    NODED("aabaabaa", 1, 7, 2);
    noded("aabaabaa", 1, 1, table, 0);
    for (uint32_t position = 1; position <= 8; position++) {
        noded("aabaabaa", 2, position, table, 0);
    }
    NODED("aabaabaab", 2, 9, 2);
    noded("aabaabaab", 2, 8, table, 0);
    NODED(BOTH, 1, 2, 1);
    noded(BOTH, 2, 2, table, 0);
    NODED(BOTH, 2, 3, 1);
    NODED(BOTH, 2, 7, 1);
    NODED(BOTH, 1, 10, 2);
    NODED(BOTH, 1, 11, 2);
    noded(BOTH, 2, 11, table, 0);
    NODED(BOTH, 2, 12, 2);
    NODED(BOTH, 2, 13, 2);
    reset();
    CHECK(in_width_nodes(WORD("aabaabaa"), 1, 1, NULL, 0, &a, &index_) == CEGRIDOM_ACCEPTED);
    CHECK(a == 0 && index_ == 0);
    fill(table, 4);
    for (uint32_t i = 0; i < 2; i++) {
        for (uint32_t edition = 1; edition <= 2; edition++) {
            reset();
            CHECK(in_width_nodes(WORD("aabaabaa"), edition, 9 * i, table, 0, &a, &index_) ==
                  CEGRIDOM_BAD_POSITION);
            CHECK(a == 0 && index_ == 0 && untouched(table, 4));
        }
    }
    for (size_t i = 0; i < NO_EDITIONS; i++) {
        reset();
        CHECK(in_width_nodes(WORD("aabaabaa"), no_editions[i], 8, table, 4, &a, &index_) ==
              CEGRIDOM_BAD_EDITION);
        CHECK(a == 0 && index_ == 0 && untouched(table, 4));
        /* 12 comes before 6 and 7 */
        reset();
        CHECK(in_width_nodes(WORD("aabaabaa"), no_editions[i], 0, table, 0, &a, &index_) ==
              CEGRIDOM_BAD_EDITION);
        CHECK(a == 0 && index_ == 0 && untouched(table, 4));
    }
    for (uint32_t edition = 0; edition <= 3; edition++) {
        reset();
        CHECK(in_width_nodes(longest, CEGRIDOM_LIMIT + 1, edition, 0, NULL, 0, &a, &index_) ==
              CEGRIDOM_TOO_LONG);
        CHECK(a == 0 && index_ == 0);
    }
}

/* Document 01's sequences and some more, by edition, and their ends; a size of CEGRIDOM_NONE for no
   split. */
struct best_case {
    uint32_t edition;
    const char *word;
    uint32_t fewest, fewest_ends[4], most, most_ends[4];
};

static const struct best_case best_cases[] = {
    {1, "", 0, {0}, 0, {0}},
    {1, "a", CEGRIDOM_NONE, {0}, CEGRIDOM_NONE, {0}},
    {1, "ab", CEGRIDOM_NONE, {0}, CEGRIDOM_NONE, {0}},
    {1, "aa", 1, {2}, 1, {2}},
    {1, "aaaa", 1, {4}, 2, {2, 4}},
    {1, "aaaaa", 1, {5}, 2, {2, 5}},
    {1, "ababa", 1, {5}, 1, {5}},
    {1, "baa", CEGRIDOM_NONE, {0}, CEGRIDOM_NONE, {0}},
    {1, "aabb", 2, {2, 4}, 2, {2, 4}},
    {1, "aabaabaa", 1, {8}, 2, {2, 8}},
    {1, "abaabaababaabaabababa", 2, {16, 21}, 4, {6, 10, 16, 21}},
    {1, "aabaabaacbbcbbcbb", 2, {8, 17}, 4, {2, 8, 15, 17}},
    {1, BOTH, 2, {6, 13}, 4, {2, 4, 6, 13}},
    {2, "", 0, {0}, 0, {0}},
    {2, "a", CEGRIDOM_NONE, {0}, CEGRIDOM_NONE, {0}},
    {2, "aa", CEGRIDOM_NONE, {0}, CEGRIDOM_NONE, {0}},
    {2, "aaa", 1, {3}, 1, {3}},
    {2, "aaaa", 1, {4}, 1, {4}},
    {2, "aaaaa", 1, {5}, 1, {5}},
    {2, "aaaaaa", 1, {6}, 2, {3, 6}},
    {2, "aaaaaaa", 1, {7}, 2, {3, 7}},
    {2, "ababa", CEGRIDOM_NONE, {0}, CEGRIDOM_NONE, {0}},
    {2, "ababab", 1, {6}, 1, {6}},
    {2, "abababababab", 1, {12}, 2, {6, 12}},
    {2, "aabb", CEGRIDOM_NONE, {0}, CEGRIDOM_NONE, {0}},
    {2, "aaabbb", 2, {3, 6}, 2, {3, 6}},
    {2, "aabaabaa", CEGRIDOM_NONE, {0}, CEGRIDOM_NONE, {0}},
    {2, "aabaabaab", 1, {9}, 1, {9}},
    {2, "abaabaababaabaabababa", CEGRIDOM_NONE, {0}, CEGRIDOM_NONE, {0}},
    {2, "aabaabaacbbcbbcbb", CEGRIDOM_NONE, {0}, CEGRIDOM_NONE, {0}},
    {2, BOTH, 2, {6, 13}, 3, {3, 6, 13}},
};

static void test_best_split(void) {
    for (size_t i = 0; i < sizeof best_cases / sizeof *best_cases; i++) {
        const struct best_case *k = &best_cases[i];
        const uint8_t *word = (const uint8_t *)k->word;
        size_t n = strlen(k->word), needed = CEGRIDOM_WORK_PLACES(n);
        for (uint32_t choice = 1; choice <= 2; choice++) {
            uint32_t size = choice == 1 ? k->fewest : k->most;
            const uint32_t *ends = choice == 1 ? k->fewest_ends : k->most_ends;
            fill(table, 6);
            fill(work, needed + 1);
            reset();
            uint32_t result = in_width_best_split(word, n, k->edition, choice, table, 5, work,
                                                  needed + 1, &a, &index_);
            if (size == CEGRIDOM_NONE) {
                CHECK(result == CEGRIDOM_NO_SPLIT && a == 0 && index_ == 0);
                CHECK(untouched(table, 6));
            } else {
                CHECK(result == CEGRIDOM_ACCEPTED && a == size && index_ == 0);
                CHECK(begins(table, ends, size) && untouched(table + size, 6 - size));
            }
            CHECK(work[0] == 0 && work[n] == size && work[needed] == GUARD);
            int zero = 1;
            for (size_t p = n + 1; p < needed; p++) {
                zero &= work[p] == 0;
            }
            CHECK(zero);
            if (size != CEGRIDOM_NONE && size > 0) {
                /* one place too few leaves the working table as an answer does */
                fill(table, 6);
                fill(work, needed);
                reset();
                CHECK(in_width_best_split(word, n, k->edition, choice, table, size - 1, work,
                                          needed, &a, &index_) == CEGRIDOM_TOO_FEW_PLACES);
                CHECK(a == 0 && index_ == 0 && untouched(table, 6) && work[n] == size);
            }
            fill(work, needed);
            reset();
            CHECK(in_width_best_split(word, n, k->edition, choice, table, 5, work, needed - 1, &a,
                                      &index_) == CEGRIDOM_SHORT_TABLE);
            CHECK(a == 0 && index_ == 0 && untouched(work, needed));
            for (size_t e = 0; e < NO_EDITIONS; e++) {
                /* with enough places; with too few of either table */
                for (size_t few = 0; few < 3; few++) {
                    fill(table, 6);
                    fill(work, needed);
                    reset();
                    CHECK(in_width_best_split(word, n, no_editions[e], choice, table,
                                              few == 1 ? 0 : 5, work, few == 2 ? 0 : needed, &a,
                                              &index_) == CEGRIDOM_BAD_EDITION);
                    CHECK(a == 0 && index_ == 0 && untouched(table, 6) && untouched(work, needed));
                }
            }
        }
    }
    fill(work, 20);
    reset();
    CHECK(in_width_best_split(WORD("aaaa"), 1, 2, table, 2, work, 20, &a, &index_) == 0);
    CHECK(work[0] == 0 && work[1] == CEGRIDOM_NONE && work[2] == 1 && work[3] == 1 && work[4] == 2);
    fill(work, 28);
    reset();
    CHECK(in_width_best_split(WORD("aaaaaa"), 2, 2, table, 2, work, 28, &a, &index_) == 0);
    CHECK(work[0] == 0 && work[1] == CEGRIDOM_NONE && work[2] == CEGRIDOM_NONE && work[3] == 1 &&
          work[4] == 1 && work[5] == 1 && work[6] == 2);
    for (uint32_t choice = 0; choice <= 3; choice += 3) {
        for (uint32_t edition = 0; edition <= 3; edition++) {
            /* 12 comes before 8 and 9, and 8 before 9 */
            uint32_t result =
                edition == 1 || edition == 2 ? CEGRIDOM_BAD_CHOICE : CEGRIDOM_BAD_EDITION;
            fill(work, 20);
            reset();
            CHECK(in_width_best_split(WORD("aaaa"), edition, choice, table, 2, work, 0, &a,
                                      &index_) == result);
            CHECK(a == 0 && index_ == 0 && untouched(work, 20));
        }
    }
    for (uint32_t edition = 1; edition <= 2; edition++) {
        uint32_t turns = edition + 1, most = LENGTH / turns;
        reset();
        CHECK(in_width_best_split(longest, LENGTH, edition, CEGRIDOM_FEWEST, table, 1, work,
                                  CEGRIDOM_WORK_PLACES(LENGTH), &a, &index_) == 0);
        CHECK(a == 1 && table[0] == LENGTH && index_ == 0);
        reset();
        CHECK(in_width_best_split(longest, LENGTH, edition, CEGRIDOM_MOST, table,
                                  CEGRIDOM_MOST_ENDS(LENGTH), work,
                                  CEGRIDOM_WORK_PLACES(LENGTH), &a, &index_) == 0);
        CHECK(a == most && index_ == 0 && table[most - 1] == LENGTH);
        /* what the turns leave over is in the last block, which is to be longest */
        int even = 1;
        for (uint32_t i = 0; i + 1 < most; i++) {
            even &= table[i] == turns * (i + 1);
        }
        CHECK(even);
    }
    for (uint32_t edition = 0; edition <= 3; edition++) {
        reset();
        CHECK(in_width_best_split(longest, CEGRIDOM_LIMIT + 1, edition, 3, NULL, 0, NULL, 0, &a,
                                  &index_) == CEGRIDOM_TOO_LONG);
        CHECK(a == 0 && index_ == 0);
    }
}

/* What the calls on squares and on two words are lent of the working table, so that a place before
   it and one after it are watched too. */
static uint32_t *const scratch = work + 1;
#define SCRATCH (WORK - 2)

/* What best squares is lent for the ends, watched likewise. */
static uint32_t *const joints = table + 1;
#define JOINTS (TABLE_PLACES - 2)

/* Words and their best splits into squares, fewest and most: the best size of each leading length, a
   digit each and a dash for none, and the ends. */
struct squares_case {
    const char *word;
    struct {
        const char *sizes;
        uint32_t ends[5];
    } best[2];
};

static const struct squares_case squares_cases[] = {
    {"", {{"0", {0}}, {"0", {0}}}},
    {"a", {{"0-", {0}}, {"0-", {0}}}},
    {"aa", {{"0-1", {2}}, {"0-1", {2}}}},
    {"ab", {{"0--", {0}}, {"0--", {0}}}},
    {"aaa", {{"0-1-", {0}}, {"0-1-", {0}}}},
    {"aaaa", {{"0-1-1", {4}}, {"0-1-2", {2, 4}}}},
    {"aaaaa", {{"0-1-1-", {0}}, {"0-1-2-", {0}}}},
    {"aaaab", {{"0-1-1-", {0}}, {"0-1-2-", {0}}}},
    {"aaaaaa", {{"0-1-1-1", {6}}, {"0-1-2-3", {2, 4, 6}}}},
    {"aaaaaaaa", {{"0-1-1-1-1", {8}}, {"0-1-2-3-4", {2, 4, 6, 8}}}},
    {"abab", {{"0---1", {4}}, {"0---1", {4}}}},
    {"ababa", {{"0---1-", {0}}, {"0---1-", {0}}}},
    {"ababab", {{"0---1--", {0}}, {"0---1--", {0}}}},
    {"abababab", {{"0---1---1", {8}}, {"0---1---2", {4, 8}}}},
    {"abba", {{"0----", {0}}, {"0----", {0}}}},
    {"aabb", {{"0-1-2", {2, 4}}, {"0-1-2", {2, 4}}}},
    {"aabbaabb", {{"0-1-2-3-1", {8}}, {"0-1-2-3-4", {2, 4, 6, 8}}}},
    {"aabaab", {{"0-1---1", {6}}, {"0-1---1", {6}}}},
    {"baabaa", {{"0-----1", {6}}, {"0-----1", {6}}}},
    {"aabaabaa", {{"0-1---1-2", {2, 8}}, {"0-1---1-2", {2, 8}}}},
    /* Example 1 of source document 002 */
    {"abaababaabbbaabbbb",
     {{"0-----1---1-2-3-2-3", {6, 16, 18}}, {"0-----1---1-2-3-4-5", {10, 12, 14, 16, 18}}}},
    {"abaabaababaabaabababa",
     {{"0-----1---2-3---1---2-", {0}}, {"0-----1---2-3---3---4-", {0}}}},
    {"aabaabaacbbcbbcbb", {{"0-1---1-2-----3---", {0}}, {"0-1---1-2-----3---", {0}}}},
    {"bbabaabaabbabaabaacc",
     {{"0-1-----2---------1-2", {18, 20}}, {"0-1-----2---------1-2", {18, 20}}}},
    {"abaaabaabababbabab",
     {{"0-------1---2-3---2", {8, 18}}, {"0-------1---2-3---4", {8, 12, 14, 18}}}},
    {"aaabaaabaabbaabb",
     {{"0-1-----1-2-3-4-2", {8, 16}}, {"0-1-----1-2-3-4-5", {2, 10, 12, 14, 16}}}},
};

/* A word and what is known of its best split into squares: the best size of each leading length,
   n + 1 of them, and the ends, none where the last of these is CEGRIDOM_NONE. */
struct squared {
    const uint8_t *word;
    size_t n;
    uint32_t choice;
    const uint32_t *sizes, *ends;
};

/* The working table holds the sizes, 0 in the other places that the word needs, and all others are
   untouched. */
static int sized(const struct squared *k) {
    size_t row = k->n + 1, needed = CEGRIDOM_WORK_PLACES(k->n);
    int zero = 1;
    for (size_t i = row; i < needed; i++) {
        zero &= scratch[i] == 0;
    }
    return memcmp(scratch, k->sizes, row * sizeof *scratch) == 0 && zero && work[0] == GUARD &&
           untouched(scratch + needed, WORK - 1 - needed);
}

static void squares_asked(const struct squared *k, uint32_t choice, uint32_t *ends,
                          size_t end_places, uint32_t *lent, size_t places, uint32_t result,
                          uint32_t size) {
    fill(table, TABLE_PLACES);
    fill(work, WORK);
    reset();
    CHECK(in_width_best_squares(k->word, k->n, choice, ends, end_places, lent, places, &a,
                                &index_) == result);
    CHECK(a == size && index_ == 0);
}

static void squares_accepted(const struct squared *k, size_t end_places, size_t places) {
    uint32_t size = k->sizes[k->n];
    squares_asked(k, k->choice, joints, end_places, scratch, places, CEGRIDOM_ACCEPTED, size);
    CHECK(memcmp(joints, k->ends, size * sizeof *joints) == 0);
    CHECK(table[0] == GUARD && untouched(joints + size, TABLE_PLACES - 1 - size));
    CHECK(sized(k));
}

/* The ends keep their table; the working table is left as by an answer after 2 and 7 alone. */
static void squares_refused(const struct squared *k, uint32_t choice, uint32_t *ends,
                            size_t end_places, uint32_t *lent, size_t places, uint32_t result) {
    squares_asked(k, choice, ends, end_places, lent, places, result, 0);
    CHECK(untouched(table, TABLE_PLACES));
    if (result == CEGRIDOM_NO_SPLIT || result == CEGRIDOM_TOO_FEW_PLACES) {
        CHECK(sized(k));
    } else {
        CHECK(untouched(work, WORK));
    }
}

/* A refusal that comes before 9, 2 and 7, so whatever is lent. */
static void squares_refused_first(const struct squared *k, uint32_t choice, uint32_t result) {
    squares_refused(k, choice, NULL, 0, NULL, 0, result);
    squares_refused(k, choice, joints, JOINTS, scratch, 0, result);
    squares_refused(k, choice, NULL, 0, scratch, SCRATCH, result);
    squares_refused(k, choice, joints, JOINTS, scratch, SCRATCH, result);
}

/* A word in tables with just the places that it needs, with more, and with fewer. */
static void squares_best(const struct squared *k) {
    size_t needed = CEGRIDOM_WORK_PLACES(k->n);
    uint32_t size = k->sizes[k->n];
    if (size == CEGRIDOM_NONE) {
        /* 2 comes before 7 */
        squares_refused(k, k->choice, NULL, 0, scratch, needed, CEGRIDOM_NO_SPLIT);
        squares_refused(k, k->choice, joints, 0, scratch, needed + 1, CEGRIDOM_NO_SPLIT);
        squares_refused(k, k->choice, joints, JOINTS, scratch, SCRATCH, CEGRIDOM_NO_SPLIT);
    } else {
        squares_accepted(k, size, needed);
        squares_accepted(k, size + 1, needed + 1);
        squares_accepted(k, JOINTS, SCRATCH);
        if (size > 0) {
            squares_refused(k, k->choice, joints, size - 1, scratch, needed,
                            CEGRIDOM_TOO_FEW_PLACES);
            squares_refused(k, k->choice, joints, 0, scratch, needed + 1, CEGRIDOM_TOO_FEW_PLACES);
            squares_refused(k, k->choice, NULL, 0, scratch, SCRATCH, CEGRIDOM_TOO_FEW_PLACES);
        }
        /* the judge accepts it */
        reset();
        CHECK(in_width_judge_squares(k->word, k->n, k->ends, size, &a, &index_) ==
              CEGRIDOM_ACCEPTED);
        CHECK(a == size && index_ == 0);
    }
    /* 9 comes before 2 and 7 */
    squares_refused(k, k->choice, joints, JOINTS, scratch, needed - 1, CEGRIDOM_SHORT_TABLE);
    squares_refused(k, k->choice, NULL, 0, scratch, needed - 1, CEGRIDOM_SHORT_TABLE);
    squares_refused(k, k->choice, joints, JOINTS, NULL, 0, CEGRIDOM_SHORT_TABLE);
    for (size_t i = 0; i < NO_CHOICES; i++) {
        squares_refused_first(k, no_choices[i], CEGRIDOM_BAD_CHOICE);
    }
}

/* The squares of a split judged as blocks of edition 1, which they are where memory holds their
   units. */
static void squares_as_blocks(const struct squared *k, uint32_t result, uint32_t index) {
    uint32_t size = k->sizes[k->n];
    if (size != CEGRIDOM_NONE) {
        reset();
        CHECK(in_width_judge_split(k->word, k->n, CEGRIDOM_EDITION_1, k->ends, size, &a, &index_) ==
              result);
        CHECK(a == (result == CEGRIDOM_ACCEPTED ? size : 0) && index_ == index);
    }
}

static void test_best_squares(void) {
    static uint32_t sizes[32];
    for (size_t i = 0; i < sizeof squares_cases / sizeof *squares_cases; i++) {
        const struct squares_case *c = &squares_cases[i];
        size_t n = strlen(c->word);
        for (uint32_t choice = 1; choice <= 2; choice++) {
            const char *digits = c->best[choice - 1].sizes;
            CHECK(strlen(digits) == n + 1);
            for (size_t m = 0; m <= n; m++) {
                sizes[m] = digits[m] == '-' ? CEGRIDOM_NONE : (uint32_t)(digits[m] - '0');
            }
            const struct squared k = {n > 0 ? (const uint8_t *)c->word : NULL, n, choice, sizes,
                                      c->best[choice - 1].ends};
            squares_best(&k);
            squares_as_blocks(&k, CEGRIDOM_ACCEPTED, 0);
        }
    }
}

/* Long words, and words of symbols above 127. */
static void test_long_squares(void) {
    static uint8_t word[LENGTH], twice[512];
    static uint32_t sizes[LENGTH + 1], pairs[CEGRIDOM_MOST_ENDS(LENGTH)];
    const uint32_t whole = LENGTH;
    for (uint32_t i = 0; i < CEGRIDOM_MOST_ENDS(LENGTH); i++) {
        pairs[i] = 2 * i + 2;
    }
    for (uint32_t choice = 1; choice <= 2; choice++) {
        /* equal symbols: an even length is one square, or pairs; an odd one has no split */
        for (uint32_t m = 0; m <= LENGTH; m++) {
            sizes[m] = m % 2 == 1 ? CEGRIDOM_NONE : choice == 1 && m > 0 ? 1 : m / 2;
        }
        const struct squared equal = {longest, LENGTH, choice, sizes,
                                      choice == 1 ? &whole : pairs};
        squares_best(&equal);
        squares_as_blocks(&equal, CEGRIDOM_ACCEPTED, 0);
        const struct squared odd = {longest, LENGTH - 1, choice, sizes, NULL};
        squares_best(&odd);
        /* a...ab twice: a square that has a b has both */
        for (uint32_t m = 1; m <= LENGTH; m++) {
            word[m - 1] = m % 2048 == 0 ? 'b' : 'a';
            sizes[m] = m < 2048 ? sizes[m] : m < LENGTH ? CEGRIDOM_NONE : 1;
        }
        const struct squared half = {word, LENGTH, choice, sizes, &whole};
        squares_best(&half);
        squares_as_blocks(&half, CEGRIDOM_NOT_BLOCK, 1);
        const struct squared shorter = {word, LENGTH - 2, choice, sizes, NULL};
        squares_best(&shorter);
        /* every symbol, twice each */
        for (uint32_t m = 0; m <= sizeof twice; m++) {
            sizes[m] = m % 2 == 1 ? CEGRIDOM_NONE : m / 2;
        }
        for (size_t i = 0; i < sizeof twice; i++) {
            twice[i] = (uint8_t)(i / 2);
        }
        const struct squared every = {twice, sizeof twice, choice, sizes, pairs};
        squares_best(&every);
        squares_as_blocks(&every, CEGRIDOM_ACCEPTED, 0);
    }
    /* 1 comes before 8, 9 and 2 */
    const struct squared over = {longest, CEGRIDOM_LIMIT + 1, 0, NULL, NULL};
    for (uint32_t choice = 0; choice <= 3; choice++) {
        squares_refused_first(&over, choice, CEGRIDOM_TOO_LONG);
    }
}

/* Judges ends of squares. */
static void squares_judged(const uint8_t *word, size_t n, const uint32_t *ends, size_t count,
                           uint32_t result, uint32_t index, uint32_t squares) {
    reset();
    CHECK(in_width_judge_squares(word, n, ends, count, &a, &index_) == result);
    CHECK(a == squares && index_ == index);
}

#define SQUARES(word, result, index, squares, ...) \
    squares_judged(word, NUMBERS(__VA_ARGS__), COUNT(__VA_ARGS__), result, index, squares)

static void test_judge_squares(void) {
    SQUARES(WORD("aaaa"), CEGRIDOM_ACCEPTED, 0, 1, 4);
    SQUARES(WORD("aaaa"), CEGRIDOM_ACCEPTED, 0, 2, 2, 4);
    SQUARES(WORD("aaaa"), CEGRIDOM_NOT_BLOCK, 1, 0, 1, 4);
    SQUARES(WORD("aaaa"), CEGRIDOM_NOT_BLOCK, 1, 0, 3, 4);
    SQUARES(WORD("aaaa"), CEGRIDOM_NOT_BLOCK, 2, 0, 2, 3, 4);
    SQUARES(WORD("aaaa"), CEGRIDOM_BAD_END, 1, 0, 0);
    SQUARES(WORD("aaaa"), CEGRIDOM_BAD_END, 1, 0, 5);
    SQUARES(WORD("aaaa"), CEGRIDOM_BAD_END, 2, 0, 2, 2, 4);
    SQUARES(WORD("aaaa"), CEGRIDOM_BAD_END, 2, 0, 2, 4294967295u);
    SQUARES(WORD("aaaa"), CEGRIDOM_BAD_END, 3, 0, 2, 4, 4);
    SQUARES(WORD("aaaa"), CEGRIDOM_UNFINISHED, 0, 0, 2);
    squares_judged(WORD("aaaa"), NULL, 0, CEGRIDOM_UNFINISHED, 0, 0);
    SQUARES(WORD("aabaabaa"), CEGRIDOM_ACCEPTED, 0, 2, 2, 8);
    SQUARES(WORD("aabaabaa"), CEGRIDOM_ACCEPTED, 0, 2, 6, 8);
    /* a block with a rest, or of three turns, is not a square */
    SQUARES(WORD("aabaabaa"), CEGRIDOM_NOT_BLOCK, 1, 0, 8);
    SQUARES(WORD("ababa"), CEGRIDOM_NOT_BLOCK, 1, 0, 5);
    SQUARES(WORD("ababab"), CEGRIDOM_NOT_BLOCK, 1, 0, 6);
    SQUARES(WORD("aaa"), CEGRIDOM_NOT_BLOCK, 1, 0, 3);
    /* an even length with halves that differ, in their first or their last symbol */
    SQUARES(WORD("ab"), CEGRIDOM_NOT_BLOCK, 1, 0, 2);
    SQUARES(WORD("abba"), CEGRIDOM_NOT_BLOCK, 1, 0, 4);
    SQUARES(WORD("aabbab"), CEGRIDOM_NOT_BLOCK, 2, 0, 2, 6);
    SQUARES(WORD("aaabac"), CEGRIDOM_NOT_BLOCK, 2, 0, 2, 6);
    /* the first end that is refused; 3 and 4 of an end before 5 of them all */
    SQUARES(WORD("aabaabaa"), CEGRIDOM_NOT_BLOCK, 1, 0, 3, 3, 9);
    SQUARES(WORD("aabaabaa"), CEGRIDOM_BAD_END, 2, 0, 2, 2, 7);
    SQUARES(WORD("aabaabaa"), CEGRIDOM_BAD_END, 2, 0, 2, 9);
    SQUARES(WORD("aabaabaa"), CEGRIDOM_NOT_BLOCK, 2, 0, 2, 4);
    SQUARES(WORD("aabaabaa"), CEGRIDOM_UNFINISHED, 0, 0, 6);
    SQUARES(WORD("abaababaabbbaabbbb"), CEGRIDOM_ACCEPTED, 0, 3, 6, 16, 18);
    SQUARES(WORD("abaababaabbbaabbbb"), CEGRIDOM_ACCEPTED, 0, 4, 10, 12, 14, 18);
    SQUARES(WORD("abaababaabbbaabbbb"), CEGRIDOM_ACCEPTED, 0, 5, 10, 12, 14, 16, 18);
    SQUARES(WORD("abaababaabbbaabbbb"), CEGRIDOM_NOT_BLOCK, 3, 0, 6, 16, 17, 18);
    SQUARES(WORD("\0\377\0\377\200\200"), CEGRIDOM_ACCEPTED, 0, 2, 4, 6);
    SQUARES(WORD("\0\377\0\177"), CEGRIDOM_NOT_BLOCK, 1, 0, 4);
    /* the empty word */
    squares_judged(NULL, 0, NULL, 0, CEGRIDOM_ACCEPTED, 0, 0);
    SQUARES(WORD(""), CEGRIDOM_BAD_END, 1, 0, 0);
    SQUARES(WORD(""), CEGRIDOM_BAD_END, 1, 0, 1);
    /* long words, and 1 before all others */
    squares_judged(longest, LENGTH, NUMBERS(LENGTH), 1, CEGRIDOM_ACCEPTED, 0, 1);
    squares_judged(longest, LENGTH, NUMBERS(2, LENGTH), 2, CEGRIDOM_ACCEPTED, 0, 2);
    squares_judged(longest, LENGTH, NUMBERS(2, LENGTH - 1), 2, CEGRIDOM_NOT_BLOCK,
                   2, 0);
    squares_judged(longest, LENGTH, NUMBERS(CEGRIDOM_LIMIT + 1), 1, CEGRIDOM_BAD_END, 1, 0);
    squares_judged(longest, CEGRIDOM_LIMIT + 1, NUMBERS(CEGRIDOM_LIMIT + 1), 1, CEGRIDOM_TOO_LONG,
                   0, 0);
    squares_judged(longest, CEGRIDOM_LIMIT + 1, NUMBERS(0), 1, CEGRIDOM_TOO_LONG, 0, 0);
    squares_judged(longest, CEGRIDOM_LIMIT + 1, NULL, 0, CEGRIDOM_TOO_LONG, 0, 0);
}

/* The first places of what is lent are 0, and all others untouched. */
static int cleared(size_t count) {
    int zero = 1;
    for (size_t i = 0; i < count; i++) {
        zero &= scratch[i] == 0;
    }
    return zero && work[0] == GUARD && untouched(scratch + count, WORK - 1 - count);
}

/* A word and what is known of its fewest split: the size, CEGRIDOM_NONE for none, and the first end,
   0 for none. */
struct layup {
    const uint8_t *word;
    size_t n;
    uint32_t size, end;
};

static size_t longer(const struct layup *k, const struct layup *l) {
    return k->n > l->n ? k->n : l->n;
}

/* Both calls on two words: the result of which first, and which word and how long its first block
   is, both 0 where which first refuses. */
static void paired(const struct layup *k, const struct layup *l, uint32_t edition, uint32_t *lent,
                   size_t places, uint32_t result, uint32_t which, uint32_t length) {
    size_t changed = result == CEGRIDOM_ACCEPTED || result == CEGRIDOM_NO_SPLIT
                         ? CEGRIDOM_WORK_PLACES(longer(k, l))
                         : 0;
    fill(work, WORK);
    reset();
    CHECK(in_width_which_first(k->word, k->n, l->word, l->n, edition, lent, places, &a, &index_) ==
          result);
    CHECK(a == which && index_ == 0);
    CHECK(cleared(changed));
    fill(work, WORK);
    reset();
    CHECK(in_width_first_block(k->word, k->n, l->word, l->n, edition, lent, places, &a, &b) ==
          CEGRIDOM_ACCEPTED);
    CHECK(a == which && b == length);
    CHECK(cleared(changed));
}

/* A refusal that changes nothing, with no table, with just the places that are needed, and with
   more. */
static void pair_refused(const struct layup *k, const struct layup *l, uint32_t edition,
                         uint32_t result) {
    size_t needed = CEGRIDOM_WORK_PLACES(longer(k, l));
    paired(k, l, edition, NULL, 0, result, 0, 0);
    paired(k, l, edition, scratch, 0, result, 0, 0);
    /* no more than there are: a word over the limit needs more */
    paired(k, l, edition, scratch, needed < SCRATCH ? needed : SCRATCH - 1, result, 0, 0);
    paired(k, l, edition, scratch, SCRATCH, result, 0, 0);
}

/* Two words in tables with just the places that they need, with more, for all but the longest since
   each call takes its time, and with fewer. What the shorter needs is too few for the longer. */
static void chosen(const struct layup *k, const struct layup *l, uint32_t edition) {
    size_t needed = CEGRIDOM_WORK_PLACES(longer(k, l));
    size_t fewer = CEGRIDOM_WORK_PLACES(k->n + l->n - longer(k, l));
    uint32_t result = CEGRIDOM_ACCEPTED, which = 1, length = k->end;
    if (k->size == CEGRIDOM_NONE && l->size == CEGRIDOM_NONE) {
        result = CEGRIDOM_NO_SPLIT;
        which = length = 0;
    } else if (k->size == CEGRIDOM_NONE || (l->size != CEGRIDOM_NONE && l->size < k->size)) {
        which = 2;
        length = l->end;
    }
    paired(k, l, edition, scratch, needed, result, which, length);
    if (longer(k, l) < LENGTH) {
        paired(k, l, edition, scratch, needed + 1, result, which, length);
        paired(k, l, edition, scratch, SCRATCH, result, which, length);
    }
    paired(k, l, edition, scratch, needed - 1, CEGRIDOM_SHORT_TABLE, 0, 0);
    paired(k, l, edition, NULL, 0, CEGRIDOM_SHORT_TABLE, 0, 0);
    if (fewer < needed) {
        paired(k, l, edition, scratch, fewer, CEGRIDOM_SHORT_TABLE, 0, 0);
    }
}

static struct layup layup_of(const struct best_case *k) {
    size_t n = strlen(k->word);
    const struct layup known = {n > 0 ? (const uint8_t *)k->word : NULL, n, k->fewest,
                                k->fewest_ends[0]};
    return known;
}

/* Both calls on two words of letters, and what they are to give. */
static void wound(const char *first, const char *second, uint32_t edition, uint32_t result,
                  uint32_t which, uint32_t length) {
    const struct layup k = {(const uint8_t *)first, strlen(first), 0, 0};
    const struct layup l = {(const uint8_t *)second, strlen(second), 0, 0};
    paired(&k, &l, edition, scratch, SCRATCH, result, which, length);
}

static void test_two_words(void) {
    wound("aabaabaa", "abaabaababaabaabababa", 1, CEGRIDOM_ACCEPTED, 1, 8);
    wound("abaabaababaabaabababa", "aabaabaa", 1, CEGRIDOM_ACCEPTED, 2, 8);
    /* ties */
    wound("abaabaababaabaabababa", "aabb", 1, CEGRIDOM_ACCEPTED, 1, 16);
    wound("aabb", "abaabaababaabaabababa", 1, CEGRIDOM_ACCEPTED, 1, 2);
    wound("aabaabaa", "aabaabaa", 1, CEGRIDOM_ACCEPTED, 1, 8);
    /* only one can be split, or neither */
    wound("ab", "aabb", 1, CEGRIDOM_ACCEPTED, 2, 2);
    wound("aabb", "ab", 1, CEGRIDOM_ACCEPTED, 1, 2);
    wound("ab", "baa", 1, CEGRIDOM_NO_SPLIT, 0, 0);
    /* the empty word has no blocks */
    wound("", "aabaabaa", 1, CEGRIDOM_ACCEPTED, 1, 0);
    wound("aabaabaa", "", 1, CEGRIDOM_ACCEPTED, 2, 0);
    wound("ab", "", 1, CEGRIDOM_ACCEPTED, 2, 0);
    wound("", "", 1, CEGRIDOM_ACCEPTED, 1, 0);
    /* the edition decides */
    wound("aabaabaa", "aaabbb", 1, CEGRIDOM_ACCEPTED, 1, 8);
    wound("aabaabaa", "aaabbb", 2, CEGRIDOM_ACCEPTED, 2, 3);
    wound("aabaabaa", "aabb", 2, CEGRIDOM_NO_SPLIT, 0, 0);
    wound("aaaabababab", "aaaabbb", 2, CEGRIDOM_ACCEPTED, 1, 3);
    wound("aaaabbb", "aaaabababab", 2, CEGRIDOM_ACCEPTED, 1, 4);
    /* every two of the words that best split is tried on; 12 comes before 9 and 2 */
    for (size_t i = 0; i < sizeof best_cases / sizeof *best_cases; i++) {
        for (size_t j = 0; j < sizeof best_cases / sizeof *best_cases; j++) {
            const struct layup k = layup_of(&best_cases[i]), l = layup_of(&best_cases[j]);
            if (best_cases[i].edition == best_cases[j].edition) {
                chosen(&k, &l, best_cases[i].edition);
                pair_refused(&k, &l, no_editions[(i + j) % NO_EDITIONS], CEGRIDOM_BAD_EDITION);
            }
        }
    }
}

/* Words of many blocks, of symbols above 127, that overlap, and long ones. */
static void test_long_pairs(void) {
    static uint8_t twice[512], thrice[768], square[LENGTH], block[LENGTH];
    for (size_t i = 0; i < sizeof twice; i++) {
        twice[i] = (uint8_t)(i / 2);
    }
    for (size_t i = 0; i < sizeof thrice; i++) {
        thrice[i] = (uint8_t)(i / 3);
    }
    /* the unit of the square is too long for a block */
    for (size_t i = 0; i < LENGTH; i++) {
        square[i] = i % 2048 == 2047 ? 254 : 255;
        block[i] = i % UNIT_MEMORY == UNIT_MEMORY - 1 ? 254 : 255;
    }
    const struct layup first[] = {
        {NULL, 0, 0, 0},
        {twice, 512, 256, 2},
        {twice + 2, 510, 255, 2},
        {twice + 510, 2, 1, 2},
        {twice + 511, 1, CEGRIDOM_NONE, 0},
        {thrice, 768, 256, 3},
        {thrice + 1, 767, 256, 2},
        {longest, LENGTH, 1, LENGTH},
        {block, LENGTH, 1, LENGTH},
        {square, LENGTH, CEGRIDOM_NONE, 0},
        {square + 2048, 2048, CEGRIDOM_NONE, 0},
    };
    const size_t firsts = sizeof first / sizeof *first;
    for (size_t i = 0; i < firsts; i++) {
        for (size_t j = 0; j < firsts; j++) {
            chosen(&first[i], &first[j], CEGRIDOM_EDITION_1);
        }
    }
    const struct layup second[] = {
        {NULL, 0, 0, 0},
        {twice, 512, CEGRIDOM_NONE, 0},
        {thrice, 768, 256, 3},
        {thrice + 3, 765, 255, 3},
        {thrice + 1, 767, CEGRIDOM_NONE, 0},
        {longest, LENGTH, 1, LENGTH},
        {block, LENGTH, 1, LENGTH},
        {square, LENGTH, CEGRIDOM_NONE, 0},
    };
    const size_t seconds = sizeof second / sizeof *second;
    for (size_t i = 0; i < seconds; i++) {
        for (size_t j = 0; j < seconds; j++) {
            chosen(&second[i], &second[j], CEGRIDOM_EDITION_2);
        }
    }
    /* 1, for either word, comes before 12, 9 and 2 */
    const struct layup over = {longest, CEGRIDOM_LIMIT + 1, CEGRIDOM_NONE, 0};
    for (uint32_t edition = 0; edition <= 3; edition++) {
        for (size_t i = 0; i < firsts; i++) {
            pair_refused(&over, &first[i], edition, CEGRIDOM_TOO_LONG);
            pair_refused(&first[i], &over, edition, CEGRIDOM_TOO_LONG);
        }
        pair_refused(&over, &over, edition, CEGRIDOM_TOO_LONG);
    }
}

/* What the page call is lent, so that a byte before it and one after it are watched too. */
static uint8_t *const paper = page + 1;
#define PAPER (sizeof page - 2)

static int blank(const uint8_t *bytes, size_t count) {
    for (size_t i = 0; i < count; i++) {
        if (bytes[i] != '.') {
            return 0;
        }
    }
    return 1;
}

/* The page of codes, from that of bytes: the first four symbols of each unit in the last column. */
static const char *spelt(const uint8_t *word, size_t count, const char *text) {
    static char lines[CEGRIDOM_PAGE_BYTES(CEGRIDOM_MOST_ENDS(LENGTH)) + 1];
    if (spelling == BYTES) {
        return text;
    }
    for (size_t i = 0; i < count; i++) {
        const char *from = text + CEGRIDOM_PAGE_BYTES(i);
        char *line = lines + CEGRIDOM_PAGE_BYTES(i), shown[20] = "";
        unsigned first, unit;
        CHECK(sscanf(from, "%*6u%6u%*6u%6u", &first, &unit) == 2);
        for (unsigned k = 0; k < unit && k < 4; k++) {
            snprintf(shown + 4 * k, 5, "%04x", (unsigned)code_of(word[first - 1 + k]));
        }
        snprintf(line, CEGRIDOM_PAGE_BYTES(1) + 1, "%.42s%-18s\n", from, shown);
    }
    return lines;
}

static void page_accepted(const uint8_t *word, size_t n, uint32_t edition, const uint32_t *ends,
                          size_t count, size_t room, const char *text) {
    size_t bytes = CEGRIDOM_PAGE_BYTES(count);
    memset(page, '.', sizeof page);
    reset();
    CHECK(in_width_write_page(word, n, edition, ends, count, paper, room, &a, &index_) ==
          CEGRIDOM_ACCEPTED);
    CHECK(a == bytes && index_ == 0);
    CHECK(memcmp(paper, spelt(word, count, text), bytes) == 0);
    CHECK(page[0] == '.' && blank(paper + bytes, sizeof page - 1 - bytes));
}

static void page_refused(const uint8_t *word, size_t n, uint32_t edition, const uint32_t *ends,
                         size_t count, uint8_t *lent, size_t room, uint32_t result,
                         uint32_t index) {
    memset(page, '.', sizeof page);
    reset();
    CHECK(in_width_write_page(word, n, edition, ends, count, lent, room, &a, &index_) == result);
    CHECK(a == 0 && index_ == index && blank(page, sizeof page));
}

/* A refusal that comes before 7, so whatever is lent. */
static void page_refused_first(const uint8_t *word, size_t n, uint32_t edition,
                               const uint32_t *ends, size_t count, uint32_t result,
                               uint32_t index) {
    page_refused(word, n, edition, ends, count, NULL, 0, result, index);
    page_refused(word, n, edition, ends, count, paper, 0, result, index);
    page_refused(word, n, edition, ends, count, paper, CEGRIDOM_PAGE_BYTES(count), result, index);
    page_refused(word, n, edition, ends, count, paper, PAPER, result, index);
}

/* Judges ends of a word. */
static void judged(const char *text, uint32_t edition, const uint32_t *ends, size_t count,
                   uint32_t result, uint32_t index, uint32_t blocks) {
    const uint8_t *word = (const uint8_t *)text;
    size_t n = strlen(text);
    reset();
    CHECK(in_width_judge_split(word, n, edition, ends, count, &a, &index_) == result);
    CHECK(a == blocks && index_ == index);
    /* path of a split refuses the same */
    fill(table, 5);
    reset();
    CHECK(in_width_path_of_split(word, n, edition, ends, count, table, 4, &a, &index_) == result);
    CHECK(a == blocks && index_ == index);
    CHECK(result == 0 || untouched(table, 5));
    /* and so does write a page */
    size_t bytes = CEGRIDOM_PAGE_BYTES(blocks);
    memset(page, '.', sizeof page);
    reset();
    CHECK(in_width_write_page(word, n, edition, ends, count, paper, CEGRIDOM_PAGE_BYTES(4), &a,
                              &index_) == result);
    CHECK(a == bytes && index_ == index);
    CHECK(page[0] == '.' && blank(paper + bytes, sizeof page - 1 - bytes));
    if (result != 0) {
        page_refused_first(word, n, edition, ends, count, result, index);
    }
}

#define JUDGED(text, edition, result, index, blocks, ...) \
    judged(text, edition, NUMBERS(__VA_ARGS__), COUNT(__VA_ARGS__), result, index, blocks)

static void test_judge_split(void) {
    JUDGED("aabaabaa", 1, CEGRIDOM_ACCEPTED, 0, 1, 8);
    JUDGED("aabaabaa", 1, CEGRIDOM_ACCEPTED, 0, 2, 2, 8);
    JUDGED("aabaabaa", 1, CEGRIDOM_ACCEPTED, 0, 2, 6, 8);
    JUDGED("aabaabaa", 1, CEGRIDOM_NOT_BLOCK, 1, 0, 3, 8);
    JUDGED("aabaabaa", 1, CEGRIDOM_BAD_END, 2, 0, 2, 2, 8);
    JUDGED("aabaabaa", 1, CEGRIDOM_BAD_END, 2, 0, 2, 9);
    JUDGED("aabaabaa", 1, CEGRIDOM_BAD_END, 1, 0, 0);
    JUDGED("aabaabaa", 1, CEGRIDOM_UNFINISHED, 0, 0, 2);
    judged("aabaabaa", 1, NULL, 0, CEGRIDOM_UNFINISHED, 0, 0);
    JUDGED("aabaabaacbbcbbcbb", 1, CEGRIDOM_ACCEPTED, 0, 4, 6, 8, 15, 17);
    JUDGED("aabaabaa", 2, CEGRIDOM_NOT_BLOCK, 1, 0, 8);
    JUDGED("aabaabaa", 2, CEGRIDOM_NOT_BLOCK, 1, 0, 2, 2, 8);
    JUDGED("aabaabaa", 2, CEGRIDOM_BAD_END, 1, 0, 9);
    judged("aabaabaa", 2, NULL, 0, CEGRIDOM_UNFINISHED, 0, 0);
    JUDGED(BOTH, 2, CEGRIDOM_ACCEPTED, 0, 2, 6, 13);
    JUDGED(BOTH, 2, CEGRIDOM_ACCEPTED, 0, 2, 7, 13);
    JUDGED(BOTH, 2, CEGRIDOM_ACCEPTED, 0, 3, 3, 6, 13);
    JUDGED(BOTH, 1, CEGRIDOM_ACCEPTED, 0, 3, 2, 6, 13);
    JUDGED(BOTH, 2, CEGRIDOM_NOT_BLOCK, 1, 0, 2, 6, 13);
    JUDGED(BOTH, 1, CEGRIDOM_NOT_BLOCK, 3, 0, 6, 11, 13);
    JUDGED(BOTH, 2, CEGRIDOM_NOT_BLOCK, 2, 0, 6, 11, 13);
    JUDGED(BOTH, 2, CEGRIDOM_BAD_END, 2, 0, 6, 6, 13);
    JUDGED(BOTH, 2, CEGRIDOM_BAD_END, 2, 0, 6, 14);
    JUDGED(BOTH, 2, CEGRIDOM_UNFINISHED, 0, 0, 6, 12);
    for (size_t i = 0; i < NO_EDITIONS; i++) {
        /* 12 comes before 3, 4, 5 and 7 */
        JUDGED("aabaabaa", no_editions[i], CEGRIDOM_BAD_EDITION, 0, 0, 2, 8);
        JUDGED("aabaabaa", no_editions[i], CEGRIDOM_BAD_EDITION, 0, 0, 0);
        JUDGED("aabaabaa", no_editions[i], CEGRIDOM_BAD_EDITION, 0, 0, 3, 8);
        judged("aabaabaa", no_editions[i], NULL, 0, CEGRIDOM_BAD_EDITION, 0, 0);
        judged("", no_editions[i], NULL, 0, CEGRIDOM_BAD_EDITION, 0, 0);
        fill(table, 4);
        reset();
        CHECK(in_width_path_of_split(WORD("aabaabaa"), no_editions[i], NUMBERS(2, 8), 2, table, 1,
                                     &a, &index_) == CEGRIDOM_BAD_EDITION);
        CHECK(a == 0 && index_ == 0 && untouched(table, 4));
    }
    for (uint32_t edition = 1; edition <= 2; edition++) {
        reset();
        CHECK(in_width_judge_split(NULL, 0, edition, NULL, 0, &a, &index_) == CEGRIDOM_ACCEPTED);
        CHECK(a == 0 && index_ == 0);
    }
    for (uint32_t edition = 0; edition <= 3; edition++) {
        reset();
        CHECK(in_width_judge_split(longest, CEGRIDOM_LIMIT + 1, edition, NUMBERS(0), 1, &a,
                                   &index_) == CEGRIDOM_TOO_LONG);
        CHECK(a == 0 && index_ == 0);
    }
}

/* The run numbers of a split's blocks, in a table with just the places that they need. */
static void numbered(const char *text, uint32_t edition, const uint32_t *ends,
                     const uint32_t *numbers, size_t count) {
    const uint8_t *word = (const uint8_t *)text;
    size_t n = strlen(text);
    fill(table, 4);
    reset();
    CHECK(in_width_path_of_split(word, n, edition, ends, count, table, count, &a, &index_) == 0);
    CHECK(a == count && index_ == 0 && begins(table, numbers, count));
    fill(table, 4);
    reset();
    CHECK(in_width_path_of_split(word, n, edition, ends, count, table, count - 1, &a, &index_) ==
          CEGRIDOM_TOO_FEW_PLACES);
    CHECK(a == 0 && index_ == 0 && untouched(table, 4));
}

static void test_path_of_split(void) {
    numbered("aabaabaa", 1, NUMBERS(2, 8), NUMBERS(1, 2), 2);
    numbered("aabaabaa", 1, NUMBERS(6, 8), NUMBERS(2, 4), 2);
    numbered(BOTH, 1, NUMBERS(6, 13), NUMBERS(1, 2), 2);
    numbered(BOTH, 2, NUMBERS(6, 13), NUMBERS(1, 2), 2);
    numbered(BOTH, 2, NUMBERS(3, 6, 13), NUMBERS(1, 1, 2), 3);
    numbered("aabaabaab", 2, NUMBERS(9), NUMBERS(2), 1);
    fill(table, 4);
    reset();
    CHECK(in_width_path_of_split(WORD("aabaabaa"), 1, NUMBERS(6, 8), 2, table, 3, &a, &index_) ==
          0);
    CHECK(a == 2 && index_ == 0 && BEGINS(table, 2, 4));
    for (uint32_t edition = 1; edition <= 2; edition++) {
        reset();
        CHECK(in_width_path_of_split(NULL, 0, edition, NULL, 0, NULL, 0, &a, &index_) ==
              CEGRIDOM_ACCEPTED);
        CHECK(a == 0 && index_ == 0);
    }
    for (uint32_t edition = 0; edition <= 3; edition++) {
        reset();
        CHECK(in_width_path_of_split(longest, CEGRIDOM_LIMIT + 1, edition, NULL, 0, NULL, 0, &a,
                                     &index_) == CEGRIDOM_TOO_LONG);
        CHECK(a == 0 && index_ == 0);
    }
}

/* Judges a path of a word. */
static void followed(const char *text, uint32_t edition, const uint32_t *numbers, size_t count,
                     uint32_t result, uint32_t index, uint32_t blocks) {
    reset();
    CHECK(in_width_judge_path((const uint8_t *)text, strlen(text), edition, numbers, count, &a,
                              &index_) == result);
    CHECK(a == blocks && index_ == index);
}

#define FOLLOWED(text, edition, result, index, blocks, ...) \
    followed(text, edition, NUMBERS(__VA_ARGS__), COUNT(__VA_ARGS__), result, index, blocks)

static void test_judge_path(void) {
    FOLLOWED("aabaabaa", 1, CEGRIDOM_ACCEPTED, 0, 1, 2, 8);
    FOLLOWED("aabaabaa", 1, CEGRIDOM_ACCEPTED, 0, 2, 1, 2, 2, 8);
    FOLLOWED("aabaabaa", 1, CEGRIDOM_ACCEPTED, 0, 2, 2, 6, 4, 8);
    FOLLOWED("aabaabaa", 1, CEGRIDOM_ODD_PATH, 0, 0, 0);
    FOLLOWED("aabaabaa", 1, CEGRIDOM_ODD_PATH, 0, 0, 1, 2, 2);
    FOLLOWED("aabaabaa", 1, CEGRIDOM_BAD_END, 1, 0, 0, 0);
    FOLLOWED("aabaabaa", 1, CEGRIDOM_BAD_END, 2, 0, 1, 2, 2, 2);
    FOLLOWED("aabaabaa", 1, CEGRIDOM_BAD_END, 1, 0, 2, 9);
    FOLLOWED("aabaabaa", 1, CEGRIDOM_NOT_BLOCK, 1, 0, 0, 8);
    FOLLOWED("aabaabaa", 1, CEGRIDOM_NOT_BLOCK, 1, 0, 5, 8);
    FOLLOWED("aabaabaa", 1, CEGRIDOM_NOT_BLOCK, 1, 0, 1, 8);
    FOLLOWED("aabaabaa", 1, CEGRIDOM_NOT_BLOCK, 1, 0, 2, 5);
    FOLLOWED("aabaabaa", 1, CEGRIDOM_NOT_BLOCK, 2, 0, 1, 2, 4, 8);
    FOLLOWED("aabaabaa", 1, CEGRIDOM_UNFINISHED, 0, 0, 1, 2);
    followed("aabaabaa", 1, NULL, 0, CEGRIDOM_UNFINISHED, 0, 0);
    FOLLOWED("aabaabaa", 2, CEGRIDOM_NOT_BLOCK, 1, 0, 2, 8);
    FOLLOWED("aabaabaa", 2, CEGRIDOM_NOT_BLOCK, 1, 0, 1, 2, 2, 8);
    FOLLOWED("aabaabaab", 2, CEGRIDOM_ACCEPTED, 0, 1, 2, 9);
    FOLLOWED("aabaabaab", 2, CEGRIDOM_NOT_BLOCK, 1, 0, 2, 8);
    FOLLOWED(BOTH, 2, CEGRIDOM_ACCEPTED, 0, 2, 1, 6, 2, 13);
    FOLLOWED(BOTH, 2, CEGRIDOM_ACCEPTED, 0, 2, 1, 7, 2, 13);
    FOLLOWED(BOTH, 2, CEGRIDOM_ACCEPTED, 0, 3, 1, 3, 1, 6, 2, 13);
    FOLLOWED(BOTH, 1, CEGRIDOM_ACCEPTED, 0, 3, 1, 2, 1, 6, 2, 13);
    FOLLOWED(BOTH, 2, CEGRIDOM_NOT_BLOCK, 1, 0, 1, 2, 1, 6, 2, 13);
    FOLLOWED(BOTH, 1, CEGRIDOM_UNFINISHED, 0, 0, 1, 6, 2, 11);
    FOLLOWED(BOTH, 2, CEGRIDOM_NOT_BLOCK, 2, 0, 1, 6, 2, 11);
    FOLLOWED(BOTH, 2, CEGRIDOM_UNFINISHED, 0, 0, 1, 6, 2, 12);
    FOLLOWED(BOTH, 2, CEGRIDOM_NOT_BLOCK, 1, 0, 2, 6);
    FOLLOWED(BOTH, 2, CEGRIDOM_NOT_BLOCK, 1, 0, 0, 13);
    FOLLOWED(BOTH, 2, CEGRIDOM_NOT_BLOCK, 1, 0, 3, 13);
    FOLLOWED(BOTH, 2, CEGRIDOM_BAD_END, 2, 0, 1, 6, 2, 6);
    FOLLOWED(BOTH, 2, CEGRIDOM_BAD_END, 2, 0, 1, 6, 2, 14);
    FOLLOWED(BOTH, 2, CEGRIDOM_ODD_PATH, 0, 0, 1, 6, 2);
    followed(BOTH, 2, NULL, 0, CEGRIDOM_UNFINISHED, 0, 0);
    for (size_t i = 0; i < NO_EDITIONS; i++) {
        /* 12 comes before 10, 3, 4 and 5 */
        FOLLOWED("aabaabaa", no_editions[i], CEGRIDOM_BAD_EDITION, 0, 0, 2, 8);
        FOLLOWED("aabaabaa", no_editions[i], CEGRIDOM_BAD_EDITION, 0, 0, 0);
        FOLLOWED("aabaabaa", no_editions[i], CEGRIDOM_BAD_EDITION, 0, 0, 0, 0);
        FOLLOWED("aabaabaa", no_editions[i], CEGRIDOM_BAD_EDITION, 0, 0, 0, 8);
        followed("aabaabaa", no_editions[i], NULL, 0, CEGRIDOM_BAD_EDITION, 0, 0);
    }
    for (uint32_t edition = 1; edition <= 2; edition++) {
        reset();
        CHECK(in_width_judge_path(NULL, 0, edition, NULL, 0, &a, &index_) == CEGRIDOM_ACCEPTED);
        CHECK(a == 0 && index_ == 0);
    }
    for (uint32_t edition = 0; edition <= 3; edition++) {
        reset();
        CHECK(in_width_judge_path(longest, CEGRIDOM_LIMIT + 1, edition, NUMBERS(1), 1, &a,
                                  &index_) == CEGRIDOM_TOO_LONG);
        CHECK(a == 0 && index_ == 0);
    }
}

/* The page of a split, in just the bytes that it needs, in more, and in fewer. */
static void paged(const uint8_t *word, size_t n, uint32_t edition, const uint32_t *ends,
                  size_t count, const char *text) {
    size_t bytes = CEGRIDOM_PAGE_BYTES(count);
    CHECK(strlen(text) == bytes);
    page_accepted(word, n, edition, ends, count, bytes, text);
    page_accepted(word, n, edition, ends, count, bytes + 1, text);
    page_accepted(word, n, edition, ends, count, PAPER, text);
    page_refused(word, n, edition, ends, count, paper, bytes - 1, CEGRIDOM_TOO_FEW_PLACES, 0);
    page_refused(word, n, edition, ends, count, paper, 0, CEGRIDOM_TOO_FEW_PLACES, 0);
    page_refused(word, n, edition, ends, count, NULL, 0, CEGRIDOM_TOO_FEW_PLACES, 0);
}

#define PAGED(word, edition, text, ...) \
    paged(word, edition, NUMBERS(__VA_ARGS__), COUNT(__VA_ARGS__), text)

static void test_write_page(void) {
    CHECK(CEGRIDOM_PAGE_BYTES(0) == 0 && CEGRIDOM_PAGE_BYTES(1) == 61);
    CHECK(2 * CEGRIDOM_PAGE_BYTES(1 + 2) == 366);
    PAGED(WORD("aabaabaa"), 1,
          "     1     1     2     1     2     0     161                \n"
          "     2     3     8     3     2     0     2626161            \n",
          2, 8);
    PAGED(WORD("aabaabaa"), 1,
          "     1     1     6     3     2     0     2616162            \n"
          "     2     7     8     1     2     0     461                \n",
          6, 8);
    PAGED(WORD("aabaabaa"), 1, "     1     1     8     3     2     2     2616162            \n", 8);
    PAGED(WORD(BOTH), 1,
          "     1     1     2     1     2     0     161                \n"
          "     2     3     6     1     4     0     161                \n"
          "     3     7    13     2     3     1     26162              \n",
          2, 6, 13);
    PAGED(WORD(BOTH), 2,
          "     1     1     3     1     3     0     161                \n"
          "     2     4     6     1     3     0     161                \n"
          "     3     7    13     2     3     1     26162              \n",
          3, 6, 13);
    PAGED(WORD("aabaabaab"), 2, "     1     1     9     3     3     0     2616162            \n",
          9);
    /* units of eight symbols, nine, ten and twelve: no more than nine are shown */
    PAGED(WORD("abcdefghabcdefgh"), 1,
          "     1     1    16     8     2     0     16162636465666768  \n", 16);
    PAGED(WORD("abcdefghiabcdefghi"), 1,
          "     1     1    18     9     2     0     1616263646566676869\n", 18);
    PAGED(WORD("abcdefghijabcdefghijabc"), 1,
          "     1     1    23    10     2     3     1616263646566676869\n", 23);
    PAGED(WORD("zzabcdefghijklabcdefghijklabcdefghijklabcdefghijk"), 1,
          "     1     1     2     1     2     0     17a                \n"
          "     2     3    49    12     3    11     2616263646566676869\n",
          2, 49);
    PAGED(WORD("\0\t\n\377\0\t\n\377"), 1,
          "     1     1     8     4     2     0     100090aff          \n", 8);
    PAGED(WORD("\377\377\377\n\0\t\n\0\t\n\0\t\n"), 2,
          "     1     1     3     1     3     0     1ff                \n"
          "     2     4    13     3     3     1     20a0009            \n",
          3, 13);
    /* every symbol */
    for (uint32_t symbol = 0; symbol < 256; symbol++) {
        for (uint32_t edition = 1; edition <= 2; edition++) {
            uint32_t turns = edition + 1;
            uint8_t word[3];
            char line[CEGRIDOM_PAGE_BYTES(1) + 1];
            memset(word, (int)symbol, sizeof word);
            snprintf(line, sizeof line, "%6u%6u%6u%6u%6u%6u%6u%02x%16s\n", 1, 1, turns, 1, turns, 0,
                     1, symbol, "");
            page_accepted(word, turns, edition, &turns, 1, CEGRIDOM_PAGE_BYTES(1), line);
        }
    }
    /* the empty page */
    for (uint32_t edition = 1; edition <= 2; edition++) {
        reset();
        CHECK(in_width_write_page(NULL, 0, edition, NULL, 0, NULL, 0, &a, &index_) ==
              CEGRIDOM_ACCEPTED);
        CHECK(a == 0 && index_ == 0);
        page_accepted(NULL, 0, edition, NULL, 0, 0, "");
        page_accepted(NULL, 0, edition, NULL, 0, PAPER, "");
        page_refused_first(NULL, 0, edition, NUMBERS(0), 1, CEGRIDOM_BAD_END, 1);
        page_refused_first(NULL, 0, edition, NUMBERS(1), 1, CEGRIDOM_BAD_END, 1);
    }
    /* of two ends that are refused, the first; 3 and 4 of an end before 5 of them all */
    page_refused_first(WORD("aabaabaa"), 1, NUMBERS(3, 3, 9), 3, CEGRIDOM_NOT_BLOCK, 1);
    page_refused_first(WORD("aabaabaa"), 1, NUMBERS(2, 2, 7), 3, CEGRIDOM_BAD_END, 2);
    page_refused_first(WORD("aabaabaa"), 1, NUMBERS(2, 4), 2, CEGRIDOM_NOT_BLOCK, 2);
    page_refused_first(WORD("aabaabaa"), 1, NUMBERS(8, 8), 2, CEGRIDOM_BAD_END, 2);
    page_refused_first(WORD("aabaabaa"), 1, NUMBERS(6), 1, CEGRIDOM_UNFINISHED, 0);
    page_refused_first(WORD("aabaabaa"), 2, NUMBERS(2, 8), 2, CEGRIDOM_NOT_BLOCK, 1);
    for (size_t i = 0; i < NO_EDITIONS; i++) {
        page_refused_first(WORD("aabaabaa"), no_editions[i], NUMBERS(2, 8), 2, CEGRIDOM_BAD_EDITION,
                           0);
        page_refused_first(NULL, 0, no_editions[i], NULL, 0, CEGRIDOM_BAD_EDITION, 0);
    }
    for (uint32_t edition = 0; edition <= 3; edition++) {
        /* 1 comes before 12, 3, 4, 5 and 7 */
        page_refused_first(longest, CEGRIDOM_LIMIT + 1, edition, NULL, 0, CEGRIDOM_TOO_LONG, 0);
        page_refused_first(longest, CEGRIDOM_LIMIT + 1, edition, NUMBERS(0), 1, CEGRIDOM_TOO_LONG,
                           0);
        page_refused_first(longest, CEGRIDOM_LIMIT + 1, edition, NUMBERS(CEGRIDOM_LIMIT + 1), 1,
                           CEGRIDOM_TOO_LONG, 0);
    }
}

/* Numbers of one digit to four, in each column. */
static void test_longest_page(void) {
    static uint8_t word[LENGTH];
    static uint32_t ends[CEGRIDOM_MOST_ENDS(LENGTH)];
    static char text[CEGRIDOM_PAGE_BYTES(CEGRIDOM_MOST_ENDS(LENGTH)) + 1];
    /* equal symbols, and the most blocks of them */
    for (uint32_t edition = 1; edition <= 2; edition++) {
        uint32_t turns = edition + 1, most = LENGTH / turns, before = 0;
        for (uint32_t i = 0; i < most; i++) {
            ends[i] = i + 1 < most ? before + turns : LENGTH;
            snprintf(text + CEGRIDOM_PAGE_BYTES(i), CEGRIDOM_PAGE_BYTES(1) + 1,
                     "%6u%6u%6u%6u%6u%6u%6u%-18s\n", i + 1, before + 1, ends[i], 1,
                     ends[i] - before, 0, 1, "61");
            before = ends[i];
        }
        paged(longest, LENGTH, edition, ends, most, text);
    }
    paged(longest, LENGTH, 1, NUMBERS(LENGTH), 1,
          "     1     1  4096     1  4096     0     161                \n");
    /* aabbaabb...: a run for each pair, and the whole word is run 2 */
    for (uint32_t i = 0; i < CEGRIDOM_MOST_ENDS(LENGTH); i++) {
        word[2 * i] = word[2 * i + 1] = i % 2 == 0 ? 'a' : 'b';
        ends[i] = 2 * i + 2;
        snprintf(text + CEGRIDOM_PAGE_BYTES(i), CEGRIDOM_PAGE_BYTES(1) + 1,
                 "%6u%6u%6u%6u%6u%6u%6u%-18s\n", i + 1, 2 * i + 1, ends[i], 1, 2, 0,
                 i == 0 ? 1 : i + 2, i % 2 == 0 ? "61" : "62");
    }
    paged(word, LENGTH, 1, ends, CEGRIDOM_MOST_ENDS(LENGTH), text);
    /* a...ab as the unit; its equal symbols are run 1 */
    static const uint32_t spans[] = {
        9, 10, 100, UNIT_MEMORY, UNIT_MEMORY + 1, 1500, LENGTH / 2};
    for (size_t i = 0; i < sizeof spans / sizeof *spans; i++) {
        for (uint32_t p = 0; p < LENGTH; p++) {
            word[p] = p % spans[i] == spans[i] - 1 ? 'b' : 'a';
        }
        snprintf(text, sizeof text, "%6u%6u%6u%6u%6u%6u%6u%-18s\n", 1, 1, LENGTH, spans[i],
                 LENGTH / spans[i], LENGTH % spans[i], 2,
                 spans[i] == 9 ? "616161616161616162" : "616161616161616161");
        if (spans[i] <= UNIT_MEMORY) {
            paged(word, LENGTH, 1, NUMBERS(LENGTH), 1, text);
        } else {
            page_refused_first(word, LENGTH, 1, NUMBERS(LENGTH), 1,
                               CEGRIDOM_NOT_BLOCK, 1);
        }
    }
}

/* So many symbols 2, and then one symbol 1 and symbols 0, which are the unit, all wound so many
   turns. Gives the length. */
static uint32_t wind(uint8_t *word, uint32_t before, uint32_t unit, uint32_t turns) {
    uint32_t n = before + turns * unit;
    for (uint32_t i = 0; i < n; i++) {
        word[i] = i < before ? 2 : (i - before) % unit == 0;
    }
    return n;
}

/* Such a word of the edition's turns, with symbols 2 enough for a block or none: every symbol 1
   lies in the one block of the unit, or in none where memory does not hold it. */
static void held_or_not(uint32_t edition, uint32_t before, uint32_t unit) {
    static uint8_t word[1024];
    static char text[CEGRIDOM_PAGE_BYTES(2) + 1];
    uint32_t turns = edition + 1, n = wind(word, before, unit, turns);
    int held = unit <= UNIT_MEMORY;
    uint32_t whole = before > 0 ? 2 : 1, result = held ? CEGRIDOM_ACCEPTED : CEGRIDOM_NOT_BLOCK;
    uint32_t index = held ? 0 : whole, blocks = held ? whole : 0;
    const uint32_t ends[] = {before > 0 ? before : n, n};
    /* what part and runs say of it stays */
    fill(table, TABLE_PLACES);
    reset();
    CHECK(in_width_part(word, n, edition, before + 1, n, units, n - before, &a, &b, &c, &d,
                        &index_) == CEGRIDOM_ACCEPTED);
    CHECK(a == unit && b == turns && c == 0 && d == (uint32_t)held && index_ == 0);
    CHECK(units[0] == 1 && units[n - before - 1] == unit && units[n - before] == GUARD);
    fill(table, TABLE_PLACES);
    reset();
    CHECK(in_width_runs(word, n, records, TABLE_PLACES - 2, &a, &index_) == CEGRIDOM_ACCEPTED);
    const uint32_t row[] = {before + 1, n, unit, before + 2};
    CHECK(a == whole + turns && index_ == 0);
    CHECK(memcmp(records + CEGRIDOM_RUN_PLACES(whole - 1), row, sizeof row) == 0);
    /* the last symbols 0 are a run too */
    const uint32_t nodes[] = {whole, whole + turns};
    fill(table, 4);
    reset();
    CHECK(in_width_nodes(word, n, edition, n, table, 3, &a, &index_) == CEGRIDOM_ACCEPTED);
    CHECK(a == 1 + (uint32_t)held && index_ == 0 && begins(table, nodes + !held, a));
    /* the judges, the path and the page */
    reset();
    CHECK(in_width_judge_split(word, n, edition, ends, whole, &a, &index_) == result);
    CHECK(a == blocks && index_ == index);
    fill(table, 4);
    reset();
    CHECK(in_width_path_of_split(word, n, edition, ends, whole, table, 3, &a, &index_) == result);
    CHECK(a == blocks && index_ == index);
    CHECK(held ? begins(table, NUMBERS(1, 2), whole) : untouched(table, 4));
    const uint32_t path[] = {1, ends[0], 2, n};
    reset();
    CHECK(in_width_judge_path(word, n, edition, path, 2 * whole, &a, &index_) == result);
    CHECK(a == blocks && index_ == index);
    if (held) {
        snprintf(text, sizeof text, "%6u%6u%6u%6u%6u%6u%6u%-18s\n", 1, 1, before, 1, before, 0, 1,
                 "02");
        snprintf(text + CEGRIDOM_PAGE_BYTES(whole - 1), CEGRIDOM_PAGE_BYTES(1) + 1,
                 "%6u%6u%6u%6u%6u%6u%6u%-18s\n", whole, before + 1, n, unit, turns, 0, whole,
                 "010000000000000000");
        paged(word, n, edition, ends, whole, text);
    } else {
        page_refused_first(word, n, edition, ends, whole, CEGRIDOM_NOT_BLOCK, index);
    }
    /* it has this split or none */
    for (uint32_t choice = 1; choice <= 2; choice++) {
        fill(table, 4);
        fill(work, WORK);
        reset();
        CHECK(in_width_best_split(word, n, edition, choice, table, 3, work, CEGRIDOM_WORK_PLACES(n),
                                  &a, &index_) == (held ? CEGRIDOM_ACCEPTED : CEGRIDOM_NO_SPLIT));
        CHECK(a == blocks && index_ == 0 && work[n] == (held ? whole : CEGRIDOM_NONE));
        CHECK(held ? begins(table, ends, whole) : untouched(table, 4));
    }
    const struct layup none = {WORD("ab"), CEGRIDOM_NONE, 0};
    const struct layup equal = {longest, 3, 1, 3};
    const struct layup known = {word, n, held ? whole : CEGRIDOM_NONE, held ? ends[0] : 0};
    chosen(&none, &known, edition);
    chosen(&known, &equal, edition);
    chosen(&equal, &known, edition);
}

/* a...ab...b as the unit, of the edition's turns: one block, or its stretches of equal symbols
   where memory does not hold the unit. */
static void parted_or_not(uint32_t edition, uint32_t unit) {
    static uint8_t word[1024];
    uint32_t turns = edition + 1, n = turns * unit, ends[6], count = 0;
    for (uint32_t i = 0; i < n; i++) {
        word[i] = i % unit < 200 ? 'a' : 'b';
    }
    for (uint32_t i = 0; i < turns; i++) {
        ends[count++] = i * unit + 200;
        ends[count++] = i * unit + unit;
    }
    fill(table, 8);
    reset();
    CHECK(in_width_best_split(word, n, edition, CEGRIDOM_FEWEST, table, 7, work, WORK, &a,
                              &index_) == CEGRIDOM_ACCEPTED);
    if (unit <= UNIT_MEMORY) {
        CHECK(a == 1 && index_ == 0 && begins(table, &n, 1));
    } else {
        CHECK(a == count && index_ == 0 && begins(table, ends, count));
    }
}

/* A unit that memory does not hold makes no block, and no white nodes; it makes a square. */
static void test_unit_memory(void) {
    static uint8_t word[1024];
    static uint32_t sizes[1024];
    for (uint32_t unit = UNIT_MEMORY - 1; unit <= UNIT_MEMORY + 2; unit++) {
        for (uint32_t edition = 1; edition <= 2; edition++) {
            held_or_not(edition, 0, unit);
            held_or_not(edition, 3, unit);
            parted_or_not(edition, unit);
        }
        uint32_t n = wind(word, 0, unit, 2);
        for (uint32_t m = 0; m <= n; m++) {
            sizes[m] = m == 0 ? 0 : m == n ? 1 : CEGRIDOM_NONE;
        }
        for (uint32_t choice = 1; choice <= 2; choice++) {
            const struct squared k = {word, n, choice, sizes, &n};
            squares_best(&k);
            squares_as_blocks(&k, unit <= UNIT_MEMORY ? CEGRIDOM_ACCEPTED : CEGRIDOM_NOT_BLOCK,
                              unit <= UNIT_MEMORY ? 0 : 1);
        }
    }
}

/* The nodes at a position in n places: as many as the rows of the runs say. */
static void nodes_suffice(const uint8_t *word, size_t n, uint32_t edition, uint32_t position,
                          const uint32_t *rows, uint32_t count) {
    uint32_t white = 0;
    for (uint32_t i = 0; i < count; i++) {
        const uint32_t *row = rows + CEGRIDOM_RUN_PLACES(i);
        white += row[2] <= UNIT_MEMORY && row[0] + (edition + 1) * row[2] - 1 <= position &&
                 position <= row[1];
    }
    fill(table, n + 1);
    reset();
    CHECK(in_width_nodes(word, n, edition, position, table, n, &a, &index_) == CEGRIDOM_ACCEPTED);
    CHECK(a == white && index_ == 0 && untouched(table + white, n + 1 - white));
}

/* The runs in 4 x n places, none for n = 0, and then the nodes. Gives the count of runs. */
static uint32_t runs_suffice(const uint8_t *word, size_t n) {
    static uint32_t rows[CEGRIDOM_MOST_RUN_PLACES(LENGTH)];
    fill(table, TABLE_PLACES);
    reset();
    CHECK(in_width_runs(word, n, n > 0 ? records : NULL, CEGRIDOM_MOST_RUN_PLACES(n), &a,
                        &index_) == CEGRIDOM_ACCEPTED);
    CHECK((n == 0 ? a == 0 : a < n) && index_ == 0);
    uint32_t count = a < n ? a : 0;
    memcpy(rows, records, CEGRIDOM_RUN_PLACES(count) * sizeof *rows);
    for (uint32_t edition = 1; edition <= 2; edition++) {
        for (size_t before = 0; before < n; before += n < 200 ? 1 : n / 3) {
            nodes_suffice(word, n, edition, (uint32_t)(n - before), rows, count);
        }
    }
    return count;
}

/* The best splits of both editions and into squares (told as edition 0), and their paths, in n/2
   places. */
static void ends_suffice(const uint8_t *word, size_t n) {
    static uint32_t ends[CEGRIDOM_MOST_ENDS(LENGTH) + 1];
    size_t most = CEGRIDOM_MOST_ENDS(n);
    for (uint32_t choice = 1; choice <= 2; choice++) {
        for (uint32_t edition = 0; edition <= 2; edition++) {
            fill(ends, most + 1);
            reset();
            uint32_t result = edition == 0 ? in_width_best_squares(word, n, choice, ends, most,
                                                                   work, WORK, &a, &index_)
                                           : in_width_best_split(word, n, edition, choice, ends,
                                                                 most, work, WORK, &a, &index_);
            uint32_t size = work[n] == CEGRIDOM_NONE ? 0 : work[n];
            CHECK(result == (work[n] == CEGRIDOM_NONE ? CEGRIDOM_NO_SPLIT : CEGRIDOM_ACCEPTED));
            CHECK(a == size && index_ == 0 && size <= most && ends[most] == GUARD);
            /* a square is a block of edition 1, where memory holds its unit */
            if (result == CEGRIDOM_ACCEPTED && (edition > 0 || n <= 2 * UNIT_MEMORY)) {
                fill(table, most + 1);
                reset();
                CHECK(in_width_path_of_split(word, n, edition == 2 ? 2 : 1, ends, size, table, most,
                                             &a, &index_) == CEGRIDOM_ACCEPTED);
                CHECK(a == size && index_ == 0 && untouched(table + size, most + 1 - size));
            }
        }
    }
}

/* The sizes that suffice for every word of n symbols: 7 never comes. Gives the count of runs. */
static uint32_t suffice(const uint8_t *word, size_t n) {
    ends_suffice(word, n);
    return runs_suffice(word, n);
}

/* A series of words with many runs for their length: each begins with the one before it and goes on
   with an earlier one, so that the longest begins again with its first symbols at each of these
   places. */
static void fill_rich(void) {
    static const size_t places[] = {3,    5,    11,   13,    24,    37,    56,    69,    125,
                                    162,  218,  380,  505,   667,   1172,  1552,  2057,  3609,
                                    4781, 6333, 11114, 14723, 19504, 34227, 45341, 60064};
    memcpy(rich, "abb", 3);
    for (size_t k = 0; k < sizeof places / sizeof *places; k++) {
        for (size_t i = places[k]; i < sizeof rich; i++) {
            rich[i] = rich[i - places[k]];
        }
    }
}

/* How many runs the word of the limit's length has. */
#define RICH_RUNS 66095

/* Words with many runs for their length, and how many. */
struct rich_case {
    const uint8_t *word;
    size_t n;
    uint32_t runs;
};

static const struct rich_case rich_cases[] = {
    /* n - 1, which is the most */
    {WORD("aa"), 1},
    /* the most that 14 symbols of two kinds have */
    {WORD("aabaabbaabaabb"), 10},
    {rich, 37, 28},
    {rich, 56, 47},
    {rich, 125, 110},
    {rich, 505, 467},
    {rich, 1024, 951},
    {rich, LENGTH, 3851},
};

static void test_sizes(void) {
    CHECK(CEGRIDOM_UNIT_MEMORY == UNIT_MEMORY);
    CHECK(CEGRIDOM_MOST_RUN_PLACES(0) == 0 && CEGRIDOM_MOST_RUN_PLACES(1) == 4);
    CHECK(2 * CEGRIDOM_MOST_RUN_PLACES(1 + 2) == 24 && 24 / CEGRIDOM_MOST_RUN_PLACES(2) == 3);
    CHECK(CEGRIDOM_MOST_ENDS(0) == 0 && CEGRIDOM_MOST_ENDS(1) == 0 && CEGRIDOM_MOST_ENDS(2) == 1);
    CHECK(2 * CEGRIDOM_MOST_ENDS(1 | 4) == 4);
    for (size_t i = 0; i < sizeof rich_cases / sizeof *rich_cases; i++) {
        CHECK(suffice(rich_cases[i].word, rich_cases[i].n) == rich_cases[i].runs);
    }
    for (size_t i = 0; i < sizeof runs_cases / sizeof *runs_cases; i++) {
        CHECK(suffice(runs_cases[i].word, runs_cases[i].n) == runs_cases[i].count);
    }
    for (size_t i = 0; i < sizeof best_cases / sizeof *best_cases; i++) {
        suffice((const uint8_t *)best_cases[i].word, strlen(best_cases[i].word));
    }
    for (size_t i = 0; i < sizeof squares_cases / sizeof *squares_cases; i++) {
        suffice((const uint8_t *)squares_cases[i].word, strlen(squares_cases[i].word));
    }
    for (size_t n = LENGTH - 1; n <= LENGTH; n++) {
        CHECK(suffice(longest, n) == 1);
    }
}

static void test_write_plan(void) {
    memset(out, '.', sizeof out);
    reset();
    CHECK(cegridom_write_plan(8, NUMBERS(2, 8), 2, out, CEGRIDOM_PLAN_BYTES(2), &a, &index_) == 0);
    CHECK(a == 25 && index_ == 0 && memcmp(out, "plan,0008,0002,0002,0008\n.", 26) == 0);
    memset(out, '.', sizeof out);
    reset();
    CHECK(cegridom_write_plan(0, NULL, 0, out, sizeof out, &a, &index_) == 0);
    CHECK(a == 15 && index_ == 0 && memcmp(out, "plan,0000,0000\n.", 16) == 0);
    memset(out, '.', sizeof out);
    reset();
    CHECK(cegridom_write_plan(8, NUMBERS(2, 8), 2, out, 24, &a, &index_) == CEGRIDOM_TOO_FEW_PLACES);
    CHECK(a == 0 && index_ == 0 && out[0] == '.');
    reset();
    CHECK(cegridom_write_plan(8, NUMBERS(2, 2), 2, NULL, 0, &a, &index_) == CEGRIDOM_BAD_END);
    CHECK(a == 0 && index_ == 2);
    reset();
    CHECK(cegridom_write_plan(8, NUMBERS(9), 1, NULL, 0, &a, &index_) == CEGRIDOM_BAD_END);
    CHECK(a == 0 && index_ == 1);
    reset();
    CHECK(cegridom_write_plan(8, NUMBERS(2), 1, NULL, 0, &a, &index_) == CEGRIDOM_UNFINISHED);
    CHECK(a == 0 && index_ == 0);
    reset();
    CHECK(cegridom_write_plan(70001, NUMBERS(0), 1, NULL, 0, &a, &index_) == CEGRIDOM_TOO_LONG);
    CHECK(a == 0 && index_ == 0);
}

/* Writes the line of one piece of n symbols in just the room that it needs, and in one byte less. */
static void one_piece(uint32_t n, const char *line) {
    uint32_t length = (uint32_t)strlen(line);
    CHECK(length == CEGRIDOM_LINE_BYTES(n, 1));
    memset(out, '.', sizeof out);
    reset();
    CHECK(cegridom_write_plan(n, &n, 1, out, length - 1, &a, &index_) == CEGRIDOM_TOO_FEW_PLACES);
    CHECK(a == 0 && index_ == 0 && blank(out, sizeof out));
    reset();
    CHECK(cegridom_write_plan(n, &n, 1, out, length, &a, &index_) == CEGRIDOM_ACCEPTED);
    CHECK(a == length && index_ == 0 && memcmp(out, line, length) == 0);
    CHECK(blank(out + length, sizeof out - length));
    fill(table, 2);
    reset();
    CHECK(cegridom_read_plan(out, length, table, 0, &b, &c, &index_) == CEGRIDOM_TOO_FEW_PLACES);
    CHECK(b == 0 && c == 0 && index_ == 0 && untouched(table, 2));
    reset();
    CHECK(cegridom_read_plan(out, length, table, 1, &b, &c, &index_) == CEGRIDOM_ACCEPTED);
    CHECK(b == n && c == 1 && index_ == 0 && BEGINS(table, n));
}

/* Both kinds of line, at the lengths where the kind changes. */
static void test_lines(void) {
    CHECK(CEGRIDOM_LIMIT == 70000 && CEGRIDOM_LINE_LIMIT == 4096);
    CHECK(CEGRIDOM_PLAN_BYTES(0) == 15 && CEGRIDOM_PLAN_BYTES(2) == 25);
    CHECK(CEGRIDOM_LONG_BYTES(0) == 19 && CEGRIDOM_LONG_BYTES(2) == 33);
    CHECK(2 * CEGRIDOM_LONG_BYTES(1 | 2) == 80);
    CHECK(CEGRIDOM_LINE_BYTES(4096, 3) == 30 && CEGRIDOM_LINE_BYTES(4097, 3) == 40);
    CHECK(2 * CEGRIDOM_LINE_BYTES(4096 | 1, 1 | 2) == 80);
    CHECK(CEGRIDOM_LONG_ENDS(0) == 0 && CEGRIDOM_LONG_ENDS(18) == 0 && CEGRIDOM_LONG_ENDS(19) == 0);
    CHECK(CEGRIDOM_LONG_ENDS(25) == 0 && CEGRIDOM_LONG_ENDS(26) == 1 && CEGRIDOM_LONG_ENDS(33) == 2);
    for (size_t k = 0; k < 100; k++) {
        CHECK(CEGRIDOM_LONG_ENDS(CEGRIDOM_LONG_BYTES(k)) == k);
        CHECK(CEGRIDOM_PLAN_ENDS(CEGRIDOM_PLAN_BYTES(k)) == k);
        CHECK(CEGRIDOM_PLAN_ENDS(CEGRIDOM_LONG_BYTES(k)) >= k);
    }
    one_piece(1, "plan,0001,0001,0001\n");
    one_piece(4095, "plan,4095,0001,4095\n");
    one_piece(4096, "plan,4096,0001,4096\n");
    one_piece(4097, "long,004097,000001,004097\n");
    one_piece(9999, "long,009999,000001,009999\n");
    one_piece(10000, "long,010000,000001,010000\n");
    one_piece(65535, "long,065535,000001,065535\n");
    one_piece(65536, "long,065536,000001,065536\n");
    one_piece(69999, "long,069999,000001,069999\n");
    one_piece(70000, "long,070000,000001,070000\n");
    memset(out, '.', sizeof out);
    reset();
    CHECK(cegridom_write_plan(70000, NUMBERS(2, 65536, 70000), 3, out, CEGRIDOM_LONG_BYTES(3), &a,
                              &index_) == CEGRIDOM_ACCEPTED);
    CHECK(a == 40 && index_ == 0);
    CHECK(memcmp(out, "long,070000,000003,000002,065536,070000\n.", 41) == 0);
    fill(table, 5);
    reset();
    CHECK(cegridom_read_plan(out, 40, table, CEGRIDOM_PLAN_ENDS(40), &a, &b, &index_) == 0);
    CHECK(a == 70000 && b == 3 && index_ == 0 && BEGINS(table, 2, 65536, 70000));
    reset();
    CHECK(cegridom_write_plan(70000, NUMBERS(2, 70001), 2, NULL, 0, &a, &index_) ==
          CEGRIDOM_BAD_END);
    CHECK(a == 0 && index_ == 2);
    reset();
    CHECK(cegridom_write_plan(70000, NUMBERS(65536), 1, NULL, 0, &a, &index_) ==
          CEGRIDOM_UNFINISHED);
    CHECK(a == 0 && index_ == 0);
}

static void test_read_plan(void) {
    fill(table, 4);
    reset();
    CHECK(cegridom_read_plan(WORD("plan,0008,0002,0002,0008\n"), table, 2, &a, &b, &index_) == 0);
    CHECK(a == 8 && b == 2 && index_ == 0 && BEGINS(table, 2, 8));
    reset();
    CHECK(cegridom_read_plan(WORD("plan,0000,0000\n"), NULL, 0, &a, &b, &index_) == 0);
    CHECK(a == 0 && b == 0 && index_ == 0);
    struct {
        const char *line;
        uint32_t result, index;
    } refused[] = {
        {"", CEGRIDOM_NOT_PLAN, 0},
        {"plan,0008,0002,0002,0008", CEGRIDOM_NOT_PLAN, 0},
        {"plan,0008,0002,0002,0008\n\n", CEGRIDOM_NOT_PLAN, 0},
        {"plan,0008,0001,0002,0008\n", CEGRIDOM_NOT_PLAN, 0},
        {"plan,0008,0002,0002,000:\n", CEGRIDOM_NOT_PLAN, 0},
        {"plan 0008,0002,0002,0008\n", CEGRIDOM_NOT_PLAN, 0},
        {"plan,8,2,2,8\n", CEGRIDOM_NOT_PLAN, 0},
        {"plan,4097,0001,0000\n", CEGRIDOM_TOO_LONG, 0},
        {"plan,4097,0001,4097\n", CEGRIDOM_TOO_LONG, 0},
        {"plan,9999,0001,9999\n", CEGRIDOM_TOO_LONG, 0},
        {"plan,0008,0002,0002,0002\n", CEGRIDOM_BAD_END, 2},
        {"plan,0008,0002,0002,0009\n", CEGRIDOM_BAD_END, 2},
        {"plan,0008,0002,0002,0007\n", CEGRIDOM_UNFINISHED, 0},
        {"plan,0008,0003,0002,0004,0008\n", CEGRIDOM_TOO_FEW_PLACES, 0},
        /* six digits that are not needed, whatever else is wrong */
        {"long,004096,000001,004096\n", CEGRIDOM_NOT_PLAN, 0},
        {"long,000008,000002,000002,000008\n", CEGRIDOM_NOT_PLAN, 0},
        {"long,000000,000000\n", CEGRIDOM_NOT_PLAN, 0},
        {"long,004096,000001,070001\n", CEGRIDOM_NOT_PLAN, 0},
        {"long,000008,000003,000002,000004,000008\n", CEGRIDOM_NOT_PLAN, 0},
        /* each kind has its own digits */
        {"long,4097,0001,4097\n", CEGRIDOM_NOT_PLAN, 0},
        {"plan,004097,000001,004097\n", CEGRIDOM_NOT_PLAN, 0},
        {"long,004097,000001,4097\n", CEGRIDOM_NOT_PLAN, 0},
        {"long 004097,000001,004097\n", CEGRIDOM_NOT_PLAN, 0},
        {"lonG,004097,000001,004097\n", CEGRIDOM_NOT_PLAN, 0},
        {"long,004097,000001,004097", CEGRIDOM_NOT_PLAN, 0},
        {"long,004097,000001,004097\n\n", CEGRIDOM_NOT_PLAN, 0},
        {"long,004097,000002,004097\n", CEGRIDOM_NOT_PLAN, 0},
        {"long,070001,000002,000000\n", CEGRIDOM_NOT_PLAN, 0},
        {"long,07000:,000001,070000\n", CEGRIDOM_NOT_PLAN, 0},
        {"long,070001,000001,000000\n", CEGRIDOM_TOO_LONG, 0},
        {"long,999999,000000\n", CEGRIDOM_TOO_LONG, 0},
        {"long,070000,000002,065536,065536\n", CEGRIDOM_BAD_END, 2},
        {"long,070000,000002,065536,070001\n", CEGRIDOM_BAD_END, 2},
        {"long,070000,000002,065536,069999\n", CEGRIDOM_UNFINISHED, 0},
        {"long,070000,000003,000002,065536,070000\n", CEGRIDOM_TOO_FEW_PLACES, 0},
    };
    for (size_t i = 0; i < sizeof refused / sizeof *refused; i++) {
        fill(table, 4);
        reset();
        CHECK(cegridom_read_plan((const uint8_t *)refused[i].line, strlen(refused[i].line), table, 2,
                                 &a, &b, &index_) == refused[i].result);
        CHECK(a == 0 && b == 0 && index_ == refused[i].index && untouched(table, 4));
    }
    CHECK(CEGRIDOM_PLAN_ENDS(0) == 0 && CEGRIDOM_PLAN_ENDS(14) == 0 && CEGRIDOM_PLAN_ENDS(15) == 0);
    CHECK(CEGRIDOM_PLAN_ENDS(19) == 0 && CEGRIDOM_PLAN_ENDS(20) == 1 && CEGRIDOM_PLAN_ENDS(25) == 2);
    /* pieces of length 1 are more than a split of as many symbols has blocks */
    fill(table, 5);
    reset();
    CHECK(cegridom_read_plan(WORD("plan,0004,0004,0001,0002,0003,0004\n"), table,
                             CEGRIDOM_MOST_ENDS(4), &a, &b, &index_) == CEGRIDOM_TOO_FEW_PLACES);
    CHECK(a == 0 && b == 0 && index_ == 0 && untouched(table, 5));
    reset();
    CHECK(cegridom_read_plan(WORD("plan,0004,0004,0001,0002,0003,0004\n"), table,
                             CEGRIDOM_PLAN_ENDS(35), &a, &b, &index_) == 0);
    CHECK(a == 4 && b == 4 && index_ == 0 && BEGINS(table, 1, 2, 3, 4));
    /* the longest line of each kind, written and read back */
    static uint32_t ends[CEGRIDOM_LONG_ENDS(CEGRIDOM_LONG_BYTES(CEGRIDOM_LIMIT))];
    static uint32_t back[CEGRIDOM_PLAN_ENDS(CEGRIDOM_LONG_BYTES(CEGRIDOM_LIMIT))];
    static uint8_t line[CEGRIDOM_LONG_BYTES(CEGRIDOM_LIMIT)];
    for (uint32_t i = 0; i < CEGRIDOM_LIMIT; i++) {
        ends[i] = i + 1;
    }
    static const uint32_t lengths[] = {CEGRIDOM_LINE_LIMIT, CEGRIDOM_LIMIT};
    for (size_t i = 0; i < 2; i++) {
        const uint32_t n = lengths[i];
        reset();
        CHECK(cegridom_write_plan(n, ends, n, line, CEGRIDOM_LINE_BYTES(n, n) - 1, &a, &index_) ==
              CEGRIDOM_TOO_FEW_PLACES);
        CHECK(cegridom_write_plan(n, ends, n, line, CEGRIDOM_LINE_BYTES(n, n), &a, &index_) == 0);
        CHECK(a == CEGRIDOM_LINE_BYTES(n, n) && index_ == 0 && line[a - 1] == '\n');
        fill(back, n);
        CHECK(cegridom_read_plan(line, a, back, n - 1, &b, &c, &index_) ==
              CEGRIDOM_TOO_FEW_PLACES);
        CHECK(untouched(back, n));
        CHECK(cegridom_read_plan(line, a, back, CEGRIDOM_PLAN_ENDS(a), &b, &c, &index_) == 0);
        CHECK(b == n && c == n && index_ == 0);
        CHECK(memcmp(back, ends, n * sizeof *ends) == 0);
    }
}

/* What a call on a short word leaves, in tables with places beside them. */
struct left {
    uint32_t result, index, values[4], table[40], work[40];
    uint8_t page[CEGRIDOM_PAGE_BYTES(4)];
};

static struct left of_bytes, of_codes;

static struct left *fresh(struct left *left) {
    memset(left, 0xa5, sizeof *left);
    return left;
}

/* Short words of small numbers, as bytes and as codes. */
#define SHORT 7
static uint8_t small[2][SHORT];
static uint16_t small_16[2][SHORT];

/* The word number so many of n of these symbols, at a place. */
static void spell_small(int place, size_t n, uint32_t symbols, uint32_t number) {
    for (size_t i = 0; i < n; i++) {
        small[place][i] = (uint8_t)(number % symbols);
        small_16[place][i] = (uint16_t)(number % symbols);
        number /= symbols;
    }
}

/* Whether both forms of a call on the word at place 0 leave the same. What the call is lent stands
   in *l. */
#define SAME(name, ...)                                          \
    (l = fresh(&of_bytes),                                       \
     l->result = cegridom_##name(small[0], __VA_ARGS__),         \
     l = fresh(&of_codes),                                       \
     l->result = cegridom_##name##_16(small_16[0], __VA_ARGS__), \
     memcmp(&of_bytes, &of_codes, sizeof of_bytes) == 0)

/* The same for two words. */
#define SAME_PAIR(name, n, m, ...)                                                  \
    (l = fresh(&of_bytes),                                                          \
     l->result = cegridom_##name(small[0], n, small[1], m, __VA_ARGS__),            \
     l = fresh(&of_codes),                                                          \
     l->result = cegridom_##name##_16(small_16[0], n, small_16[1], m, __VA_ARGS__), \
     memcmp(&of_bytes, &of_codes, sizeof of_bytes) == 0)

/* Part, runs and nodes of the word at place 0: any positions, in tables of every size. */
static int parts_are_same(size_t n) {
    struct left *l;
    int same = 1;
    for (uint32_t edition = 0; edition <= 3; edition++) {
        for (uint32_t first = 0; first <= n + 1; first++) {
            for (uint32_t last = 0; last <= n + 1; last++) {
                for (size_t places = 0; places <= n; places++) {
                    same &= SAME(part, n, edition, first, last, l->table + 1, places, l->values,
                                 l->values + 1, l->values + 2, l->values + 3, &l->index);
                }
            }
            for (size_t places = 0; places <= n; places++) {
                same &= SAME(nodes, n, edition, first, l->table + 1, places, l->values, &l->index);
            }
        }
    }
    for (size_t places = 0; places <= CEGRIDOM_MOST_RUN_PLACES(n); places++) {
        same &= SAME(runs, n, l->table + 1, places, l->values, &l->index);
    }
    return same;
}

/* The best splits of it, of each edition and choice and into squares. */
static int bests_are_same(size_t n) {
    struct left *l;
    int same = 1;
    for (uint32_t choice = 0; choice <= 3; choice++) {
        for (size_t ends = 0; ends <= CEGRIDOM_MOST_ENDS(n); ends++) {
            for (size_t fewer = 0; fewer <= 1; fewer++) {
                size_t places = CEGRIDOM_WORK_PLACES(n) - fewer;
                for (uint32_t edition = 0; edition <= 3; edition++) {
                    same &= SAME(best_split, n, edition, choice, l->table + 1, ends, l->work + 1,
                                 places, l->values, &l->index);
                }
                same &= SAME(best_squares, n, choice, l->table + 1, ends, l->work + 1, places,
                             l->values, &l->index);
            }
        }
    }
    return same;
}

/* The judges and the path, of every rising series of ends up to n + 1, as ends and as a path of the
   first runs. The pages too: but for the last column they are the same. */
static int judged_is_same(size_t n) {
    struct left *l;
    int same = 1;
    for (uint32_t set = 0; set < 1u << (n + 1); set++) {
        uint32_t ends[SHORT + 1], path[2 * (SHORT + 1)], count = 0;
        for (uint32_t end = 1; end <= n + 1; end++) {
            if (set >> (end - 1) & 1) {
                path[2 * count] = count + 1;
                path[2 * count + 1] = end;
                ends[count++] = end;
            }
        }
        same &= SAME(judge_squares, n, ends, count, l->values, &l->index);
        for (uint32_t edition = 0; edition <= 3; edition++) {
            same &= SAME(judge_split, n, edition, ends, count, l->values, &l->index);
            same &= SAME(judge_path, n, edition, path, 2 * count, l->values, &l->index);
            same &= SAME(judge_path, n, edition, path + 1, count, l->values, &l->index);
            for (size_t places = 0; places <= CEGRIDOM_MOST_ENDS(n); places++) {
                same &= SAME(path_of_split, n, edition, ends, count, l->table + 1, places,
                             l->values, &l->index);
                (void)SAME(write_page, n, edition, ends, count, l->page,
                           CEGRIDOM_PAGE_BYTES(places), l->values, &l->index);
                for (size_t i = 0; l->result == CEGRIDOM_ACCEPTED && i < count; i++) {
                    memset(of_bytes.page + CEGRIDOM_PAGE_BYTES(i) + 42, ' ', 18);
                    memset(of_codes.page + CEGRIDOM_PAGE_BYTES(i) + 42, ' ', 18);
                }
                same &= memcmp(&of_bytes, &of_codes, sizeof of_bytes) == 0;
            }
        }
    }
    return same;
}

/* Both calls on the words at both places. */
static int pairs_are_same(size_t n, size_t m) {
    struct left *l;
    size_t needed = CEGRIDOM_WORK_PLACES(n > m ? n : m);
    int same = 1;
    for (uint32_t edition = 0; edition <= 3; edition++) {
        for (size_t places = needed - 1; places <= needed + 1; places++) {
            same &= SAME_PAIR(which_first, n, m, edition, l->work + 1, places, l->values,
                              &l->index);
            same &= SAME_PAIR(first_block, n, m, edition, l->work + 1, places, l->values,
                              l->values + 1);
        }
    }
    return same;
}

/* Every short word of two symbols and of three. */
static void test_same_as_bytes(void) {
    for (uint32_t symbols = 2; symbols <= 3; symbols++) {
        uint32_t words = 1;
        for (size_t n = 0; n <= (symbols == 2 ? SHORT : 5); n++) {
            for (uint32_t number = 0; number < words; number++) {
                spell_small(0, n, symbols, number);
                CHECK(parts_are_same(n));
                CHECK(bests_are_same(n));
                CHECK(judged_is_same(n));
            }
            words *= symbols;
        }
    }
    for (size_t n = 0; n <= 4; n++) {
        for (size_t m = 0; m <= 4; m++) {
            for (uint32_t number = 0; number < 1u << n; number++) {
                spell_small(0, n, 2, number);
                int same = 1;
                for (uint32_t other = 0; other < 1u << m; other++) {
                    spell_small(1, m, 2, other);
                    same &= pairs_are_same(n, m);
                }
                CHECK(same);
            }
        }
    }
}

/* A word of codes as pointer and length. */
#define CODES(...) \
    ((const uint16_t[]){__VA_ARGS__}), (sizeof((const uint16_t[]){__VA_ARGS__}) / sizeof(uint16_t))

/* Words in which codes are equal in their low byte or in their high byte alone: no call takes them
   for equal. */
static void test_codes(void) {
    /* 255, 256, 257 and 65535 stand for themselves */
    fill(table, TABLE_PLACES);
    reset();
    CHECK(cegridom_part_16(CODES(255, 256, 257, 65535, 255, 256), 1, 1, 6, units, 6, &a, &b, &c, &d,
                           &index_) == CEGRIDOM_ACCEPTED);
    CHECK(a == 4 && b == 1 && c == 2 && d == 0 && index_ == 0);
    CHECK(table[0] == GUARD && BEGINS(units, 1, 2, 3, 4, 4, 4));
    reset();
    CHECK(cegridom_part_16(CODES(1, 257, 1, 257, 1), 1, 1, 5, units, 5, &a, &b, &c, &d, &index_) ==
          CEGRIDOM_ACCEPTED);
    CHECK(a == 2 && b == 2 && c == 1 && d == 1 && index_ == 0);
    reset();
    CHECK(cegridom_part_16(CODES(256, 257), 1, 1, 2, units, 2, &a, &b, &c, &d, &index_) ==
          CEGRIDOM_ACCEPTED);
    CHECK(a == 2 && b == 1 && c == 0 && d == 0 && index_ == 0);
    fill(table, TABLE_PLACES);
    reset();
    CHECK(cegridom_part_16(CODES(300, 300, 300), 1, 1, 3, units, 2, &a, &b, &c, &d, &index_) ==
          CEGRIDOM_TOO_FEW_PLACES);
    CHECK(a == 0 && b == 0 && c == 0 && d == 0 && index_ == 0 && untouched(table, TABLE_PLACES));
    /* runs and nodes: those of 65535 65535 and of the whole */
    fill(table, TABLE_PLACES);
    reset();
    CHECK(cegridom_runs_16(CODES(65535, 65535, 255, 65535, 65535, 255, 65535), records, 12, &a,
                           &index_) == CEGRIDOM_ACCEPTED);
    CHECK(a == 3 && index_ == 0 && table[0] == GUARD);
    CHECK(BEGINS(records, 1, 2, 1, 1, 1, 7, 3, 3, 4, 5, 1, 4));
    fill(table, TABLE_PLACES);
    reset();
    CHECK(cegridom_runs_16(CODES(65535, 65535, 255, 65535, 65535, 255, 65535), records, 11, &a,
                           &index_) == CEGRIDOM_TOO_FEW_PLACES);
    CHECK(a == 0 && index_ == 0 && untouched(table, TABLE_PLACES));
    reset();
    CHECK(cegridom_runs_16(CODES(7, 263, 519, 775), NULL, 0, &a, &index_) == CEGRIDOM_ACCEPTED);
    CHECK(a == 0 && index_ == 0);
    fill(table, 4);
    reset();
    CHECK(cegridom_nodes_16(CODES(65535, 65535, 255, 65535, 65535, 255, 65535), 1, 7, table, 1, &a,
                            &index_) == CEGRIDOM_ACCEPTED);
    CHECK(a == 1 && index_ == 0 && BEGINS(table, 2));
    /* best split and best squares of 256 256 512 512, and of 0 256 which has neither */
    for (uint32_t choice = 1; choice <= 2; choice++) {
        fill(table, TABLE_PLACES);
        fill(work, WORK);
        reset();
        CHECK(cegridom_best_split_16(CODES(256, 256, 512, 512), 1, choice, joints, 2, scratch, 20,
                                     &a, &index_) == CEGRIDOM_ACCEPTED);
        CHECK(a == 2 && index_ == 0 && table[0] == GUARD && BEGINS(joints, 2, 4));
        CHECK(work[0] == GUARD && BEGINS(scratch, 0, CEGRIDOM_NONE, 1, CEGRIDOM_NONE, 2, 0, 0, 0, 0,
                                         0, 0, 0, 0, 0, 0, 0, 0, 0, 0, 0));
        fill(table, TABLE_PLACES);
        fill(work, WORK);
        reset();
        CHECK(cegridom_best_squares_16(CODES(256, 256, 512, 512), choice, joints, 2, scratch, 20,
                                       &a, &index_) == CEGRIDOM_ACCEPTED);
        CHECK(a == 2 && index_ == 0 && table[0] == GUARD && BEGINS(joints, 2, 4));
        CHECK(work[0] == GUARD && BEGINS(scratch, 0, CEGRIDOM_NONE, 1, CEGRIDOM_NONE, 2, 0, 0, 0, 0,
                                         0, 0, 0, 0, 0, 0, 0, 0, 0, 0, 0));
        fill(table, TABLE_PLACES);
        fill(work, WORK);
        reset();
        CHECK(cegridom_best_split_16(CODES(0, 256), 1, choice, joints, 1, scratch, 12, &a,
                                     &index_) == CEGRIDOM_NO_SPLIT);
        CHECK(a == 0 && index_ == 0 && untouched(table, TABLE_PLACES));
        CHECK(BEGINS(scratch, 0, CEGRIDOM_NONE, CEGRIDOM_NONE, 0, 0, 0, 0, 0, 0, 0, 0, 0));
        fill(work, WORK);
        reset();
        CHECK(cegridom_best_squares_16(CODES(0, 256), choice, joints, 1, scratch, 12, &a,
                                       &index_) == CEGRIDOM_NO_SPLIT);
        CHECK(a == 0 && index_ == 0 && untouched(table, TABLE_PLACES));
        CHECK(BEGINS(scratch, 0, CEGRIDOM_NONE, CEGRIDOM_NONE, 0, 0, 0, 0, 0, 0, 0, 0, 0));
        reset();
        fill(work, WORK);
        CHECK(cegridom_best_split_16(CODES(0, 256), 1, choice, joints, 1, scratch, 11, &a,
                                     &index_) == CEGRIDOM_SHORT_TABLE);
        CHECK(a == 0 && index_ == 0 && untouched(work, WORK));
    }
    /* the judges, and the path */
    reset();
    CHECK(cegridom_judge_split_16(CODES(256, 256, 0, 256), 1, NUMBERS(2, 4), 2, &a, &index_) ==
          CEGRIDOM_NOT_BLOCK);
    CHECK(a == 0 && index_ == 2);
    reset();
    CHECK(cegridom_judge_squares_16(CODES(256, 256, 0, 256), NUMBERS(2, 4), 2, &a, &index_) ==
          CEGRIDOM_NOT_BLOCK);
    CHECK(a == 0 && index_ == 2);
    reset();
    CHECK(cegridom_judge_squares_16(CODES(0, 65535, 0, 65535), NUMBERS(4), 1, &a, &index_) ==
          CEGRIDOM_ACCEPTED);
    CHECK(a == 1 && index_ == 0);
    fill(table, 4);
    reset();
    CHECK(cegridom_path_of_split_16(CODES(256, 256, 0, 0), 1, NUMBERS(2, 4), 2, table, 2, &a,
                                    &index_) == CEGRIDOM_ACCEPTED);
    CHECK(a == 2 && index_ == 0 && BEGINS(table, 1, 2));
    reset();
    CHECK(cegridom_judge_path_16(CODES(256, 256, 0, 0), 1, NUMBERS(1, 2, 2, 4), 4, &a, &index_) ==
          CEGRIDOM_ACCEPTED);
    CHECK(a == 2 && index_ == 0);
    reset();
    CHECK(cegridom_judge_path_16(CODES(256, 256, 0, 256), 1, NUMBERS(1, 2, 1, 4), 4, &a, &index_) ==
          CEGRIDOM_NOT_BLOCK);
    CHECK(a == 0 && index_ == 2);
}

/* Roots go by the whole code, without a sign. */
static void test_code_roots(void) {
    /* xyxy for any two codes that differ in one bit */
    for (uint32_t bit = 0; bit < 16; bit++) {
        int agree = 1;
        for (uint32_t x = 0; x < 65536; x++) {
            uint32_t y = x ^ 1u << bit;
            const uint16_t word[] = {(uint16_t)x, (uint16_t)y, (uint16_t)x, (uint16_t)y};
            fill(table, 5);
            agree &= cegridom_runs_16(word, 4, table, 4, &a, &index_) == 0 && a == 1 &&
                     BEGINS(table, 1, 4, 2, x < y ? 1 : 2);
        }
        CHECK(agree);
    }
    static const struct {
        uint16_t unit[4];
        uint32_t root;
    } cases[] = {
        /* the high byte decides, against the low one */
        {{0x0200, 0x01ff, 0x0300, 0x0201}, 2},
        {{0x0100, 0x00ff, 0x0101, 0x0102}, 2},
        /* codes from 0x8000 on come last */
        {{0x8000, 0xffff, 0x7fff, 0x8001}, 3},
        {{0xffff, 0x8000, 0xfffe, 0x8001}, 2},
        /* more than the first symbol decides, by the high byte */
        {{0x0001, 0x0201, 0x0001, 0x0101}, 3},
        {{0x0001, 0x0101, 0x0001, 0x0201}, 1},
    };
    for (size_t i = 0; i < sizeof cases / sizeof *cases; i++) {
        uint16_t word[9];
        for (size_t k = 0; k < 9; k++) {
            word[k] = cases[i].unit[k % 4];
        }
        fill(table, TABLE_PLACES);
        reset();
        CHECK(cegridom_runs_16(word, 9, records, 4, &a, &index_) == CEGRIDOM_ACCEPTED);
        CHECK(a == 1 && index_ == 0 && table[0] == GUARD);
        CHECK(BEGINS(records, 1, 9, 4, cases[i].root));
    }
}

static void code_page(const uint16_t *word, size_t n, uint32_t edition, const uint32_t *ends,
                      size_t count, const char *text) {
    size_t bytes = CEGRIDOM_PAGE_BYTES(count);
    CHECK(strlen(text) == bytes);
    for (size_t more = 0; more < 3; more++) {
        memset(page, '.', sizeof page);
        reset();
        CHECK(cegridom_write_page_16(word, n, edition, ends, count, paper, bytes + more, &a,
                                     &index_) == CEGRIDOM_ACCEPTED);
        CHECK(a == bytes && index_ == 0 && memcmp(paper, text, bytes) == 0);
        CHECK(page[0] == '.' && blank(paper + bytes, sizeof page - 1 - bytes));
    }
    memset(page, '.', sizeof page);
    reset();
    CHECK(cegridom_write_page_16(word, n, edition, ends, count, paper, bytes - 1, &a, &index_) ==
          CEGRIDOM_TOO_FEW_PLACES);
    CHECK(a == 0 && index_ == 0 && blank(page, sizeof page));
}

#define CODE_PAGE(word, edition, text, ...) \
    code_page(word, edition, NUMBERS(__VA_ARGS__), COUNT(__VA_ARGS__), text)

static void test_code_pages(void) {
    /* units of one code to six: no more than four are shown */
    CODE_PAGE(CODES(0xabcd, 0xabcd), 1,
              "     1     1     2     1     2     0     1abcd              \n", 2);
    CODE_PAGE(CODES(0, 65535, 0, 65535, 0), 1,
              "     1     1     5     2     2     1     10000ffff          \n", 5);
    CODE_PAGE(CODES(255, 256, 257, 255, 256, 257), 1,
              "     1     1     6     3     2     0     100ff01000101      \n", 6);
    CODE_PAGE(CODES(1, 2, 3, 0x1234, 1, 2, 3, 0x1234), 1,
              "     1     1     8     4     2     0     10001000200031234  \n", 8);
    CODE_PAGE(CODES(1, 2, 3, 4, 0x1234, 1, 2, 3, 4, 0x1234), 1,
              "     1     1    10     5     2     0     10001000200030004  \n", 10);
    CODE_PAGE(CODES(6, 5, 4, 3, 2, 1, 6, 5, 4, 3, 2, 1), 1,
              "     1     1    12     6     2     0     10006000500040003  \n", 12);
    /* two blocks; a byte in four digits; no line is broken at code 10 */
    CODE_PAGE(CODES('a', 'a', 'b', 10, 'b', 10, 'b'), 1,
              "     1     1     2     1     2     0     10061              \n"
              "     2     3     7     2     2     1     20062000a          \n",
              2, 7);
    CODE_PAGE(CODES(0xff00, 0xff00, 0xff00, 7, 7, 7, 7), 2,
              "     1     1     3     1     3     0     1ff00              \n"
              "     2     4     7     1     4     0     20007              \n",
              3, 7);
    /* every code */
    int agree = 1;
    for (uint32_t code = 0; code < 65536; code++) {
        const uint16_t word[] = {(uint16_t)code, (uint16_t)code};
        char line[CEGRIDOM_PAGE_BYTES(1) + 1];
        snprintf(line, sizeof line, "%6u%6u%6u%6u%6u%6u%6u%04x%14s\n", 1, 1, 2, 1, 2, 0, 1, code,
                 "");
        agree &= cegridom_write_page_16(word, 2, 1, NUMBERS(2), 1, page, 61, &a, &index_) == 0 &&
                 a == 61 && memcmp(page, line, 61) == 0;
    }
    CHECK(agree);
}

/* Both calls on two words of codes. */
static void code_pair(const uint16_t *first, size_t n, const uint16_t *second, size_t m,
                      uint32_t result, uint32_t which, uint32_t length) {
    size_t needed = CEGRIDOM_WORK_PLACES(n > m ? n : m);
    fill(work, WORK);
    reset();
    CHECK(cegridom_which_first_16(first, n, second, m, 1, scratch, needed, &a, &index_) == result);
    CHECK(a == which && index_ == 0 && cleared(needed));
    fill(work, WORK);
    reset();
    CHECK(cegridom_first_block_16(first, n, second, m, 1, scratch, needed, &a, &b) ==
          CEGRIDOM_ACCEPTED);
    CHECK(a == which && b == length && cleared(needed));
}

static void test_code_pairs(void) {
    static const uint16_t equal[] = {300, 300, 300, 300, 300, 300};
    static const uint16_t low[] = {44, 300, 44, 300}, differ[] = {44, 300};
    static const uint16_t two[] = {300, 300, 44, 44, 44};
    /* lengths count symbols, not bytes */
    code_pair(equal, 6, two, 5, CEGRIDOM_ACCEPTED, 1, 6);
    code_pair(two, 5, equal, 6, CEGRIDOM_ACCEPTED, 2, 6);
    code_pair(two, 5, differ, 2, CEGRIDOM_ACCEPTED, 1, 2);
    code_pair(differ, 2, low, 4, CEGRIDOM_ACCEPTED, 2, 4);
    code_pair(differ, 2, differ, 2, CEGRIDOM_NO_SPLIT, 0, 0);
    code_pair(differ, 2, NULL, 0, CEGRIDOM_ACCEPTED, 2, 0);
    /* words that overlap, and one word twice */
    code_pair(equal, 4, equal + 2, 4, CEGRIDOM_ACCEPTED, 1, 4);
    code_pair(equal + 5, 1, equal + 1, 5, CEGRIDOM_ACCEPTED, 2, 5);
    code_pair(two, 5, two, 5, CEGRIDOM_ACCEPTED, 1, 2);
    code_pair(two, 5, two + 2, 3, CEGRIDOM_ACCEPTED, 2, 3);
}

/* More codes than bytes have. */
static void test_many_codes(void) {
    static uint16_t word[CEGRIDOM_LIMIT + 1];
    const uint32_t half = LENGTH / 2, whole = LENGTH;
    /* 2,048 different codes, twice: one square, whose unit is too long for a block */
    for (uint32_t i = 0; i < LENGTH; i++) {
        word[i] = (uint16_t)(40503 * (i % half + 1));
    }
    uint32_t root = 1;
    for (uint32_t i = 1; i <= half; i++) {
        root = word[i - 1] < word[root - 1] ? i : root;
    }
    fill(table, TABLE_PLACES);
    reset();
    CHECK(cegridom_runs_16(word, LENGTH, records, 4, &a, &index_) == CEGRIDOM_ACCEPTED);
    CHECK(a == 1 && index_ == 0 && table[0] == GUARD && BEGINS(records, 1, whole, half, root));
    reset();
    CHECK(cegridom_judge_squares_16(word, LENGTH, &whole, 1, &a, &index_) ==
          CEGRIDOM_ACCEPTED);
    CHECK(a == 1 && index_ == 0);
    reset();
    CHECK(cegridom_judge_split_16(word, LENGTH, 1, &whole, 1, &a, &index_) ==
          CEGRIDOM_NOT_BLOCK);
    CHECK(a == 0 && index_ == 1);
    for (uint32_t choice = 1; choice <= 2; choice++) {
        fill(table, TABLE_PLACES);
        fill(work, WORK);
        reset();
        CHECK(cegridom_best_squares_16(word, LENGTH, choice, joints, JOINTS, scratch,
                                       SCRATCH, &a, &index_) == CEGRIDOM_ACCEPTED);
        CHECK(a == 1 && index_ == 0 && table[0] == GUARD && BEGINS(joints, whole));
        reset();
        CHECK(cegridom_best_split_16(word, LENGTH, 1, choice, joints, JOINTS, scratch,
                                     SCRATCH, &a, &index_) == CEGRIDOM_NO_SPLIT);
        CHECK(a == 0 && index_ == 0);
    }
    fill(table, TABLE_PLACES);
    reset();
    CHECK(cegridom_part_16(word, LENGTH, 1, 1, whole, units, LENGTH, &a, &b, &c, &d,
                           &index_) == CEGRIDOM_ACCEPTED);
    CHECK(a == half && b == 2 && c == 0 && d == 0 && index_ == 0);
    CHECK(table[0] == GUARD && units[half - 1] == half && units[LENGTH] == GUARD);
    /* the last symbol changed in its high byte */
    word[LENGTH - 1] ^= 0x4000;
    reset();
    CHECK(cegridom_judge_squares_16(word, LENGTH, &whole, 1, &a, &index_) ==
          CEGRIDOM_NOT_BLOCK);
    CHECK(a == 0 && index_ == 1);
    /* 256 codes of one low byte as the unit, which memory holds */
    for (uint32_t i = 0; i < LENGTH; i++) {
        word[i] = (uint16_t)(256 * (i % 256) + 7);
    }
    fill(table, TABLE_PLACES);
    reset();
    CHECK(cegridom_best_split_16(word, LENGTH, 1, CEGRIDOM_FEWEST, joints, 1, scratch,
                                 CEGRIDOM_WORK_PLACES(LENGTH), &a, &index_) ==
          CEGRIDOM_ACCEPTED);
    CHECK(a == 1 && index_ == 0 && table[0] == GUARD && BEGINS(joints, whole));
    code_page(word, LENGTH, 1, &whole, 1,
              "     1     1  4096   256    16     0     10007010702070307  \n");
    /* 4,096 different codes, and one more symbol */
    for (uint32_t i = 0; i < LENGTH; i++) {
        word[i] = (uint16_t)(16 * i + i / 256);
    }
    reset();
    CHECK(cegridom_runs_16(word, LENGTH, NULL, 0, &a, &index_) == CEGRIDOM_ACCEPTED);
    CHECK(a == 0 && index_ == 0);
    reset();
    CHECK(cegridom_runs_16(word, CEGRIDOM_LIMIT + 1, NULL, 0, &a, &index_) == CEGRIDOM_TOO_LONG);
    CHECK(a == 0 && index_ == 0);
}

/* Tables for a word of the limit's length; a place before each and one after it are watched too. */
static struct {
    uint32_t before, table[CEGRIDOM_MOST_RUN_PLACES(CEGRIDOM_LIMIT)], after;
} most;
static struct {
    uint32_t before, work[CEGRIDOM_WORK_PLACES(CEGRIDOM_LIMIT)], after;
} rows;
static struct {
    uint8_t before, bytes[CEGRIDOM_PAGE_BYTES(CEGRIDOM_MOST_ENDS(CEGRIDOM_LIMIT))], after;
} sheet;
static uint32_t most_ends[CEGRIDOM_MOST_ENDS(CEGRIDOM_LIMIT)];
static uint32_t steps[2 * CEGRIDOM_MOST_ENDS(CEGRIDOM_LIMIT)];

#define MOST_PLACES (sizeof most / sizeof(uint32_t))
#define ROW_PLACES (sizeof rows / sizeof(uint32_t))

static void fill_most(void) {
    fill((uint32_t *)&most, MOST_PLACES);
    fill((uint32_t *)&rows, ROW_PLACES);
    memset(&sheet, '.', sizeof sheet);
    reset();
}

/* All but the first places of the table lent are untouched. */
static int only_first(size_t count) {
    return most.before == GUARD && untouched(most.table + count, MOST_PLACES - 1 - count);
}

/* The working table after a best split: sizes for each prefix, then 0, and nothing beside it. */
static int sizes_are(uint32_t shortest, uint32_t n, uint32_t each) {
    int hold = rows.before == GUARD && rows.after == GUARD && rows.work[0] == 0;
    for (uint32_t m = 1; m <= n; m++) {
        hold &= rows.work[m] == (m < shortest ? CEGRIDOM_NONE : each == 0 ? 1 : m / each);
    }
    for (size_t i = n + 1; i < CEGRIDOM_WORK_PLACES((size_t)n); i++) {
        hold &= rows.work[i] == 0;
    }
    return hold;
}

/* Equal symbols, as many as the limit: one run, the whole as one block, and as blocks of two or
   three. */
static void test_limit_equal(void) {
    const uint32_t n = CEGRIDOM_LIMIT;
    fill_most();
    CHECK(in_width_runs(longest, n, most.table, 3, &a, &index_) == CEGRIDOM_TOO_FEW_PLACES);
    CHECK(a == 0 && index_ == 0 && only_first(0));
    reset();
    CHECK(in_width_runs(longest, n, most.table, CEGRIDOM_MOST_RUN_PLACES(n), &a, &index_) == 0);
    CHECK(a == 1 && index_ == 0 && BEGINS(most.table, 1, n, 1, 1) && only_first(4));
    for (uint32_t edition = 1; edition <= 2; edition++) {
        uint32_t turns = edition + 1, blocks = n / turns;
        fill_most();
        CHECK(in_width_part(longest, n, edition, 1, n, most.table, n, &a, &b, &c, &d, &index_) ==
              0);
        int ones = 1;
        for (uint32_t i = 0; i < n; i++) {
            ones &= most.table[i] == 1;
        }
        CHECK(a == 1 && b == n && c == 0 && d == 1 && index_ == 0 && ones && only_first(n));
        fill_most();
        CHECK(in_width_nodes(longest, n, edition, n, most.table, n, &a, &index_) == 0);
        CHECK(a == 1 && index_ == 0 && most.table[0] == 1 && only_first(1));
        fill_most();
        CHECK(in_width_best_split(longest, n, edition, CEGRIDOM_FEWEST, most.table, 1, rows.work,
                                  CEGRIDOM_WORK_PLACES(n), &a, &index_) == 0);
        CHECK(a == 1 && index_ == 0 && most.table[0] == n && only_first(1));
        CHECK(sizes_are(turns, n, 0));
        fill_most();
        CHECK(in_width_best_split(longest, n, edition, CEGRIDOM_MOST, most.table, blocks - 1,
                                  rows.work, CEGRIDOM_WORK_PLACES(n), &a, &index_) ==
              CEGRIDOM_TOO_FEW_PLACES);
        CHECK(a == 0 && index_ == 0 && only_first(0) && sizes_are(turns, n, turns));
        CHECK(in_width_best_split(longest, n, edition, CEGRIDOM_MOST, most.table, blocks,
                                  rows.work, CEGRIDOM_WORK_PLACES(n) - 1, &a, &index_) ==
              CEGRIDOM_SHORT_TABLE);
        CHECK(in_width_best_split(longest, n, edition, CEGRIDOM_MOST, most.table, blocks,
                                  rows.work, CEGRIDOM_WORK_PLACES(n), &a, &index_) == 0);
        CHECK(a == blocks && index_ == 0 && only_first(blocks) && sizes_are(turns, n, turns));
        int even = most.table[blocks - 1] == n;
        for (uint32_t i = 0; i + 1 < blocks; i++) {
            even &= most.table[i] == turns * (i + 1);
        }
        CHECK(even);
        memcpy(most_ends, most.table, blocks * sizeof *most_ends);
        reset();
        CHECK(in_width_judge_split(longest, n, edition, most_ends, blocks, &a, &index_) == 0);
        CHECK(a == blocks && index_ == 0);
        fill_most();
        CHECK(in_width_path_of_split(longest, n, edition, most_ends, blocks, most.table, blocks, &a,
                                     &index_) == 0);
        ones = 1;
        for (uint32_t i = 0; i < blocks; i++) {
            ones &= most.table[i] == 1;
            steps[2 * i] = 1;
            steps[2 * i + 1] = most_ends[i];
        }
        CHECK(a == blocks && index_ == 0 && ones && only_first(blocks));
        reset();
        CHECK(in_width_judge_path(longest, n, edition, steps, 2 * blocks, &a, &index_) == 0);
        CHECK(a == blocks && index_ == 0);
        fill_most();
        CHECK(in_width_write_page(longest, n, edition, most_ends, blocks, sheet.bytes,
                                  CEGRIDOM_PAGE_BYTES(blocks), &a, &index_) == 0);
        CHECK(a == CEGRIDOM_PAGE_BYTES(blocks) && index_ == 0 && sheet.before == '.');
        CHECK(edition == 1 ? sheet.after == '.' : sheet.bytes[CEGRIDOM_PAGE_BYTES(blocks)] == '.');
        char line[CEGRIDOM_PAGE_BYTES(1) + 1];
        uint32_t before = most_ends[blocks - 2];
        snprintf(line, sizeof line, "%6u%6u%6u%6u%6u%6u%6u", blocks, before + 1, n, 1, n - before,
                 0, 1);
        CHECK(memcmp(sheet.bytes + CEGRIDOM_PAGE_BYTES(blocks - 1), line, 42) == 0);
        fill_most();
        CHECK(in_width_which_first(longest, n - 1, longest, n, edition, rows.work,
                                   CEGRIDOM_WORK_PLACES(n), &a, &index_) == 0);
        CHECK(a == 1 && index_ == 0 && rows.before == GUARD && rows.after == GUARD);
        CHECK(in_width_first_block(longest, n, longest + 1, n, edition, rows.work,
                                   CEGRIDOM_WORK_PLACES(n), &a, &b) == 0);
        CHECK(a == 1 && b == n && rows.before == GUARD && rows.after == GUARD);
    }
    for (uint32_t choice = 1; choice <= 2; choice++) {
        uint32_t squares = choice == 1 ? 1 : n / 2;
        fill_most();
        CHECK(in_width_best_squares(longest, n, choice, most.table, squares, rows.work,
                                    CEGRIDOM_WORK_PLACES(n), &a, &index_) == 0);
        CHECK(a == squares && index_ == 0 && most.table[squares - 1] == n && only_first(squares));
        CHECK(rows.work[n] == squares && rows.work[n - 1] == CEGRIDOM_NONE && rows.work[n + 1] == 0);
        memcpy(most_ends, most.table, squares * sizeof *most_ends);
        CHECK(in_width_judge_squares(longest, n, most_ends, squares, &a, &index_) == 0);
        CHECK(a == squares && index_ == 0);
    }
}

/* A word of so many runs that their numbers take more than 16 bits: they stand in the tables of
   runs, nodes and paths, and in a page. */
static void test_limit_rich(void) {
    const uint32_t n = CEGRIDOM_LIMIT, count = RICH_RUNS;
    fill_most();
    CHECK(in_width_runs(rich, n, most.table, CEGRIDOM_RUN_PLACES(count) - 1, &a, &index_) ==
          CEGRIDOM_TOO_FEW_PLACES);
    CHECK(a == 0 && index_ == 0 && only_first(0));
    CHECK(in_width_runs(rich, n, most.table, CEGRIDOM_RUN_PLACES(count), &a, &index_) == 0);
    CHECK(a == count && index_ == 0 && only_first(CEGRIDOM_RUN_PLACES(count)));
    const uint32_t *last = most.table + CEGRIDOM_RUN_PLACES(count - 1);
    CHECK(last[0] > 65536 && last[1] == n && last[3] >= last[0]);
    fill_most();
    CHECK(in_width_nodes(rich, n, 1, n, most.table, n, &a, &index_) == 0);
    CHECK(a > 0 && index_ == 0 && most.table[a - 1] == count && only_first(a));
    fill_most();
    CHECK(in_width_best_split(rich, n, 1, CEGRIDOM_MOST, most_ends, CEGRIDOM_MOST_ENDS(n),
                              rows.work, CEGRIDOM_WORK_PLACES(n), &a, &index_) == 0);
    uint32_t blocks = a;
    CHECK(blocks > 0 && blocks == rows.work[n] && most_ends[blocks - 1] == n);
    if (blocks == 0) {
        return;
    }
    CHECK(in_width_path_of_split(rich, n, 1, most_ends, blocks, most.table, blocks, &a, &index_) ==
          0);
    CHECK(a == blocks && index_ == 0 && most.table[blocks - 1] > 65535 && only_first(blocks));
    for (uint32_t i = 0; i < blocks; i++) {
        steps[2 * i] = most.table[i];
        steps[2 * i + 1] = most_ends[i];
    }
    reset();
    CHECK(in_width_judge_path(rich, n, 1, steps, 2 * blocks, &a, &index_) == 0);
    CHECK(a == blocks && index_ == 0);
    /* what 16 bits would take for the same number */
    steps[2 * blocks - 2] -= 65536;
    reset();
    CHECK(in_width_judge_path(rich, n, 1, steps, 2 * blocks, &a, &index_) == CEGRIDOM_NOT_BLOCK);
    CHECK(a == 0 && index_ == blocks);
    CHECK(in_width_write_page(rich, n, 1, most_ends, blocks, sheet.bytes,
                              CEGRIDOM_PAGE_BYTES(blocks), &a, &index_) == 0);
    char number[8];
    snprintf(number, sizeof number, "%6u", most.table[blocks - 1]);
    CHECK(a == CEGRIDOM_PAGE_BYTES(blocks) && index_ == 0);
    CHECK(memcmp(sheet.bytes + CEGRIDOM_PAGE_BYTES(blocks - 1) + 36, number, 6) == 0);
}

/* Units, positions and ends that take more than 16 bits. */
static void test_limit_numbers(void) {
    static uint8_t word[CEGRIDOM_LIMIT];
    const uint32_t n = CEGRIDOM_LIMIT;
    /* 65,537 symbols, of which the first alone stands again */
    memset(word, 'a', sizeof word);
    word[0] = word[65537] = 'b';
    fill_most();
    CHECK(in_width_part(word, n, 1, 1, 65538, most.table, 65538, &a, &b, &c, &d, &index_) == 0);
    CHECK(a == 65537 && b == 1 && c == 1 && d == 0 && index_ == 0 && only_first(65538));
    CHECK(most.table[1] == 2 && most.table[65535] == 65536 && most.table[65536] == 65537);
    fill_most();
    CHECK(in_width_part(word, n, 1, 65539, n, most.table, n, &a, &b, &c, &d, &index_) == 0);
    CHECK(a == 1 && b == n - 65538 && c == 0 && d == 1 && only_first(n - 65538));
    fill_most();
    CHECK(in_width_nodes(word, n, 1, 65540, most.table, n, &a, &index_) == 0);
    CHECK(a == 1 && most.table[0] == 2 && only_first(1));
    reset();
    CHECK(in_width_nodes(word, n, 1, n + 1, most.table, n, &a, &index_) == CEGRIDOM_BAD_POSITION);
    CHECK(a == 0 && index_ == 0);
    /* aabb: ends above 65,535, and one that 16 bits would take for another */
    for (uint32_t i = 0; i < n; i++) {
        word[i] = i < 65536 ? 'a' : 'b';
    }
    const uint32_t ends[] = {65536, n}, near[] = {65536, 65537, n};
    reset();
    CHECK(in_width_judge_split(word, n, 1, ends, 2, &a, &index_) == 0);
    CHECK(a == 2 && index_ == 0);
    reset();
    CHECK(in_width_judge_split(word, n, 1, near, 3, &a, &index_) == CEGRIDOM_NOT_BLOCK);
    CHECK(a == 0 && index_ == 2);
    fill_most();
    CHECK(in_width_best_split(word, n, 2, CEGRIDOM_FEWEST, most.table, 2, rows.work,
                              CEGRIDOM_WORK_PLACES(n), &a, &index_) == 0);
    CHECK(a == 2 && index_ == 0 && BEGINS(most.table, 65536, n) && only_first(2));
    fill_most();
    CHECK(in_width_write_page(word, n, 1, ends, 2, sheet.bytes, CEGRIDOM_PAGE_BYTES(2), &a,
                              &index_) == 0);
    CHECK(a == CEGRIDOM_PAGE_BYTES(2) && index_ == 0);
    CHECK(memcmp(sheet.bytes, "     1     1 65536     1 65536     0     1", 42) == 0);
    CHECK(memcmp(sheet.bytes + 61, "     2 65537 70000     1  4464     0     2", 42) == 0);
    CHECK(sheet.bytes[122] == '.');
}

/* Every test on words, of what these are made of. */
static void test_words(void) {
    test_part();
    test_longest_part();
    test_runs();
    test_roots();
    test_nodes();
    test_best_split();
    test_best_squares();
    test_long_squares();
    test_judge_squares();
    test_two_words();
    test_long_pairs();
    test_judge_split();
    test_path_of_split();
    test_judge_path();
    test_write_page();
    test_longest_page();
    test_unit_memory();
    test_sizes();
    /* these take their time: once for each width */
    if (spelling == BYTES || spelling == HIGH_BYTE) {
        test_limit_equal();
        test_limit_rich();
        test_limit_numbers();
    }
}

int main(void) {
    memset(longest, 'a', sizeof longest);
    fill_rich();
    test_version();
    test_message();
    test_unit_places();
    for (spelling = BYTES; spelling < SPELLINGS; spelling++) {
        test_words();
    }
    test_same_as_bytes();
    test_codes();
    test_code_roots();
    test_code_pages();
    test_code_pairs();
    test_many_codes();
    test_write_plan();
    test_lines();
    test_read_plan();
    if (failed > 0) {
        fprintf(stderr, "C interface: %u checks failed\n", failed);
        return 1;
    }
    printf("C interface: %u checks passed\n", passed);
    return 0;
}
