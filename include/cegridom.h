/*
 * cegridom: repetition factorizations of words.
 *
 * A word is at most CEGRIDOM_LIMIT symbols, all bytes or all 16-bit codes, any value a symbol, with
 * positions from 1. The unit of a part is its smallest period. A block (repetition) is a part at
 * least 2 x its unit long in edition 1, and at least 3 x in edition 2; its unit has at most
 * CEGRIDOM_UNIT_MEMORY symbols. A run is a part at least 2 x its unit long, of a unit of any
 * length, that cannot be lengthened; runs and their numbers are the same in both editions. A split
 * (factorization) is a series of blocks that join up to the word, given by the positions of their
 * ends. A square is a non-empty word of any length twice over; the calls on squares split into them
 * instead of into blocks, and are told no edition.
 *
 * Every call that takes a word has two forms under one comment: its name alone is for words of
 * bytes, its name with _16 for words of 16-bit codes. Lengths count symbols. But for the page, the
 * forms differ in nothing else: the same numbers as bytes and as codes get the same result, values
 * and tables. Two words in one call have one width. A plan carries no symbols, so the calls on
 * plans have one form.
 *
 * Every call about words or plans returns 0 for accepted, else the number of the refusal: of those
 * that the call's comment lists, the first that is met, in the order listed. *index is the number
 * of the end from 1 after refusals 3 and 4, else 0. The other values are set after an accepted
 * answer, and are 0 after a refusal. cegridom_first_block alone refuses nothing and has no index.
 * Where a call takes two words, n is the length of the longer.
 *
 * Tables. A slice is lent as a pointer and its count of elements; a slice of count 0 may be null.
 * An accepted answer changes only the first places that it needs of an output table; a refusal
 * changes none. A working table is the exception, as the comment of each call that has one says.
 * Every other pointer must be valid: those to the index and to the values may not be null, whether
 * they are wanted or not. No two may overlap unless the call only reads both.
 *
 * Calls are reentrant: they keep no state, allocate nothing and call nothing back, so any number of
 * threads may call at once, with tables of their own. What a call costs is said in each comment, n
 * being the length of the word; where no stack is named, it is under 1 KiB. A thread of 2 MiB is
 * enough for every call. The stack that is named is for the longest words: no call takes more than
 * 108 KiB for up to 4,096 symbols, and 16 KiB for up to 64. None takes more than 1.5 MiB but
 * cegridom_best_split and cegridom_best_squares, which write the ends by recursion, with 48 bytes a
 * block: 1.7 MB for 35,000 blocks, the most that there are. The figures are of bytes; 16-bit codes
 * take as much or less. They are for a warm call: where memset is bound lazily, the first call of a
 * process may take some 3 KiB more, since the dynamic linker looks it up on the caller's stack.
 *
 * The functions are those of libcegridom.a, for x86-64 Linux only, which `make lib`
 * proves and writes to target/staticlib; it needs nothing but the C library's memset.
 * Nothing checks these declarations against the source of the library: tests/c compares what every
 * call gives.
 */
#ifndef CEGRIDOM_H
#define CEGRIDOM_H

#include <stddef.h>
#include <stdint.h>

#ifdef __cplusplus
extern "C" {
#endif

/* The version of this header, in numbers and as text; cegridom_version gives the archive's. */
#define CEGRIDOM_VERSION_MAJOR 0
#define CEGRIDOM_VERSION_MINOR 11
#define CEGRIDOM_VERSION (1000 * CEGRIDOM_VERSION_MAJOR + CEGRIDOM_VERSION_MINOR)
#define CEGRIDOM_VERSION_STRING "0.11"

/* The longest word that is taken. */
#define CEGRIDOM_LIMIT 70000
/* The longest word that a plan line of four digits a number is for; the line of a longer one has
   six digits a number. */
#define CEGRIDOM_LINE_LIMIT 4096
/* The longest unit of a block, in both editions: what unit memory holds. */
#define CEGRIDOM_UNIT_MEMORY 256
/* What the working tables of cegridom_best_split and cegridom_best_squares hold for a prefix that
   has no split. */
#define CEGRIDOM_NONE 4294967295u

/* The places that the table of cegridom_part needs, for the part from first to last: its length, as
   a size_t, and 0 where first is above last. n places suffice for every part of a word. */
#define CEGRIDOM_UNIT_PLACES(first, last) ((first) > (last) ? 0 : (size_t)(last) - (first) + 1)
/* The places that a working table needs, for a word of n symbols; of two words, for the longer. */
#define CEGRIDOM_WORK_PLACES(n) (4 * ((n) + 1))
/* The most ends that a split of a word of n symbols has, n / 2 rounded down: it is proved that no
   split, of either edition or into squares, has more. With so many places cegridom_best_split,
   cegridom_best_squares and, for blocks, cegridom_path_of_split never give 7. */
#define CEGRIDOM_MOST_ENDS(n) ((n) / 2)
/* The places that so many runs take: first, last, unit, root of each. */
#define CEGRIDOM_RUN_PLACES(runs) (4 * (runs))
/* Places that suffice for the runs of every word of n symbols, 4 x n: it is proved that a word of n
   symbols, n above 0, has fewer than n runs. With so many places cegridom_runs never gives 7. For
   n = 0 no place is needed. */
#define CEGRIDOM_MOST_RUN_PLACES(n) CEGRIDOM_RUN_PLACES(n)
/* The bytes of a page of so many blocks. */
#define CEGRIDOM_PAGE_BYTES(k) (61 * (k))
/* The bytes of a plan line of four digits a number with k ends, of one of six, and of the one that
   is for a word of n symbols. */
#define CEGRIDOM_PLAN_BYTES(k) (15 + 5 * (k))
#define CEGRIDOM_LONG_BYTES(k) (19 + 7 * (k))
#define CEGRIDOM_LINE_BYTES(n, k)                                                                  \
    ((n) > CEGRIDOM_LINE_LIMIT ? CEGRIDOM_LONG_BYTES(k) : CEGRIDOM_PLAN_BYTES(k))
/* The most ends that a line of so many bytes has, of four digits a number or of six. The first is
   never less than the second, so it gives enough places for a line of either kind.
   CEGRIDOM_MOST_ENDS is not enough for reading one, since the pieces of a plan may be of length
   1. */
#define CEGRIDOM_PLAN_ENDS(bytes) ((bytes) < 15 ? 0 : ((bytes) - 15) / 5)
#define CEGRIDOM_LONG_ENDS(bytes) ((bytes) < 19 ? 0 : ((bytes) - 19) / 7)

/* Editions of the winder's controller, told to each call that tests for blocks or nodes: the old
   winders hold a block from 2 x its unit on, the new one from 3 x its unit on. They do not apply to
   squares. */
#define CEGRIDOM_EDITION_1 1
#define CEGRIDOM_EDITION_2 2

/* Choices of cegridom_best_split and cegridom_best_squares. */
#define CEGRIDOM_FEWEST 1
#define CEGRIDOM_MOST 2

/* The results of a call; cegridom_message gives the same words. Of two words, 1 says that either is
   too long, 9 goes by the longer, and 2 says that neither has a split. For squares, 2 says that no
   split into squares exists. */
enum cegridom_result {
    /* accepted */
    CEGRIDOM_ACCEPTED = 0,
    /* n above 70,000; in a plan line of four digits a number, above 4,096 */
    CEGRIDOM_TOO_LONG = 1,
    /* no split exists */
    CEGRIDOM_NO_SPLIT = 2,
    /* an end not above the one before it (0 before the first), or above n */
    CEGRIDOM_BAD_END = 3,
    /* the piece up to this end is not a block; for squares, not a square; for a path, no run has
       that number, or its unit is above 256, or the run does not enclose the piece, or the piece is
       shorter than 2 x (edition 2: 3 x) the run's unit */
    CEGRIDOM_NOT_BLOCK = 4,
    /* the last end (0 if there are none) is not n */
    CEGRIDOM_UNFINISHED = 5,
    /* first below 1, last above n or first above last; for nodes, a position outside 1 to n */
    CEGRIDOM_BAD_POSITION = 6,
    /* fewer output places (for writing a plan or a page, bytes) than the answer needs */
    CEGRIDOM_TOO_FEW_PLACES = 7,
    /* a choice other than 1 or 2 */
    CEGRIDOM_BAD_CHOICE = 8,
    /* a working table under 4 x (n+1) places */
    CEGRIDOM_SHORT_TABLE = 9,
    /* a path with an odd count of numbers */
    CEGRIDOM_ODD_PATH = 10,
    /* bytes that are not one plan line, or whose count of ends differs from the one stated; a line
       of six digits a number whose n is 4,096 or less is none */
    CEGRIDOM_NOT_PLAN = 11,
    /* an edition other than 1 or 2 */
    CEGRIDOM_BAD_EDITION = 12
};

/* The text of a result, for every number. */
static inline const char *cegridom_message(uint32_t result) {
    switch (result) {
    case CEGRIDOM_ACCEPTED:
        return "accepted";
    case CEGRIDOM_TOO_LONG:
        return "n above 70,000";
    case CEGRIDOM_NO_SPLIT:
        return "no split exists";
    case CEGRIDOM_BAD_END:
        return "an end not above the one before it (0 before the first), or above n";
    case CEGRIDOM_NOT_BLOCK:
        return "the piece up to this end is not a block; for squares, not a square; for a path, "
               "no run has that number, or its unit is above 256, or the run does not enclose the "
               "piece, or the piece is shorter than 2 x (edition 2: 3 x) the run's unit";
    case CEGRIDOM_UNFINISHED:
        return "the last end (0 if there are none) is not n";
    case CEGRIDOM_BAD_POSITION:
        return "first below 1, last above n or first above last; for nodes, a position outside 1 "
               "to n";
    case CEGRIDOM_TOO_FEW_PLACES:
        return "fewer output places (for writing a plan or a page, bytes) than the answer needs";
    case CEGRIDOM_BAD_CHOICE:
        return "a choice other than 1 or 2";
    case CEGRIDOM_SHORT_TABLE:
        return "a working table under 4 x (n+1) places";
    case CEGRIDOM_ODD_PATH:
        return "a path with an odd count of numbers";
    case CEGRIDOM_NOT_PLAN:
        return "bytes that are not one plan line, or whose count of ends differs from the one "
               "stated";
    case CEGRIDOM_BAD_EDITION:
        return "an edition other than 1 or 2";
    default:
        return "unknown result";
    }
}

/*
 * The version of the archive, to be compared with CEGRIDOM_VERSION: where they differ, this header
 * is not the archive's and its other declarations may be wrong.
 */
uint32_t cegridom_version(void);

/*
 * Part: of the symbols at the positions first to last, the unit, the turns (the length divided by
 * the unit, rounded down), the rest (the remainder), and 1 for a block of the edition or 0. Writes
 * the unit of every leading part of it but the empty one to units: place i, from 1, is for its
 * first i symbols, so the last place written holds the unit given. Only the block depends on the
 * edition.
 * Reads word; changes the first last - first + 1 places of units. Refusals: 1, 12, 6, 7.
 * CEGRIDOM_UNIT_PLACES(first, last) places suffice, and n for every part.
 * Time linear in the part's length.
 */
uint32_t cegridom_part(const uint8_t *word, size_t n, uint32_t edition, uint32_t first,
                       uint32_t last, uint32_t *units, size_t unit_places, uint32_t *unit,
                       uint32_t *turns, uint32_t *rest, uint32_t *block, uint32_t *index);
uint32_t cegridom_part_16(const uint16_t *word, size_t n, uint32_t edition, uint32_t first,
                          uint32_t last, uint32_t *units, size_t unit_places, uint32_t *unit,
                          uint32_t *turns, uint32_t *rest, uint32_t *block, uint32_t *index);

/*
 * Runs: writes first, last, unit and root of each run to table, by first and then by unit, which is
 * the order of the run numbers from 1, and gives their count. The root is the position q from first
 * to first + unit - 1 where the unit symbols starting at q come first in order of symbol code, from
 * 0 up, without a sign; there is just one. Two runs wind the same unit, perhaps from different
 * starting symbols, exactly where their units are equal and the unit symbols starting at their
 * roots are the same.
 * Reads word; changes the first 4 x count places of table. Refusals: 1, 7.
 * CEGRIDOM_MOST_RUN_PLACES(n) places, 4 x n, suffice for every word: with so many, 7 never comes.
 * Time at most n x log n, with one more logarithm on powers; 1,235 KiB of stack.
 */
uint32_t cegridom_runs(const uint8_t *word, size_t n, uint32_t *table, size_t places,
                       uint32_t *count, uint32_t *index);
uint32_t cegridom_runs_16(const uint16_t *word, size_t n, uint32_t *table, size_t places,
                          uint32_t *count, uint32_t *index);

/*
 * Nodes: writes the numbers of the runs that have a white node at the position, rising, to table,
 * and gives their count. A run has one at each position from first + 2 x unit - 1 (in edition 2,
 * first + 3 x unit - 1) to last; a run whose unit is above 256 has none.
 * Reads word; changes the first count places of table. Refusals: 1, 12, 6, 7.
 * n places suffice, since a word has fewer runs than symbols: with so many, 7 never comes.
 * Time that of runs; 1,509 KiB of stack.
 */
uint32_t cegridom_nodes(const uint8_t *word, size_t n, uint32_t edition, uint32_t position,
                        uint32_t *table, size_t places, uint32_t *count, uint32_t *index);
uint32_t cegridom_nodes_16(const uint16_t *word, size_t n, uint32_t edition, uint32_t position,
                           uint32_t *table, size_t places, uint32_t *count, uint32_t *index);

/*
 * Best split: writes the ends of the split with the fewest (choice 1) or the most (choice 2)
 * blocks of the edition, and gives its size, the number of its blocks. Of the splits of that size
 * it is the one whose last block is longest, then the one before it, and so on.
 * Reads word; changes the first size places of ends. Refusals: 1, 12, 8, 9, 2, 7.
 * CEGRIDOM_MOST_ENDS(n) places of ends suffice: with so many, 7 never comes.
 * The working table afterwards holds in its first n + 1 places the best size of each prefix length
 * 0 to n, CEGRIDOM_NONE where the prefix has no split, and 0 in the following 3 x (n+1); after an
 * answer and after refusals 2 and 7 alike. After 1, 12, 8 and 9 it keeps its contents. Places past
 * 4 x (n+1) never change.
 * Time at most proportional to n x 512 (edition 2: n x 768), for long words: from each boundary so
 * many symbols are read. 500 bytes of stack and 48 a block of the split, 1.7 MB at most.
 */
uint32_t cegridom_best_split(const uint8_t *word, size_t n, uint32_t edition, uint32_t choice,
                             uint32_t *ends, size_t end_places, uint32_t *work, size_t work_places,
                             uint32_t *size, uint32_t *index);
uint32_t cegridom_best_split_16(const uint16_t *word, size_t n, uint32_t edition, uint32_t choice,
                                uint32_t *ends, size_t end_places, uint32_t *work,
                                size_t work_places, uint32_t *size, uint32_t *index);

/*
 * Best squares: writes the ends of the split into squares with the fewest (choice 1) or the most
 * (choice 2) of them, and gives its size, the number of its squares. The half of a square need not
 * be primitive: aaaa is one. Of the splits of that size it is the one whose last square is longest,
 * then the one before it, and so on. A word of odd length has none.
 * Reads word; changes the first size places of ends. Refusals: 1, 8, 9, 2, 7.
 * CEGRIDOM_MOST_ENDS(n) places of ends suffice: with so many, 7 never comes.
 * The working table afterwards holds in its first n + 1 places the best size of each prefix length
 * 0 to n, CEGRIDOM_NONE where the prefix has no split into squares, and 0 in the following
 * 3 x (n+1); after an answer and after refusals 2 and 7 alike. After 1, 8 and 9 it keeps its
 * contents. Places past 4 x (n+1) never change.
 * Time that of runs, and a step for each run and each symbol in it; 1,235 KiB of stack, or
 * 500 bytes and 48 a square of the split where that is more, 1.7 MB at most.
 */
uint32_t cegridom_best_squares(const uint8_t *word, size_t n, uint32_t choice, uint32_t *ends,
                               size_t end_places, uint32_t *work, size_t work_places,
                               uint32_t *size, uint32_t *index);
uint32_t cegridom_best_squares_16(const uint16_t *word, size_t n, uint32_t choice, uint32_t *ends,
                                  size_t end_places, uint32_t *work, size_t work_places,
                                  uint32_t *size, uint32_t *index);

/*
 * Which first: gives 1 for a or 2 for b, the word that has fewer blocks of the edition in its
 * fewest split. The first wins a tie; if only one can be split it is that one.
 * Reads a and b, which may overlap or be the same. Refusals: 1 for either; 12; 9 for the longer; 2
 * if neither can be split.
 * The first 4 x (n+1) places of the working table hold 0 afterwards, after an answer and after 2
 * alike. After 1, 12 and 9 it keeps its contents. Places past 4 x (n+1) never change.
 * Time that of two fewest splits.
 */
uint32_t cegridom_which_first(const uint8_t *a, size_t a_n, const uint8_t *b, size_t b_n,
                              uint32_t edition, uint32_t *work, size_t work_places, uint32_t *which,
                              uint32_t *index);
uint32_t cegridom_which_first_16(const uint16_t *a, size_t a_n, const uint16_t *b, size_t b_n,
                                 uint32_t edition, uint32_t *work, size_t work_places,
                                 uint32_t *which, uint32_t *index);

/*
 * First block: gives 1 or 2 as cegridom_which_first does, and the length of the first block of that
 * word's fewest split, the one that cegridom_best_split writes: the block is the first so many
 * symbols of that word. The length is 0 where that word is empty. Where cegridom_which_first
 * refuses, both numbers are 0; the result is CEGRIDOM_ACCEPTED always.
 * Reads a and b, and leaves the working table, as cegridom_which_first does, also where that
 * refuses.
 * Time that of two fewest splits.
 */
uint32_t cegridom_first_block(const uint8_t *a, size_t a_n, const uint8_t *b, size_t b_n,
                              uint32_t edition, uint32_t *work, size_t work_places, uint32_t *which,
                              uint32_t *length);
uint32_t cegridom_first_block_16(const uint16_t *a, size_t a_n, const uint16_t *b, size_t b_n,
                                 uint32_t edition, uint32_t *work, size_t work_places,
                                 uint32_t *which, uint32_t *length);

/*
 * Judge a split: accepted, with the number of blocks, exactly when the ends are those of a split
 * into blocks of the edition.
 * Reads word and ends. Refusals: 1; 12; then for each end in turn 3, 4; then 5.
 * Time at most proportional to n x CEGRIDOM_UNIT_MEMORY.
 */
uint32_t cegridom_judge_split(const uint8_t *word, size_t n, uint32_t edition, const uint32_t *ends,
                              size_t end_count, uint32_t *blocks, uint32_t *index);
uint32_t cegridom_judge_split_16(const uint16_t *word, size_t n, uint32_t edition,
                                 const uint32_t *ends, size_t end_count, uint32_t *blocks,
                                 uint32_t *index);

/*
 * Judge squares: accepted, with the number of squares, exactly when the ends are those of a split
 * into squares.
 * Reads word and ends. Refusals: 1; then for each end in turn 3, 4; then 5.
 * Time linear in n.
 */
uint32_t cegridom_judge_squares(const uint8_t *word, size_t n, const uint32_t *ends,
                                size_t end_count, uint32_t *blocks, uint32_t *index);
uint32_t cegridom_judge_squares_16(const uint16_t *word, size_t n, const uint32_t *ends,
                                   size_t end_count, uint32_t *blocks, uint32_t *index);

/*
 * Path of a split: writes the run number of each block to table, and gives the number of blocks.
 * It is that of the one run that encloses the block and has its unit.
 * Reads word and ends; changes the first blocks places of table.
 * Refusals: 1; 12; then for each end in turn 3, 4; then 5; then 7.
 * CEGRIDOM_MOST_ENDS(n) places suffice: with so many, 7 never comes.
 * Time that of runs and of judge a split; 1,510 KiB of stack.
 */
uint32_t cegridom_path_of_split(const uint8_t *word, size_t n, uint32_t edition,
                                const uint32_t *ends, size_t end_count, uint32_t *table,
                                size_t places, uint32_t *blocks, uint32_t *index);
uint32_t cegridom_path_of_split_16(const uint16_t *word, size_t n, uint32_t edition,
                                   const uint32_t *ends, size_t end_count, uint32_t *table,
                                   size_t places, uint32_t *blocks, uint32_t *index);

/*
 * Judge a path, given for each block as a run number and then an end: accepted, with the number of
 * blocks, exactly when the numbers are those of a path of length n in the edition's graph of the
 * runs.
 * Reads word and numbers. Refusals: 1; 12; 10; then for each end in turn 3, 4; then 5.
 * Time that of runs and of judge a split; 1,510 KiB of stack.
 */
uint32_t cegridom_judge_path(const uint8_t *word, size_t n, uint32_t edition,
                             const uint32_t *numbers, size_t number_count, uint32_t *blocks,
                             uint32_t *index);
uint32_t cegridom_judge_path_16(const uint16_t *word, size_t n, uint32_t edition,
                                const uint32_t *numbers, size_t number_count, uint32_t *blocks,
                                uint32_t *index);

/*
 * Write a page: writes the page of a split to out, and gives its count of bytes. Each block becomes
 * one line of 60 characters and byte 10. Its number from 1, first, last, unit, turns, rest and run
 * number take six characters each, right-aligned and filled with spaces; the run number is that of
 * path of a split. The other eighteen show the first symbols of the unit in lower-case hexadecimal
 * digits, at most nine bytes of two digits each or four 16-bit codes of four digits each, and then
 * spaces. The empty word's page is empty.
 * Reads word and ends; changes the first bytes bytes of out.
 * Refusals: 1; 12; then for each end in turn 3, 4; then 5; then 7.
 * CEGRIDOM_PAGE_BYTES(end_count) bytes suffice, and CEGRIDOM_PAGE_BYTES(CEGRIDOM_MOST_ENDS(n)) for
 * every split.
 * Time that of path of a split, and linear in the bytes; 1,510 KiB of stack.
 */
uint32_t cegridom_write_page(const uint8_t *word, size_t n, uint32_t edition, const uint32_t *ends,
                             size_t end_count, uint8_t *out, size_t room, uint32_t *bytes,
                             uint32_t *index);
uint32_t cegridom_write_page_16(const uint16_t *word, size_t n, uint32_t edition,
                                const uint32_t *ends, size_t end_count, uint8_t *out, size_t room,
                                uint32_t *bytes, uint32_t *index);

/*
 * Write a plan: writes the plan line of n and the ends to out, and gives its count of bytes. Where
 * n is at most CEGRIDOM_LINE_LIMIT, the line is "plan", n, the number of ends and each end, in four
 * digits each, parted by commas, then byte 10; where n is above, it begins with "long" instead and
 * has six digits a number. A line carries no symbols, so it is not asked whether the pieces are
 * blocks.
 * n is 32 bits wide, while a length is a size_t: 2^32 + 8 handed over is narrowed and taken for 8,
 * without a warning, so compare a length with CEGRIDOM_LIMIT first.
 * Reads ends; changes the first bytes bytes of out. Refusals: 1; 3 for each end; 5; 7.
 * CEGRIDOM_LINE_BYTES(n, end_count) bytes suffice, and CEGRIDOM_LONG_BYTES(end_count) for every n.
 * Time linear in the line.
 */
uint32_t cegridom_write_plan(uint32_t n, const uint32_t *ends, size_t end_count, uint8_t *out,
                             size_t room, uint32_t *bytes, uint32_t *index);

/*
 * Read a plan: writes the ends of a plan line to table, and gives its n and the count of ends. The
 * line is of either kind, as cegridom_write_plan writes it. Each plan has one line: one that begins
 * with "long" and has an n of CEGRIDOM_LINE_LIMIT or less is none, whatever else is wrong with it,
 * which is 11; one that begins with "plan" and has a greater n gives 1, and so does one that begins
 * with "long" and has an n above CEGRIDOM_LIMIT.
 * Reads line; changes the first count places of table. Refusals: 11; 1; 3 for each end; 5; 7.
 * CEGRIDOM_PLAN_ENDS(length) places suffice for a line of either kind, and CEGRIDOM_LIMIT for every
 * line.
 * Time linear in the line.
 */
uint32_t cegridom_read_plan(const uint8_t *line, size_t length, uint32_t *table, size_t places,
                            uint32_t *n, uint32_t *count, uint32_t *index);

#ifdef __cplusplus
}
#endif

#endif
