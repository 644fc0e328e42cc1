/* How much stack each call of the archive takes, on the longest words and on short ones. A thread with a
 * stack of its own fills it with a pattern, calls, and looks how far down the pattern is gone. The
 * figures stand in the header and in docs/PERFORMANCE.md; here they have to stay within what the header
 * promises. Each call is made once before, so that memset and memcpy are bound. */
#define _POSIX_C_SOURCE 200809L

#include <cegridom.h>

#include <pthread.h>
#include <stdint.h>
#include <stdio.h>
#include <stdlib.h>
#include <string.h>

enum {
    STACK = 2 * 1024 * 1024,     /* enough for every call */
    CALL_MOST = 3 * 512 * 1024,  /* of every call but the two that write best splits: 1.5 MiB */
    BEST_MOST = 1700000,         /* of those */
    MIDDLE_MOST = 108 * 1024,    /* of every call on 4,096 symbols */
    SHORT_MOST = 16 * 1024,      /* of every call on 64 symbols */
    EDGE = 128                   /* for the frame that lays the pattern; it counts as the call's */
};

static uint8_t bytes[CEGRIDOM_LIMIT];
static uint16_t codes[CEGRIDOM_LIMIT];
static uint32_t ends[CEGRIDOM_LIMIT / 2], path[CEGRIDOM_LIMIT], table[4 * CEGRIDOM_LIMIT];
static uint32_t work[4 * (CEGRIDOM_LIMIT + 1)];
static uint8_t text[CEGRIDOM_PAGE_BYTES(CEGRIDOM_LIMIT / 2)];
static uint32_t a, b, c, d, written;

/* The word is of n equal symbols, its split of blocks of two, so that every call has most to do. */
static uint32_t n;
static int wide;

#define BLOCKS (n / 2)
#define COUNT(t) (sizeof(t) / sizeof *(t))
#define CALL(f, ...) (wide ? f##_16(codes, n, __VA_ARGS__) : f(bytes, n, __VA_ARGS__))
#define PAIR(f, ...) \
    (wide ? f##_16(codes, n, codes, n, __VA_ARGS__) : f(bytes, n, bytes, n, __VA_ARGS__))

static uint32_t part(void) {
    return CALL(cegridom_part, 1, 1, n, table, COUNT(table), &a, &b, &c, &d, &written);
}
static uint32_t runs(void) {
    return CALL(cegridom_runs, table, COUNT(table), &a, &b);
}
static uint32_t nodes(void) {
    return CALL(cegridom_nodes, 1, n, table, COUNT(table), &a, &b);
}
static uint32_t fewest_split(void) {
    return CALL(cegridom_best_split, 1, CEGRIDOM_FEWEST, table, COUNT(table), work, COUNT(work), &a,
                &b);
}
static uint32_t most_split(void) {
    return CALL(cegridom_best_split, 1, CEGRIDOM_MOST, table, COUNT(table), work, COUNT(work), &a,
                &b);
}
static uint32_t fewest_squares(void) {
    return CALL(cegridom_best_squares, CEGRIDOM_FEWEST, table, COUNT(table), work, COUNT(work), &a,
                &b);
}
static uint32_t most_squares(void) {
    return CALL(cegridom_best_squares, CEGRIDOM_MOST, table, COUNT(table), work, COUNT(work), &a, &b);
}
static uint32_t which_first(void) {
    return PAIR(cegridom_which_first, 1, work, COUNT(work), &a, &b);
}
static uint32_t first_block(void) {
    return PAIR(cegridom_first_block, 1, work, COUNT(work), &a, &b);
}
static uint32_t judge_split(void) {
    return CALL(cegridom_judge_split, 1, ends, BLOCKS, &a, &b);
}
static uint32_t judge_squares(void) {
    return CALL(cegridom_judge_squares, ends, BLOCKS, &a, &b);
}
static uint32_t path_of_split(void) {
    return CALL(cegridom_path_of_split, 1, ends, BLOCKS, table, COUNT(table), &a, &b);
}
static uint32_t judge_path(void) {
    return CALL(cegridom_judge_path, 1, path, 2 * BLOCKS, &a, &b);
}
static uint32_t write_page(void) {
    return CALL(cegridom_write_page, 1, ends, BLOCKS, text, COUNT(text), &a, &b);
}
static uint32_t write_plan(void) {
    return cegridom_write_plan(n, ends, BLOCKS, text, COUNT(text), &written, &b);
}
static uint32_t read_plan(void) {
    return cegridom_read_plan(text, written, table, COUNT(table), &a, &b, &c);
}

static const struct {
    const char *name;
    uint32_t (*call)(void);
    size_t most;
} calls[] = {
    {"part", part, CALL_MOST},
    {"runs", runs, CALL_MOST},
    {"nodes", nodes, CALL_MOST},
    {"best split, fewest", fewest_split, BEST_MOST},
    {"best split, most", most_split, BEST_MOST},
    {"best squares, fewest", fewest_squares, BEST_MOST},
    {"best squares, most", most_squares, BEST_MOST},
    {"which first", which_first, CALL_MOST},
    {"first block", first_block, CALL_MOST},
    {"judge a split", judge_split, CALL_MOST},
    {"judge squares", judge_squares, CALL_MOST},
    {"path of a split", path_of_split, CALL_MOST},
    {"judge a path", judge_path, CALL_MOST},
    {"write a page", write_page, CALL_MOST},
    {"write a plan", write_plan, CALL_MOST},
    {"read a plan", read_plan, CALL_MOST},
};

static volatile uint8_t *low; /* the lowest byte of the thread's stack */

/* The stack that a call takes, with the frames of this program that make it. */
static __attribute__((noinline)) size_t taken(uint32_t (*call)(void)) {
    volatile uint8_t *here = __builtin_frame_address(0);
    if (call() != 0) {
        fprintf(stderr, "stack: a call was refused\n");
        exit(1);
    }
    for (volatile uint8_t *at = low; at < here - EDGE; at++)
        *at = 0xa5;
    call();
    volatile uint8_t *at = low;
    while (at < here - EDGE && *at == 0xa5)
        at++;
    return (size_t)(here - at) / 8 * 8;
}

static void *measure(void *answer) {
    size_t (*figures)[COUNT(calls)] = answer;
    for (size_t i = 0; i < COUNT(calls); i++)
        (*figures)[i] = taken(calls[i].call);
    return NULL;
}

/* The figures of every call, in a thread of 2 MiB. */
static void thread(uint8_t *stack, size_t (*figures)[COUNT(calls)]) {
    pthread_attr_t attributes;
    pthread_t id;
    low = stack;
    if (pthread_attr_init(&attributes) != 0 || pthread_attr_setstack(&attributes, stack, STACK) != 0 ||
        pthread_create(&id, &attributes, measure, figures) != 0 || pthread_join(id, NULL) != 0) {
        fprintf(stderr, "stack: no thread of %d bytes\n", STACK);
        exit(1);
    }
}

int main(void) {
    static const uint32_t lengths[] = {8, 64, 4096, CEGRIDOM_LIMIT};
    static size_t figures[COUNT(lengths)][2][COUNT(calls)];
    uint8_t *stack = aligned_alloc(4096, STACK);
    unsigned checks = 0;
    if (stack == NULL)
        return 1;
    memset(bytes, 97, sizeof bytes);
    for (size_t i = 0; i < CEGRIDOM_LIMIT; i++)
        codes[i] = 97;
    for (uint32_t i = 0; i < CEGRIDOM_LIMIT / 2; i++) {
        ends[i] = path[2 * i + 1] = 2 * i + 2;
        path[2 * i] = 1;
    }
    for (size_t l = 0; l < COUNT(lengths); l++)
        for (wide = 0; wide < 2; wide++) {
            n = lengths[l];
            thread(stack, &figures[l][wide]);
        }
    printf("stack in bytes, of words of bytes and of codes, by their symbols\n");
    printf("%-21s %12s %12s %15s %19s\n", "", "8", "64", "4,096", "70,000");
    for (size_t i = 0; i < COUNT(calls); i++) {
        printf("%-21s", calls[i].name);
        for (size_t l = 0; l < COUNT(lengths); l++)
            for (int w = 0; w < 2; w++) {
                size_t most = lengths[l] <= 64 ? SHORT_MOST : lengths[l] <= 4096 ? MIDDLE_MOST : calls[i].most;
                int columns = lengths[l] <= 64 ? 6 : lengths[l] <= 4096 ? 7 : 9;
                printf(" %*zu", columns, figures[l][w][i]);
                if (figures[l][w][i] > most) {
                    fprintf(stderr, "\nstack: %s takes more than %zu bytes\n", calls[i].name, most);
                    return 1;
                }
                checks++;
            }
        printf("\n");
    }
    printf("C stack: %u checks passed\n", checks);
    free(stack);
    return 0;
}
