/* The header from C99: document 01's examples, canary cells round every lent list, and refusals that change nothing.
 * What the calls answer on many lists is compared in boundary.cpp. */
#include <math.h>
#include <stdio.h>
#include <string.h>

#include "fratolivem.h"

#define CANARY 0xa5a5a5a5u
#define MOST 8

static int bad = 0, done = 0;

static void expect(int ok, const char *what) {
    done++;
    if (!ok) {
        bad++;
        printf("DIFFERS: %s\n", what);
    }
}

/* Counts, work and sums, each with a canary cell before and after what is lent. */
static uint32_t counts[MOST + 2], work[MOST * MOST + 3 * MOST + 2];
static double sums[3 * MOST + 2];

static void dirty(void) {
    size_t i;
    for (i = 0; i < MOST + 2; i++) counts[i] = CANARY;
    for (i = 0; i < MOST * MOST + 3 * MOST + 2; i++) work[i] = CANARY;
    memset(sums, 0xa5, sizeof sums);
}

/* Whether the cells before a list and from `from` on still hold what dirty() left. */
static int canaries(const void *list, size_t cell, size_t all, size_t from) {
    const unsigned char *b = (const unsigned char *)list;
    size_t i;
    for (i = 0; i < all * cell; i++)
        if ((i < cell || i >= (1 + from) * cell) && b[i] != 0xa5) return 0;
    return 1;
}

static int zeros(const void *cells, size_t bytes) {
    const unsigned char *b = (const unsigned char *)cells;
    size_t i;
    for (i = 0; i < bytes; i++)
        if (b[i]) return 0;
    return 1;
}

static int all_canaries(size_t n_counts, size_t n_work, size_t n_sums) {
    return canaries(counts, 4, MOST + 2, n_counts) && canaries(work, 4, MOST * MOST + 3 * MOST + 2, n_work) &&
           canaries(sums, 8, 3 * MOST + 2, n_sums);
}

static void example(const char *name, uint32_t kind, float limit, float gap, uint32_t minimum, const float *sizes,
                    size_t n, const uint32_t *wanted, size_t lines) {
    const size_t n_work = fratolivem_work_cells(n), n_sums = fratolivem_sum_cells(n);
    fratolivem_answer a;
    size_t i;
    dirty();
    a = fratolivem_balanced(kind, limit, gap, minimum, sizes, n, counts + 1, MOST, work + 1, n_work, sums + 1, n_sums);
    expect(a.number == 0 && a.where == 0 && a.place == 0 && a.lines == lines && a.rounds == 0, name);
    for (i = 0; i < n; i++) expect(counts[1 + i] == (i < lines ? wanted[i] : 0), name);
    expect(zeros(work + 1, 4 * n_work) && zeros(sums + 1, 8 * n_sums), name);
    expect(all_canaries(n, n_work, n_sums), name);
}

static void refused(const char *name, fratolivem_answer a, uint32_t number, uint32_t where, uint32_t place) {
    expect(a.number == number && a.where == where && a.place == place && a.lines == 0 && a.rounds == 0, name);
    expect(all_canaries(0, 0, 0), name);
}

#define LIST(...) ((const float[]){__VA_ARGS__}), sizeof((const float[]){__VA_ARGS__}) / sizeof(float)
#define COUNTS(...) ((const uint32_t[]){__VA_ARGS__}), sizeof((const uint32_t[]){__VA_ARGS__}) / sizeof(uint32_t)

#define CODES(...) ((const uint32_t[]){__VA_ARGS__}), sizeof((const uint32_t[]){__VA_ARGS__}) / sizeof(uint32_t)
#define ITEMS(has_second_maximum)                                                                                      \
    LIST(100, 100), LIST(0, 0), LIST(NAN, 120), CODES(0, has_second_maximum), LIST(0, 0), LIST(1, 3), LIST(1, 1),      \
        LIST(0, NAN), LIST(0, 0), CODES(0, 1), CODES(0, 0)

/* P10, P11 and a refusal, with a cell more on both sides of each lent list. */
static void flexing(void) {
    const uint32_t lines[] = {1, 1};
    float targets[4] = {9, 9, 9, 9};
    int32_t space[4] = {9, 9, 9, 9};
    uint32_t rounds[4] = {9, 9, 9, 9};
    fratolivem_flexed f = fratolivem_flex_line(300, 0, ITEMS(0), targets + 1, 2);
    fratolivem_answer a;
    expect(f.number == 0 && f.where == 0 && f.place == 0 && f.free == 6400 && f.rounds == 1, "P10");
    expect(targets[0] == 9 && targets[1] == 125 && targets[2] == 175 && targets[3] == 9, "P10");
    f = fratolivem_flex_line(300, 0, ITEMS(1), targets + 1, 2);
    expect(f.number == 0 && f.free == 6400 && f.rounds == 2, "P11");
    expect(targets[0] == 9 && targets[1] == 180 && targets[2] == 120 && targets[3] == 9, "P11");
    f = fratolivem_flex_line(50, 0, ITEMS(2), targets + 1, 2);
    expect(f.number == 5 && f.where == FRATOLIVEM_AT && f.place == 1 && f.free == 0 && f.rounds == 0, "a code of 2");
    expect(targets[1] == 180 && targets[2] == 120, "a code of 2");
    a = fratolivem_flex_lines(50, 0, lines, 2, ITEMS(1), targets + 1, 2, space + 1, 2, rounds + 1, 2);
    expect(a.number == 0 && a.where == 0 && a.place == 0 && a.lines == 2 && a.rounds == 2, "two lines");
    expect(targets[0] == 9 && targets[1] == 50 && targets[2] == 50 && targets[3] == 9, "two lines");
    expect(space[0] == 9 && space[1] == -3200 && space[2] == -3200 && space[3] == 9, "two lines");
    expect(rounds[0] == 9 && rounds[1] == 1 && rounds[2] == 1 && rounds[3] == 9, "two lines");
}

#define CROSS_ITEMS(second_code)                                                                                       \
    LIST(20, 30), LIST(0, 0), LIST(NAN, NAN), CODES(0, 0), LIST(4, 0), LIST(1, NAN), LIST(-3, 2),                      \
        CODES(0, second_code), CODES(0, 0)

/* P14, P15, a line and its items across, and a refusal of each, with a cell more on both sides of each lent list. */
static void placing(void) {
    const fratolivem_cross wall = {100, 1, NAN, 0, 90, 1, 10, FRATOLIVEM_WRAP},
                           p15 = {100, 1, NAN, 0, NAN, 0, 10, FRATOLIVEM_WRAP};
    float offsets[5] = {9, 9, 9, 9, 9}, start[5] = {9, 9, 9, 9, 9}, end[5] = {9, 9, 9, 9, 9}, sizes[4] = {9, 9, 9, 9};
    fratolivem_answer a =
        fratolivem_place_main(100, 5, FRATOLIVEM_SPACE_BETWEEN, 0, LIST(10, 10, 10), LIST(0, 0, 0), LIST(0, 0, 0),
                              CODES(0, 0, 0), CODES(0, 0, 0), offsets + 1, 3, start + 1, 3, end + 1, 3);
    fratolivem_sized s;
    expect(a.number == 0 && a.where == 0 && a.place == 0 && a.lines == 0 && a.rounds == 0, "P14");
    expect(offsets[0] == 9 && offsets[1] == 0 && offsets[2] == 35 && offsets[3] == 35 && offsets[4] == 9, "P14");
    expect(start[0] == 9 && start[1] == 0 && start[3] == 0 && start[4] == 9 && end[0] == 9 && end[2] == 0 &&
               end[4] == 9,
           "P14");
    a = fratolivem_place_main(100, 5, 14, 0, LIST(10), LIST(0), LIST(0), CODES(0), CODES(0), offsets + 1, 3, start + 1,
                              3, end + 1, 3);
    expect(a.number == 5 && a.where == FRATOLIVEM_CONTAINER && offsets[2] == 35, "a keyword that names nothing");

    s = fratolivem_place_lines(p15, FRATOLIVEM_STRETCH, LIST(20, 30), sizes + 1, 2, offsets + 1, 2);
    expect(s.number == 0 && s.where == 0 && s.place == 0 && s.size == 100, "P15");
    expect(sizes[0] == 9 && sizes[1] == 40 && sizes[2] == 50 && sizes[3] == 9, "P15");
    expect(offsets[0] == 9 && offsets[1] == 0 && offsets[2] == 10 && offsets[3] == 35, "P15");
    s = fratolivem_place_lines(wall, FRATOLIVEM_END, LIST(20, 30), sizes + 1, 2, offsets + 1, 2);
    expect(s.number == 0 && s.size == 90 && sizes[1] == 20 && offsets[1] == 30 && offsets[2] == 10,
           "an inner size held to its maximum");
    s = fratolivem_place_lines(wall, FRATOLIVEM_END, LIST(20, INFINITY), sizes + 1, 2, offsets + 1, 2);
    expect(s.number == 3 && s.where == FRATOLIVEM_AT && s.place == 1 && s.size == 0 && sizes[1] == 20,
           "an infinite line");

    s = fratolivem_line_size(wall, CROSS_ITEMS(1));
    expect(s.number == 0 && s.where == 0 && s.place == 0 && s.size == 32, "a line's size");
    s = fratolivem_line_size(wall, CROSS_ITEMS(0));
    expect(s.number == 3 && s.where == FRATOLIVEM_AT && s.place == 1 && s.size == 0, "a margin that is none");

    a = fratolivem_place_across(40, 0, CROSS_ITEMS(1), CODES(FRATOLIVEM_STRETCH, FRATOLIVEM_END), CODES(1, 0),
                                sizes + 1, 2, start + 1, 2, end + 1, 2, offsets + 1, 2);
    expect(a.number == 0 && a.where == 0 && a.place == 0 && a.lines == 0 && a.rounds == 0, "items across");
    expect(sizes[0] == 9 && sizes[1] == 42 && sizes[2] == 30 && sizes[3] == 9 && offsets[1] == 0 && offsets[2] == 0,
           "items across");
    expect(start[0] == 9 && start[1] == 1 && start[2] == 8 && end[0] == 9 && end[1] == -3 && end[2] == 2,
           "items across");
    a = fratolivem_place_across(40, 0, CROSS_ITEMS(1), CODES(0, 0), CODES(1, 0), sizes + 1, 2, start + 1, 1, end + 1, 2,
                                offsets + 1, 2);
    expect(a.number == 2 && a.where == FRATOLIVEM_CONTAINER && sizes[1] == 42, "items across without room");
}

int main(void) {
    const float holed[] = {5, 6, NAN, 0.01f};
    fratolivem_answer a;
    fratolivem_limit l;
    char version[16];

    sprintf(version, "%d.%d.%d", FRATOLIVEM_VERSION_MAJOR, FRATOLIVEM_VERSION_MINOR, FRATOLIVEM_VERSION_PATCH);
    expect(strcmp(version, FRATOLIVEM_VERSION) == 0, "the version, as a string and as three numbers");

    example("P1", FRATOLIVEM_DEFINITE, 100, 10, 1, LIST(70, 0, 20), COUNTS(2, 1));
    example("P2", FRATOLIVEM_DEFINITE, 100, 0, 1, LIST(150, 0, 30), COUNTS(1, 2));
    example("P3", FRATOLIVEM_DEFINITE, 100, 0, 2, LIST(70, 0, 0), COUNTS(2, 1));
    example("P4", FRATOLIVEM_DEFINITE, 100, 0, 2, LIST(10, 10, 10), COUNTS(2, 1));
    example("P5", FRATOLIVEM_DEFINITE, 150, 0, 1, LIST(50, 50, 50, 10), COUNTS(2, 2));
    example("P6", FRATOLIVEM_DEFINITE, 100, 10, 1, LIST(45, 45), COUNTS(2));
    example("P7", FRATOLIVEM_MAX_CONTENT, NAN, 0, 9, LIST(5), COUNTS(1));
    example("P8", FRATOLIVEM_DEFINITE, 100, 0, 1, NULL, 0, NULL, 0);
    example("P9", FRATOLIVEM_MAX_CONTENT, NAN, 0, 0, LIST(5, 6), COUNTS(2));
    example("an end that one start may use", FRATOLIVEM_DEFINITE, 90, 10, 1, LIST(30, 5, 40, 20, 0, 0, 35),
            COUNTS(2, 1, 4));
    example("min-content", FRATOLIVEM_MIN_CONTENT, NAN, 10, 1, LIST(30, 5, 40), COUNTS(1, 1, 1));

    dirty();
    a = fratolivem_greedy(FRATOLIVEM_DEFINITE, 150, 0, LIST(50, 50, 50, 10), counts + 1, MOST);
    expect(a.number == 0 && a.lines == 2 && counts[1] == 3 && counts[2] == 1 && zeros(counts + 3, 8), "P5 greedy");
    expect(all_canaries(4, 0, 0), "P5 greedy");

    dirty();
    refused("NaN", fratolivem_greedy(FRATOLIVEM_DEFINITE, 100, 0, holed, 4, counts + 1, 4), 3, FRATOLIVEM_AT, 2);
    refused("NaN, balanced",
            fratolivem_balanced(FRATOLIVEM_DEFINITE, 100, 0, 1, holed, 4, counts + 1, 4, work + 1, 28, sums + 1, 12), 3,
            FRATOLIVEM_AT, 2);
    refused("off the grid", fratolivem_greedy(FRATOLIVEM_DEFINITE, 100, 0, holed + 3, 1, counts + 1, 1), 4,
            FRATOLIVEM_AT, 0);
    refused("gap", fratolivem_greedy(FRATOLIVEM_DEFINITE, 100, -1, holed, 2, counts + 1, 2), 5, FRATOLIVEM_CONTAINER,
            0);
    refused("room", fratolivem_greedy(FRATOLIVEM_DEFINITE, 100, 0, holed, 4, counts + 1, 3), 2, FRATOLIVEM_CONTAINER,
            0);
    refused("work",
            fratolivem_balanced(FRATOLIVEM_DEFINITE, 100, 0, 1, holed, 4, counts + 1, 4, work + 1, 27, sums + 1, 12), 2,
            FRATOLIVEM_CONTAINER, 0);
    refused("sums",
            fratolivem_balanced(FRATOLIVEM_DEFINITE, 100, 0, 1, holed, 4, counts + 1, 4, work + 1, 28, sums + 1, 11), 2,
            FRATOLIVEM_CONTAINER, 0);
    refused("kind", fratolivem_greedy(3, NAN, 0, holed, 2, counts + 1, 2), 5, FRATOLIVEM_CONTAINER, 0);

    l = fratolivem_break_limit(1, 0, 1, FRATOLIVEM_DEFINITE, 200, 0, NAN, 1, 120);
    expect(l.number == 0 && l.kind == FRATOLIVEM_DEFINITE && l.limit == 120.0f, "break limit");
    l = fratolivem_break_limit(1, 0, 0, FRATOLIVEM_DEFINITE, 200, 0, NAN, 0, NAN);
    expect(l.number == 0 && l.kind == FRATOLIVEM_MAX_CONTENT && l.limit == 0.0f, "break limit of a column");

    flexing();
    placing();

    printf("boundary in C: %d facts compared, %d differences\n", done, bad);
    return bad ? 1 : 0;
}
