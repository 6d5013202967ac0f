/* Fratolivem: the line work of CSS flexbox (breaking, flexing, placing), for C99 and C++17. C++ hosts may take
 * fratolivem.hpp, which stands over this file.
 *
 * Any bits may be handed in: a call answers or refuses, and never goes wrong over a number. What a host must see to:
 *  - a list is a pointer and a number of cells; a list of 0 cells may be NULL;
 *  - the lists of one call do not overlap;
 *  - the numbers of cells are true;
 *  - floats are in the default mode: rounded to nearest, subnormals not flushed to zero (no FTZ or DAZ on the calling
 *    thread; linking with gcc's -ffast-math sets them).
 * Calls keep no state and allocate nothing: several threads may call at once, each on lists of its own.
 *
 * Lengths are pixels, whole multiples of 1/64, of at most 262,144 px either way; -0.0 reads as 0, and no answer is
 * -0.0. Sizes handed to the breaking calls, limits, available space and margins may be negative; all other sizes, gaps
 * and bounds may not, unless said below. The sum over the items of (|size| + gap) is at most 262,144 px.
 *
 * On acceptance of a breaking call the first n cells of `counts` hold the lines' item counts, and 0 past the last line.
 * Cells past the named ones are unchanged in every call. A refusal changes no lent cell.
 */
#ifndef FRATOLIVEM_H
#define FRATOLIVEM_H

#include <stddef.h>
#include <stdint.h>

#ifdef __cplusplus
extern "C" {
#endif

/* Refusals, in the order in which they are looked for, each over the whole input: the container's numbers first, then
 * the items'. */
enum {
    FRATOLIVEM_ACCEPTED = 0,
    FRATOLIVEM_TOO_MANY_ITEMS = 1,  /* more than 1,024 in an input list; at the container */
    FRATOLIVEM_TOO_LITTLE_ROOM = 2, /* input lists of unequal length, or a lent list too short; at the container */
    FRATOLIVEM_NOT_FINITE = 3,      /* a NaN or an infinity */
    FRATOLIVEM_OFF_GRID = 4,        /* no whole multiple of 1/64 px */
    FRATOLIVEM_OUT_OF_RANGE = 5,    /* a number, or a code that this file does not name */
    FRATOLIVEM_SUM_TOO_LARGE = 6    /* at the container */
};

/* Where the number stands that a refusal is about. */
enum {
    FRATOLIVEM_NOWHERE = 0,   /* nothing is refused; `place` is 0 */
    FRATOLIVEM_CONTAINER = 1, /* its numbers and codes, room, or a list as a whole; `place` is 0 */
    FRATOLIVEM_AT = 2         /* the item or line `place`, counted from 0 */
};

/* Kinds of a limit or of available space. The number beside it is read only under DEFINITE, and not checked under
 * another. */
enum {
    FRATOLIVEM_DEFINITE = 0,
    FRATOLIVEM_MIN_CONTENT = 1, /* one item to each line */
    FRATOLIVEM_MAX_CONTENT = 2, /* every line fits */
    FRATOLIVEM_NO_LIMIT = 3     /* of a refused break limit; handed on as a limit it is refused, 5 at the container */
};

#define FRATOLIVEM_VERSION "0.1.0"
#define FRATOLIVEM_VERSION_MAJOR 0
#define FRATOLIVEM_VERSION_MINOR 1
#define FRATOLIVEM_VERSION_PATCH 0

#define FRATOLIVEM_MOST_ITEMS 1024

typedef struct {
    uint32_t number; /* 0, or the refusal */
    uint32_t where;
    uint32_t place;
    uint32_t lines;  /* 0 on refusal */
    uint32_t rounds; /* 0 on refusal, and in calls that flex nothing */
} fratolivem_answer;

typedef struct {
    uint32_t number;
    uint32_t where;
    uint32_t place;
    uint32_t kind; /* of the limit; NO_LIMIT on refusal */
    float limit;   /* 0.0 unless the kind is DEFINITE */
} fratolivem_limit;

/* The limit that lines break against. Flags are 0 or 1: whether the main size that the host works with is known
 * (known_is_definite: not found from the items), whether the container's own style fixes its main size
 * (main_is_definite), and whether it is a row. A row of fixed width w: 1, 1, 1, DEFINITE, w, no bounds. A column as
 * high as its items: 0, 0, 0, and any space is max-content. A bound whose flag is 0 is absent, and its number is not
 * read. The bounds are those of the container's inner main size. If known_is_definite is 0: max-content. Else, with a
 * maximum: the available number, or the maximum where there is none; lowered to the maximum if main_is_definite is 0;
 * raised to the minimum. With no maximum the available space itself, but max-content for a number in a column with
 * main_is_definite 0. So a minimum without a maximum changes nothing, and a maximum lowers nothing where
 * main_is_definite is 1. */
fratolivem_limit fratolivem_break_limit(uint32_t known_is_definite, uint32_t main_is_definite, uint32_t is_row,
                                        uint32_t available_kind, float available, uint32_t has_minimum, float minimum,
                                        uint32_t has_maximum, float maximum);

/* A line takes at least one item, then the next while the line with it fits: while its size is at most the limit. Sizes
 * are the items' outer main sizes (a flexible item's base held to its bounds, plus its margins); the call adds a gap
 * between neighbours. Room: n counts. */
fratolivem_answer fratolivem_greedy(uint32_t limit_kind, float limit, float gap, const float *sizes, size_t n,
                                    uint32_t *counts, size_t counts_len);

/* The work cells that balanced breaking of n items asks for: none above 1,024 items, which are refused whatever is
 * lent. */
static inline size_t fratolivem_work_cells(size_t n) { return n > FRATOLIVEM_MOST_ITEMS ? 0 : n * n + 3 * n; }
static inline size_t fratolivem_sum_cells(size_t n) { return n > FRATOLIVEM_MOST_ITEMS ? 0 : 3 * n; }

/* Balanced breaking: as many lines as greedy breaking makes of these sizes, negative ones read as 0, or `minimum` held
 * to 1..n if that is more. Of the divisions into so many lines in which each line has one item or fits, and where the
 * item after a line is zero, the line with it would not fit or fewer items would remain after that item than there are
 * lines after this one: the one with the least sum of the lines' sizes squared, and of equal ones the larger count at
 * the first difference. Room: n counts, n*n + 3n cells of work and 3n of sums. Those of work and sums may hold any bits
 * before and are 0 after acceptance. */
fratolivem_answer fratolivem_balanced(uint32_t limit_kind, float limit, float gap, uint32_t minimum, const float *sizes,
                                      size_t n, uint32_t *counts, size_t counts_len, uint32_t *work, size_t work_len,
                                      double *sums, size_t sums_len);

/* ---- flexing: CSS-FLEX 9.7, the free space of a line shared out over its items */

typedef struct {
    uint32_t number;
    uint32_t where;
    uint32_t place;
    int32_t free;    /* before flexing, in sixty-fourths of a pixel: below 0 where the line is overfull; 0 on refusal */
    uint32_t rounds; /* of the standard's loop, at most n; 0 on refusal */
} fratolivem_flexed;

/* Flexes one line, all in f32, each operation rounded once. `inner` is the container's inner main size and `gap` that
 * between two items. The items are eleven lists of n cells each (of unequal length: refusal 2); what item i is stands
 * in cell i of each:
 *   base          its flex base size, at least 0, padding and border counted in. The call does not raise it: a host
 *                 that follows the standard hands over a base of at least padding plus border.
 *   minimum       its minimum main size, at least 0
 *   maximum       its maximum main size, at least 0; read only where has_maximum is 1
 *   has_maximum   0 or 1
 *   edges         its padding plus border along the main axis, at least 0: no target is smaller
 *   grow, shrink  its flex factors: any float of 0 to 1,024, on the grid or off it
 *   start, end    its margins, of at most 131,072 px either way; read only where they are not auto
 *   auto_start, auto_end   0, or 1 where the margin is auto, which counts as 0 here
 * Room: n targets. On acceptance the first n cells hold the items' main sizes, padding and border counted in, which
 * need not be on the grid. A code that is neither 0 nor 1 is refusal 5 at its item; a number that is not read is not
 * checked. Refusal 6 goes by the items' outer sizes before flexing: each base held to its bounds, and its margins. */
fratolivem_flexed fratolivem_flex_line(float inner, float gap, const float *base, size_t base_len, const float *minimum,
                                       size_t minimum_len, const float *maximum, size_t maximum_len,
                                       const uint32_t *has_maximum, size_t has_maximum_len, const float *edges,
                                       size_t edges_len, const float *grow, size_t grow_len, const float *shrink,
                                       size_t shrink_len, const float *start, size_t start_len, const float *end,
                                       size_t end_len, const uint32_t *auto_start, size_t auto_start_len,
                                       const uint32_t *auto_end, size_t auto_end_len, float *targets,
                                       size_t targets_len);

/* Flexes many lines, each by its own items alone: line j has the next counts[j] of the n items. The counts of a
 * breaking call are such, cut to its lines. Counts of which one is 0, or that do not sum to n, are refusal 5 at the
 * container; more than 1,024 are refusal 1. Room: n cells each of targets, free and rounds. On acceptance the first n
 * targets are the items' main sizes, as above; free and rounds hold what the call above answers, by line, and 0 past
 * the last line up to n; the answer's rounds are their sum. */
fratolivem_answer fratolivem_flex_lines(float inner, float gap, const uint32_t *counts, size_t counts_len,
                                        const float *base, size_t base_len, const float *minimum, size_t minimum_len,
                                        const float *maximum, size_t maximum_len, const uint32_t *has_maximum,
                                        size_t has_maximum_len, const float *edges, size_t edges_len, const float *grow,
                                        size_t grow_len, const float *shrink, size_t shrink_len, const float *start,
                                        size_t start_len, const float *end, size_t end_len, const uint32_t *auto_start,
                                        size_t auto_start_len, const uint32_t *auto_end, size_t auto_end_len,
                                        float *targets, size_t targets_len, int32_t *free, size_t free_len,
                                        uint32_t *rounds, size_t rounds_len);

/* ---- placing: the main axis of one line, and the cross axis of a container and of one line */

/* BALANCE is wrap with balanced breaking. */
enum {
    FRATOLIVEM_NOWRAP = 0,
    FRATOLIVEM_WRAP = 1,
    FRATOLIVEM_WRAP_REVERSE = 2,
    FRATOLIVEM_BALANCE = 3,
    FRATOLIVEM_BALANCE_REVERSE = 4
};

/* justify-content, align-content and align-self. A position plus SAFE is the safe one. The last three are no
 * align-self. */
enum {
    FRATOLIVEM_START = 0,
    FRATOLIVEM_END = 1,
    FRATOLIVEM_FLEX_START = 2,
    FRATOLIVEM_FLEX_END = 3,
    FRATOLIVEM_CENTER = 4,
    FRATOLIVEM_SAFE = 5,
    FRATOLIVEM_STRETCH = 10,
    FRATOLIVEM_SPACE_BETWEEN = 11,
    FRATOLIVEM_SPACE_AROUND = 12,
    FRATOLIVEM_SPACE_EVENLY = 13
};

/* Places one line's items along it. `inner` is the container's inner main size and `gap` that between two items;
 * `justify_content` is a keyword above, and `reversed` 1 where the direction is (ROW_REVERSE, COLUMN_REVERSE), else 0.
 * The items are five lists of n cells each:
 *   targets       their main sizes, as flexing leaves them: any finite number of at most 16,777,216 px either way, on
 *                 the grid or off it
 *   start, end, auto_start, auto_end   their margins, as in flexing
 * Room: n cells each of offsets, used_start and used_end. On acceptance the used margins are the items' own, auto ones
 * with their equal part of the free space, or 0 where none is free; an offset is the step before an item and its
 * margins, walking the line from the physical start, from the last item where reversed: the gap, and what
 * `justify_content` adds. The answer has no lines and no rounds; it is never refusal 6. */
fratolivem_answer fratolivem_place_main(float inner, float gap, uint32_t justify_content, uint32_t reversed,
                                        const float *targets, size_t targets_len, const float *start, size_t start_len,
                                        const float *end, size_t end_len, const uint32_t *auto_start,
                                        size_t auto_start_len, const uint32_t *auto_end, size_t auto_end_len,
                                        float *offsets, size_t offsets_len, float *used_start, size_t used_start_len,
                                        float *used_end, size_t used_end_len);

/* A container's cross axis by value. A number beside a flag `has_..` of 0 is absent and not read. */
typedef struct {
    float inner; /* the inner cross size; it is held to the bounds */
    uint32_t has_inner;
    float minimum; /* bounds on the inner cross size: the minimum wins */
    uint32_t has_minimum;
    float maximum;
    uint32_t has_maximum;
    float gap; /* between two lines */
    uint32_t wrap;
} fratolivem_cross;

typedef struct {
    uint32_t number;
    uint32_t where;
    uint32_t place;
    float size; /* 0.0 on refusal */
} fratolivem_sized;

/* The cross size of one line: the inner size of a NOWRAP container that has one, else the largest of its items' outer
 * cross sizes and 0, held to the container's bounds under NOWRAP. The container's gap is not read. The items are nine
 * lists of n cells each:
 *   measured      its cross size as the host measured it, at least 0, padding and border counted in
 *   minimum, maximum, has_maximum, edges   what bounds it, as in flexing, here along the cross axis
 *   start, end, auto_start, auto_end       its cross margins, alike; auto ones count as 0
 * Nothing is lent. It is never refusal 6. */
fratolivem_sized fratolivem_line_size(fratolivem_cross container, const float *measured, size_t measured_len,
                                      const float *minimum, size_t minimum_len, const float *maximum,
                                      size_t maximum_len, const uint32_t *has_maximum, size_t has_maximum_len,
                                      const float *edges, size_t edges_len, const float *start, size_t start_len,
                                      const float *end, size_t end_len, const uint32_t *auto_start,
                                      size_t auto_start_len, const uint32_t *auto_end, size_t auto_end_len);

/* Places a container's n lines along the cross axis and answers its inner cross size: the given one, else lines plus
 * gaps, held to the bounds. `lines` are cross sizes as the call above answers them: any finite number of at most
 * 16,777,216 px either way. Under STRETCH, lines that with their gaps fall short of the inner size, or of the minimum
 * where there is none, share the rest equally. Room: n cells each of sizes and offsets. On acceptance they hold the
 * lines' sizes after that, and the step before each line, walking from the last line under WRAP_REVERSE and
 * BALANCE_REVERSE. The place of a refusal is a line. It is never refusal 6. */
fratolivem_sized fratolivem_place_lines(fratolivem_cross container, uint32_t align_content, const float *lines,
                                        size_t lines_len, float *sizes, size_t sizes_len, float *offsets,
                                        size_t offsets_len);

/* Places one line's items across it. `line` is its cross size, as the call above leaves it and within the same bounds;
 * `reversed` is 1 under WRAP_REVERSE and BALANCE_REVERSE, else 0. The items are the nine lists of fratolivem_line_size,
 * and two more:
 *   align_self    a keyword above, of START to STRETCH
 *   auto_size     1 where the cross size is auto, so that STRETCH fills the line, else 0
 * Room: n cells each of sizes, used_start, used_end and offsets. On acceptance they hold the items' cross sizes, their
 * margins and their offsets, each from the line's start to the item's start margin. An item with an auto margin is
 * never stretched, and its offset is 0 whatever align_self says. Its auto margins share the line less its size and its
 * other margin, where that is 0 or more, equally. Where it is negative, an auto start margin is 0, and what is missing
 * is taken off the end margin, auto or given, so that item and margins together are as large as the line: line 24, size
 * 40, margins auto and 6, used 0 and -16. Start is the top of a row's line and the left of a column's, whether wrapping
 * is reversed or not. The answer has no lines and no rounds; it is never refusal 6. */
fratolivem_answer fratolivem_place_across(float line, uint32_t reversed, const float *measured, size_t measured_len,
                                          const float *minimum, size_t minimum_len, const float *maximum,
                                          size_t maximum_len, const uint32_t *has_maximum, size_t has_maximum_len,
                                          const float *edges, size_t edges_len, const float *start, size_t start_len,
                                          const float *end, size_t end_len, const uint32_t *auto_start,
                                          size_t auto_start_len, const uint32_t *auto_end, size_t auto_end_len,
                                          const uint32_t *align_self, size_t align_self_len, const uint32_t *auto_size,
                                          size_t auto_size_len, float *sizes, size_t sizes_len, float *used_start,
                                          size_t used_start_len, float *used_end, size_t used_end_len, float *offsets,
                                          size_t offsets_len);

/* ---- The whole pass: lines, flexing, main axis and cross axis of one container ---- */

enum { FRATOLIVEM_ROW = 0, FRATOLIVEM_ROW_REVERSE = 1, FRATOLIVEM_COLUMN = 2, FRATOLIVEM_COLUMN_REVERSE = 3 };

/* A container by value. A number beside a flag `has_..` of 0 is absent and not read. Zeros are not CSS's initial
 * values, which are: the limit of fratolivem_break_limit, justify_content FLEX_START, align_content STRETCH, and all
 * else 0. */
typedef struct {
    float inner_main;
    float gap_main;
    uint32_t
        limit_kind; /* and the limit that lines break against, of fratolivem_break_limit; a NOWRAP container is one line
                            whatever it is, but it is checked */
    float limit;
    uint32_t minimum_lines; /* of balanced breaking; held to 1..n, never refused */
    uint32_t direction;
    uint32_t wrap;
    uint32_t justify_content;
    uint32_t align_content;
    float inner_cross;
    uint32_t has_inner_cross;
    float minimum_cross; /* bounds on the inner cross size */
    uint32_t has_minimum_cross;
    float maximum_cross;
    uint32_t has_maximum_cross;
    float gap_cross;
} fratolivem_container;

/* An item as the host measured it. Main and cross are the container's axes, so a column's main sizes are heights. Edges
 * are padding plus border. A host that follows CSS hands over a base of at least the edges. A margin beside an auto
 * flag of 1 is auto and not read. CSS's initial values are shrink 1, align_self STRETCH, auto_cross_size 1, and of what
 * is not measured 0. */
typedef struct {
    float main_base; /* flex base size */
    float main_minimum;
    float main_maximum;
    float main_edges;
    float grow;
    float shrink;
    float main_start; /* margins */
    float main_end;
    float cross_measured;
    float cross_minimum;
    float cross_maximum;
    float cross_edges;
    float cross_start;
    float cross_end;
    uint32_t has_main_maximum;
    uint32_t auto_main_start;
    uint32_t auto_main_end;
    uint32_t has_cross_maximum;
    uint32_t auto_cross_start;
    uint32_t auto_cross_end;
    uint32_t align_self;
    uint32_t auto_cross_size; /* 1: the cross size is auto, so the item may be stretched */
} fratolivem_item;

typedef struct {
    uint32_t number;
    uint32_t where;
    uint32_t place;
    uint32_t lines;
    uint32_t rounds;   /* of flexing, in all lines together */
    float inner_cross; /* the container's inner cross size, found from its lines where none was given; 0.0 on refusal */
} fratolivem_passed;

/* The lists of `placed`, each of n cells, one after another: item i's main size is placed[FRATOLIVEM_MAIN_SIZE * n +
 * i]. An offset is the step before an item, walking its line from the physical start (from the last item in a reversed
 * direction); margins are used margins. So an item's main position is the sum, over the walk up to it, of offsets,
 * start margins, sizes and end margins; its cross position is its line's, plus its cross offset and its cross start
 * margin; a line's is the sum of the line offsets and sizes over the walk, from the last line where wrapping is
 * reversed. */
enum {
    FRATOLIVEM_MAIN_SIZE = 0,
    FRATOLIVEM_MAIN_OFFSET = 1,
    FRATOLIVEM_MAIN_START = 2,
    FRATOLIVEM_MAIN_END = 3,
    FRATOLIVEM_CROSS_SIZE = 4,
    FRATOLIVEM_CROSS_OFFSET = 5,
    FRATOLIVEM_CROSS_START = 6,
    FRATOLIVEM_CROSS_END = 7,
    FRATOLIVEM_PLACED_LISTS = 8
};

/* The lists of `lines`, each of n cells: line j's cross size is lines[FRATOLIVEM_LINE_SIZE * n + j]. */
enum { FRATOLIVEM_LINE_SIZE = 0, FRATOLIVEM_LINE_OFFSET = 1, FRATOLIVEM_LINE_LISTS = 2 };

/* Breaks, flexes and places n items. Room: 8n cells of placed and 2n of lines; n counts, rounds and free, by line: item
 * counts, rounds of flexing, and free space before flexing in whole sixty-fourths, negative where the line is overfull.
 * Cells by line are 0 past the last line. BALANCE and BALANCE_REVERSE also ask for n*n + 3n cells of work and 3n of
 * sums (fratolivem_work_cells, fratolivem_sum_cells), which are 0 after acceptance; else these two may be NULL and are
 * not touched. All other cells are unchanged. It takes 163,840 bytes of stack (give its thread 256 KB; the calls that
 * flex take 40,960, balanced breaking 36,864). Ranges and the sum of refusal 6 are those of fratolivem_flex_line and,
 * across, those of fratolivem_line_size and fratolivem_place_across. */
fratolivem_passed fratolivem_pass(fratolivem_container container, const fratolivem_item *items, size_t n, float *placed,
                                  size_t placed_len, float *lines, size_t lines_len, uint32_t *counts,
                                  size_t counts_len, uint32_t *rounds, size_t rounds_len, int32_t *free,
                                  size_t free_len, uint32_t *work, size_t work_len, double *sums, size_t sums_len);

#ifdef __cplusplus
}
#endif
#endif
