/* The entry points of libjudge.a, which judge/build makes of the Rust's own text. Rust may be handed what it takes
 * alone: no n of 0 to judge_balance, judge_cross_size or judge_pass, and no code that no row names but 11 of
 * align_self, `safe stretch`. */
#ifndef JUDGE_H
#define JUDGE_H

#include <stddef.h>
#include <stdint.h>

#ifdef __cplusplus
extern "C" {
#endif

/* What the break limit and breaking turn on. */
typedef struct {
    uint32_t known_is_definite, main_is_definite, is_row, available_kind;
    float available;
    uint32_t has_minimum;
    float minimum;
    uint32_t has_maximum;
    float maximum;
    float gap;
    uint32_t line_count;
} judge_breaking;

/* A container and an item as the whole pass takes them. */
typedef struct {
    float inner_main, gap_main;
    uint32_t limit_kind;
    float limit;
    uint32_t minimum_lines, direction, wrap, justify_content, align_content;
    float inner_cross;
    uint32_t has_inner_cross;
    float minimum_cross;
    uint32_t has_minimum_cross;
    float maximum_cross;
    uint32_t has_maximum_cross;
    float gap_cross;
} judge_container;

typedef struct {
    float main_base, main_minimum, main_maximum, main_edges, grow, shrink, main_start, main_end;
    float cross_measured, cross_minimum, cross_maximum, cross_edges, cross_start, cross_end;
    uint32_t has_main_maximum, auto_main_start, auto_main_end;
    uint32_t has_cross_maximum, auto_cross_start, auto_cross_end, align_self, auto_cross_size;
} judge_item;

typedef struct judge_list judge_list;

judge_list *judge_items(const float *sizes, size_t n);
void judge_drop(judge_list *items);

/* The limit that greedy lines of a known main size break against; an infinity where it is none. */
float judge_limit(const judge_breaking *container);

/* counts has n + 1 cells: the crate makes one line of no items. */
size_t judge_lines(uint32_t balanced, const judge_breaking *container, judge_list *items, uint32_t *counts);

/* The module `balance` alone; an infinite limit is max-content. */
size_t judge_balance(float limit, float gap, size_t minimum, const float *sizes, size_t n, uint32_t *counts);

/* Stages of one line. placed: offsets, used start margins, used end margins (main); sizes, used start and end margins,
 * offsets (across). */
void judge_flex(const judge_container *c, const judge_item *items, size_t n, float *targets);
void judge_main(const judge_container *c, const judge_item *items, const float *targets, size_t n, float *placed);
float judge_cross_size(const judge_container *c, const judge_item *items, size_t n);
void judge_across(const judge_container *c, float line, const judge_item *items, size_t n, float *placed);

/* The same flexing, of a line that is made before: for timing it alone. */
typedef struct judge_line judge_line;
judge_line *judge_line_of(const judge_container *c, const judge_item *items, size_t n);
void judge_line_flex(judge_line *line);
void judge_line_targets(const judge_line *line, float *targets);
void judge_line_drop(judge_line *line);

/* Lines along the cross axis. placed: sizes, offsets. Answers the inner cross size. */
float judge_across_lines(const judge_container *c, const float *sizes, size_t n, float *placed);

/* All stages. placed has 8n cells, lines 2n and counts n, in the order of fratolivem_pass; answers the lines. */
size_t judge_pass(const judge_container *c, const judge_item *items, size_t n, float *placed, float *lines,
                  uint32_t *counts, float *inner_cross);

#ifdef __cplusplus
}
#endif
#endif
