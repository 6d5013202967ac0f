// The sum of check 6 and greedy breaking's walk in three forms: models of crates/checks_list and crates/break_greedy for
// a choice of docs/DECISIONS.md, "Kept for speed". walks.cpp is compiled by the kit's clang, as the library is, so no
// system header stands here.
#ifndef WALKS_HPP
#define WALKS_HPP

// Kinds are fratolivem.h's.
struct walk_limit {
    unsigned kind;
    float pixels;
};

// The number of lines, at most 1,024 items; 0 where check 6 refuses. The walk adds f32 pixels, as the library does; or
// i32 sixty-fourths, each size converted as the walk comes to it; or those that the sum's sweep left in a frame, which
// is cleared before.
unsigned long walk_pixels(const float *sizes, unsigned long n, float gap, walk_limit limit, unsigned *counts);
unsigned long walk_converting(const float *sizes, unsigned long n, float gap, walk_limit limit, unsigned *counts);
unsigned long walk_swept(const float *sizes, unsigned long n, float gap, walk_limit limit, unsigned *counts);

#endif
