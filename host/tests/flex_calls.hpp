// The calls of fratolivem.h that flex, each made on lent lists with dirty cells and compared with the model: answer,
// place and every cell.
#ifndef FLEX_CALLS_HPP
#define FLEX_CALLS_HPP

#include <array>
#include <cstdio>
#include <string>

#include "cells.hpp"
#include "flex_model.hpp"
#include "fratolivem.h"

inline long calls = 0, bad = 0;

struct FlexCall {
    float inner, gap;
    model::FlexLists items;
    model::Counts counts; // of flex_lines
};

inline std::string shown(const FlexCall &c) {
    char text[160];
    std::snprintf(text, sizeof text, "inner %a gap %a n %zu, %zu lines;", double(c.inner), double(c.gap), c.items.n(),
                  c.counts.size());
    std::string all = text;
    bool even = true;
    for (std::size_t length : c.items.lengths()) even = even && length == c.items.n();
    for (std::size_t i = 0; even && i < c.items.n() && i < 8; i++) {
        const auto it = c.items.at(i);
        std::snprintf(text, sizeof text, " (%g %g %u:%g %g %g %g %u:%g %u:%g)", double(it.base), double(it.minimum),
                      it.has_maximum, double(it.maximum), double(it.edges), double(it.grow), double(it.shrink),
                      it.auto_start, double(it.start), it.auto_end, double(it.end));
        all += text;
    }
    return all;
}

inline void expect(bool ok, const std::string &what, const FlexCall &c) {
    if (ok) return;
    if (++bad <= 20) std::printf("DIFFERS: %s; %s\n", what.c_str(), shown(c).c_str());
}

constexpr std::size_t most = 1100;
inline std::array<Lent<float>, 8> floats{Lent<float>(most), Lent<float>(most), Lent<float>(most), Lent<float>(most),
                                         Lent<float>(most), Lent<float>(most), Lent<float>(most), Lent<float>(most)};
inline std::array<Lent<uint32_t>, 3> codes{Lent<uint32_t>(most), Lent<uint32_t>(most), Lent<uint32_t>(most)};
inline Lent<uint32_t> counts(most), rounds(most);
inline Lent<float> targets(most);
inline Lent<int32_t> free_space(most);

// Cells lent beyond n; a list too short by one cell is -1.
struct Extra {
    int targets = 0, free = 0, rounds = 0;
};

inline void lend(const FlexCall &c) {
    const auto &l = c.items;
    const std::vector<float> *f[] = {&l.base, &l.minimum, &l.maximum, &l.edges, &l.grow, &l.shrink, &l.start, &l.end};
    const std::vector<uint32_t> *u[] = {&l.has_maximum, &l.auto_start, &l.auto_end};
    for (std::size_t i = 0; i < 8; i++) floats[i].lend(*f[i], any_stand());
    for (std::size_t i = 0; i < 3; i++) codes[i].lend(*u[i], any_stand());
    counts.lend(c.counts, any_stand());
}

inline bool inputs_kept() {
    bool kept = counts.kept();
    for (const auto &l : floats) kept = kept && l.kept();
    for (const auto &l : codes) kept = kept && l.kept();
    return kept;
}

#define ELEVEN_LISTS                                                                                                   \
    floats[0].data(), floats[0].size(), floats[1].data(), floats[1].size(), floats[2].data(), floats[2].size(),        \
        codes[0].data(), codes[0].size(), floats[3].data(), floats[3].size(), floats[4].data(), floats[4].size(),      \
        floats[5].data(), floats[5].size(), floats[6].data(), floats[6].size(), floats[7].data(), floats[7].size(),    \
        codes[1].data(), codes[1].size(), codes[2].data(), codes[2].size()

inline void try_line(const FlexCall &c, Extra x = {}) {
    lend(c);
    targets.lend(with(c.items.n(), x.targets), any_stand());
    const auto a = fratolivem_flex_line(c.inner, c.gap, ELEVEN_LISTS, targets.data(), targets.size());
    const auto e = model::flex_line(c.inner, c.gap, c.items, targets.size());
    calls++;
    expect(a.number == e.refusal.number,
           "flex_line: the number is " + std::to_string(a.number) + " and not " + std::to_string(e.refusal.number), c);
    expect(a.where == e.refusal.where && a.place == e.refusal.place, "flex_line: place", c);
    expect(a.free == e.free && a.rounds == e.rounds, "flex_line: free space or rounds", c);
    expect(a.number == 0 || (a.free == 0 && a.rounds == 0), "flex_line: a refusal tells of free space or rounds", c);
    expect(holds(targets, e.targets), a.number ? "flex_line: a refusal changed a target" : "flex_line: targets", c);
    expect(inputs_kept(), "flex_line: an input was changed", c);
}

inline void try_lines(const FlexCall &c, Extra x = {}) {
    lend(c);
    const std::size_t n = c.items.n();
    targets.lend(with(n, x.targets), any_stand());
    free_space.lend(with(n, x.free), any_stand());
    rounds.lend(with(n, x.rounds), any_stand());
    const auto a =
        fratolivem_flex_lines(c.inner, c.gap, counts.data(), counts.size(), ELEVEN_LISTS, targets.data(),
                              targets.size(), free_space.data(), free_space.size(), rounds.data(), rounds.size());
    const std::size_t room = std::min(targets.size(), std::min(free_space.size(), rounds.size()));
    const auto e = model::flex_lines(c.inner, c.gap, c.counts, c.items, room);
    calls++;
    expect(a.number == e.refusal.number,
           "flex_lines: the number is " + std::to_string(a.number) + " and not " + std::to_string(e.refusal.number), c);
    expect(a.where == e.refusal.where && a.place == e.refusal.place, "flex_lines: place", c);
    expect(a.lines == e.lines && a.rounds == e.rounds, "flex_lines: lines or the sum of the rounds", c);
    expect(holds(targets, e.targets), a.number ? "flex_lines: a refusal changed a target" : "flex_lines: targets", c);
    expect(holds(free_space, e.free), "flex_lines: free space by line", c);
    expect(holds(rounds, e.rounds_by_line), "flex_lines: rounds by line", c);
    expect(inputs_kept(), "flex_lines: an input was changed", c);
}

inline void try_both(const FlexCall &c, Extra x = {}) {
    try_line(c, x);
    try_lines(c, x);
}

#endif
