// Document 01's whole pass on item records, read anew in C++ over the stages of the other models.
#ifndef PASS_MODEL_HPP
#define PASS_MODEL_HPP

#include "place_model.hpp"

namespace model {

struct Container {
    float inner_main = 0, gap_main = 0;
    uint32_t limit_kind = FRATOLIVEM_MAX_CONTENT;
    float limit = 0;
    uint32_t minimum_lines = 0;
    uint32_t direction = 0; // 0 row, 1 row-reverse, 2 column, 3 column-reverse
    uint32_t wrap = 0;      // 0 nowrap, 1 wrap, 2 wrap-reverse, 3 balance, 4 balance-reverse
    uint32_t justify_content = 0, align_content = 0;
    float inner_cross = 0;
    uint32_t has_inner_cross = 0;
    float minimum_cross = 0;
    uint32_t has_minimum_cross = 0;
    float maximum_cross = 0;
    uint32_t has_maximum_cross = 0;
    float gap_cross = 0;

    bool reversed() const { return direction == 1 || direction == 3; }
    bool balanced() const { return wrap == 3 || wrap == 4; }
    CrossContainer cross() const {
        return {inner_cross,   has_inner_cross,   minimum_cross, has_minimum_cross,
                maximum_cross, has_maximum_cross, gap_cross,     wrap};
    }
};

// The record, 14 floats and 8 codes, as it lies in memory.
struct Item {
    float main_base = 0, main_minimum = 0, main_maximum = 0, main_edges = 0, grow = 0, shrink = 0, main_start = 0,
          main_end = 0;
    float cross_measured = 0, cross_minimum = 0, cross_maximum = 0, cross_edges = 0, cross_start = 0, cross_end = 0;
    uint32_t has_main_maximum = 0, auto_main_start = 0, auto_main_end = 0;
    uint32_t has_cross_maximum = 0, auto_cross_start = 0, auto_cross_end = 0, align_self = 0, auto_cross_size = 0;

    FlexItem main() const {
        return {main_base, main_minimum, main_maximum, has_main_maximum, main_edges,   grow,
                shrink,    main_start,   main_end,     auto_main_start,  auto_main_end};
    }
    CrossItem cross() const {
        return {cross_measured, cross_minimum,    cross_maximum,  has_cross_maximum, cross_edges,    cross_start,
                cross_end,      auto_cross_start, auto_cross_end, align_self,        auto_cross_size};
    }
};

// Cells of the lent lists.
struct PassRoom {
    std::size_t placed, lines, counts, rounds, free, work, sums;

    static PassRoom named(std::size_t n) { return {8 * n, 2 * n, n, n, n, n * n + 3 * n, 3 * n}; }
    bool enough(std::size_t n, bool balanced) const {
        const PassRoom r = named(n);
        return placed >= r.placed && lines >= r.lines && counts >= r.counts && rounds >= r.rounds && free >= r.free &&
               (!balanced || (work >= r.work && sums >= r.sums));
    }
};

inline Refusal check_pass(const Container &c, const std::vector<Item> &items, const PassRoom &room) {
    const std::size_t n = items.size();
    if (n > 1024) return Taking::refused(1);
    if (!room.enough(n, c.balanced())) return Taking::refused(2);
    Taking taking;
    taking.size(c.inner_main), taking.size(c.gap_main), taking.code(c.limit_kind, 2);
    if (c.limit_kind == FRATOLIVEM_DEFINITE) taking.length(c.limit);
    taking.code(c.direction, 3);
    taking.code(c.justify_content, most_content_code), taking.code(c.align_content, most_content_code);
    take_cross(taking, c.cross(), true);
    FlexLists main;
    for (std::size_t i = 0; i < n; i++) {
        taking.at_item(i);
        take_flex_item(taking, items[i].main()), take_cross_item(taking, items[i].cross(), true);
        main.add(items[i].main());
    }
    const Refusal numbers = taking.check();
    return numbers.number ? numbers : check_outer_sum(c.gap_main, main);
}

// "in the full call a single-line container is one line whatever the limit".
inline Counts break_lines(const Container &c, const std::vector<float> &outer) {
    if (outer.empty()) return {};
    if (c.wrap == 0) return {uint32_t(outer.size())};
    const model::Items items(c.limit_kind, c.limit, c.gap_main, outer, c.balanced());
    return c.balanced() ? balanced(items, c.minimum_lines) : greedy(items);
}

struct Passed {
    Refusal refusal;
    uint32_t lines_made = 0, rounds_made = 0;
    float inner_cross = 0.0f;
    // The lent lists as named: eight lists of n (main size, main offset, main start and end margin, then the same
    // across), two of n (cross sizes and cross offsets by line), and the by-line lists, 0 past the last line.
    std::vector<float> placed, lines;
    std::vector<uint32_t> counts, rounds;
    std::vector<int32_t> free;
};

inline Passed pass(const Container &c, const std::vector<Item> &items, const PassRoom &room) {
    Passed a;
    a.refusal = check_pass(c, items, room);
    if (a.refusal.number) return a;
    const std::size_t n = items.size();
    FlexLists main;
    CrossLists cross;
    std::vector<float> outer;
    for (const Item &it : items) {
        main.add(it.main()), cross.add(it.cross());
        const Flexing f(it.main());
        outer.push_back(f.hypothetical + f.margins);
    }
    const Counts counts = break_lines(c, outer);
    a.placed.assign(8 * n, 0.0f), a.lines.assign(2 * n, 0.0f);
    std::vector<float> sizes;
    std::size_t s = 0;
    for (uint32_t count : counts) {
        const FlexedLine line = flex(c.inner_main, c.gap_main, main, s, s + count);
        MainLists l{line.targets, {}, {}, {}, {}};
        for (std::size_t i = s; i < s + count; i++) {
            l.start.push_back(items[i].main_start), l.end.push_back(items[i].main_end);
            l.auto_start.push_back(items[i].auto_main_start), l.auto_end.push_back(items[i].auto_main_end);
        }
        const PlacedMain along = place_main(c.inner_main, c.gap_main, c.justify_content, c.reversed(), l);
        for (std::size_t i = 0; i < count; i++) {
            a.placed[s + i] = line.targets[i], a.placed[n + s + i] = along.offsets[i];
            a.placed[2 * n + s + i] = along.start[i], a.placed[3 * n + s + i] = along.end[i];
        }
        a.counts.push_back(count), a.rounds.push_back(line.rounds), a.free.push_back(int32_t(line.free));
        a.lines_made++, a.rounds_made += line.rounds;
        sizes.push_back(cross_size(c.cross(), cross, s, s + count));
        s += count;
    }
    const PlacedLines lines = place_lines(c.cross(), c.align_content, sizes);
    a.inner_cross = lines.inner;
    s = 0;
    for (std::size_t j = 0; j < counts.size(); j++) {
        a.lines[j] = lines.sizes[j], a.lines[n + j] = lines.offsets[j];
        for (std::size_t i = s; i < s + counts[j]; i++) {
            const PlacedItem p = place_item(lines.sizes[j], c.cross().reversed(), items[i].cross());
            a.placed[4 * n + i] = p.size, a.placed[5 * n + i] = p.offset;
            a.placed[6 * n + i] = p.start, a.placed[7 * n + i] = p.end;
        }
        s += counts[j];
    }
    a.counts.resize(n, 0), a.rounds.resize(n, 0), a.free.resize(n, 0);
    return a;
}

} // namespace model
#endif
