// Our answer to a case, by the exported calls. A refusal is told apart.
#ifndef OURS_HPP
#define OURS_HPP

#include "../include/fratolivem.hpp"
#include "case.hpp"

namespace ours {

struct Told {
    uint32_t number = 0; // the refusal
    Answer answer;
};

inline Told broken(const Case &c) {
    static fratolivem::balancer balance;
    const Breaking &b = c.breaking;
    const auto limit = fratolivem_break_limit(b.known_is_definite, b.main_is_definite, b.is_row, b.available_kind,
                                              b.available, b.has_minimum, b.minimum, b.has_maximum, b.maximum);
    if (limit.number) return {limit.number, {}};
    std::vector<uint32_t> counts(c.list.size());
    const fratolivem::space space{limit.kind, limit.limit};
    const auto a = c.stage == Stage::balanced ? balance(space, b.gap, b.line_count, c.list, counts)
                                              : fratolivem::greedy(space, b.gap, c.list, counts);
    counts.resize(a.lines);
    return {a.number, {{}, counts}};
}

inline Told flexed(const Case &c) {
    model::FlexLists l;
    for (const model::Item &it : c.items) l.add(it.main());
    const std::size_t n = l.n();
    std::vector<float> targets(n);
    const auto a = fratolivem_flex_line(
        c.container.inner_main, c.container.gap_main, l.base.data(), n, l.minimum.data(), n, l.maximum.data(), n,
        l.has_maximum.data(), n, l.edges.data(), n, l.grow.data(), n, l.shrink.data(), n, l.start.data(), n,
        l.end.data(), n, l.auto_start.data(), n, l.auto_end.data(), n, targets.data(), n);
    return {a.number, {targets, {}}};
}

inline void append(std::vector<float> &all, const std::vector<float> &list) {
    all.insert(all.end(), list.begin(), list.end());
}

inline Told placed_main(const Case &c) {
    model::MainLists l{c.list, {}, {}, {}, {}};
    for (const model::Item &it : c.items) {
        l.start.push_back(it.main_start), l.end.push_back(it.main_end);
        l.auto_start.push_back(it.auto_main_start), l.auto_end.push_back(it.auto_main_end);
    }
    const model::Container &k = c.container;
    const std::size_t n = l.n();
    std::vector<float> offsets(n), start(n), end(n);
    const auto a = fratolivem_place_main(k.inner_main, k.gap_main, k.justify_content, k.reversed(), l.targets.data(), n,
                                         l.start.data(), n, l.end.data(), n, l.auto_start.data(), n, l.auto_end.data(),
                                         n, offsets.data(), n, start.data(), n, end.data(), n);
    Told t{a.number, {}};
    append(t.answer.numbers, offsets), append(t.answer.numbers, start), append(t.answer.numbers, end);
    return t;
}

inline fratolivem_cross cross_of(const model::Container &k) {
    return {k.inner_cross,   k.has_inner_cross,   k.minimum_cross, k.has_minimum_cross,
            k.maximum_cross, k.has_maximum_cross, k.gap_cross,     k.wrap};
}

inline model::CrossLists cross_lists(const Case &c) {
    model::CrossLists l;
    for (const model::Item &it : c.items) l.add(it.cross());
    return l;
}

inline Told sized(const Case &c) {
    const model::CrossLists l = cross_lists(c);
    const std::size_t n = l.n();
    const auto a = fratolivem_line_size(cross_of(c.container), l.measured.data(), n, l.minimum.data(), n,
                                        l.maximum.data(), n, l.has_maximum.data(), n, l.edges.data(), n, l.start.data(),
                                        n, l.end.data(), n, l.auto_start.data(), n, l.auto_end.data(), n);
    return {a.number, {{a.size}, {}}};
}

inline Told placed_lines(const Case &c) {
    const std::size_t n = c.list.size();
    std::vector<float> sizes(n), offsets(n);
    const auto a = fratolivem_place_lines(cross_of(c.container), c.container.align_content, c.list.data(), n,
                                          sizes.data(), n, offsets.data(), n);
    Told t{a.number, {{a.size}, {}}};
    append(t.answer.numbers, sizes), append(t.answer.numbers, offsets);
    return t;
}

inline Told placed_across(const Case &c) {
    const model::CrossLists l = cross_lists(c);
    const std::size_t n = l.n();
    std::vector<float> size(n), start(n), end(n), offset(n);
    const auto a = fratolivem_place_across(c.list[0], c.container.cross().reversed(), l.measured.data(), n,
                                           l.minimum.data(), n, l.maximum.data(), n, l.has_maximum.data(), n,
                                           l.edges.data(), n, l.start.data(), n, l.end.data(), n, l.auto_start.data(),
                                           n, l.auto_end.data(), n, l.align_self.data(), n, l.auto_size.data(), n,
                                           size.data(), n, start.data(), n, end.data(), n, offset.data(), n);
    Told t{a.number, {}};
    for (const auto *list : {&size, &start, &end, &offset}) append(t.answer.numbers, *list);
    return t;
}

// The library's pass, in the model's terms.
inline model::Passed pass_of(const Case &c) {
    static std::vector<uint32_t> work;
    static std::vector<double> sums;
    const std::size_t n = c.items.size();
    const model::PassRoom room = model::PassRoom::named(n);
    model::Passed p;
    p.placed.resize(room.placed), p.lines.resize(room.lines), p.counts.resize(n), p.rounds.resize(n), p.free.resize(n);
    if (work.size() < room.work) work.resize(room.work), sums.resize(room.sums);
    static_assert(sizeof(fratolivem_item) == sizeof(model::Item) &&
                      sizeof(fratolivem_container) == sizeof(model::Container),
                  "the same cells");
    fratolivem_container container;
    std::vector<fratolivem_item> items(n);
    std::memcpy(&container, &c.container, sizeof container);
    if (n) std::memcpy(items.data(), c.items.data(), n * sizeof(fratolivem_item));
    const auto a = fratolivem_pass(container, items.data(), n, p.placed.data(), room.placed, p.lines.data(), room.lines,
                                   p.counts.data(), n, p.rounds.data(), n, p.free.data(), n, work.data(), work.size(),
                                   sums.data(), sums.size());
    p.refusal = {a.number, a.where, a.place};
    p.lines_made = a.lines, p.rounds_made = a.rounds, p.inner_cross = a.inner_cross;
    return p;
}

// The numbers of the pass in the judge's order: inner cross size, line sizes and offsets, then the eight lists by item.
inline Told passed(const Case &c) {
    const std::size_t n = c.items.size();
    const auto p = pass_of(c);
    if (p.refusal.number) return {p.refusal.number, {}};
    Told t{0, {{p.inner_cross}, {}}};
    const auto lines = p.lines.begin();
    t.answer.numbers.insert(t.answer.numbers.end(), lines, lines + long(p.lines_made));
    t.answer.numbers.insert(t.answer.numbers.end(), lines + long(n), lines + long(n + p.lines_made));
    append(t.answer.numbers, p.placed);
    t.answer.counts.assign(p.counts.begin(), p.counts.begin() + long(p.lines_made));
    return t;
}

inline Told answer(const Case &c) {
    switch (c.stage) {
    case Stage::greedy:
    case Stage::balanced: return broken(c);
    case Stage::flex: return flexed(c);
    case Stage::main: return placed_main(c);
    case Stage::size: return sized(c);
    case Stage::lines: return placed_lines(c);
    case Stage::across: return placed_across(c);
    default: return passed(c);
    }
}

} // namespace ours
#endif
