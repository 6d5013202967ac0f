// The documents' rules with each way in which the Rust differs behind a switch of its own. With no switch on this is
// the documents' rule once more; with all of them it must be the Rust, bit for bit, or a difference is not explained.
// No text of the Rust is in it.
#ifndef RUST_WAYS_HPP
#define RUST_WAYS_HPP

#include <algorithm>
#include <cmath>

#include "case.hpp"

namespace ways {

enum Way : uint32_t {
    d1 = 1 << 0,  // free space of exactly 0: every item is frozen at its hypothetical size, and no round is made
    d2 = 1 << 1,  // only an item whose grow and shrink are both 0 is frozen for its factor
    d3 = 1 << 2,  // factors below 1: initial free space times their sum, less the gaps once more
    d4 = 1 << 3,  // .. and then the lesser (growing) or greater (shrinking) of the two, not that of smaller magnitude
    d5 = 1 << 4,  // free space that is subnormal adds nothing
    d6 = 1 << 5,  // where nothing is added an item keeps its last target, and does not fall back to its base
    d6b = 1 << 6, // a round's clamp raises to 0, not to padding plus border
    d7 = 1 << 7,  // the base is raised to padding plus border before flexing
    d8 = 1 << 8,  // a stretched cross size is not raised to padding plus border
    d9 = 1 << 9,  // -0.0 is kept
    // an inner cross size worked out of lines is at least 0, and stretch fills it to 0 where neither a size nor a
    // minimum is given
    d17 = 1 << 10,
    d18 = 1 << 11, // cross auto margins share negative free space too
};
constexpr int way_count = 12;
constexpr const char *way_names[way_count] = {"D1",  "D2", "D3", "D4", "D5",  "D6",
                                              "D6'", "D7", "D8", "D9", "D17", "D18"};
constexpr uint32_t all_ways = (1u << way_count) - 1;

inline std::string names_of(uint32_t ways) {
    std::string all;
    for (int i = 0; i < way_count; i++)
        if (ways >> i & 1) all += (all.empty() ? "" : "+") + std::string(way_names[i]);
    return all.empty() ? "none" : all;
}

// A line of the sample: a case, the Rust's answer to it, and the ways that it shows.
inline std::string sample_line(const Case &c, const Answer &rust, uint32_t set) {
    return text_of(c) + " => " + text_of(rust) + (set ? " # " + names_of(set) : "");
}

using model::cleaned;

struct Flexing {
    float base, inner_base, margins, grow, shrink, minimum, maximum, edges, hypothetical, target, violation = 0.0f;
    uint32_t has_maximum;
    bool frozen = false;

    Flexing(uint32_t ways, const model::Item &it)
        : base(cleaned(it.main_base)),
          margins(model::margins_of(it.main_start, it.auto_main_start, it.main_end, it.auto_main_end)), grow(it.grow),
          shrink(it.shrink), minimum(cleaned(it.main_minimum)), maximum(cleaned(it.main_maximum)),
          edges(cleaned(it.main_edges)), has_maximum(it.has_main_maximum) {
        if (ways & d7) base = std::max(base, edges);
        inner_base = std::max(base - edges, 0.0f);
        hypothetical = target = clamped(base, edges);
    }
    float clamped(float x, float least) const { return model::clamp(x, has_maximum, maximum, minimum, least); }
    float factor(bool growing) const { return growing ? grow : shrink; }
    float weight(bool growing) const { return growing ? grow : inner_base * shrink; }
};

inline float free_space(float inner, float gap, const std::vector<Flexing> &line) {
    float sum = 0.0f;
    for (const Flexing &it : line) sum = sum + ((it.frozen ? it.target : it.base) + it.margins);
    return inner - (model::gaps_of(gap, line.size()) + sum);
}

inline float limited(uint32_t ways, float initial, float factors, float gaps, float free, bool growing) {
    float less = initial * factors;
    if (ways & d3) less = less - gaps;
    if (ways & d4) return growing ? std::min(less, free) : std::max(less, free);
    return std::fabs(less) < std::fabs(free) ? less : free;
}

inline std::vector<float> flex(uint32_t ways, float inner, float gap, const model::Item *items, std::size_t n) {
    std::vector<Flexing> line;
    for (std::size_t i = 0; i < n; i++) line.emplace_back(ways, items[i]);
    inner = cleaned(inner), gap = cleaned(gap);
    int64_t before = model::sixtyfourths(inner) - (n ? model::sixtyfourths(gap) * int64_t(n - 1) : 0);
    for (const Flexing &it : line) before -= model::sixtyfourths(it.hypothetical) + model::sixtyfourths(it.margins);
    const bool growing = before > 0;
    for (Flexing &it : line) {
        const bool rigid = ways & d2 ? it.grow == 0.0f && it.shrink == 0.0f : it.factor(growing) == 0.0f;
        it.frozen =
            rigid || (growing ? it.base > it.hypothetical : it.base < it.hypothetical) || (ways & d1 && before == 0);
    }
    const float initial = free_space(inner, gap, line), gaps = model::gaps_of(gap, n);
    while (std::any_of(line.begin(), line.end(), [](const Flexing &it) { return !it.frozen; })) {
        float free = free_space(inner, gap, line), factors = 0.0f, weights = 0.0f, total = 0.0f;
        for (const Flexing &it : line)
            if (!it.frozen) factors = factors + it.factor(growing), weights = weights + it.weight(growing);
        if (factors < 1.0f) free = limited(ways, initial, factors, gaps, free, growing);
        const bool nothing = weights == 0.0f || (ways & d5 ? !std::isnormal(free) : free == 0.0f);
        for (Flexing &it : line) {
            if (it.frozen) continue;
            const float before_clamp =
                nothing ? (ways & d6 ? it.target : it.base) : it.base + free * (it.weight(growing) / weights);
            it.target = it.clamped(before_clamp, ways & d6b ? 0.0f : it.edges);
            it.violation = it.target - before_clamp;
            total = total + it.violation;
        }
        for (Flexing &it : line)
            if (!it.frozen) it.frozen = total == 0.0f || (total > 0.0f ? it.violation > 0.0f : it.violation < 0.0f);
    }
    std::vector<float> targets;
    for (const Flexing &it : line) targets.push_back(cleaned(it.target));
    return targets;
}

inline model::PlacedItem place_item(uint32_t ways, float line, bool reversed, const model::CrossItem &it) {
    model::CrossItem taken = it;
    if (ways & d8 && it.stretched()) taken.edges = 0.0f;
    model::PlacedItem p = model::place_item(line, reversed, taken);
    if (!(ways & d18) || !it.has_auto()) return p;
    const float share = it.share(cleaned(line) - (p.size + it.margins()));
    p.start = cleaned(it.auto_start ? share : it.start), p.end = cleaned(it.auto_end ? share : it.end);
    return p;
}

inline model::MainLists main_lists(const std::vector<float> &targets, const model::Item *items, std::size_t n) {
    model::MainLists l{targets, {}, {}, {}, {}};
    for (std::size_t i = 0; i < n; i++) {
        l.start.push_back(items[i].main_start), l.end.push_back(items[i].main_end);
        l.auto_start.push_back(items[i].auto_main_start), l.auto_end.push_back(items[i].auto_main_end);
    }
    return l;
}

inline model::CrossLists cross_lists(const std::vector<model::Item> &items) {
    model::CrossLists l;
    for (const model::Item &it : items) l.add(it.cross());
    return l;
}

// Line sizes may be negative where a host hands them over: with bounds of 0 for those that are absent the document's
// rule is the Rust's.
inline model::PlacedLines place_lines(uint32_t ways, model::CrossContainer c, uint32_t align_content,
                                      const std::vector<float> &lines) {
    if (ways & d17 && !c.has_minimum) c.has_minimum = 1, c.minimum = 0.0f;
    return model::place_lines(c, align_content, lines);
}

template <class... Lists>
Answer joined(const Lists &...lists) {
    Answer a;
    (a.numbers.insert(a.numbers.end(), lists.begin(), lists.end()), ...);
    return a;
}

inline Answer pass(uint32_t ways, const Case &c) {
    const model::Container &k = c.container;
    const std::size_t n = c.items.size();
    std::vector<float> outer, placed(8 * n), sizes;
    for (const model::Item &it : c.items) {
        const Flexing f(ways, it);
        outer.push_back(f.hypothetical + f.margins);
    }
    const model::Counts counts = model::break_lines(k, outer);
    const model::CrossLists cross = cross_lists(c.items);
    std::size_t s = 0;
    for (uint32_t count : counts) {
        const std::vector<float> targets = flex(ways, k.inner_main, k.gap_main, &c.items[s], count);
        const model::PlacedMain along = model::place_main(k.inner_main, k.gap_main, k.justify_content, k.reversed(),
                                                          main_lists(targets, &c.items[s], count));
        for (std::size_t i = 0; i < count; i++) {
            placed[s + i] = targets[i], placed[n + s + i] = along.offsets[i];
            placed[2 * n + s + i] = along.start[i], placed[3 * n + s + i] = along.end[i];
        }
        sizes.push_back(model::cross_size(k.cross(), cross, s, s + count));
        s += count;
    }
    const model::PlacedLines lines = place_lines(ways, k.cross(), k.align_content, sizes);
    s = 0;
    for (std::size_t j = 0; j < counts.size(); j++)
        for (uint32_t end = uint32_t(s) + counts[j]; s < end; s++) {
            const model::PlacedItem p = place_item(ways, lines.sizes[j], k.cross().reversed(), c.items[s].cross());
            placed[4 * n + s] = p.size, placed[5 * n + s] = p.offset, placed[6 * n + s] = p.start,
                           placed[7 * n + s] = p.end;
        }
    Answer a = joined(std::vector<float>{lines.inner}, lines.sizes, lines.offsets, placed);
    a.counts = counts;
    return a;
}

inline Answer across(uint32_t ways, const Case &c) {
    std::vector<float> size, start, end, offset;
    for (const model::Item &it : c.items) {
        const model::PlacedItem p = place_item(ways, c.list[0], c.container.cross().reversed(), it.cross());
        size.push_back(p.size), start.push_back(p.start), end.push_back(p.end), offset.push_back(p.offset);
    }
    return joined(size, start, end, offset);
}

// What the Rust would answer if it had only these ways of its own. -0.0 is no part of it: see `explains`.
inline Answer answer(uint32_t ways, const Case &c) {
    const model::Container &k = c.container;
    switch (c.stage) {
    case Stage::greedy:
    case Stage::balanced: {
        const Breaking &b = c.breaking;
        const fratolivem_limit limit =
            model::break_limit({b.known_is_definite, b.main_is_definite, b.is_row, b.available_kind, b.available,
                                b.has_minimum, b.minimum, b.has_maximum, b.maximum});
        const bool balanced = c.stage == Stage::balanced;
        const model::Items items(limit.kind, limit.limit, b.gap, c.list, balanced);
        return {{}, balanced ? model::balanced(items, b.line_count) : model::greedy(items)};
    }
    case Stage::flex: return joined(flex(ways, k.inner_main, k.gap_main, c.items.data(), c.items.size()));
    case Stage::main: {
        const model::MainLists l = main_lists(c.list, c.items.data(), c.items.size());
        const model::PlacedMain p = model::place_main(k.inner_main, k.gap_main, k.justify_content, k.reversed(), l);
        return joined(p.offsets, p.start, p.end);
    }
    case Stage::size:
        return joined(std::vector<float>{model::cross_size(k.cross(), cross_lists(c.items), 0, c.items.size())});
    case Stage::lines: {
        const model::PlacedLines p = place_lines(ways, k.cross(), k.align_content, c.list);
        return joined(std::vector<float>{p.inner}, p.sizes, p.offsets);
    }
    case Stage::across: return across(ways, c);
    default: return pass(ways, c);
    }
}

inline Answer without_minus_nought(Answer a) {
    for (float &x : a.numbers) x = cleaned(x);
    return a;
}

inline bool explains(uint32_t ways, const Case &c, const Answer &rust) {
    return same(answer(ways & ~d9, c), ways & d9 ? without_minus_nought(rust) : rust);
}

// All sets of ways, those of fewer first.
inline const std::vector<uint32_t> &sets() {
    static const std::vector<uint32_t> all = [] {
        std::vector<uint32_t> v(all_ways + 1);
        for (uint32_t i = 0; i <= all_ways; i++) v[i] = i;
        std::stable_sort(v.begin(), v.end(),
                         [](uint32_t a, uint32_t b) { return __builtin_popcount(a) < __builtin_popcount(b); });
        return v;
    }();
    return all;
}

constexpr uint32_t unexplained = ~0u;

// The ways that a stage can show.
inline uint32_t shown_by(Stage stage) {
    const uint32_t flexing = d1 | d2 | d3 | d4 | d5 | d6 | d6b | d7;
    switch (stage) {
    case Stage::flex: return flexing | d9;
    case Stage::lines: return d17 | d9;
    case Stage::across: return d8 | d18 | d9;
    case Stage::pass: return flexing | d8 | d18 | d9;
    default: return d9;
    }
}

// The fewest ways that turn the document's answer into the Rust's.
inline uint32_t explanation(const Case &c, const Answer &rust) {
    if (!explains(all_ways, c, rust)) return unexplained;
    for (uint32_t set : sets())
        if (!(set & ~shown_by(c.stage)) && explains(set, c, rust)) return set;
    return unexplained;
}

} // namespace ways
#endif
