// Document 01's flexible lengths (CSS-FLEX 9.7) of one line and of many, read anew in C++. Plain on purpose: f32
// throughout, each operation rounded once, every sum from item 0 upward, no code of the library. Compile without
// fast-math, and with -ffp-contract=off.
#ifndef FLEX_MODEL_HPP
#define FLEX_MODEL_HPP

#include "number_model.hpp"

namespace model {

// An item as it is handed over.
struct FlexItem {
    float base = 0, minimum = 0, maximum = 0;
    uint32_t has_maximum = 0;
    float edges = 0, grow = 0, shrink = 0, start = 0, end = 0;
    uint32_t auto_start = 0, auto_end = 0;
};

// The eleven input lists, in the order of the calls.
struct FlexLists {
    std::vector<float> base, minimum, maximum;
    std::vector<uint32_t> has_maximum;
    std::vector<float> edges, grow, shrink, start, end;
    std::vector<uint32_t> auto_start, auto_end;

    void add(const FlexItem &it) {
        base.push_back(it.base), minimum.push_back(it.minimum), maximum.push_back(it.maximum);
        has_maximum.push_back(it.has_maximum), edges.push_back(it.edges), grow.push_back(it.grow),
            shrink.push_back(it.shrink);
        start.push_back(it.start), end.push_back(it.end), auto_start.push_back(it.auto_start),
            auto_end.push_back(it.auto_end);
    }
    std::size_t n() const { return base.size(); }
    std::vector<std::size_t> lengths() const {
        return {base.size(),   minimum.size(), maximum.size(), has_maximum.size(), edges.size(),   grow.size(),
                shrink.size(), start.size(),   end.size(),     auto_start.size(),  auto_end.size()};
    }
    FlexItem at(std::size_t i) const {
        return {base[i],   minimum[i], maximum[i], has_maximum[i], edges[i],   grow[i],
                shrink[i], start[i],   end[i],     auto_start[i],  auto_end[i]};
    }
};

// "lowered to the maximum, raised to the minimum, then to padding plus border; to clamp means the same".
inline float clamp(float x, uint32_t has_maximum, float maximum, float minimum, float edges) {
    if (has_maximum && x > maximum) x = maximum;
    if (x < minimum) x = minimum;
    if (x < edges) x = edges;
    return x;
}

inline float margins_of(float start, uint32_t auto_start, float end, uint32_t auto_end) {
    return (auto_start ? 0.0f : cleaned(start)) + (auto_end ? 0.0f : cleaned(end));
}

inline float gaps_of(float gap, std::size_t n) { return n == 0 ? 0.0f : gap * float(n - 1); }

// An accepted item of a line while it is flexed.
struct Flexing {
    float base, inner_base, margins, grow, shrink, minimum, maximum, edges;
    uint32_t has_maximum;
    float hypothetical, target, violation = 0.0f;
    bool frozen = false;

    explicit Flexing(const FlexItem &it)
        : base(cleaned(it.base)), inner_base(base - cleaned(it.edges)),
          margins(margins_of(it.start, it.auto_start, it.end, it.auto_end)), grow(cleaned(it.grow)),
          shrink(cleaned(it.shrink)), minimum(cleaned(it.minimum)), maximum(cleaned(it.maximum)),
          edges(cleaned(it.edges)), has_maximum(it.has_maximum), hypothetical(clamped(base)), target(hypothetical) {
        if (inner_base < 0.0f) inner_base = 0.0f;
    }
    float clamped(float x) const { return clamp(x, has_maximum, maximum, minimum, edges); }
    float factor(bool growing) const { return growing ? grow : shrink; }
    float weight(bool growing) const { return growing ? grow : inner_base * shrink; }
};

struct FlexedLine {
    int64_t free = 0; // before flexing, in sixty-fourths
    uint32_t rounds = 0;
    std::vector<float> targets;
};

// Free space of a line whose frozen items have their targets and whose others their bases.
inline float free_space(float inner, float gap, const std::vector<Flexing> &line) {
    float sum = 0.0f;
    for (const Flexing &it : line) sum = sum + ((it.frozen ? it.target : it.base) + it.margins);
    return inner - (gaps_of(gap, line.size()) + sum);
}

inline bool unfrozen(const std::vector<Flexing> &line) {
    for (const Flexing &it : line)
        if (!it.frozen) return true;
    return false;
}

inline void one_round(std::vector<Flexing> &line, float inner, float gap, float initial, bool growing) {
    float free = free_space(inner, gap, line), factors = 0.0f, weights = 0.0f;
    for (const Flexing &it : line)
        if (!it.frozen) factors = factors + it.factor(growing), weights = weights + it.weight(growing);
    if (factors < 1.0f && std::fabs(initial * factors) < std::fabs(free)) free = initial * factors;
    float total = 0.0f;
    for (Flexing &it : line) {
        if (it.frozen) continue;
        const bool nothing = free == 0.0f || weights == 0.0f;
        const float unclamped = nothing ? it.base : it.base + free * (it.weight(growing) / weights);
        it.target = it.clamped(unclamped);
        it.violation = it.target - unclamped;
        total = total + it.violation;
    }
    for (Flexing &it : line)
        if (!it.frozen) it.frozen = total == 0.0f || (total > 0.0f ? it.violation > 0.0f : it.violation < 0.0f);
}

// The items from s up to t, accepted, as one line.
inline FlexedLine flex(float inner, float gap, const FlexLists &lists, std::size_t s, std::size_t t) {
    std::vector<Flexing> line;
    for (std::size_t i = s; i < t; i++) line.emplace_back(lists.at(i));
    inner = cleaned(inner), gap = cleaned(gap);
    FlexedLine a;
    a.free = sixtyfourths(inner) - (line.empty() ? 0 : sixtyfourths(gap) * int64_t(line.size() - 1));
    for (const Flexing &it : line) a.free -= sixtyfourths(it.hypothetical) + sixtyfourths(it.margins);
    const bool growing = a.free > 0;
    for (Flexing &it : line)
        it.frozen = it.factor(growing) == 0.0f || (growing ? it.base > it.hypothetical : it.base < it.hypothetical);
    const float initial = free_space(inner, gap, line);
    while (unfrozen(line)) {
        one_round(line, inner, gap, initial, growing);
        a.rounds++;
    }
    for (const Flexing &it : line) a.targets.push_back(cleaned(it.target));
    return a;
}

// ---- the calls

inline void take_flex_item(Taking &taking, const FlexItem &it) {
    taking.size(it.base), taking.size(it.minimum), taking.bound(it.has_maximum, it.maximum), taking.size(it.edges);
    taking.factor(it.grow), taking.factor(it.shrink);
    taking.margin_or_auto(it.auto_start, it.start), taking.margin_or_auto(it.auto_end, it.end);
}

// Check 6: "The sum over items of (|outer main size| + gap), hypothetical where the call flexes".
inline Refusal check_outer_sum(float gap, const FlexLists &lists) {
    int64_t sum = 0;
    for (std::size_t i = 0; i < lists.n(); i++) {
        const Flexing it(lists.at(i));
        sum += std::llabs(sixtyfourths(it.hypothetical) + sixtyfourths(it.margins)) + sixtyfourths(gap);
    }
    return sum > 16777216 ? Taking::refused(6) : Refusal{};
}

// Whether the counts are positive and sum to n.
inline bool divides(const Counts &counts, std::size_t n) {
    uint64_t sum = 0;
    for (uint32_t count : counts) {
        if (count == 0) return false;
        sum += count;
    }
    return sum == n;
}

inline Refusal check_flexing(float inner, float gap, const Counts *counts, const FlexLists &lists, bool room) {
    if (counts && counts->size() > 1024) return Taking::refused(1);
    const Refusal shape = check_shape(lists.lengths(), lists.n(), room);
    if (shape.number) return shape;
    Taking taking;
    taking.size(inner), taking.size(gap);
    if (counts) taking.fault(!divides(*counts, lists.n()));
    for (std::size_t i = 0; i < lists.n(); i++) {
        taking.at_item(i);
        take_flex_item(taking, lists.at(i));
    }
    const Refusal numbers = taking.check();
    return numbers.number ? numbers : check_outer_sum(gap, lists);
}

struct FlexLineAnswer {
    Refusal refusal;
    int32_t free = 0;
    uint32_t rounds = 0;
    std::vector<float> targets;
};

// One line; `room` is the number of lent cells for the targets.
inline FlexLineAnswer flex_line(float inner, float gap, const FlexLists &lists, std::size_t room) {
    FlexLineAnswer a{check_flexing(inner, gap, nullptr, lists, room >= lists.n()), 0, 0, {}};
    if (a.refusal.number) return a;
    const FlexedLine line = flex(inner, gap, lists, 0, lists.n());
    a.free = int32_t(line.free), a.rounds = line.rounds, a.targets = line.targets;
    return a;
}

struct FlexLinesAnswer {
    Refusal refusal;
    uint32_t lines = 0, rounds = 0; // the rounds' sum
    std::vector<float> targets;
    std::vector<int32_t> free; // by line, as the rounds: n cells, 0 past the last line
    std::vector<uint32_t> rounds_by_line;
};

// Many lines; `room` is the number of cells of the shortest lent list.
inline FlexLinesAnswer flex_lines(float inner, float gap, const Counts &counts, const FlexLists &lists,
                                  std::size_t room) {
    FlexLinesAnswer a;
    a.refusal = check_flexing(inner, gap, &counts, lists, room >= lists.n());
    if (a.refusal.number) return a;
    std::size_t s = 0;
    for (uint32_t count : counts) {
        const FlexedLine line = flex(inner, gap, lists, s, s + count);
        a.targets.insert(a.targets.end(), line.targets.begin(), line.targets.end());
        a.free.push_back(int32_t(line.free)), a.rounds_by_line.push_back(line.rounds);
        a.lines++, a.rounds += line.rounds, s += count;
    }
    a.free.resize(lists.n(), 0), a.rounds_by_line.resize(lists.n(), 0);
    return a;
}

} // namespace model
#endif
