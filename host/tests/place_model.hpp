// Document 01's main axis and cross axis, read anew in C++: one line's items along it, one line's cross size, a
// container's lines across, one line's items across it. Plain on purpose: f32 throughout, each operation rounded once,
// every sum from item 0 upward, no code of the library.
#ifndef PLACE_MODEL_HPP
#define PLACE_MODEL_HPP

#include "flex_model.hpp"

namespace model {

// ---- alignment

enum class Keyword { start, end, flex_start, flex_end, center, stretch, space_between, space_around, space_evenly };

struct Alignment {
    Keyword keyword;
    bool safe;
};

// Codes 0 to 4, 5 to 9 the same made safe, 10 to 13 stretch and space-*. An item's end with stretch.
constexpr uint32_t most_content_code = 13, most_self_code = 10;
inline Alignment alignment_of(uint32_t code) {
    constexpr Keyword positions[] = {Keyword::start, Keyword::end, Keyword::flex_start, Keyword::flex_end,
                                     Keyword::center};
    constexpr Keyword others[] = {Keyword::stretch, Keyword::space_between, Keyword::space_around,
                                  Keyword::space_evenly};
    return code < 10 ? Alignment{positions[code % 5], code >= 5} : Alignment{others[code - 10], false};
}

// "Fallback when free <= 0 or at most one item", then "safe with free <= 0 means start".
inline Keyword fallback(float free, std::size_t n, Alignment a) {
    if (free <= 0.0f || n <= 1) {
        if (a.keyword == Keyword::space_between || a.keyword == Keyword::stretch) a = {Keyword::flex_start, true};
        if (a.keyword == Keyword::space_around || a.keyword == Keyword::space_evenly) a = {Keyword::center, true};
    }
    return a.safe && free <= 0.0f ? Keyword::start : a.keyword;
}

inline float first_offset(float free, std::size_t n, bool reversed, Keyword k) {
    switch (k) {
    case Keyword::end: return free;
    case Keyword::center: return free / 2.0f;
    case Keyword::flex_start: return reversed ? free : 0.0f;
    case Keyword::flex_end: return reversed ? 0.0f : free;
    case Keyword::space_around: return free / float(n) / 2.0f;
    case Keyword::space_evenly: return free / float(n + 1);
    default: return 0.0f;
    }
}

inline float later_offset(float free, std::size_t n, float gap, Keyword k) {
    if (free > 0.0f) switch (k) {
        case Keyword::space_between: return gap + free / float(n - 1);
        case Keyword::space_around: return gap + free / float(n);
        case Keyword::space_evenly: return gap + free / float(n + 1);
        default: break;
        }
    return gap;
}

// "An offset is the step before an item, walking from the physical start, from the last item if reversed."
inline std::vector<float> offsets(float free, std::size_t n, float gap, uint32_t code, bool reversed) {
    const Keyword k = fallback(free, n, alignment_of(code));
    std::vector<float> all(n);
    for (std::size_t step = 0; step < n; step++)
        all[reversed ? n - 1 - step : step] =
            cleaned(step == 0 ? first_offset(free, n, reversed, k) : later_offset(free, n, gap, k));
    return all;
}

inline float sum_of(const std::vector<float> &xs) {
    float sum = 0.0f;
    for (float x : xs) sum = sum + cleaned(x);
    return sum;
}

// ---- main axis of one line

struct MainLists {
    std::vector<float> targets, start, end;
    std::vector<uint32_t> auto_start, auto_end;

    std::size_t n() const { return targets.size(); }
    std::vector<std::size_t> lengths() const {
        return {targets.size(), start.size(), end.size(), auto_start.size(), auto_end.size()};
    }
};

struct PlacedMain {
    std::vector<float> offsets, start, end;
};

// Accepted lists, worked-out targets among them.
inline PlacedMain place_main(float inner, float gap, uint32_t justify, bool reversed, const MainLists &l) {
    inner = cleaned(inner), gap = cleaned(gap);
    std::vector<float> outer;
    uint32_t autos = 0;
    for (std::size_t i = 0; i < l.n(); i++) {
        outer.push_back(cleaned(l.targets[i]) + margins_of(l.start[i], l.auto_start[i], l.end[i], l.auto_end[i]));
        autos += l.auto_start[i] + l.auto_end[i];
    }
    float free = inner - (gaps_of(gap, l.n()) + sum_of(outer)), share = 0.0f;
    if (free > 0.0f && autos > 0) share = free / float(autos), free = 0.0f;
    PlacedMain a{offsets(free, l.n(), gap, justify, reversed), {}, {}};
    for (std::size_t i = 0; i < l.n(); i++) {
        a.start.push_back(cleaned(l.auto_start[i] ? share : l.start[i]));
        a.end.push_back(cleaned(l.auto_end[i] ? share : l.end[i]));
    }
    return a;
}

inline Refusal check_main(float inner, float gap, uint32_t justify, uint32_t reversed, const MainLists &l, bool room) {
    const Refusal shape = check_shape(l.lengths(), l.n(), room);
    if (shape.number) return shape;
    Taking taking;
    taking.size(inner), taking.size(gap), taking.code(justify, most_content_code), taking.code(reversed, 1);
    for (std::size_t i = 0; i < l.n(); i++) {
        taking.at_item(i);
        taking.worked(l.targets[i]);
        taking.margin_or_auto(l.auto_start[i], l.start[i]), taking.margin_or_auto(l.auto_end[i], l.end[i]);
    }
    return taking.check();
}

// ---- the container across

struct CrossContainer {
    float inner = 0;
    uint32_t has_inner = 0;
    float minimum = 0;
    uint32_t has_minimum = 0;
    float maximum = 0;
    uint32_t has_maximum = 0;
    float gap = 0;
    uint32_t wrap = 0; // 0 nowrap, 1 wrap, 2 wrap-reverse, 3 balance, 4 balance-reverse

    bool single_line() const { return wrap == 0; }
    bool reversed() const { return wrap == 2 || wrap == 4; }
    float held(float x) const {
        if (has_maximum && x > cleaned(maximum)) x = cleaned(maximum);
        if (has_minimum && x < cleaned(minimum)) x = cleaned(minimum);
        return x;
    }
    // "a given inner size, single-line or not, is clamped so first".
    float given_inner() const { return held(cleaned(inner)); }
};

inline void take_cross(Taking &taking, const CrossContainer &c, bool with_gap) {
    taking.bound(c.has_inner, c.inner), taking.bound(c.has_minimum, c.minimum), taking.bound(c.has_maximum, c.maximum);
    if (with_gap) taking.size(c.gap);
    taking.code(c.wrap, 4);
}

// ---- items across

struct CrossItem {
    float measured = 0, minimum = 0, maximum = 0;
    uint32_t has_maximum = 0;
    float edges = 0, start = 0, end = 0;
    uint32_t auto_start = 0, auto_end = 0, align_self = 0, auto_size = 0;

    float margins() const { return margins_of(start, auto_start, end, auto_end); }
    float clamped(float x) const { return clamp(x, has_maximum, cleaned(maximum), cleaned(minimum), cleaned(edges)); }
    bool has_auto() const { return auto_start || auto_end; }
    bool stretched() const { return align_self == 10 && auto_size && !has_auto(); }
    // what an auto margin gets where they are shared out
    float share(float free) const { return auto_start && auto_end ? free / 2.0f : free; }
};

// The lists of a call; that for a line's size takes all but the last two.
struct CrossLists {
    std::vector<float> measured, minimum, maximum;
    std::vector<uint32_t> has_maximum;
    std::vector<float> edges, start, end;
    std::vector<uint32_t> auto_start, auto_end, align_self, auto_size;

    void add(const CrossItem &it) {
        measured.push_back(it.measured), minimum.push_back(it.minimum), maximum.push_back(it.maximum);
        has_maximum.push_back(it.has_maximum), edges.push_back(it.edges), start.push_back(it.start),
            end.push_back(it.end);
        auto_start.push_back(it.auto_start), auto_end.push_back(it.auto_end);
        align_self.push_back(it.align_self), auto_size.push_back(it.auto_size);
    }
    std::size_t n() const { return measured.size(); }
    std::vector<std::size_t> lengths(bool aligned) const {
        std::vector<std::size_t> all{measured.size(),    minimum.size(),    maximum.size(),
                                     has_maximum.size(), edges.size(),      start.size(),
                                     end.size(),         auto_start.size(), auto_end.size()};
        if (aligned) all.push_back(align_self.size()), all.push_back(auto_size.size());
        return all;
    }
    CrossItem at(std::size_t i) const {
        return {measured[i],
                minimum[i],
                maximum[i],
                has_maximum[i],
                edges[i],
                start[i],
                end[i],
                auto_start[i],
                auto_end[i],
                i < align_self.size() ? align_self[i] : 0,
                i < auto_size.size() ? auto_size[i] : 0};
    }
};

inline void take_cross_item(Taking &taking, const CrossItem &it, bool aligned) {
    taking.size(it.measured), taking.size(it.minimum), taking.bound(it.has_maximum, it.maximum), taking.size(it.edges);
    taking.margin_or_auto(it.auto_start, it.start), taking.margin_or_auto(it.auto_end, it.end);
    if (aligned) taking.code(it.align_self, most_self_code), taking.code(it.auto_size, 1);
}

// ---- cross size of one line: the items from s up to t

inline float cross_size(const CrossContainer &c, const CrossLists &l, std::size_t s, std::size_t t) {
    if (c.single_line() && c.has_inner) return cleaned(c.given_inner());
    float largest = 0.0f;
    for (std::size_t i = s; i < t; i++) {
        const CrossItem it = l.at(i);
        const float outer = it.clamped(cleaned(it.measured)) + it.margins();
        if (outer > largest) largest = outer;
    }
    return cleaned(c.single_line() ? c.held(largest) : largest);
}

inline Refusal check_cross_size(const CrossContainer &c, const CrossLists &l) {
    const Refusal shape = check_shape(l.lengths(false), l.n(), true);
    if (shape.number) return shape;
    Taking taking;
    take_cross(taking, c, false);
    for (std::size_t i = 0; i < l.n(); i++) taking.at_item(i), take_cross_item(taking, l.at(i), false);
    return taking.check();
}

// ---- a container's lines along the cross axis

struct PlacedLines {
    float inner = 0.0f; // the container's inner cross size
    std::vector<float> sizes, offsets;
};

inline PlacedLines place_lines(const CrossContainer &c, uint32_t align_content, const std::vector<float> &lines) {
    const std::size_t n = lines.size();
    const float gap = cleaned(c.gap), gaps = gaps_of(gap, n);
    PlacedLines a;
    float gain = 0.0f;
    // "Under stretch, if lines plus gaps fall short of the definite (else minimum) size, each gains the rest / line
    // count".
    if (alignment_of(align_content).keyword == Keyword::stretch && (c.has_inner || c.has_minimum)) {
        const float size = c.has_inner ? c.given_inner() : cleaned(c.minimum), used = sum_of(lines) + gaps;
        if (used < size) gain = (size - used) / float(n);
    }
    for (float line : lines) a.sizes.push_back(cleaned(cleaned(line) + gain));
    const float sum = sum_of(a.sizes);
    const float inner = c.has_inner ? c.given_inner() : c.held(sum + gaps);
    a.offsets = offsets((inner - sum) - gaps, n, gap, align_content, c.reversed());
    a.inner = cleaned(inner);
    return a;
}

inline Refusal check_lines(const CrossContainer &c, uint32_t align_content, const std::vector<float> &lines,
                           bool room) {
    const Refusal shape = check_shape({lines.size()}, lines.size(), room);
    if (shape.number) return shape;
    Taking taking;
    take_cross(taking, c, true);
    taking.code(align_content, most_content_code);
    for (std::size_t i = 0; i < lines.size(); i++) taking.at_item(i), taking.worked(lines[i]);
    return taking.check();
}

// ---- items across a line

struct PlacedItem {
    float size, start, end, offset;
};

inline float self_offset(float free, bool reversed, Alignment a) {
    if (a.safe && free < 0.0f) return 0.0f;
    switch (a.keyword) {
    case Keyword::end: return free;
    case Keyword::center: return free / 2.0f;
    case Keyword::flex_start:
    case Keyword::stretch: return reversed ? free : 0.0f;
    case Keyword::flex_end: return reversed ? 0.0f : free;
    default: return 0.0f;
    }
}

inline PlacedItem place_item(float line, bool reversed, const CrossItem &it) {
    line = cleaned(line);
    const float margins = it.margins();
    const float size = it.clamped(it.stretched() ? line - margins : cleaned(it.measured));
    const float free = line - (size + margins);
    if (!it.has_auto())
        return {cleaned(size), cleaned(it.start), cleaned(it.end),
                cleaned(self_offset(free, reversed, alignment_of(it.align_self)))};
    if (free < 0.0f)
        return {cleaned(size), cleaned(it.auto_start ? 0.0f : it.start), cleaned((it.auto_end ? 0.0f : it.end) + free),
                0.0f};
    const float share = it.share(free);
    return {cleaned(size), cleaned(it.auto_start ? share : it.start), cleaned(it.auto_end ? share : it.end), 0.0f};
}

// The line's size is a worked-out number of the container; `code` is what says whether wrapping is reversed, and `most`
// its largest value.
inline Refusal check_across(float line, uint32_t code, uint32_t most, const CrossLists &l, bool room) {
    const Refusal shape = check_shape(l.lengths(true), l.n(), room);
    if (shape.number) return shape;
    Taking taking;
    taking.worked(line), taking.code(code, most);
    for (std::size_t i = 0; i < l.n(); i++) taking.at_item(i), take_cross_item(taking, l.at(i), true);
    return taking.check();
}

} // namespace model
#endif
