// Fratolivem for C++17: the calls of fratolivem.h over spans, items as columns, refusals as an enum with words, and
// scratch space that is kept.
#ifndef FRATOLIVEM_HPP
#define FRATOLIVEM_HPP

#include <cstddef>
#include <cstdint>
#include <string>
#include <type_traits>
#include <utility>
#include <vector>

#include "fratolivem.h"

namespace fratolivem {

// C++17 has no std::span. This one is made of anything that has data() and size(), or of a pointer and a size (a C
// array as {cells, n}).
template <class T>
class span {
public:
    constexpr span() = default;
    constexpr span(T *data, std::size_t size) : data_(data), size_(size) {}
    // Cells of a derived struct that has grown are no cells of T: a list is lent as it lies.
    template <class C, class = std::enable_if_t<std::is_convertible_v<decltype(std::declval<C &>().data()), T *> &&
                                                sizeof(*std::declval<C &>().data()) == sizeof(T)>>
    constexpr span(C &&cells) : data_(cells.data()), size_(cells.size()) {}
    constexpr T *data() const { return data_; }
    constexpr std::size_t size() const { return size_; }

private:
    T *data_ = nullptr;
    std::size_t size_ = 0;
};

enum class refusal : std::uint32_t {
    none = FRATOLIVEM_ACCEPTED,
    too_many_items = FRATOLIVEM_TOO_MANY_ITEMS,
    too_little_room = FRATOLIVEM_TOO_LITTLE_ROOM,
    not_finite = FRATOLIVEM_NOT_FINITE,
    off_grid = FRATOLIVEM_OFF_GRID,
    out_of_range = FRATOLIVEM_OUT_OF_RANGE,
    sum_too_large = FRATOLIVEM_SUM_TOO_LARGE,
};

inline const char *words(refusal r) {
    switch (r) {
    case refusal::none: return "accepted";
    case refusal::too_many_items: return "a list has more than 1,024 items";
    case refusal::too_little_room: return "lists of unequal length, or too little lent room";
    case refusal::not_finite: return "a number is NaN or infinite";
    case refusal::off_grid: return "a length is no whole multiple of 1/64 px";
    case refusal::out_of_range: return "a number is out of range, or a code names nothing";
    case refusal::sum_too_large: return "the sizes and gaps sum to more than 262,144 px";
    }
    return "no refusal of this library";
}

// What a refusal is about, in words: "the container" or "item 3"; of what is counted, where these are no items.
inline std::string place_words(std::uint32_t where, std::uint32_t place, const char *counted = "item") {
    if (where == FRATOLIVEM_CONTAINER) return "the container";
    return where == FRATOLIVEM_AT ? std::string(counted) + " " + std::to_string(place) : "nowhere";
}

// A refusal and its place in words; "accepted" where there is none.
inline std::string refusal_text(refusal why, std::uint32_t where, std::uint32_t place, const char *counted = "item") {
    return why == refusal::none ? std::string(words(why))
                                : std::string(words(why)) + ", at " + place_words(where, place, counted);
}

// The answer of a call over lines. It is true where the input was accepted; else no lent cell was changed.
struct [[nodiscard]] answer : fratolivem_answer {
    explicit operator bool() const { return number == FRATOLIVEM_ACCEPTED; }
    refusal why() const { return static_cast<refusal>(number); }
    std::string text() const { return refusal_text(why(), where, place); }
};

// Available space, or a limit. The number of a bare kind is never read.
struct space {
    std::uint32_t kind = FRATOLIVEM_MAX_CONTENT;
    float pixels = 0.0f;

    static constexpr space definite(float pixels) { return {FRATOLIVEM_DEFINITE, pixels}; }
    static constexpr space min_content() { return {FRATOLIVEM_MIN_CONTENT, 0.0f}; }
    static constexpr space max_content() { return {FRATOLIVEM_MAX_CONTENT, 0.0f}; }
};

// A minimum or maximum that may be absent.
struct bound {
    std::uint32_t given = 0;
    float pixels = 0.0f;

    constexpr bound() = default;
    constexpr bound(float px) : given(1), pixels(px) {}
};

// The answer of break_limit. The value of a refused one is no limit: the breakers refuse it in turn.
struct [[nodiscard]] limit : fratolivem_limit {
    explicit operator bool() const { return number == FRATOLIVEM_ACCEPTED; }
    refusal why() const { return static_cast<refusal>(number); }
    space value() const { return {kind, fratolivem_limit::limit}; }
    std::string text() const { return refusal_text(why(), where, place); }
};

inline limit break_limit(bool known_is_definite, bool main_is_definite, bool is_row, space available,
                         bound minimum = {}, bound maximum = {}) {
    return {fratolivem_break_limit(known_is_definite, main_is_definite, is_row, available.kind, available.pixels,
                                   minimum.given, minimum.pixels, maximum.given, maximum.pixels)};
}

inline answer greedy(space limit, float gap, span<const float> sizes, span<std::uint32_t> counts) {
    return {fratolivem_greedy(limit.kind, limit.pixels, gap, sizes.data(), sizes.size(), counts.data(), counts.size())};
}

// Balanced breaking that owns its work cells and keeps them between calls: a frame that breaks many lists allocates
// once (4 MB for 1,024 items; std::bad_alloc where there is none). One for each thread.
class balancer {
public:
    answer operator()(space limit, float gap, std::uint32_t minimum, span<const float> sizes,
                      span<std::uint32_t> counts) {
        const std::size_t n = sizes.size();
        if (work_.size() < fratolivem_work_cells(n)) work_.resize(fratolivem_work_cells(n));
        if (sums_.size() < fratolivem_sum_cells(n)) sums_.resize(fratolivem_sum_cells(n));
        return {fratolivem_balanced(limit.kind, limit.pixels, gap, minimum, sizes.data(), n, counts.data(),
                                    counts.size(), work_.data(), work_.size(), sums_.data(), sums_.size())};
    }

private:
    std::vector<std::uint32_t> work_;
    std::vector<double> sums_;
};

// ---- the whole pass

// A container and an item, absent numbers and auto margins as none. The defaults are CSS's (a row that does not wrap,
// items that do not grow), but for the minima, which are 0.
struct container : fratolivem_container {
    container(float inner_main_px, float gap_main_px, space limit_px) : fratolivem_container() {
        inner_main = inner_main_px;
        gap_main = gap_main_px;
        limit_kind = limit_px.kind;
        limit = limit_px.pixels;
        minimum_lines = 1;
        justify_content = FRATOLIVEM_FLEX_START;
        align_content = FRATOLIVEM_STRETCH;
    }
    container &across(bound inner, float gap, bound minimum = {}, bound maximum = {}) {
        inner_cross = inner.pixels, has_inner_cross = inner.given, gap_cross = gap;
        minimum_cross = minimum.pixels, has_minimum_cross = minimum.given;
        maximum_cross = maximum.pixels, has_maximum_cross = maximum.given;
        return *this;
    }
};

struct item : fratolivem_item {
    item(float base, float measured) : fratolivem_item() {
        main_base = base;
        cross_measured = measured;
        shrink = 1.0f;
        align_self = FRATOLIVEM_STRETCH;
        auto_cross_size = 1;
    }
    item &maximum(float px) {
        main_maximum = px, has_main_maximum = 1;
        return *this;
    }
};
static_assert(sizeof(item) == sizeof(fratolivem_item), "a list of items is lent as it is");

struct placed_item {
    float main_size, main_offset, main_start, main_end, cross_size, cross_offset, cross_start, cross_end;
};

struct placed_line {
    std::uint32_t count;
    std::int32_t free; // before flexing, in sixty-fourths
    std::uint32_t rounds;
    float cross_size, cross_offset;
};

// What an accepted pass answers, and the direction and wrap mode that it was made for.
struct frame {
    std::vector<placed_item> items;
    std::vector<placed_line> lines;
    float inner_cross = 0.0f;
    std::uint32_t rounds = 0;
    std::uint32_t direction = FRATOLIVEM_ROW, wrap = FRATOLIVEM_NOWRAP;
};

struct [[nodiscard]] passed : fratolivem_passed {
    explicit operator bool() const { return number == FRATOLIVEM_ACCEPTED; }
    refusal why() const { return static_cast<refusal>(number); }
    std::string text() const { return refusal_text(why(), where, place); }
};

// A panel of a wall: lays items out, owns the scratch space that this takes, and keeps its last good frame. A refusal
// leaves that frame as it was, so that a panel whose numbers go wrong shows what it showed before. One for each thread.
class panel {
public:
    passed lay(const fratolivem_container &c, span<const fratolivem_item> items) {
        const std::size_t n = items.size(), m = n > FRATOLIVEM_MOST_ITEMS ? 0 : n;
        const bool balances = c.wrap == FRATOLIVEM_BALANCE || c.wrap == FRATOLIVEM_BALANCE_REVERSE;
        grow(placed_, FRATOLIVEM_PLACED_LISTS * m);
        grow(lines_, FRATOLIVEM_LINE_LISTS * m);
        grow(counts_, m), grow(rounds_, m), grow(free_, m);
        if (balances) grow(work_, fratolivem_work_cells(n)), grow(sums_, fratolivem_sum_cells(n));
        const passed p{fratolivem_pass(c, items.data(), n, placed_.data(), placed_.size(), lines_.data(), lines_.size(),
                                       counts_.data(), counts_.size(), rounds_.data(), rounds_.size(), free_.data(),
                                       free_.size(), work_.data(), work_.size(), sums_.data(), sums_.size())};
        if (p) keep(c, p, n);
        return p;
    }
    // The frame of the last accepted call; empty before the first.
    const frame &last() const { return frame_; }

private:
    template <class T>
    static void grow(std::vector<T> &cells, std::size_t n) {
        if (cells.size() < n) cells.resize(n);
    }
    void keep(const fratolivem_container &c, const passed &p, std::size_t n) {
        const auto of = [&](std::size_t list, std::size_t i) { return placed_[list * n + i]; };
        // Both lists have their room before either is written: where there is no memory for it, the last frame stays
        // whole.
        frame_.items.reserve(n), frame_.lines.reserve(p.lines);
        frame_.items.resize(n), frame_.lines.resize(p.lines);
        for (std::size_t i = 0; i < n; i++)
            frame_.items[i] = {of(0, i), of(1, i), of(2, i), of(3, i), of(4, i), of(5, i), of(6, i), of(7, i)};
        for (std::size_t j = 0; j < p.lines; j++)
            frame_.lines[j] = {counts_[j], free_[j], rounds_[j], lines_[j], lines_[n + j]};
        frame_.inner_cross = p.inner_cross;
        frame_.rounds = p.rounds;
        frame_.direction = c.direction, frame_.wrap = c.wrap;
    }

    frame frame_;
    std::vector<float> placed_, lines_;
    std::vector<std::uint32_t> counts_, rounds_, work_;
    std::vector<std::int32_t> free_;
    std::vector<double> sums_;
};

// An item's border box in its container, main and cross counted from the container's inner start edges.
struct box {
    float main, cross, main_size, cross_size;
};

// The boxes of a frame: adds up the steps, the sizes and the margins, from the last line where wrapping is reversed,
// and from a line's last item where the direction is.
inline std::vector<box> boxes(const frame &f) {
    const bool items_reversed = f.direction == FRATOLIVEM_ROW_REVERSE || f.direction == FRATOLIVEM_COLUMN_REVERSE;
    const bool lines_reversed = f.wrap == FRATOLIVEM_WRAP_REVERSE || f.wrap == FRATOLIVEM_BALANCE_REVERSE;
    std::vector<std::size_t> first(f.lines.size());
    for (std::size_t j = 1; j < f.lines.size(); j++) first[j] = first[j - 1] + f.lines[j - 1].count;
    std::vector<box> out(f.items.size());
    float cross = 0.0f;
    for (std::size_t step = 0; step < f.lines.size(); step++) {
        const std::size_t j = lines_reversed ? f.lines.size() - 1 - step : step;
        const placed_line &line = f.lines[j];
        cross += line.cross_offset;
        float main = 0.0f;
        for (std::size_t k = 0; k < line.count; k++) {
            const std::size_t i = first[j] + (items_reversed ? line.count - 1 - k : k);
            const placed_item &it = f.items[i];
            main += it.main_offset + it.main_start;
            out[i] = {main, cross + (it.cross_offset + it.cross_start), it.main_size, it.cross_size};
            main += it.main_size + it.main_end;
        }
        cross += line.cross_size;
    }
    return out;
}

// The items that flexing takes, a column for each number: all of one length. fratolivem_flex_line says what each of
// them is.
struct flex_columns {
    span<const float> base, minimum, maximum;
    span<const std::uint32_t> has_maximum;
    span<const float> edges, grow, shrink, start, end;
    span<const std::uint32_t> auto_start, auto_end;
};

// The answer of flex_line: true where the input was accepted; else no target was changed.
struct [[nodiscard]] flexed : fratolivem_flexed {
    explicit operator bool() const { return number == FRATOLIVEM_ACCEPTED; }
    refusal why() const { return static_cast<refusal>(number); }
    std::string text() const { return refusal_text(why(), where, place); }
    bool overfull() const { return fratolivem_flexed::free < 0; }
};

inline flexed flex_line(float inner, float gap, const flex_columns &items, span<float> targets) {
    return {fratolivem_flex_line(inner, gap, items.base.data(), items.base.size(), items.minimum.data(),
                                 items.minimum.size(), items.maximum.data(), items.maximum.size(),
                                 items.has_maximum.data(), items.has_maximum.size(), items.edges.data(),
                                 items.edges.size(), items.grow.data(), items.grow.size(), items.shrink.data(),
                                 items.shrink.size(), items.start.data(), items.start.size(), items.end.data(),
                                 items.end.size(), items.auto_start.data(), items.auto_start.size(),
                                 items.auto_end.data(), items.auto_end.size(), targets.data(), targets.size())};
}

inline answer flex_lines(float inner, float gap, span<const std::uint32_t> counts, const flex_columns &items,
                         span<float> targets, span<std::int32_t> free, span<std::uint32_t> rounds) {
    return {fratolivem_flex_lines(
        inner, gap, counts.data(), counts.size(), items.base.data(), items.base.size(), items.minimum.data(),
        items.minimum.size(), items.maximum.data(), items.maximum.size(), items.has_maximum.data(),
        items.has_maximum.size(), items.edges.data(), items.edges.size(), items.grow.data(), items.grow.size(),
        items.shrink.data(), items.shrink.size(), items.start.data(), items.start.size(), items.end.data(),
        items.end.size(), items.auto_start.data(), items.auto_start.size(), items.auto_end.data(),
        items.auto_end.size(), targets.data(), targets.size(), free.data(), free.size(), rounds.data(), rounds.size())};
}

// ---- placing

// The items that placing along a line takes, a column for each number: all of one length. fratolivem_place_main says
// what each of them is.
struct main_columns {
    span<const float> targets, start, end;
    span<const std::uint32_t> auto_start, auto_end;
};

// Those that a line's cross size takes, and with two more those of placing across a line.
struct cross_columns {
    span<const float> measured, minimum, maximum;
    span<const std::uint32_t> has_maximum;
    span<const float> edges, start, end;
    span<const std::uint32_t> auto_start, auto_end;
};

struct across_columns : cross_columns {
    span<const std::uint32_t> align_self, auto_size;
};

// A container's cross axis, absent numbers as none.
struct cross : fratolivem_cross {
    cross(std::uint32_t wrap_code, bound inner_px, float gap_px, bound minimum_px = {}, bound maximum_px = {})
        : fratolivem_cross{inner_px.pixels,  inner_px.given, minimum_px.pixels, minimum_px.given, maximum_px.pixels,
                           maximum_px.given, gap_px,         wrap_code} {}
};

// The answer of line_size: a line's cross size.
struct [[nodiscard]] sized : fratolivem_sized {
    explicit operator bool() const { return number == FRATOLIVEM_ACCEPTED; }
    refusal why() const { return static_cast<refusal>(number); }
    std::string text() const { return refusal_text(why(), where, place); }
};

// The answer of place_lines: the container's inner cross size. A refusal's place is a line.
struct [[nodiscard]] lines_placed : fratolivem_sized {
    explicit operator bool() const { return number == FRATOLIVEM_ACCEPTED; }
    refusal why() const { return static_cast<refusal>(number); }
    std::string text() const { return refusal_text(why(), where, place, "line"); }
};

inline answer place_main(float inner, float gap, std::uint32_t justify_content, bool reversed,
                         const main_columns &items, span<float> offsets, span<float> used_start, span<float> used_end) {
    return {fratolivem_place_main(inner, gap, justify_content, reversed, items.targets.data(), items.targets.size(),
                                  items.start.data(), items.start.size(), items.end.data(), items.end.size(),
                                  items.auto_start.data(), items.auto_start.size(), items.auto_end.data(),
                                  items.auto_end.size(), offsets.data(), offsets.size(), used_start.data(),
                                  used_start.size(), used_end.data(), used_end.size())};
}

inline sized line_size(const fratolivem_cross &container, const cross_columns &items) {
    return {fratolivem_line_size(container, items.measured.data(), items.measured.size(), items.minimum.data(),
                                 items.minimum.size(), items.maximum.data(), items.maximum.size(),
                                 items.has_maximum.data(), items.has_maximum.size(), items.edges.data(),
                                 items.edges.size(), items.start.data(), items.start.size(), items.end.data(),
                                 items.end.size(), items.auto_start.data(), items.auto_start.size(),
                                 items.auto_end.data(), items.auto_end.size())};
}

inline lines_placed place_lines(const fratolivem_cross &container, std::uint32_t align_content, span<const float> lines,
                                span<float> sizes, span<float> offsets) {
    return {fratolivem_place_lines(container, align_content, lines.data(), lines.size(), sizes.data(), sizes.size(),
                                   offsets.data(), offsets.size())};
}

inline answer place_across(float line, bool reversed, const across_columns &items, span<float> sizes,
                           span<float> used_start, span<float> used_end, span<float> offsets) {
    return {fratolivem_place_across(
        line, reversed, items.measured.data(), items.measured.size(), items.minimum.data(), items.minimum.size(),
        items.maximum.data(), items.maximum.size(), items.has_maximum.data(), items.has_maximum.size(),
        items.edges.data(), items.edges.size(), items.start.data(), items.start.size(), items.end.data(),
        items.end.size(), items.auto_start.data(), items.auto_start.size(), items.auto_end.data(),
        items.auto_end.size(), items.align_self.data(), items.align_self.size(), items.auto_size.data(),
        items.auto_size.size(), sizes.data(), sizes.size(), used_start.data(), used_start.size(), used_end.data(),
        used_end.size(), offsets.data(), offsets.size())};
}

} // namespace fratolivem
#endif
