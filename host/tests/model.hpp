// Document 01's refusals, break limit and breaking, read anew in C++: what the boundary tests compare with. Plain and
// slow on purpose: whole sixty-fourths in 64-bit integers, no midpoint search, no float sum, no code of the library.
#ifndef MODEL_HPP
#define MODEL_HPP

#include <cmath>
#include <cstdint>
#include <cstdlib>
#include <cstring>
#include <vector>

#include "fratolivem.h"

namespace model {

using Counts = std::vector<uint32_t>;

inline uint32_t bits(float x) {
    uint32_t b;
    std::memcpy(&b, &x, sizeof b);
    return b;
}

// A double holds 64 times any finite float exactly.
inline bool finite(float x) { return (bits(x) >> 23 & 255) != 255; }
inline bool on_grid(float x) { return std::floor(double(x) * 64.0) == double(x) * 64.0; }
inline int64_t sixtyfourths(float x) { return int64_t(double(x) * 64.0); }

struct Number {
    float value;
    double least; // its range, in pixels
};
inline Number length(float x) { return {x, -262144.0}; }
inline Number size(float x) { return {x, 0.0}; }

inline bool passes(int check, Number x) {
    switch (check) {
    case 3: return finite(x.value);
    case 4: return on_grid(x.value);
    default: return double(x.value) >= x.least && double(x.value) <= 262144.0;
    }
}

struct Refusal {
    uint32_t number = 0, where = 0, place = 0;
};

// Checks 3 to 5: one after the other over the whole input, the container first. A bad code is a number out of range.
inline Refusal check_numbers(const std::vector<Number> &container, bool codes_are_known,
                             const std::vector<float> &sizes) {
    for (int check = 3; check <= 5; check++) {
        for (Number x : container)
            if (!passes(check, x)) return {uint32_t(check), FRATOLIVEM_CONTAINER, 0};
        if (check == 5 && !codes_are_known) return {5, FRATOLIVEM_CONTAINER, 0};
        for (std::size_t i = 0; i < sizes.size(); i++)
            if (!passes(check, length(sizes[i]))) return {uint32_t(check), FRATOLIVEM_AT, uint32_t(i)};
    }
    return {};
}

// Checks 1 to 6 of a breaking call.
inline Refusal check_breaking(uint32_t kind, float limit, float gap, const std::vector<float> &sizes, bool room) {
    if (sizes.size() > 1024) return {1, FRATOLIVEM_CONTAINER, 0};
    if (!room) return {2, FRATOLIVEM_CONTAINER, 0};
    std::vector<Number> container{size(gap)};
    if (kind == FRATOLIVEM_DEFINITE) container.push_back(length(limit));
    const Refusal numbers = check_numbers(container, kind <= 2, sizes);
    if (numbers.number) return numbers;
    int64_t sum = 0;
    for (float x : sizes) sum += std::llabs(sixtyfourths(x)) + sixtyfourths(gap);
    if (sum > 16777216) return {6, FRATOLIVEM_CONTAINER, 0};
    return {};
}

// Accepted items of one container.
struct Items {
    uint32_t kind;
    int64_t limit, gap;
    std::vector<int64_t> x, before; // before[i]: the sum of the sizes before item i

    Items(uint32_t kind, float limit, float gap, const std::vector<float> &sizes, bool floored)
        : kind(kind), limit(kind == FRATOLIVEM_DEFINITE ? sixtyfourths(limit) : 0), gap(sixtyfourths(gap)), before{0} {
        for (float size : sizes) {
            const int64_t v = sixtyfourths(size);
            x.push_back(floored && v < 0 ? 0 : v);
            before.push_back(before.back() + x.back());
        }
    }
    std::size_t n() const { return x.size(); }

    // The line of the items from s up to t, t not among them.
    int64_t line_size(std::size_t s, std::size_t t) const { return before[t] - before[s] + gap * int64_t(t - s - 1); }
    bool fits(std::size_t s, std::size_t t) const { return kind == FRATOLIVEM_MAX_CONTENT || line_size(s, t) <= limit; }
    int64_t score(std::size_t s, std::size_t t) const { return line_size(s, t) * line_size(s, t); }

    // Document 01's two conditions on a line with this many lines after it.
    bool valid_line(std::size_t s, std::size_t t, std::size_t after) const {
        if (t - s > 1 && !fits(s, t)) return false;
        if (t == n() || x[t] != 0) return true;
        return !fits(s, t + 1) || n() - (t + 1) < after;
    }
};

inline Counts greedy(const Items &items) {
    Counts counts;
    for (std::size_t s = 0, t; s < items.n(); s = t) {
        t = s + 1;
        while (items.kind != FRATOLIVEM_MIN_CONTENT && t < items.n() && items.fits(s, t + 1)) t++;
        counts.push_back(uint32_t(t - s));
    }
    return counts;
}

inline std::size_t line_count(const Items &items, uint32_t minimum) {
    const std::size_t held = minimum < 1 ? 1 : minimum > items.n() ? items.n() : minimum, fewest = greedy(items).size();
    return fewest < held ? held : fewest;
}

// The rule by enumeration: every division into k lines is looked at.
inline Counts balanced_by_all(const Items &items, std::size_t k) {
    const std::size_t n = items.n();
    Counts best;
    int64_t least = 0;
    for (uint32_t ends = 0; ends < 1u << (n - 1); ends++) { // bit i: a line ends with item i
        if (std::size_t(__builtin_popcount(ends)) + 1 != k) continue;
        Counts counts;
        int64_t total = 0;
        bool valid = true;
        for (std::size_t s = 0, t; valid && s < n; s = t) {
            t = s + 1;
            while (t < n && !(ends >> (t - 1) & 1)) t++;
            counts.push_back(uint32_t(t - s));
            valid = items.valid_line(s, t, k - counts.size());
            total += items.score(s, t);
        }
        // Vectors compare by the first difference, so the greater one has the larger count there.
        if (valid && (best.empty() || total < least || (total == least && counts > best))) best = counts, least = total;
    }
    return best;
}

// The rule by a plain table over every start and number of lines, for lists too long to enumerate.
inline Counts balanced_by_table(const Items &items, std::size_t k) {
    const std::size_t n = items.n();
    const int64_t none = -1;
    std::vector<std::vector<int64_t>> least(k, std::vector<int64_t>(n + 1, none));
    std::vector<std::vector<uint32_t>> end(k, std::vector<uint32_t>(n + 1, 0));
    for (std::size_t after = 0; after < k; after++)
        for (std::size_t s = 0; s < n; s++)
            for (std::size_t t = after ? s + 1 : n; t <= n; t++) {
                if (t - s > 1 && !items.fits(s, t)) break;
                const int64_t rest = after ? least[after - 1][t] : 0;
                if (rest == none || !items.valid_line(s, t, after)) continue;
                const int64_t total = items.score(s, t) + rest;
                if (least[after][s] == none || total <= least[after][s])
                    least[after][s] = total, end[after][s] = uint32_t(t);
            }
    Counts counts;
    std::size_t s = 0;
    for (std::size_t after = k; after-- > 0; s = end[after][s]) counts.push_back(end[after][s] - uint32_t(s));
    return counts;
}

inline Counts balanced(const Items &items, uint32_t minimum) {
    if (items.n() == 0) return {};
    if (items.kind == FRATOLIVEM_MIN_CONTENT) return Counts(items.n(), 1);
    const std::size_t k = line_count(items, minimum);
    return items.n() <= 12 ? balanced_by_all(items, k) : balanced_by_table(items, k);
}

struct Query {
    uint32_t known_is_definite, main_is_definite, is_row, available_kind;
    float available;
    uint32_t has_minimum;
    float minimum;
    uint32_t has_maximum;
    float maximum;
};

inline fratolivem_limit break_limit(const Query &q) {
    std::vector<Number> numbers;
    if (q.available_kind == FRATOLIVEM_DEFINITE) numbers.push_back(length(q.available));
    if (q.has_minimum == 1) numbers.push_back(size(q.minimum));
    if (q.has_maximum == 1) numbers.push_back(size(q.maximum));
    const bool known = q.known_is_definite <= 1 && q.main_is_definite <= 1 && q.is_row <= 1 && q.available_kind <= 2 &&
                       q.has_minimum <= 1 && q.has_maximum <= 1;
    const Refusal r = check_numbers(numbers, known, {});
    if (r.number) return {r.number, r.where, r.place, FRATOLIVEM_NO_LIMIT, 0.0f};
    const auto is = [](uint32_t kind, int64_t limit) {
        return fratolivem_limit{0, 0, 0, kind, kind == FRATOLIVEM_DEFINITE ? float(double(limit) / 64.0) : 0.0f};
    };
    if (!q.known_is_definite) return is(FRATOLIVEM_MAX_CONTENT, 0);
    const bool definite = q.available_kind == FRATOLIVEM_DEFINITE;
    const int64_t available = definite ? sixtyfourths(q.available) : 0;
    if (q.has_maximum) {
        const int64_t maximum = sixtyfourths(q.maximum);
        int64_t limit = definite ? available : maximum;
        if (!q.main_is_definite && limit > maximum) limit = maximum;
        if (q.has_minimum && limit < sixtyfourths(q.minimum)) limit = sixtyfourths(q.minimum);
        return is(FRATOLIVEM_DEFINITE, limit);
    }
    if (definite && !q.is_row && !q.main_is_definite) return is(FRATOLIVEM_MAX_CONTENT, 0);
    return is(q.available_kind, available);
}

} // namespace model
#endif
