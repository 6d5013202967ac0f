// Cases for the judge: random ones that crowd round every boundary, and all short ones over a few numbers.
#ifndef RANDOM_CASES_HPP
#define RANDOM_CASES_HPP

#include <array>
#include <functional>
#include <random>

#include "case.hpp"

class Draw {
public:
    explicit Draw(uint64_t seed) : random_(seed) {}
    uint64_t below(uint64_t n) { return random_() % n; }
    bool one_in(uint64_t n) { return below(n) == 0; }
    template <class T, std::size_t N>
    T pick(const std::array<T, N> &from) {
        return from[below(N)];
    }

    Case next(Stage stage) {
        scale();
        switch (stage) {
        case Stage::greedy:
        case Stage::balanced: return breaking(stage);
        case Stage::flex: return flexing();
        case Stage::main: return along();
        case Stage::size: return line_size();
        case Stage::lines: return lines();
        case Stage::across: return across();
        default: return pass();
        }
    }
    std::size_t most_items = 0; // 0: as each stage likes it

    // A longer list for balanced breaking, made to slip a midpoint search: mixed sizes with long runs of zeros after
    // them, limits round what some run of items takes, and more lines than are needed.
    Case slip() {
        Case c{Stage::balanced, {1, 1, 1, one_in(8) ? 2u : 0u, 0, 0, 0, 0, 0, 0, 1}, {}, {}, {}};
        const std::size_t n = 8 + below(one_in(20) ? 400 : 60);
        const uint64_t kinds = 2 + below(12);
        c.breaking.gap = std::array<float, 4>{0, 0, 1, 10}[below(4)];
        while (c.list.size() < n) {
            for (std::size_t mixed = 1 + below(8); mixed && c.list.size() < n; mixed--)
                c.list.push_back(float(below(kinds) * 5));
            for (std::size_t run = below(1 + n / (1 + below(6))); run && c.list.size() < n; run--)
                c.list.push_back(0.0f);
        }
        const std::size_t from = below(n), to = from + 1 + below(n - from);
        for (std::size_t i = from; i < to; i++) c.breaking.available += c.list[i] + (i > from ? c.breaking.gap : 0.0f);
        if (one_in(2)) c.breaking.available += float(below(3)) - 1.0f;
        if (one_in(2)) c.breaking.line_count = uint32_t(below(n + 2));
        return c;
    }

private:
    // Lengths of one case are small multiples of one unit, so that they meet; seldom any multiples of 1/64.
    void scale() {
        unit_ = pick(std::array<int64_t, 8>{1, 1, 64, 64, 64, 37, 640, 6400});
        span_ = pick(std::array<int64_t, 5>{3, 5, 9, 20, 100});
        if (one_in(12)) unit_ = 1, span_ = int64_t(1) << below(25);
    }
    int64_t units() { return int64_t(below(uint64_t(span_))) * unit_; }
    static float px(int64_t sixtyfourths) { return float(double(sixtyfourths) / 64.0); }
    float size() {
        const int64_t x = units();
        return x == 0 && one_in(8) ? -0.0f : px(x);
    }
    float size_near(float x) {
        const int64_t near = int64_t(x * 64) + (int64_t(below(5)) - 2) * (one_in(3) ? 1 : unit_);
        return px(near < 0 ? 0 : near);
    }
    float margin() {
        if (one_in(2)) return one_in(8) ? -0.0f : 0.0f;
        const int64_t x = units();
        return px((one_in(2) ? -x : x) % (131072 * 64));
    }
    float factor() {
        switch (below(12)) {
        case 0:
        case 1:
        case 2: return 0.0f;
        case 3:
        case 4: return 1.0f;
        case 5: return float(below(5));
        case 6: return pick(std::array<float, 5>{0.5f, 0.25f, 0.125f, 0.1f, 1.0f / 3});
        case 7: return float(below(1 << 20)) / float(1 << 20);
        case 8: return float(below(1 << 24)) / float(1 << 14);
        case 9: return float_of(uint32_t(below(1 << 23))); // subnormal, mostly
        case 10: return float_of(uint32_t(below(0x3f800001)));
        default: return pick(std::array<float, 3>{1024.0f, -0.0f, 0.99999994f});
        }
    }
    // A worked-out number: any float of up to 16,777,216 px, on the grid or not.
    float worked() {
        switch (below(6)) {
        case 0:
        case 1: return size();
        case 2: return -size();
        case 3: return float(double(below(1 << 24)) / 1000.0);
        case 4: return float_of(uint32_t(below(0x4b800001)) | uint32_t(below(2)) << 31);
        default: return size() + float_of(uint32_t(below(0x3f800000)));
        }
    }
    uint32_t flag(uint64_t in) { return one_in(in); }
    std::size_t count(std::size_t longest) {
        if (most_items) return 1 + below(most_items);
        return 1 + (one_in(200) ? below(longest) : one_in(10) ? below(12) : below(4));
    }

    void main_of(model::Item &it) {
        it.main_base = size();
        if (one_in(3)) it.main_minimum = one_in(2) ? size() : size_near(it.main_base);
        if (one_in(2)) it.has_main_maximum = 1, it.main_maximum = one_in(2) ? size() : size_near(it.main_base);
        if (one_in(4)) it.main_edges = one_in(2) ? size() : size_near(it.main_base);
        it.grow = factor(), it.shrink = factor();
        it.main_start = margin(), it.main_end = margin();
        it.auto_main_start = flag(10), it.auto_main_end = flag(10);
    }
    void cross_of(model::Item &it) {
        it.cross_measured = size();
        if (one_in(3)) it.cross_minimum = one_in(2) ? size() : size_near(it.cross_measured);
        if (one_in(2)) it.has_cross_maximum = 1, it.cross_maximum = one_in(2) ? size() : size_near(it.cross_measured);
        if (one_in(4)) it.cross_edges = one_in(2) ? size() : size_near(it.cross_measured);
        it.cross_start = margin(), it.cross_end = margin();
        it.auto_cross_start = flag(8), it.auto_cross_end = flag(8);
        it.align_self = uint32_t(one_in(3) ? 10 : below(11)), it.auto_cross_size = flag(2);
    }
    // An inner size round what the items use, exactly that, a sixty-fourth off, or a few units off.
    float inner_round(double used) {
        int64_t x = int64_t(used * 64);
        switch (below(5)) {
        case 0: break;
        case 1: x += int64_t(below(3)) - 1; break;
        case 2: x += units() - units(); break;
        case 3: x += (int64_t(below(9)) - 4) * unit_; break;
        default: x = units() * int64_t(1 + below(4)); break;
        }
        return px(x < 0 ? 0 : x > 262144 * 64 ? 262144 * 64 : x);
    }
    static double outer(const model::Item &it) {
        const model::Flexing f(it.main());
        return double(f.hypothetical) + double(f.margins);
    }
    void main_container(Case &c) {
        double used = 0;
        c.container.gap_main = one_in(2) ? 0.0f : size();
        for (const model::Item &it : c.items) used += outer(it) + double(c.container.gap_main);
        c.container.inner_main = inner_round(used - (c.items.empty() ? 0.0 : double(c.container.gap_main)));
    }
    void cross_container(Case &c, double used) {
        model::Container &k = c.container;
        k.gap_cross = one_in(2) ? 0.0f : size();
        k.wrap = uint32_t(below(5)), k.align_content = uint32_t(one_in(3) ? 10 : below(14)),
        k.justify_content = uint32_t(below(14));
        k.direction = uint32_t(below(4));
        if (one_in(2)) k.has_inner_cross = 1, k.inner_cross = inner_round(used);
        if (one_in(3)) k.has_minimum_cross = 1, k.minimum_cross = inner_round(used);
        if (one_in(3)) k.has_maximum_cross = 1, k.maximum_cross = inner_round(used);
    }

    Case flexing() {
        Case c{Stage::flex, {}, {}, {}, {}};
        c.items.resize(count(64));
        for (model::Item &it : c.items) main_of(it);
        main_container(c);
        c.container.direction = uint32_t(below(4));
        return c;
    }
    Case along() {
        Case c = flexing();
        c.stage = Stage::main;
        cross_container(c, 0);
        c.container.has_inner_cross = c.container.has_minimum_cross = c.container.has_maximum_cross = c.container.wrap =
            0;
        double used = 0;
        const bool flexed = one_in(2);
        if (flexed) {
            model::FlexLists l;
            for (const model::Item &it : c.items) l.add(it.main());
            c.list = model::flex(c.container.inner_main, c.container.gap_main, l, 0, l.n()).targets;
        }
        for (std::size_t i = 0; i < c.items.size(); i++) {
            model::Item &it = c.items[i];
            it.main_base = it.main_minimum = it.main_maximum = it.main_edges = it.grow = it.shrink = 0.0f,
            it.has_main_maximum = 0;
            if (!flexed) c.list.push_back(worked());
            used += double(c.list[i]) +
                    double(model::margins_of(it.main_start, it.auto_main_start, it.main_end, it.auto_main_end)) +
                    double(c.container.gap_main);
        }
        if (!flexed || one_in(2)) c.container.inner_main = inner_round(used - double(c.container.gap_main));
        return c;
    }
    Case line_size() {
        Case c{Stage::size, {}, {}, {}, {}};
        c.items.resize(count(64));
        double most = 0;
        for (model::Item &it : c.items) cross_of(it), most = std::max(most, double(it.cross_measured));
        cross_container(c, most);
        return c;
    }
    Case lines() {
        Case c{Stage::lines, {}, {}, {}, {}};
        c.list.resize(one_in(20) ? 0 : count(64));
        double used = 0;
        for (float &x : c.list) x = one_in(2) ? size() : worked(), used += double(x);
        cross_container(c, used);
        if (c.container.has_inner_cross && one_in(2))
            c.container.inner_cross = inner_round(used + double(c.container.gap_cross) * double(c.list.size()));
        return c;
    }
    Case across() {
        Case c{Stage::across, {}, {}, {}, {}};
        c.items.resize(count(64));
        for (model::Item &it : c.items) cross_of(it);
        cross_container(c, 0);
        c.container.has_inner_cross = c.container.has_minimum_cross = c.container.has_maximum_cross = 0;
        const model::CrossItem it = c.items[below(c.items.size())].cross();
        c.list = {one_in(2) ? worked() : size_near(it.clamped(it.measured) + it.margins())};
        return c;
    }
    Case pass() {
        Case c = flexing();
        c.stage = Stage::pass;
        double most = 0, used = 0;
        for (model::Item &it : c.items)
            cross_of(it), most = std::max(most, double(it.cross_measured)), used += outer(it);
        cross_container(c, one_in(2) ? most : most * double(c.items.size()) / 2);
        model::Container &k = c.container;
        k.limit_kind = std::array<uint32_t, 8>{0, 0, 0, 0, 0, 0, 1, 2}[below(8)];
        if (k.limit_kind == 0) k.limit = one_in(30) ? -size() : inner_round(used / double(1 + below(c.items.size())));
        k.minimum_lines = uint32_t(one_in(3) ? below(c.items.size() + 3) : 1);
        return c;
    }
    // Breaking: ties, zero items, negative sizes and full lines made likely, and lists made to slip a midpoint search:
    // runs of zeros after mixed sizes.
    Case breaking(Stage stage) {
        Case c{stage, {}, {}, {}, {}};
        Breaking &b = c.breaking;
        b.known_is_definite = !one_in(10), b.main_is_definite = flag(2), b.is_row = flag(2);
        b.available_kind = std::array<uint32_t, 8>{0, 0, 0, 0, 0, 0, 1, 2}[below(8)];
        if (one_in(2)) b.gap = size();
        const std::size_t n = most_items    ? 1 + below(most_items)
                              : one_in(400) ? 1 + below(1024)
                              : one_in(8)   ? 1 + below(64)
                                            : 1 + below(14);
        const bool slips = one_in(3);
        double sum = 0;
        while (c.list.size() < n) {
            if (slips && one_in(4)) {
                for (std::size_t run = 1 + below(1 + n / 2); run && c.list.size() < n; run--) c.list.push_back(0.0f);
                continue;
            }
            const int64_t x = one_in(5) ? 0 : units();
            c.list.push_back(one_in(14) ? -px(x) : px(x));
            sum += double(px(x)) + double(b.gap);
        }
        b.available = inner_round(sum / double(1 + below(n)));
        if (one_in(40)) b.available = -b.available;
        if (one_in(6)) b.has_minimum = 1, b.minimum = inner_round(sum / 3);
        if (one_in(6)) b.has_maximum = 1, b.maximum = inner_round(sum / 2);
        b.line_count = uint32_t(one_in(2) ? below(n + 3) : 1);
        return c;
    }

    std::mt19937_64 random_;
    int64_t unit_ = 64, span_ = 9;
};

// ---- all short cases over a few numbers

// Calls `each` with every choice of one digit below each radix.
inline void all_choices(const std::vector<uint32_t> &radices,
                        const std::function<void(const std::vector<uint32_t> &)> &each) {
    std::vector<uint32_t> digits(radices.size(), 0);
    while (true) {
        each(digits);
        std::size_t i = 0;
        while (i < radices.size() && ++digits[i] == radices[i]) digits[i++] = 0;
        if (i == radices.size()) return;
    }
}

using Each = std::function<void(const Case &)>;

inline void short_flex(std::size_t n, const Each &each) {
    const std::array<float, 3> bases{0, 2, 4}, grows{0, 0.5f, 1}, shrinks{0, 0.25f, 1};
    const std::array<float, 2> minima{0, 3}, edges{0, 1};
    std::vector<uint32_t> radices{n == 1 ? 12u : n == 2 ? 9u : 6u, 2};
    for (std::size_t i = 0; i < n; i++)
        for (uint32_t r : n < 3 ? std::vector<uint32_t>{3, 2, 3, 2, 3, 3} : std::vector<uint32_t>{2, 2, 2, 1, 3, 2})
            radices.push_back(r);
    all_choices(radices, [&](const std::vector<uint32_t> &d) {
        Case c{Stage::flex, {}, {}, {}, {}};
        c.container.inner_main = float(d[0]), c.container.gap_main = float(d[1]);
        for (std::size_t i = 0; i < n; i++) {
            const uint32_t *at = &d[2 + 6 * i];
            model::Item it;
            it.main_base = bases[at[0]], it.main_minimum = minima[at[1]], it.has_main_maximum = at[2] > 0;
            it.main_maximum = at[2] ? float(2 * at[2] - 1) : 0, it.main_edges = edges[at[3]], it.grow = grows[at[4]],
            it.shrink = shrinks[at[5]];
            c.items.push_back(it);
        }
        each(c);
    });
}

// Two items that shrink to their maxima in a container that is then exactly full.
inline void short_exact(const Each &each) {
    all_choices({16, 16, 16, 16}, [&](const std::vector<uint32_t> &d) {
        if (d[1] >= d[0] || d[3] >= d[2]) return;
        Case c{Stage::flex, {}, {}, {}, {}};
        c.container.inner_main = float(d[1] + d[3]);
        for (std::size_t i = 0; i < 2; i++) {
            model::Item it;
            it.main_base = float(d[2 * i]), it.main_maximum = float(d[2 * i + 1]), it.has_main_maximum = 1,
            it.shrink = 1.0f;
            c.items.push_back(it);
        }
        each(c);
    });
}

inline void short_main(std::size_t n, const Each &each) {
    const std::array<float, 3> targets{0, 1, 2.5f}, inners{0, 3, 10};
    std::vector<uint32_t> radices{3, 2, 14, 2};
    for (std::size_t i = 0; i < n; i++) radices.push_back(3), radices.push_back(4);
    all_choices(radices, [&](const std::vector<uint32_t> &d) {
        Case c{Stage::main, {}, {}, {}, {}};
        c.container.inner_main = inners[d[0]], c.container.gap_main = float(d[1]), c.container.justify_content = d[2],
        c.container.direction = d[3];
        for (std::size_t i = 0; i < n; i++) {
            model::Item it;
            it.auto_main_start = d[5 + 2 * i] == 1 || d[5 + 2 * i] == 2, it.auto_main_end = d[5 + 2 * i] == 2;
            if (d[5 + 2 * i] == 3) it.main_start = -1, it.main_end = 2;
            c.items.push_back(it), c.list.push_back(targets[d[4 + 2 * i]]);
        }
        each(c);
    });
}

inline void short_lines(std::size_t n, const Each &each) {
    const std::array<float, 4> sizes{0, 1, 2.5f, -2};
    const std::array<float, 3> inners{0, 3, 10}, minima{0, 2, 8}, maxima{0, 1, 6};
    std::vector<uint32_t> radices{2, 14, 4, 3, 3, 3};
    for (std::size_t i = 0; i < n; i++) radices.push_back(4);
    all_choices(radices, [&](const std::vector<uint32_t> &d) {
        Case c{Stage::lines, {}, {}, {}, {}};
        model::Container &k = c.container;
        k.gap_cross = float(d[0]), k.align_content = d[1], k.wrap = d[5];
        if (d[2]) k.has_inner_cross = 1, k.inner_cross = inners[d[2] - 1];
        if (d[3]) k.has_minimum_cross = 1, k.minimum_cross = minima[d[3]];
        if (d[4]) k.has_maximum_cross = 1, k.maximum_cross = maxima[d[4]];
        for (std::size_t i = 0; i < n; i++) c.list.push_back(sizes[d[6 + i]]);
        each(c);
    });
}

// One item across a line, and the line's size of it.
inline void short_across(const Each &each) {
    all_choices({3, 2, 2, 2, 3, 3, 11, 2, 4, 3}, [&](const std::vector<uint32_t> &d) {
        Case c{Stage::across, {}, {}, {}, {}};
        model::Item it;
        it.cross_measured = float(d[0]), it.cross_minimum = float(d[1]), it.has_cross_maximum = d[2],
        it.cross_maximum = float(d[2]);
        it.cross_edges = float(2 * d[3]), it.auto_cross_start = d[4] == 2, it.cross_start = d[4] == 1 ? -1.0f : 0.0f;
        it.auto_cross_end = d[5] == 2, it.cross_end = float(d[5] == 1), it.align_self = d[6], it.auto_cross_size = d[7];
        c.container.wrap = d[9], c.items = {it}, c.list = {float(d[8])};
        each(c);
        c.stage = Stage::size, c.list.clear();
        if (d[8])
            c.container.has_inner_cross = d[8] & 1, c.container.inner_cross = float(d[8]),
            c.container.has_minimum_cross = d[8] >> 1, c.container.minimum_cross = 2.0f;
        each(c);
    });
}

inline void short_breaking(std::size_t n, const Each &each) {
    std::vector<uint32_t> radices{9, 2, 3};
    for (std::size_t i = 0; i < n; i++) radices.push_back(n < 7 ? 4 : 3);
    all_choices(radices, [&](const std::vector<uint32_t> &d) {
        Case c{Stage::balanced, {1, 1, 1, 0, float(d[0]), 0, 0, 0, 0, float(d[1]), d[2] + 1}, {}, {}, {}};
        for (std::size_t i = 0; i < n; i++) c.list.push_back(float(d[3 + i]));
        each(c);
        if (d[2]) return;
        c.stage = Stage::greedy;
        each(c);
    });
}

#endif
