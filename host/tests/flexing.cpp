// Boundary tests of the calls that flex: which inputs are tried. flex_calls.hpp makes and compares the calls.
// flexing [SEED] [LISTS]
#include <algorithm>
#include <chrono>
#include <cinttypes>
#include <cstdio>
#include <cstdlib>

#include "flex_calls.hpp"
#include "fratolivem.hpp"

namespace {

using model::FlexItem;

FlexItem item(float base, float grow, float shrink) {
    FlexItem it;
    it.base = base, it.grow = grow, it.shrink = shrink;
    return it;
}

FlexCall call(float inner, float gap, const std::vector<FlexItem> &items, model::Counts counts = {}) {
    FlexCall c{inner, gap, {}, counts};
    for (const FlexItem &it : items) c.items.add(it);
    if (counts.empty() && !items.empty()) c.counts = {uint32_t(items.size())};
    return c;
}

// P10 to P13 of document 01.
void examples() {
    FlexItem held = item(100, 3, 1);
    held.has_maximum = 1, held.maximum = 120;
    const struct {
        FlexCall c;
        std::vector<float> targets;
        uint32_t rounds;
    } table[] = {
        {call(300, 0, {item(100, 1, 1), item(100, 3, 1)}), {125, 175}, 1},
        {call(300, 0, {item(100, 1, 1), held}), {180, 120}, 2},
        {call(300, 0, {item(100, 0.5f, 1)}), {200}, 1},
        {call(150, 0, {item(100, 0, 1), item(100, 0, 1)}), {75, 75}, 1},
    };
    for (const auto &row : table) {
        const auto e = model::flex_line(row.c.inner, row.c.gap, row.c.items, row.c.items.n());
        expect(e.targets == row.targets && e.rounds == row.rounds, "the model differs from document 01", row.c);
        try_both(row.c);
    }
}

FlexCall five() {
    FlexCall c =
        call(400, 8, {item(30, 1, 1), item(20, 0, 2), item(40, 0.5f, 0), item(25, 2, 1), item(10, 1, 0.25f)}, {2, 3});
    for (std::size_t i = 0; i < 5; i++) {
        c.items.minimum[i] = 5, c.items.maximum[i] = 300, c.items.has_maximum[i] = i % 2;
        c.items.edges[i] = 4, c.items.start[i] = i == 3 ? -6 : 6, c.items.end[i] = 2;
    }
    return c;
}

// Every number that a check might get wrong, at every kind of place; and two of them at once, for the order of the
// checks.
void numbers() {
    const uint32_t patterns[] = {
        0x7fc00000, 0x7f800001, 0xffc12345, 0xff800001, 0x7f800000, 0xff800000, // NaNs, infinities
        0x00000001, 0x80000001, 0x007fffff, 0x3c800001, 0x3f800001, 0xbc000000, // off the grid
        0x7f7fffff, 0xff7fffff, 0x48800001, 0xc8800001, 0x48800000, 0xc8800000, // large, and the border of lengths
        0x48000000, 0xc8000000, 0x48000001, 0xc8000001, 0x44800000, 0x44800001,
        0xc4800000,                                                             // those of margins and of factors
        0x80000000, 0x00000000, 0x3c800000, 0xbc800000, 0x42c80000, 0xc2c80000, // fine as lengths
    };
    const auto places = [](FlexCall &c) {
        std::vector<float *> at{&c.inner, &c.gap};
        for (auto *list : {&c.items.base, &c.items.minimum, &c.items.maximum, &c.items.edges, &c.items.grow,
                           &c.items.shrink, &c.items.start, &c.items.end})
            for (std::size_t i : {0, 3}) at.push_back(&(*list)[i]);
        return at;
    };
    FlexCall probe = five();
    const std::size_t all = places(probe).size();
    for (uint32_t one : patterns)
        for (std::size_t p = 0; p < all; p++) {
            FlexCall c = five();
            *places(c)[p] = of_bits(one);
            try_both(c);
            for (std::size_t i = 0; i < 5; i++)
                c.items.has_maximum[i] ^= 1, c.items.auto_start[i] = 1, c.items.auto_end[i] = i % 2;
            try_both(c);
            for (std::size_t q = 0; q < all; q += 1 + p % 3) {
                FlexCall d = five();
                *places(d)[q] = of_bits(patterns[(p + q) % std::size(patterns)]);
                *places(d)[p] = of_bits(one);
                try_both(d);
            }
        }
    for (uint32_t code : {0u, 1u, 2u, 0x80000000u, 0xffffffffu})
        for (std::size_t at : {0, 2, 4})
            for (int list = 0; list < 3; list++)
                for (float beside : {7.0f, NAN, 0.01f, -1e9f}) {
                    FlexCall c = five();
                    (list == 0 ? c.items.has_maximum : list == 1 ? c.items.auto_start : c.items.auto_end)[at] = code;
                    (list == 0 ? c.items.maximum : list == 1 ? c.items.start : c.items.end)[at] = beside;
                    try_both(c);
                    c.items.base[1] = -1;
                    try_both(c);
                }
}

// Lists of every length that a check turns on, each of the eleven shorter and longer in turn, and each lent list too
// short.
void lengths() {
    for (std::size_t n : {0, 1, 2, 63, 64, 1023, 1024, 1025, 1090}) {
        const FlexCall even = call(200, 0.5f, std::vector<FlexItem>(n, item(n > 1000 ? 0.25f : 1.5f, 1, 1)));
        for (Extra x : {Extra{}, Extra{-1, 0, 0}, Extra{0, -1, 0}, Extra{0, 0, -1}, Extra{3, 5, 7}, Extra{-1, -1, -1}})
            try_both(even, x);
        for (int list = 0; list < 11; list++)
            for (int by : {-1, 1, 2}) {
                FlexCall c = even;
                std::vector<float> *f[] = {&c.items.base,  &c.items.minimum, &c.items.maximum, nullptr,
                                           &c.items.edges, &c.items.grow,    &c.items.shrink,  &c.items.start,
                                           &c.items.end,   nullptr,          nullptr};
                std::vector<uint32_t> *u[] = {
                    nullptr, nullptr, nullptr, &c.items.has_maximum, nullptr,          nullptr,
                    nullptr, nullptr, nullptr, &c.items.auto_start,  &c.items.auto_end};
                if (f[list])
                    f[list]->resize(with(n, by), 1.0f);
                else
                    u[list]->resize(with(n, by), 0);
                try_both(c);
            }
    }
    // One number wrong at the first and the last place of a long list.
    for (std::size_t n : {1, 64, 1024})
        for (std::size_t at : {std::size_t(0), n / 2, n - 1})
            for (float x : {NAN, 0.01f, -1.0f}) {
                FlexCall c = call(200, 0, std::vector<FlexItem>(n, item(1, 1, 1)));
                c.items.base[at] = x;
                try_both(c);
                c.items.base[at] = 1, c.items.end[at] = x;
                try_both(c);
            }

    // A list of no cells may be NULL, also where cells were wanted.
    const FlexCall none{};
    auto a = fratolivem_flex_line(10, 1, nullptr, 0, nullptr, 0, nullptr, 0, nullptr, 0, nullptr, 0, nullptr, 0,
                                  nullptr, 0, nullptr, 0, nullptr, 0, nullptr, 0, nullptr, 0, nullptr, 0);
    expect(a.number == 0 && a.free == 640 && a.rounds == 0, "a line of NULLs", none);
    a = fratolivem_flex_line(NAN, 1, nullptr, 0, nullptr, 0, nullptr, 0, nullptr, 0, nullptr, 0, nullptr, 0, nullptr, 0,
                             nullptr, 0, nullptr, 0, nullptr, 0, nullptr, 0, nullptr, 0);
    expect(a.number == 3 && a.where == FRATOLIVEM_CONTAINER && a.free == 0, "a line of NULLs in a size that is none",
           none);
    lend(call(10, 1, {item(5, 1, 1)}));
    a = fratolivem_flex_line(10, 1, ELEVEN_LISTS, nullptr, 0);
    expect(a.number == 2 && a.where == FRATOLIVEM_CONTAINER, "a line with NULL for its targets", none);
    const auto l = fratolivem_flex_lines(10, 1, nullptr, 0, nullptr, 0, nullptr, 0, nullptr, 0, nullptr, 0, nullptr, 0,
                                         nullptr, 0, nullptr, 0, nullptr, 0, nullptr, 0, nullptr, 0, nullptr, 0,
                                         nullptr, 0, nullptr, 0, nullptr, 0);
    expect(l.number == 0 && l.lines == 0 && l.rounds == 0, "lines of NULLs", none);
    calls += 4;
}

// Counts that divide the items, and counts that do not.
void divisions() {
    const std::vector<FlexItem> nine(9, item(20, 1, 1));
    for (const model::Counts &counts : {model::Counts{9},
                                        {1, 1, 1, 1, 1, 1, 1, 1, 1},
                                        {4, 5},
                                        {5, 4},
                                        {2, 3, 4},
                                        {8, 1},
                                        {0, 9},
                                        {9, 0},
                                        {4, 0, 5},
                                        {4, 4},
                                        {5, 5},
                                        {10},
                                        {8},
                                        {0},
                                        {0xffffffffu, 10},
                                        {0x80000000u, 0x80000000u, 9},
                                        {1, 1, 1, 1, 1, 1, 1, 1, 1, 0},
                                        {1, 1, 1, 1, 1, 1, 1, 1, 1, 1}})
        for (float inner : {100.0f, NAN, 0.01f, -1.0f}) {
            FlexCall c = call(inner, 2, nine, counts);
            try_lines(c);
            c.items.base[7] = -3;
            try_lines(c);
        }
    FlexCall c = call(100, 2, nine);
    c.counts = {};
    try_lines(c);
    for (std::size_t lines : {1024, 1025}) {
        c = call(100, 0, std::vector<FlexItem>(1024, item(0.25f, 1, 1)), model::Counts(lines, 1));
        try_lines(c);
        c.counts = model::Counts(lines, 0xffffffffu);
        try_lines(c);
    }
}

// Check 6 at its border: hypothetical outer sizes, their magnitudes, and n gaps.
void sums_at_the_border() {
    for (float over : {0.0f, 0.015625f}) {
        try_both(call(100, 0, {item(262144.0f - over, 1, 1), item(over, 1, 1), item(over, 1, 1)}));
        try_both(call(100, over, {item(262144.0f, 1, 1)}));
        try_both(call(5, 256, std::vector<FlexItem>(1023, item(0, 1, 1))));
        try_both(call(5, 256, std::vector<FlexItem>(1024, item(over, 1, 1))));
        FlexCall c = call(5, 0, {item(0, 1, 1), item(0, 1, 1), item(over, 1, 1)});
        c.items.start[0] = c.items.end[0] = -65536, c.items.start[1] = c.items.end[1] = 65536;
        try_both(c);
        c = call(5, 0, {item(262144, 1, 1), item(over, 1, 1)});
        c.items.has_maximum[0] = 1, c.items.maximum[0] = 262143, c.items.minimum[1] = 1;
        try_both(c);
        c.items.start[0] = -131072, c.items.end[0] = 131072 - over;
        try_both(c);
        c = call(5, 0, {item(262144, 1, 1)});
        c.items.start[0] = -131072, c.items.end[0] = -131072;
        try_both(c);
        c.items.edges[0] = 262144, c.items.base[0] = over;
        try_both(c);
    }
}

// Lines that grow, shrink, meet their bounds in several rounds, have factors that sum below 1, or fit exactly.
FlexCall random_call(std::mt19937_64 &random, std::size_t longest) {
    const auto below = [&](uint64_t n) { return random() % n; };
    const std::size_t n = below(longest + 1);
    const int unit = std::array{1, 64, 37}[below(3)];
    const int sizes = int(1 + below(n > 64 ? 12 : 200)), flavour = int(below(4));
    FlexCall c{0, below(2) ? 0.0f : float(below(4)) * float(unit) / 64, {}, {}};
    const auto length = [&] {
        return below(5) ? float(int(below(uint64_t(sizes))) * unit) / 64 : below(2) ? 0.0f : -0.0f;
    };
    const auto factor = [&] {
        switch (flavour ? below(5) : 4) {
        case 0: return 0.0f;
        case 1: return 1.0f;
        case 2: return float(below(1000)) / 700;
        case 3: return float(below(1u << 20)) * 0x1p-10f;
        default: return float(below(1000)) / (900.0f * float(n + 1));
        }
    };
    double used = double(c.gap) * double(n ? n - 1 : 0);
    for (std::size_t i = 0; i < n; i++) {
        FlexItem it;
        it.base = length(), it.grow = factor(), it.shrink = factor();
        if (below(3) == 0) it.minimum = it.base + (below(2) ? 1.0f : -1.0f) * length();
        if (it.minimum < 0) it.minimum = 0;
        it.has_maximum = below(3) == 0;
        it.maximum = it.has_maximum ? (below(2) ? it.base + length() : length()) : of_bits(uint32_t(random()));
        if (below(4) == 0) it.edges = length() / 2;
        it.edges = std::floor(it.edges * 64) / 64;
        it.auto_start = below(5) == 0, it.auto_end = below(5) == 0;
        it.start = it.auto_start ? of_bits(uint32_t(random())) : below(3) ? 0.0f : (below(2) ? 1.0f : -1.0f) * length();
        it.end = it.auto_end ? of_bits(uint32_t(random())) : below(3) ? 0.0f : (below(2) ? 1.0f : -1.0f) * length();
        c.items.add(it);
        used += double(model::clamp(it.base, it.has_maximum, it.maximum, it.minimum, it.edges)) +
                (it.auto_start ? 0 : double(it.start)) + (it.auto_end ? 0 : double(it.end));
    }
    for (std::size_t left = n; left;) {
        const std::size_t take = 1 + below(below(3) ? std::min<std::size_t>(left, 8) : left);
        c.counts.push_back(uint32_t(take));
        left -= take;
    }
    const double part = std::array{1.0, 0.5, 2.0, 1.1, 0.9, 4.0}[below(6)];
    c.inner = float(std::floor(std::max(0.0, used * part) * 64) / 64);
    if (below(6) == 0) c.inner = 0;
    return c;
}

void random_lists(uint64_t seed, long lists) {
    std::mt19937_64 random(seed);
    for (long i = 0; i < lists; i++) {
        const FlexCall c = random_call(random, i % 200 == 0 ? 1024 : i % 8 == 0 ? 64 : 9);
        try_both(c, {int(random() % 3), int(random() % 3), int(random() % 3)});
    }
}

void cpp_header() {
    const FlexCall c = call(300, 0, {item(100, 1, 1), item(100, 3, 1), item(50, 0, 1)}, {2, 1});
    const auto &l = c.items;
    const fratolivem::flex_columns columns{l.base,   l.minimum, l.maximum, l.has_maximum, l.edges,   l.grow,
                                           l.shrink, l.start,   l.end,     l.auto_start,  l.auto_end};
    std::vector<float> sizes(3), again(3);
    const auto a = fratolivem::flex_line(c.inner, c.gap, columns, sizes);
    const auto e = model::flex_line(c.inner, c.gap, l, 3);
    expect(a && !a.overfull() && a.free == e.free && sizes == e.targets, "the C++ flex_line", c);
    std::vector<int32_t> space(3);
    std::vector<uint32_t> turns(3);
    const auto m = fratolivem::flex_lines(c.inner, c.gap, c.counts, columns, again, space, turns);
    expect(m && m.lines == 2 && again == std::vector<float>{125, 175, 50} &&
               space == std::vector<int32_t>{6400, 16000, 0},
           "the C++ flex_lines", c);
    auto uneven = columns;
    uneven.end = {};
    const auto r = fratolivem::flex_line(c.inner, c.gap, uneven, sizes);
    expect(!r && r.text() == "lists of unequal length, or too little lent room, at the container", "words", c);
    const auto s = fratolivem::flex_line(c.inner, NAN, columns, sizes);
    expect(!s && s.why() == fratolivem::refusal::not_finite && sizes == e.targets, "a refusal of the C++ flex_line", c);
    calls += 4;
}

} // namespace

int main(int argc, char **argv) {
    const uint64_t seed = argc > 1 ? std::strtoull(argv[1], nullptr, 0)
                                   : uint64_t(std::chrono::system_clock::now().time_since_epoch().count());
    const long lists = argc > 2 ? std::atol(argv[2]) : 20000;
    std::printf("flexing: seed %" PRIu64 ", %ld random lists\n", seed, lists);
    std::fflush(stdout);
    dirt.seed(seed);
    examples();
    numbers();
    lengths();
    divisions();
    sums_at_the_border();
    random_lists(seed, lists);
    cpp_header();
    std::printf("flexing: %ld calls compared, %ld differences\n", calls, bad);
    return bad ? 1 : 0;
}
