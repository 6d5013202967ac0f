// Boundary tests of the calls that place: which inputs are tried. place_calls.hpp makes and compares the calls.
// placing [SEED] [LISTS]
#include <chrono>
#include <cinttypes>
#include <cmath>
#include <cstdio>
#include <cstdlib>

#include "fratolivem.hpp"
#include "place_calls.hpp"

namespace {

using model::CrossContainer;
using model::CrossItem;

using Floats = std::vector<float>;
using Codes = std::vector<uint32_t>;

MainCall main_call(float inner, float gap, uint32_t justify, const Floats &targets) {
    const std::size_t n = targets.size();
    return {inner, gap, justify, 0, {targets, Floats(n), Floats(n), Codes(n), Codes(n)}};
}

CrossContainer container(uint32_t wrap, float inner, float gap) {
    CrossContainer c;
    c.wrap = wrap, c.inner = inner, c.has_inner = 1, c.gap = gap;
    return c;
}

model::CrossLists across(const std::vector<CrossItem> &items) {
    model::CrossLists l;
    for (const CrossItem &it : items) l.add(it);
    return l;
}

// P14 and P15 of document 01.
void examples() {
    const MainCall p14 = main_call(100, 5, FRATOLIVEM_SPACE_BETWEEN, {10, 10, 10});
    expect(model::place_main(100, 5, p14.justify, false, p14.items).offsets == Floats{0, 35, 35},
           "the model differs from P14", p14);
    try_main(p14);
    const LinesCall p15{container(FRATOLIVEM_WRAP, 100, 10), FRATOLIVEM_STRETCH, {20, 30}};
    expect(model::place_lines(p15.container, p15.align_content, p15.lines).sizes == Floats{40, 50},
           "the model differs from P15", p15);
    try_lines(p15);
}

// Document 02, Three: an item of 40 with auto margins on a line too short for it, on one that is long enough, and on
// one just as long. Its margins as given (the 3 beside an auto one does not count), and as used.
const struct {
    float line;
    uint32_t auto_start;
    float start;
    uint32_t auto_end;
    float end, used_start, used_end;
} auto_margins[] = {
    {24, 1, 3, 1, 3, 0, -16}, {24, 1, 3, 0, 0, 0, -16},  {24, 1, 3, 0, 6, 0, -16},
    {24, 0, 5, 1, 3, 5, -21}, {24, 1, 3, 0, -6, 0, -16}, {60, 1, 3, 1, 3, 10, 10},
    {60, 1, 3, 0, 6, 14, 6},  {60, 0, 5, 1, 3, 5, 15},   {40, 1, 3, 1, 3, 0, 0},
};

void margins_across() {
    for (const auto &m : auto_margins)
        for (uint32_t reversed : {0u, 1u})
            for (uint32_t align = 0; align <= 10; align++) {
                CrossItem it;
                it.measured = 40, it.start = m.start, it.end = m.end, it.auto_start = m.auto_start,
                it.auto_end = m.auto_end;
                it.align_self = align, it.auto_size = 1;
                const AcrossCall c{m.line, reversed, across({it})};
                const model::PlacedItem p = model::place_item(m.line, reversed, it);
                expect(p.size == 40 && p.start == m.used_start && p.end == m.used_end && p.offset == 0,
                       "the model differs from Three", c);
                try_across(c);
            }
}

// ---- every keyword, code and flag, one past the last among them, with a handful of sizes

void keywords_along() {
    for (uint32_t justify = 0; justify <= 14; justify++)
        for (uint32_t reversed = 0; reversed <= 2; reversed++)
            for (std::size_t n : {0, 1, 2, 5})
                for (float inner : {0.0f, 40.0f, 75.0f, 300.015625f})
                    for (float gap : {0.0f, -0.0f, 5.0f})
                        for (int autos = 0; autos < 4; autos++) {
                            MainCall c = main_call(inner, gap, justify, Floats(n, 13.7f));
                            c.reversed = reversed;
                            for (std::size_t i = 0; i < n; i++) c.items.start[i] = float(i) - 1, c.items.end[i] = -0.0f;
                            if (n && autos & 1) c.items.auto_start[0] = 1;
                            if (n && autos & 2) c.items.auto_end[n / 2] = 1;
                            try_main(c);
                        }
}

void keywords_of_lines() {
    for (uint32_t align = 0; align <= 14; align++)
        for (uint32_t wrap = 0; wrap <= 5; wrap++)
            for (uint32_t flags = 0; flags < 27; flags++)
                for (std::size_t n : {0, 1, 3})
                    for (float inner : {0.0f, 100.0f}) {
                        CrossContainer c = container(wrap, inner, 8);
                        c.has_inner = flags % 3, c.has_minimum = flags / 3 % 3, c.has_maximum = flags / 9;
                        c.minimum = n == 1 ? 90.0f : 20.0f, c.maximum = 70;
                        try_lines({c, align, Floats(n, 21.3f)});
                    }
}

void flags_of_a_line() {
    for (uint32_t wrap = 0; wrap <= 5; wrap++)
        for (uint32_t flags = 0; flags < 27; flags++)
            for (std::size_t n : {0, 1, 4})
                for (float inner : {0.0f, -0.0f, 100.0f, 33.5f})
                    for (float measured : {0.0f, 25.0f, 80.0f}) {
                        CrossContainer c = container(wrap, inner, NAN); // which this call does not take
                        c.has_inner = flags % 3, c.has_minimum = flags / 3 % 3, c.has_maximum = flags / 9;
                        c.minimum = 30, c.maximum = 70;
                        CrossItem it;
                        it.measured = measured, it.start = -4, it.end = 1.5f;
                        try_size({c, across(std::vector<CrossItem>(n, it))});
                    }
}

void keywords_across() {
    for (uint32_t align = 0; align <= 11; align++)
        for (uint32_t reversed = 0; reversed <= 2; reversed++)
            for (uint32_t flags = 0; flags < 81; flags++)
                for (float line : {0.0f, -0.0f, 50.0f, 12.345f, -70.0f, 16777216.0f}) {
                    CrossItem it, plain;
                    it.measured = 20, it.minimum = 8, it.maximum = 40, it.edges = 3, it.start = 6, it.end = -2;
                    it.align_self = align, it.auto_size = flags % 3;
                    it.auto_start = flags / 3 % 3, it.auto_end = flags / 9 % 3, it.has_maximum = flags / 27;
                    plain.measured = 5;
                    try_across({line, reversed, across({plain, it})});
                }
}

// ---- numbers that a check might get wrong

const uint32_t patterns[] = {
    0x7fc00000, 0x7f800001, 0xffc12345, 0xff800001, 0x7f800000, 0xff800000, // NaNs, infinities
    0x00000001, 0x80000001, 0x007fffff, 0x3c800001, 0x3f800001, 0xbc000000, // off the grid
    0x7f7fffff, 0xff7fffff, 0x48800001, 0xc8800001, 0x48800000, 0xc8800000, // large, and the border of lengths
    0x48000000, 0xc8000000, 0x48000001, 0xc8000001,                         // that of margins
    0x4b800000, 0xcb800000, 0x4b800001, 0xcb800001,                         // that of worked-out numbers
    0x80000000, 0x00000000, 0x3c800000, 0xbc800000, 0x42c80000, 0xc2c80000,
    0x42c80001, // fine, the last as a worked-out one
};

// Each pattern at each place, and beside another one at another, for the order of the checks.
template <class Call, class Places, class Try>
void patterns_at(const Call &good, Places places, Try attempt) {
    Call probe = good;
    const std::size_t all = places(probe).size();
    for (uint32_t pattern : patterns)
        for (std::size_t p = 0; p < all; p++) {
            Call c = good;
            *places(c)[p] = of_bits(pattern);
            attempt(c);
            for (std::size_t q = 0; q < all; q++) {
                Call d = good;
                *places(d)[q] = of_bits(patterns[(7 * p + 3 * q + pattern) % std::size(patterns)]);
                *places(d)[p] = of_bits(pattern);
                attempt(d);
            }
        }
}

// The numbers of items 0 and 3.
template <class List>
std::vector<float *> numbers_of(List &l) {
    std::vector<float *> at;
    for (auto *list : floats_of(l))
        for (std::size_t i : {0, 3}) at.push_back(&(*list)[i]);
    return at;
}

std::vector<float *> numbers_of(CrossContainer &c) { return {&c.inner, &c.minimum, &c.maximum, &c.gap}; }

template <class Part>
std::vector<float *> joined(std::vector<float *> at, Part &part) {
    for (float *x : numbers_of(part)) at.push_back(x);
    return at;
}

MainCall five_along() {
    MainCall c = main_call(400, 8, FRATOLIVEM_SPACE_EVENLY, {30, 20.1f, 40, 25, 10});
    c.items.auto_start[0] = c.items.auto_end[3] = 1;
    return c;
}

model::CrossLists five_across() {
    std::vector<CrossItem> items(5);
    for (std::size_t i = 0; i < 5; i++) {
        items[i].measured = float(10 * i), items[i].minimum = 5, items[i].maximum = 30, items[i].has_maximum = i % 2,
        items[i].edges = 4;
        items[i].start = 6, items[i].end = -2, items[i].auto_start = i == 3, items[i].align_self = uint32_t(2 * i),
        items[i].auto_size = i % 2;
    }
    return across(items);
}

CrossContainer bounded() {
    CrossContainer c = container(FRATOLIVEM_NOWRAP, 100, 8);
    c.minimum = 20, c.has_minimum = 1, c.maximum = 300, c.has_maximum = 1;
    return c;
}

void numbers() {
    patterns_at(
        five_along(),
        [](MainCall &c) {
            return joined({&c.inner, &c.gap}, c.items);
        },
        [](const MainCall &c) { try_main(c); });
    patterns_at(
        SizeCall{bounded(), five_across()}, [](SizeCall &c) { return joined(numbers_of(c.container), c.items); },
        [](const SizeCall &c) { try_size(c); });
    patterns_at(
        LinesCall{bounded(), FRATOLIVEM_STRETCH, {10, 20, 30, 40.7f, 50}},
        [](LinesCall &c) {
            auto at = numbers_of(c.container);
            at.push_back(&c.lines[0]), at.push_back(&c.lines[3]);
            return at;
        },
        [](const LinesCall &c) { try_lines(c); });
    patterns_at(
        AcrossCall{60, 0, five_across()}, [](AcrossCall &c) { return joined({&c.line}, c.items); },
        [](const AcrossCall &c) { try_across(c); });
}

// Codes that name nothing, beside numbers that are right and wrong.
void codes_of_items() {
    for (uint32_t code : {0u, 1u, 2u, 10u, 11u, 0x80000000u, 0xffffffffu})
        for (std::size_t at : {0, 2, 4})
            for (float beside : {7.0f, NAN, 0.01f, -1e9f}) {
                for (std::size_t list = 0; list < 2; list++) {
                    MainCall c = five_along();
                    (*codes_of(c.items)[list])[at] = code, (list ? c.items.end : c.items.start)[at] = beside;
                    try_main(c);
                    c.items.targets[1] = 1e9f;
                    try_main(c);
                }
                for (std::size_t list = 0; list < 5; list++) {
                    model::CrossLists l = five_across();
                    Floats *const numbers[] = {&l.maximum, &l.start, &l.end, &l.measured, &l.measured};
                    (*codes_of(l)[list])[at] = code, (*numbers[list])[at] = beside;
                    try_size({bounded(), l});
                    try_across({60, 1, l});
                    l.edges[1] = -1;
                    try_size({bounded(), l});
                    try_across({60, 1, l});
                }
            }
}

// ---- lengths

// Every list shorter and longer in turn.
template <class List, class Try>
void uneven(const List &even, std::size_t n, Try attempt) {
    for (std::size_t list = 0; list < floats_of(even).size() + codes_of(even).size(); list++)
        for (int by : {-1, 1, 2}) {
            List l = even;
            if (list < floats_of(l).size())
                floats_of(l)[list]->resize(with(n, by), 1.0f);
            else
                codes_of(l)[list - floats_of(l).size()]->resize(with(n, by), 0);
            attempt(l);
        }
}

void lengths() {
    for (std::size_t n : {0, 1, 2, 63, 64, 1023, 1024, 1025, 1090}) {
        const model::MainLists along = main_call(0, 0, 0, Floats(n, 1.5f)).items;
        const model::CrossLists items = across(std::vector<CrossItem>(n, five_across().at(2)));
        for (uint32_t keyword : {0u, 4u, 11u, 12u, 13u, 14u})
            for (const Extra &x : {Extra{},
                                   {-1, 0, 0, 0},
                                   {0, -1, 0, 0},
                                   {0, 0, -1, 0},
                                   {0, 0, 0, -1},
                                   {3, 5, 7, 9},
                                   {-1, -1, -1, -1},
                                   {2, 2, -1, 2}}) {
                try_main({2000, 0.5f, keyword, keyword & 1, along}, x);
                try_lines({container(keyword % 5, 3000, 0.25f), keyword, Floats(n, 0.7f)}, x);
                try_across({30, keyword & 1, items}, x);
            }
        try_size({bounded(), items});
        uneven(along, n, [](const model::MainLists &l) { try_main({100, 1, 0, 0, l}); });
        uneven(items, n, [](const model::CrossLists &l) { try_size({bounded(), l}), try_across({30, 0, l}); });
        // One number wrong, first, last or between, or the largest that may be in every cell.
        for (float x : {NAN, 0.01f, -1.0f, 16777216.0f, -16777216.0f, 16777218.0f}) {
            for (std::size_t at : {std::size_t(0), n / 2, n - 1}) {
                if (at >= n) continue;
                MainCall m{100, 1, 0, 0, along};
                m.items.targets[at] = x;
                try_main(m);
                m.items.targets[at] = 1, m.items.end[at] = x;
                try_main(m);
                LinesCall l{bounded(), 10, Floats(n, 1)};
                l.lines[at] = x;
                try_lines(l);
                model::CrossLists c = items;
                c.edges[at] = x;
                try_size({bounded(), c}), try_across({30, 0, c});
            }
            try_main(main_call(100, 1, 12, Floats(n, x)));
            try_lines({container(1, 262144, 262144), 10, Floats(n, x)});
        }
    }
}

// A list of no cells may be NULL, also where cells were wanted.
#define NULLS_5 nullptr, 0, nullptr, 0, nullptr, 0, nullptr, 0, nullptr, 0
#define NULLS_9 NULLS_5, nullptr, 0, nullptr, 0, nullptr, 0, nullptr, 0
void nulls() {
    const MainCall none{};
    auto a = fratolivem_place_main(10, 1, 0, 0, NULLS_5, nullptr, 0, nullptr, 0, nullptr, 0);
    expect(a.number == 0 && a.where == FRATOLIVEM_NOWHERE && a.lines == 0, "place_main of NULLs", none);
    a = fratolivem_place_main(NAN, 1, 0, 0, NULLS_5, nullptr, 0, nullptr, 0, nullptr, 0);
    expect(a.number == 3 && a.where == FRATOLIVEM_CONTAINER, "place_main of NULLs in a size that is none", none);
    const float one[] = {1};
    const uint32_t zero[] = {0};
    a = fratolivem_place_main(10, 1, 0, 0, one, 1, one, 1, one, 1, zero, 1, zero, 1, nullptr, 0, nullptr, 0, nullptr,
                              0);
    expect(a.number == 2 && a.where == FRATOLIVEM_CONTAINER, "place_main with NULL for its answers", none);
    const fratolivem_cross c = crossed(bounded());
    auto s = fratolivem_line_size(c, NULLS_9);
    expect(s.number == 0 && s.size == 100, "line_size of NULLs", none);
    s = fratolivem_line_size(c, one, 1, nullptr, 0, NULLS_5, nullptr, 0, nullptr, 0);
    expect(s.number == 2 && s.where == FRATOLIVEM_CONTAINER && s.size == 0, "line_size with NULL for most lists", none);
    s = fratolivem_place_lines(c, 10, nullptr, 0, nullptr, 0, nullptr, 0);
    expect(s.number == 0 && s.size == 100, "place_lines of NULLs", none);
    s = fratolivem_place_lines(c, 10, one, 1, nullptr, 0, nullptr, 0);
    expect(s.number == 2 && s.where == FRATOLIVEM_CONTAINER, "place_lines with NULL for its answers", none);
    a = fratolivem_place_across(10, 0, NULLS_9, nullptr, 0, nullptr, 0, nullptr, 0, nullptr, 0, nullptr, 0, nullptr, 0);
    expect(a.number == 0 && a.lines == 0, "place_across of NULLs", none);
    a = fratolivem_place_across(10, 2, NULLS_9, nullptr, 0, nullptr, 0, nullptr, 0, nullptr, 0, nullptr, 0, nullptr, 0);
    expect(a.number == 5 && a.where == FRATOLIVEM_CONTAINER, "place_across of NULLs and a code that names nothing",
           none);
    calls += 9;

    // So many that no list is looked at: pages that nobody may read.
    const std::size_t beyond = std::size_t(1) << 32;
    void *unread = mmap(nullptr, beyond * sizeof(float), PROT_NONE, MAP_PRIVATE | MAP_ANONYMOUS | MAP_NORESERVE, -1, 0);
    if (unread == MAP_FAILED) {
        std::puts("placing: no room for a list of 2^32 sizes; not tried");
        return;
    }
    s = fratolivem_place_lines(c, 10, static_cast<float *>(unread), beyond, nullptr, 0, nullptr, 0);
    expect(s.number == 1 && s.where == FRATOLIVEM_CONTAINER && s.size == 0, "place_lines of 2^32 lines", none);
    calls++;
    munmap(unread, beyond * sizeof(float));
}

// ---- random lists

struct Random {
    std::mt19937_64 bits;
    uint64_t below(uint64_t n) { return bits() % n; }
    float any() { return of_bits(uint32_t(bits())); }
    float length(uint64_t most) { return below(6) ? float(below(64 * most + 1)) / 64 : below(2) ? 0.0f : -0.0f; }
    // Off the grid, of any magnitude that may be.
    float worked(uint64_t most) {
        const float x = float(below(1u << 24)) / float(1 + below(1u << 24)) * float(most);
        return x > 16777216 ? 16777216.0f : below(8) ? x : -x;
    }
    uint32_t flag(uint64_t odds) { return below(odds) == 0; }
    float margin(uint32_t is_auto, uint64_t most) {
        return is_auto ? any() : below(3) ? 0.0f : (below(2) ? 1.0f : -1.0f) * length(most);
    }
    // The size, or about as much as is used: free space of 0, or near it.
    float near(double used, float size) {
        const double x = std::floor(used * 64 + double(below(5)) - 2) / 64;
        return below(3) == 0 && x >= 0 && x <= 262144 ? float(x) : size;
    }
    // Now and then any bits at all.
    float or_any(float x) { return below(4000) ? x : any(); }

    CrossContainer cross(uint64_t most) {
        CrossContainer c;
        c.has_inner = flag(2), c.has_minimum = flag(3), c.has_maximum = flag(3), c.wrap = uint32_t(below(5));
        c.inner = c.has_inner ? length(most) : any(), c.minimum = c.has_minimum ? length(most) : any();
        c.maximum = c.has_maximum ? length(most) : any(), c.gap = or_any(length(8));
        return c;
    }
    CrossItem item(uint64_t most) {
        CrossItem it;
        it.measured = or_any(length(most)), it.minimum = below(3) ? 0.0f : length(most), it.has_maximum = flag(3);
        it.maximum = it.has_maximum ? length(most) : any(), it.edges = below(3) ? 0.0f : length(most / 4 + 1);
        it.auto_start = flag(5), it.auto_end = flag(5), it.start = margin(it.auto_start, most),
        it.end = margin(it.auto_end, most);
        it.align_self = uint32_t(below(11)), it.auto_size = flag(2);
        return it;
    }
};

void random_lists(uint64_t seed, long lists) {
    Random r{std::mt19937_64(seed)};
    for (long turn = 0; turn < lists; turn++) {
        const std::size_t n = r.below(turn % 200 == 0 ? 1025 : turn % 8 == 0 ? 65 : 10);
        const uint64_t most = std::array{3ull, 100ull, 100000ull}[r.below(3)];
        const Extra x{int(r.below(3)), int(r.below(3)), int(r.below(3)), int(r.below(3))};
        MainCall m = main_call(r.length(most * n + 1 > 262144 ? 262144 : most * n + 1), r.length(8),
                               uint32_t(r.below(14)), Floats(n));
        m.reversed = r.flag(2);
        LinesCall l{r.cross(most), uint32_t(r.below(14)), Floats(n)};
        AcrossCall a{r.below(8) ? r.worked(most) : r.or_any(r.length(most)), r.flag(2), {}};
        const uint64_t autos = 2 + r.below(20);
        double along = n ? double(m.gap) * double(n - 1) : 0, lines = n ? double(l.container.gap) * double(n - 1) : 0;
        for (std::size_t i = 0; i < n; i++) {
            m.items.targets[i] = r.or_any(r.below(2) ? r.length(most) : r.worked(most));
            m.items.auto_start[i] = r.flag(autos), m.items.auto_end[i] = r.flag(autos);
            m.items.start[i] = r.margin(m.items.auto_start[i], most),
            m.items.end[i] = r.margin(m.items.auto_end[i], most);
            l.lines[i] = r.or_any(r.below(2) ? r.length(most) : r.worked(most));
            a.items.add(r.item(most));
            lines += double(l.lines[i]);
            along += double(m.items.targets[i]);
            along += (m.items.auto_start[i] ? 0 : double(m.items.start[i])) +
                     (m.items.auto_end[i] ? 0 : double(m.items.end[i]));
        }
        m.inner = r.near(along, m.inner), l.container.inner = r.near(lines, l.container.inner);
        try_main(m, x), try_lines(l, x), try_across(a, x), try_size({r.cross(most), a.items});
    }
}

void cpp_header() {
    const MainCall m = main_call(100, 5, FRATOLIVEM_SPACE_BETWEEN, {10, 10, 10});
    const fratolivem::main_columns along{m.items.targets, m.items.start, m.items.end, m.items.auto_start,
                                         m.items.auto_end};
    Floats offsets(3), start(3, 9.0f), end(3, 9.0f), sizes(3);
    const auto a = fratolivem::place_main(m.inner, m.gap, m.justify, false, along, offsets, start, end);
    expect(a && offsets == Floats{0, 35, 35} && start == Floats(3) && end == Floats(3), "the C++ place_main", m);

    const LinesCall p15{container(FRATOLIVEM_WRAP, 100, 10), FRATOLIVEM_STRETCH, {20, 30, NAN}};
    const fratolivem::cross wall(FRATOLIVEM_WRAP, 100.0f, 10);
    const auto l = fratolivem::place_lines(wall, FRATOLIVEM_STRETCH, fratolivem::span<const float>(p15.lines.data(), 2),
                                           sizes, offsets);
    expect(l && l.size == 100 && sizes == Floats{40, 50, 0} && offsets == Floats{0, 10, 35}, "the C++ place_lines",
           p15);
    const auto holed = fratolivem::place_lines(wall, FRATOLIVEM_STRETCH, p15.lines, sizes, offsets);
    expect(!holed && holed.size == 0 && holed.text() == "a number is NaN or infinite, at line 2", "words of a line",
           p15);

    const model::CrossLists five = five_across();
    const fratolivem::across_columns columns{{five.measured, five.minimum, five.maximum, five.has_maximum, five.edges,
                                              five.start, five.end, five.auto_start, five.auto_end},
                                             five.align_self,
                                             five.auto_size};
    const SizeCall size{container(FRATOLIVEM_WRAP, 100, 0), five};
    const auto s = fratolivem::line_size(wall, columns);
    expect(s && s.size == model::cross_size(size.container, five, 0, 5), "the C++ line_size", size);
    Floats across_sizes(5), across_start(5), across_end(5), across_offsets(5);
    const auto p = fratolivem::place_across(60, true, columns, across_sizes, across_start, across_end, across_offsets);
    bool same = bool(p);
    for (std::size_t i = 0; i < 5; i++) {
        const auto e = model::place_item(60, true, five.at(i));
        same = same && across_sizes[i] == e.size && across_start[i] == e.start && across_end[i] == e.end &&
               across_offsets[i] == e.offset;
    }
    expect(same, "the C++ place_across", size);
    auto short_of_one = columns;
    short_of_one.auto_size = {};
    const auto q =
        fratolivem::place_across(60, true, short_of_one, across_sizes, across_start, across_end, across_offsets);
    expect(!q && q.why() == fratolivem::refusal::too_little_room && across_sizes[0] == 5,
           "a refusal of the C++ place_across", size);
    const auto t = fratolivem::line_size(fratolivem::cross(7, {}, 0), columns);
    expect(!t && t.text() == "a number is out of range, or a code names nothing, at the container",
           "words of a code that names nothing", size);
    calls += 7;
}

} // namespace

int main(int argc, char **argv) {
    const uint64_t seed = argc > 1 ? std::strtoull(argv[1], nullptr, 0)
                                   : uint64_t(std::chrono::system_clock::now().time_since_epoch().count());
    const long lists = argc > 2 ? std::atol(argv[2]) : 20000;
    std::printf("placing: seed %" PRIu64 ", %ld random lists\n", seed, lists);
    std::fflush(stdout);
    dirt.seed(seed);
    examples();
    margins_across();
    keywords_along();
    keywords_of_lines();
    flags_of_a_line();
    keywords_across();
    numbers();
    codes_of_items();
    lengths();
    nulls();
    random_lists(seed, lists);
    cpp_header();
    std::printf("placing: %ld calls compared, %ld differences\n", calls, bad);
    return bad ? 1 : 0;
}
