// Boundary tests over fratolivem.h and fratolivem.hpp: which inputs are tried. calls.hpp makes and compares the calls.
// boundary [SEED] [LISTS]
#include <array>
#include <chrono>
#include <cinttypes>
#include <cstdio>
#include <cstdlib>

#include "calls.hpp"
#include "fratolivem.hpp"

namespace {

void examples() {
    const float inf = INFINITY; // stands for max-content in this table
    const struct {
        Sizes sizes;
        float limit, gap;
        uint32_t minimum;
        model::Counts counts;
    } table[] = {
        {{70, 0, 20}, 100, 10, 1, {2, 1}},
        {{150, 0, 30}, 100, 0, 1, {1, 2}},
        {{70, 0, 0}, 100, 0, 2, {2, 1}},
        {{10, 10, 10}, 100, 0, 2, {2, 1}},
        {{50, 50, 50, 10}, 150, 0, 1, {2, 2}},
        {{45, 45}, 100, 10, 1, {2}},
        {{5}, inf, 0, 9, {1}},
        {{}, 100, 0, 1, {}},
        {{5, 6}, inf, 0, 0, {2}},
        {{30, 5, 40, 20, 0, 0, 35}, 90, 10, 1, {2, 1, 4}},
    };
    for (const auto &row : table) {
        const bool definite = row.limit != inf;
        const Call c{definite ? 0u : 2u, definite ? row.limit : 0.0f, row.gap, row.minimum, row.sizes};
        expect(expected(c, true, true).counts == row.counts, "the model differs from document 01", c);
        try_both(c);
    }
    const Call p5{0, 150, 0, 1, {50, 50, 50, 10}};
    expect(expected(p5, true, false).counts == model::Counts{3, 1}, "the model's greedy differs from document 01", p5);
}

// Every number that a check might get wrong, at every kind of place; and two of them at once, for the order of the
// checks.
void numbers() {
    const uint32_t patterns[] = {
        0x7fc00000, 0x7f800001, 0xffc12345, 0xff800001, 0x7fffffff, 0x7fa00000, 0x7f800000,
        0xff800000, // NaNs, infinities
        0x00000001, 0x80000001, 0x007fffff, 0x00800000, 0x3c7fffff, 0x3c800001, 0x3f800001,
        0xbc000000,                                                                         // off the grid
        0x7f7fffff, 0xff7fffff, 0x71c9f2ca, 0x48800001, 0xc8800001, 0x48800000, 0xc8800000, // large, and the border
        0x80000000, 0x00000000, 0x3c800000, 0xbc800000, 0x42c80000, 0xc2c80000,             // fine
    };
    for (uint32_t kind : {0u, 1u, 2u, 3u, 255u, 0x80000000u, 0xffffffffu})
        for (uint32_t one : patterns)
            for (uint32_t two : patterns)
                for (int places = 0; places < 7; places++) {
                    Call c{kind, 100, 8, 2, {30, 20, 40, 25, 10}};
                    float *const at[] = {&c.limit, &c.gap, &c.sizes[0], &c.sizes[2], &c.sizes[4]};
                    const int pairs[7][2] = {{0, 1}, {0, 2}, {1, 3}, {1, 4}, {2, 4}, {3, 2}, {0, 4}};
                    *at[pairs[places][0]] = of_bits(one);
                    *at[pairs[places][1]] = of_bits(two);
                    try_both(c);
                }
    for (std::size_t n : {1, 64, 1024})
        for (std::size_t at : {std::size_t(0), n / 2, n - 1})
            for (uint32_t pattern : patterns) {
                Call c{0, 50, 0, 1, Sizes(n, 1.0f)};
                c.sizes[at] = of_bits(pattern);
                try_both(c);
            }
}

void lengths() {
    for (std::size_t n : {0, 1, 2, 63, 64, 256, 257, 1023, 1024, 1025, 1090})
        for (uint32_t kind : {0u, 1u, 2u, 3u})
            for (float size : {0.0f, 1.0f, 2.25f, -1.5f, NAN})
                for (int shorter = 0; shorter < 5; shorter++) {
                    Call c{kind, 200, 0.5f, 12, Sizes(n, size)};
                    if (n > 3) c.sizes[n / 3] = 7;
                    const Extra extras[] = {{}, {-1, 0, 0}, {0, -1, 0}, {0, 0, -1}, {3, 5, 7}};
                    try_both(c, extras[shorter]);
                }

    // A list of no cells may be NULL, also where cells were wanted, and sizes in number too many to square.
    fratolivem_answer a = fratolivem_greedy(0, 1, 0, nullptr, 0, nullptr, 0);
    expect(a.number == 0 && a.lines == 0, "greedy of NULL", {});
    a = fratolivem_balanced(0, 1, 0, 1, nullptr, 0, nullptr, 0, nullptr, 0, nullptr, 0);
    expect(a.number == 0 && a.lines == 0, "balanced of NULL", {});
    a = fratolivem_greedy(7, NAN, -1, nullptr, 0, nullptr, 0);
    expect(a.number == 5 && a.where == FRATOLIVEM_CONTAINER, "greedy of NULL and a bad gap", {});
    const float one[] = {1};
    uint32_t cell[4] = {9, 9, 9, 9};
    a = fratolivem_balanced(0, 1, 0, 1, one, 1, cell, 1, nullptr, 0, nullptr, 0);
    expect(a.number == 2 && a.where == FRATOLIVEM_CONTAINER && cell[0] == 9, "balanced with NULL for its work cells",
           {});
    a = fratolivem_balanced(0, 1, 0, 1, one, 1, cell, 1, cell + 1, 3, nullptr, 0);
    expect(a.number == 2 && cell[1] == 9, "balanced with NULL for its sums", {});
    Sizes many(70000, 1);
    a = fratolivem_balanced(0, 1, 0, 1, many.data(), many.size(), nullptr, 0, nullptr, 0, nullptr, 0);
    expect(a.number == 1 && a.where == FRATOLIVEM_CONTAINER, "balanced of 70,000 items", {});
    calls += 6;

    // So many that n*n is no size_t, on pages that nobody may read: check 1 comes before any look at a size.
    const std::size_t beyond = std::size_t(1) << 32;
    void *unread = mmap(nullptr, beyond * sizeof(float), PROT_NONE, MAP_PRIVATE | MAP_ANONYMOUS | MAP_NORESERVE, -1, 0);
    if (unread == MAP_FAILED) {
        std::puts("boundary: no room for a list of 2^32 sizes; not tried");
        return;
    }
    a = fratolivem_balanced(0, 1, 0, 1, static_cast<float *>(unread), beyond, cell, 4, nullptr, 0, nullptr, 0);
    expect(a.number == 1 && a.where == FRATOLIVEM_CONTAINER, "balanced of 2^32 items", {});
    a = fratolivem_greedy(0, 1, 0, static_cast<float *>(unread), beyond, cell, 4);
    expect(a.number == 1 && a.where == FRATOLIVEM_CONTAINER && cell[0] == 9, "greedy of 2^32 items", {});
    calls += 2;
    munmap(unread, beyond * sizeof(float));
}

// Check 6 at its border: the sum counts n gaps, magnitudes, and the sizes as they are before negative ones read as 0.
void sums_at_the_border() {
    for (float over : {0.0f, 0.015625f}) {
        try_both({2, 0, 0, 1, {262144.0f - over, over, over}});
        try_both({2, 0, over, 1, {262144.0f}});
        try_both({0, 5, 256, 1, Sizes(1023, 0.0f)});
        try_both({0, 5, 256, 1, Sizes(1024, over)});
        try_both({0, -5, 255.984375f, 1, Sizes(1024, -over)});
        try_both({0, 5, 0, 3, {-131072, 131072, over, -over}});
        try_both({1, NAN, 0, 3, {-131072, -131072 - over}});
    }
}

// Every flag, kind and bound with every other; a third value of a flag is a code that no row names.
void break_limits() {
    const float values[] = {0.0f,     -0.0f, 100, -40, 60.5f, 262144, 262144.03125f, 0.01f, NAN, of_bits(0x7f800001),
                            -INFINITY};
    const uint32_t kinds[] = {0, 1, 2, 3, 0xffffffff};
    const std::size_t all =
        3 * 3 * 3 * 3 * 3 * std::size(kinds) * std::size(values) * std::size(values) * std::size(values);
    for (std::size_t i = 0; i < all; i++) {
        std::size_t rest = i;
        const auto next = [&](std::size_t choices) {
            const std::size_t choice = rest % choices;
            rest /= choices;
            return choice;
        };
        const auto flag = [&] { return uint32_t(next(3)); };
        const auto value = [&] { return values[next(std::size(values))]; };
        const model::Query q{flag(),  flag(), flag(), kinds[next(std::size(kinds))], value(), flag(),
                             value(), flag(), value()};
        try_break_limit(q);
    }
}

void random_lists(uint64_t seed, long lists) {
    std::mt19937_64 random(seed);
    for (long i = 0; i < lists; i++) {
        const Call c = random_call(random, i % 200 == 0 ? 1024 : i % 8 == 0 ? 64 : 12);
        try_both(c, {int(random() % 3), int(random() % 3), int(random() % 3)});
        if (c.sizes.size() && c.sizes.size() <= 12 && c.kind != 1) {
            const model::Items items(c.kind, c.limit, c.gap, c.sizes, true);
            expect(model::balanced_by_table(items, model::line_count(items, c.minimum)) ==
                       model::balanced(items, c.minimum),
                   "the model's two readings of the rule", c);
        }
    }
}

void cpp_header() {
    fratolivem::balancer balance;
    const Sizes list{50, 50, 50, 10};
    std::vector<uint32_t> lines(4);
    for (int turn = 0; turn < 2; turn++) {
        const auto a = balance(fratolivem::space::definite(150), 0, 1, list, lines);
        expect(a && a.lines == 2 && lines == model::Counts{2, 2, 0, 0}, "the C++ balancer", {});
    }
    const auto g = fratolivem::greedy(fratolivem::space::definite(150), 0, list, lines);
    expect(g && lines == model::Counts{3, 1, 0, 0}, "the C++ greedy call", {});
    const std::array<float, 3> holed{5, NAN, 6};
    const auto r = balance(fratolivem::space::max_content(), 0, 1, holed, lines);
    expect(!r && r.why() == fratolivem::refusal::not_finite && r.text() == "a number is NaN or infinite, at item 1",
           "words", {});
    const auto limit = fratolivem::break_limit(true, false, true, fratolivem::space::definite(200), {}, 120.0f);
    expect(limit && limit.value().kind == FRATOLIVEM_DEFINITE && limit.value().pixels == 120, "the C++ break limit",
           {});
    // A refused limit that is handed on unread is refused again.
    const auto refused = fratolivem::break_limit(true, true, true, fratolivem::space::definite(NAN));
    std::vector<float> one{5};
    std::vector<std::uint32_t> room{7};
    const auto again = fratolivem::greedy(refused.value(), 0, one, room);
    expect(!refused && refused.why() == fratolivem::refusal::not_finite &&
               again.why() == fratolivem::refusal::out_of_range && room[0] == 7,
           "a refused limit handed on", {});
    calls += 5;
}

} // namespace

int main(int argc, char **argv) {
    const uint64_t seed = argc > 1 ? std::strtoull(argv[1], nullptr, 0)
                                   : uint64_t(std::chrono::system_clock::now().time_since_epoch().count());
    const long lists = argc > 2 ? std::atol(argv[2]) : 20000;
    std::printf("boundary: seed %" PRIu64 ", %ld random lists\n", seed, lists);
    std::fflush(stdout);
    dirt.seed(seed);
    examples();
    numbers();
    lengths();
    sums_at_the_border();
    break_limits();
    random_lists(seed, lists);
    cpp_header();
    std::printf("boundary: %ld calls compared, %ld differences\n", calls, bad);
    return bad ? 1 : 0;
}
