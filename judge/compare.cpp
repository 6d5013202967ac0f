// The library's answers beside those of the Rust's own text, stage by stage. Every difference must be one of the listed
// ones.
// compare SEED CASES            random cases of each stage, then all short ones
// compare SEED CASES sample     writes a sample of the Rust's answers for judge/replay
#include <algorithm>
#include <chrono>
#include <cinttypes>
#include <csignal>
#include <map>

#include "ours.hpp"
#include "random_cases.hpp"
#include "rust_ways.hpp"
#include "theirs.hpp"

namespace {

struct Count {
    long made = 0, refused = 0, equal = 0, bad = 0;
    std::map<uint32_t, long> by_ways;
};
Count counts[stage_count];

struct Smallest {
    bool found = false;
    double cost = 0;
    Case c;
    uint32_t set = 0;
    int tries = 0;
};
Smallest smallest[ways::way_count], together[ways::way_count]; // alone, and only beside another

double cost_of(const Case &c) {
    double magnitude = 0;
    const auto add = [&](uint32_t bits) {
        const float x = float_of(bits);
        magnitude += bits ? std::min(9.0, std::fabs(double(x)) / 10) : 0.0;
    };
    for (std::size_t i = 0; i < 16; i++) add(cell_of(&c.container, i));
    for (const model::Item &it : c.items)
        for (std::size_t i = 0; i < 22; i++) add(cell_of(&it, i));
    for (float x : c.list) magnitude += std::min(9.0, std::fabs(double(x)) / 10);
    // Margins make short texts but odd examples.
    double margins = 0;
    for (const model::Item &it : c.items)
        for (float x : {it.main_start, it.main_end, it.cross_start, it.cross_end}) margins += model::bits(x) ? 40 : 0;
    return double(text_of(c).size() + 40 * c.items.size()) + margins + magnitude;
}

// The ways that explain an accepted case's difference, or `unexplained` where there is none or the case is refused.
uint32_t set_of(const Case &c) {
    const ours::Told us = ours::answer(c);
    if (us.number) return ways::unexplained;
    const Answer rust = theirs::answer(c);
    return same(us.answer, rust) ? ways::unexplained : ways::explanation(c, rust);
}

// Takes items and numbers away, or makes them plainer, as long as the same ways explain the difference.
Case shrunk(Case c, uint32_t set) {
    double cost = cost_of(c);
    const auto better = [&](const Case &tried) {
        const double now = cost_of(tried);
        if (now >= cost || set_of(tried) != set) return false;
        c = tried, cost = now;
        return true;
    };
    const auto plainer = [&](void *record, const Case &tried, std::size_t i, bool is_float) {
        const uint32_t old = cell_of(record, i);
        if (!old) return false;
        std::vector<uint32_t> values{0};
        if (is_float) {
            const float x = float_of(old);
            for (float y : {1.0f, 2.0f, 3.0f, 4.0f, 10.0f, 20.0f, 100.0f, 0.5f, 0.25f, std::floor(x), x / 2,
                            std::floor(x / 10) * 10, x - 1})
                values.push_back(model::bits(y));
            if (old < 0x00800000) values.push_back(1), values.push_back(old / 2);
        } else {
            for (uint32_t v = 1; v < old; v++) values.push_back(v);
        }
        for (uint32_t v : values) {
            set_cell(record, i, v);
            if (better(tried)) return true;
        }
        set_cell(record, i, old);
        return false;
    };
    for (bool again = true; again;) {
        again = false;
        for (std::size_t i = 0; i < c.items.size() && !again; i++) {
            Case tried = c;
            tried.items.erase(tried.items.begin() + long(i));
            if (c.list.size() == c.items.size() && c.stage == Stage::main)
                tried.list.erase(tried.list.begin() + long(i));
            again = !tried.items.empty() && better(tried);
        }
        for (std::size_t i = 0; i < 16 && !again; i++) {
            Case tried = c;
            again = plainer(&tried.container, tried, i, container_cells[i].is_float);
        }
        for (std::size_t k = 0; k < c.items.size() && !again; k++)
            for (std::size_t i = 0; i < 22 && !again; i++) {
                Case tried = c;
                again = plainer(&tried.items[k], tried, i, item_cells[i].is_float);
            }
        for (std::size_t k = 0; k < c.list.size() && !again; k++) {
            Case tried = c;
            again = plainer(&tried.list[k], tried, 0, true);
        }
    }
    return c;
}

void remember(const Case &c, uint32_t set) {
    constexpr int most_tries = 60;
    // A way is looked for where it stands alone; the pass only hands it on.
    if (c.items.size() > 5 || c.stage == Stage::pass) return;
    const bool alone = __builtin_popcount(set) == 1;
    for (int way = 0; way < ways::way_count; way++) {
        if (!(set >> way & 1)) continue;
        Smallest &s = alone ? smallest[way] : together[way];
        if (s.tries >= most_tries || (!alone && smallest[way].found)) continue;
        s.tries++;
        const Case small = shrunk(c, set);
        const double cost = cost_of(small);
        if (!s.found || cost < s.cost) s.found = true, s.cost = cost, s.c = small, s.set = set;
    }
}

// The case at hand, told where an assertion of the Rust's ends the program.
const Case *at_hand = nullptr;
void tell_case(int) {
    if (at_hand) std::fprintf(stderr, "the Rust gave up on: %s\n", text_of(*at_hand).c_str());
    std::_Exit(1);
}

void compare(const Case &c) {
    at_hand = &c;
    Count &count = counts[int(c.stage)];
    count.made++;
    const ours::Told us = ours::answer(c);
    if (us.number) {
        count.refused++;
        return;
    }
    const Answer rust = theirs::answer(c);
    if (same(us.answer, rust)) {
        count.equal++;
        return;
    }
    // The ways start from the document's answer, so the model's and the library's must be one.
    const uint32_t set = same(us.answer, ways::answer(0, c)) ? ways::explanation(c, rust) : ways::unexplained;
    if (set == ways::unexplained) {
        if (++count.bad <= 5)
            std::printf("UNEXPLAINED: %s\n  ours %s\n  Rust %s\n  ways %s\n", text_of(c).c_str(),
                        text_of(us.answer).c_str(), text_of(rust).c_str(),
                        text_of(ways::answer(ways::all_ways, c)).c_str());
        return;
    }
    count.by_ways[set]++;
    remember(c, set);
}

long report() {
    long bad = 0;
    for (int s = 0; s < stage_count; s++) {
        const Count &count = counts[s];
        if (!count.made) continue;
        long differ = 0;
        for (const auto &entry : count.by_ways) differ += entry.second;
        std::printf("%s: %ld cases, %ld refused, %ld equal, %ld differ as listed, %ld unexplained\n", stage_names[s],
                    count.made, count.refused, count.equal, differ, count.bad);
        std::vector<std::pair<long, uint32_t>> sorted;
        long each[ways::way_count] = {};
        for (const auto &entry : count.by_ways) {
            sorted.push_back({entry.second, entry.first});
            for (int way = 0; way < ways::way_count; way++) each[way] += entry.first >> way & 1 ? entry.second : 0;
        }
        for (int way = 0; way < ways::way_count; way++)
            if (each[way])
                std::printf("  %s takes part in %ld (alone in %ld)\n", ways::way_names[way], each[way],
                            count.by_ways.count(1u << way) ? count.by_ways.at(1u << way) : 0);
        bad += count.bad;
    }
    return bad;
}

void print_smallest() {
    for (int way = 0; way < ways::way_count; way++) {
        const Smallest &s = smallest[way].found ? smallest[way] : together[way];
        if (!s.found) {
            std::printf("smallest of %s: none met\n", ways::way_names[way]);
            continue;
        }
        std::printf("smallest of %s (as %s): %s\n  here:     %s\n  the Rust: %s\n", ways::way_names[way],
                    ways::names_of(s.set).c_str(), text_of(s.c).c_str(), text_of(ours::answer(s.c).answer).c_str(),
                    text_of(theirs::answer(s.c)).c_str());
    }
}

// What the Rust does with lists that document 01 refuses or reads otherwise: for docs/DIFFERENCES.md.
void known_differences() {
    uint32_t made[8];
    judge_breaking b{1, 1, 1, FRATOLIVEM_MAX_CONTENT, 0.0f, 0, 0.0f, 0, 0.0f, 0.0f, 1};
    judge_list *none = judge_items(nullptr, 0);
    std::printf("no items under max-content: the Rust makes %zu line(s) greedily, %zu balanced\n",
                judge_lines(0, &b, none, made), judge_lines(1, &b, none, made));
    judge_drop(none);
    // D13. Balanced, a list with a NaN meets a debug assertion of the crate's, with which it is built here.
    const auto divided = [&](const char *name, uint32_t balanced, const std::vector<float> &sizes) {
        std::vector<uint32_t> cells(sizes.size() + 1);
        b.available_kind = FRATOLIVEM_DEFINITE, b.available = 150.0f;
        judge_list *items = judge_items(sizes.data(), sizes.size());
        const std::size_t lines = judge_lines(balanced, &b, items, cells.data());
        judge_drop(items);
        std::printf("%s, limit 150: the Rust's %s lines are %zu, the first of %u\n", name,
                    balanced ? "balanced" : "greedy", lines, cells[0]);
    };
    divided("NaN", 0, {NAN});
    divided("50, NaN, 50, 10", 0, {50, NAN, 50, 10});
    for (uint32_t balanced : {0u, 1u}) {
        divided("0.01", balanced, {0.01f}), divided("262144.03125", balanced, {262144.03125f});
        divided("1,025 items of 1", balanced, std::vector<float>(1025, 1.0f)),
            divided("200000, 200000", balanced, {200000, 200000});
    }
    // D9 of the break limit: a row of a known main size, available -0.0, no bounds.
    const judge_breaking row{1, 1, 1, FRATOLIVEM_DEFINITE, -0.0f, 0, 0.0f, 0, 0.0f, 0.0f, 1};
    const float here = fratolivem_break_limit(1, 1, 1, FRATOLIVEM_DEFINITE, -0.0f, 0, 0.0f, 0, 0.0f).limit;
    std::printf("available -0.0: the limit's bits are 0x%08" PRIx32 " here, the Rust's 0x%08" PRIx32 "\n",
                model::bits(here), model::bits(judge_limit(&row)));
    // D10: a host of ours cannot say `safe stretch`; code 11 says it to the Rust alone.
    judge_container c{};
    judge_item it{};
    float placed[4];
    c.wrap = 1, it.auto_cross_size = 1, it.align_self = 11;
    judge_across(&c, 20.0f, &it, 1, placed);
    std::printf("safe stretch in a line of 20: the Rust's size is %g\n", double(placed[0]));
}

// Document 01's examples, and for each listed difference one that was found by hand or by search.
constexpr const char *fixed_cases[] = {
    "balanced known=1 main=1 row=1 available=100 gap=10 least-lines=1 : 70 0 20",
    "balanced known=1 main=1 row=1 available=100 least-lines=1 : 150 0 30",
    "balanced known=1 main=1 row=1 available=100 least-lines=2 : 70 0 0",
    "balanced known=1 main=1 row=1 available=100 least-lines=2 : 10 10 10",
    "balanced known=1 main=1 row=1 available=150 least-lines=1 : 50 50 50 10",
    "greedy known=1 main=1 row=1 available=150 : 50 50 50 10",
    "balanced known=1 main=1 row=1 available=100 gap=10 least-lines=1 : 45 45",
    "balanced known=1 main=1 row=1 kind=2 least-lines=9 : 5",
    "balanced known=1 main=1 row=1 kind=2 : 5 6",
    "balanced known=1 main=1 row=1 available=90 gap=10 least-lines=1 : 30 5 40 20 0 0 35",
    "flex inner=300 ; base=100 grow=1 ; base=100 grow=3",
    "flex inner=300 ; base=100 grow=1 ; base=100 grow=3 max=120 has-max=1",
    "flex inner=300 ; base=100 grow=0.5",
    "flex inner=150 ; base=100 shrink=1 ; base=100 shrink=1",
    "main inner=150 gap=5 justify=11 ; ; ; : 30 30 20",
    "lines wrap=1 align=10 cross=100 has-cross=1 cross-gap=10 : 20 30",
    "flex inner=13 ; base=14 max=7 has-max=1 shrink=1 ; base=12 max=6 has-max=1 shrink=1",
    "flex inner=300 ; min=100 shrink=1 ; grow=0.5",
    "flex inner=300 gap=20 ; base=100 grow=0.25 shrink=1 ; base=100 shrink=1",
    "flex inner=150 gap=20 ; base=100 shrink=0.25 ; base=100",
    "flex inner=300 gap=20 ; base=100 grow=0.125 shrink=1 ; base=100 shrink=1",
    "flex inner=4 gap=3 ; ; grow=0.5",
    "flex inner=3 ; base=2 shrink=0.25 ; base=4 max=0 edges=2 shrink=1 has-max=1",
    "flex inner=1 ; base=3 shrink=0.5 ; base=10 shrink=0.375",
    "flex inner=0.015625 ; grow=1.00002e-40",
    "flex inner=0.390625 ; base=0.015625 shrink=4.9521347e-08 start=0.0625 ; base=1 max=0.046875 shrink=0.166666672 "
    "start=0.078125 has-max=1 ; "
    "base=0.5 shrink=3 ; min=0.078125 end=0.109375",
    "flex inner=150 ; base=100 max=50 has-max=1 shrink=1 ; base=100 shrink=1",
    "flex inner=50 ; base=100 edges=80 shrink=1",
    "flex inner=100 ; base=10 edges=20 grow=1 ; base=10 grow=1",
    "across wrap=1 ; cross-edges=30 self=10 auto-size=1 : 20",
    "across ; measured=40 auto-cross-start=1 auto-cross-end=1 : 24",
    "across ; measured=40 auto-cross-start=1 : 24",
    "across ; measured=40 cross-end=6 auto-cross-start=1 : 24",
    "across ; measured=40 cross-start=5 auto-cross-end=1 : 24",
    "pass inner=100 cross=24 has-cross=1 ; base=40 measured=40 auto-cross-start=1 auto-cross-end=1",
    "main justify=4 ; : 1.40129846e-45",
    "lines wrap=1 : -1",
    // The order of f32 operations shows.
    "lines wrap=1 align=4 cross=0.078125 has-cross=1 cross-gap=0.09375 : 0.000105742263 0.03125",
    "main inner=180.015625 gap=42 direction=3 justify=13 ; ; start=69 end=-11 ; : -52 90 9.52835035e-06",
};

Case fixed_case(const char *text) {
    Case c{};
    Answer none;
    if (!read_case(std::string(text) + " =>", c, none)) std::exit(2);
    return c;
}

void all_short() {
    for (std::size_t n = 1; n <= 3; n++) short_flex(n, compare);
    short_exact(compare);
    for (std::size_t n = 0; n <= 3; n++) short_main(n, compare), short_lines(n, compare);
    short_across(compare);
    for (std::size_t n = 1; n <= 7; n++) short_breaking(n, compare);
}

// The case without the numbers that its stage does not take.
Case bare(Case c) {
    model::Container k;
    k.limit_kind = 0;
    const bool main = c.stage == Stage::main,
               across = c.stage == Stage::size || c.stage == Stage::lines || c.stage == Stage::across;
    if (c.stage == Stage::flex || main) k.inner_main = c.container.inner_main, k.gap_main = c.container.gap_main;
    if (main) k.justify_content = c.container.justify_content, k.direction = c.container.direction;
    if (across) {
        const model::Container &old = c.container;
        k.wrap = old.wrap, k.inner_cross = old.inner_cross, k.has_inner_cross = old.has_inner_cross,
        k.minimum_cross = old.minimum_cross;
        k.has_minimum_cross = old.has_minimum_cross, k.maximum_cross = old.maximum_cross,
        k.has_maximum_cross = old.has_maximum_cross;
        if (c.stage == Stage::lines) k.gap_cross = old.gap_cross, k.align_content = old.align_content;
    }
    if (c.stage != Stage::pass) c.container = k;
    for (model::Item &it : c.items) {
        if (it.auto_main_start) it.main_start = 0;
        if (it.auto_main_end) it.main_end = 0;
        if (it.auto_cross_start) it.cross_start = 0;
        if (it.auto_cross_end) it.cross_end = 0;
        if (c.stage == Stage::size) it.align_self = it.auto_cross_size = 0;
    }
    return c;
}

void write_case(const Case &c) {
    const ours::Told us = ours::answer(c);
    const Answer rust = theirs::answer(c);
    const uint32_t set = same(us.answer, rust) ? 0 : ways::explanation(c, rust);
    std::printf("%s\n", ways::sample_line(c, rust, set).c_str());
}

// The fixed ones; then out of `cases` random ones of each stage every way that is met, and as many others as are asked
// for.
void write_sample(uint64_t seed, long cases) {
    std::printf("# The Rust's own answers, made by: judge/sample SOURCE %" PRIu64 " %ld\n", seed, cases);
    std::printf(
        "# stage container ; item ; .. : list => numbers / counts # the listed differences that it shows, if any\n");
    constexpr long wanted[stage_count] = {120, 250, 500, 240, 100, 260, 190, 120};
    for (const char *text : fixed_cases) {
        write_case(fixed_case(text));
    }
    Draw draw(seed);
    for (int s = 0; s < stage_count; s++) {
        long written = 0;
        std::map<uint32_t, long> met;
        draw.most_items = 3;
        for (long i = 0; i < cases && written < wanted[s]; i++) {
            if (s < 2) draw.most_items = 4 + draw.below(16);
            const Case c = bare(draw.next(Stage(s)));
            const ours::Told us = ours::answer(c);
            if (us.number) continue;
            const Answer rust = theirs::answer(c);
            const uint32_t set = same(us.answer, rust) ? 0 : ways::explanation(c, rust);
            if (met[set]++ > wanted[s] / (set ? 20 : 2) && i < cases / 2) continue;
            write_case(c);
            written++;
        }
    }
}

} // namespace

int main(int argc, char **argv) {
    const uint64_t seed = argc > 1 && *argv[1] ? std::strtoull(argv[1], nullptr, 0)
                                               : uint64_t(std::chrono::system_clock::now().time_since_epoch().count());
    const long cases = argc > 2 ? std::atol(argv[2]) : 200000;
    if (argc > 3) {
        write_sample(seed, cases);
        return 0;
    }
    for (int signal : {SIGABRT, SIGILL, SIGTRAP}) std::signal(signal, tell_case);
    std::printf("judge: seed %" PRIu64 ", %ld random cases of each stage\n", seed, cases);
    for (const char *text : fixed_cases) compare(fixed_case(text));
    for (int s = 0; s < stage_count; s++) {
        Draw draw(seed + uint64_t(s));
        for (long i = 0; i < cases; i++) compare(draw.next(Stage(s)));
        for (long i = 0; i < cases / 2 && Stage(s) == Stage::balanced; i++) compare(draw.slip());
    }
    const long random_bad = report();
    for (Count &count : counts) count = Count();
    std::printf("judge: all short cases\n");
    all_short();
    const long short_bad = report();
    print_smallest();
    known_differences();
    std::printf("judge: %ld unexplained\n", random_bad + short_bad);
    return random_bad + short_bad ? 1 : 0;
}
