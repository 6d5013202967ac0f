// Times fratolivem_flex_line beside the Rust's own resolve_flexible_lengths, in one process. A benchmark, not a test.
// The Rust's items are made, and their base and hypothetical sizes worked out, before the clock starts: it is timed on
// 9.7 alone and makes no checks. Ours is the whole call: checks 1 to 6, the lists read into a table, 9.7 and the free
// space.
#include <cstdio>
#include <cstdlib>
#include <cstring>
#include <random>

#include "../include/fratolivem.hpp"
#include "../judge/judge.h"
#include "measure.hpp"

namespace {

std::mt19937_64 random_bits(20261115);

enum class Way { growing, shrinking, violations };

struct Line {
    judge_container container{};
    std::vector<judge_item> items;
    std::vector<float> base, minimum, maximum, edges, grow, shrink, start, end;
    std::vector<uint32_t> has_maximum, auto_start, auto_end;
};

// Gauges of 20 to 120 px in a line that has half as much room again, or half too little. With violations, bounds near
// the bases end the loop only after several rounds.
Line line(std::size_t n, Way way) {
    const auto px = [](int least, int most) {
        return float(least * 64 + int(random_bits() % uint64_t((most - least) * 64))) / 64.0f;
    };
    Line l;
    float sum = 0;
    for (std::size_t i = 0; i < n; i++) {
        judge_item it{};
        it.main_base = px(20, 120), it.grow = float(1 + random_bits() % 3), it.shrink = float(1 + random_bits() % 2);
        if (way == Way::violations) it.has_main_maximum = 1, it.main_maximum = it.main_base + px(1, 80);
        sum += it.main_base;
        l.items.push_back(it);
        l.base.push_back(it.main_base), l.minimum.push_back(it.main_minimum), l.maximum.push_back(it.main_maximum);
        l.edges.push_back(it.main_edges), l.grow.push_back(it.grow), l.shrink.push_back(it.shrink);
        l.start.push_back(it.main_start), l.end.push_back(it.main_end), l.has_maximum.push_back(it.has_main_maximum);
        l.auto_start.push_back(it.auto_main_start), l.auto_end.push_back(it.auto_main_end);
    }
    l.container.inner_main = float(int(sum * (way == Way::shrinking ? 0.5f : 1.5f)));
    l.container.gap_main = 0;
    return l;
}

fratolivem::flexed ours(const Line &l, std::vector<float> &targets) {
    const fratolivem::flex_columns items{l.base,   l.minimum, l.maximum, l.has_maximum, l.edges,   l.grow,
                                         l.shrink, l.start,   l.end,     l.auto_start,  l.auto_end};
    return fratolivem::flex_line(l.container.inner_main, l.container.gap_main, items, targets);
}

void flexing(const char *name, std::size_t n, Way way, std::size_t count, int repetitions) {
    std::vector<Line> lines;
    while (lines.size() < count) lines.push_back(line(n, way));
    std::vector<judge_line *> rust;
    for (const Line &l : lines) rust.push_back(judge_line_of(&l.container, l.items.data(), n));
    std::vector<float> here(n), there(n);
    std::size_t differ = 0;
    double rounds = 0;
    for (std::size_t i = 0; i < count; i++) {
        const auto a = ours(lines[i], here);
        judge_line_flex(rust[i]);
        judge_line_targets(rust[i], there.data());
        rounds += a.rounds;
        differ += !a || std::memcmp(here.data(), there.data(), n * sizeof(float)) != 0;
    }
    // The same line with a sum that is refused last of all: what is left of the call is its checks, and its frame
    // cleared and the items read into it. The rest, "9.7", is what the Rust does too.
    std::vector<Line> refused = lines;
    for (Line &l : refused) l.base.back() = l.maximum.back() = 262144.0f;
    const auto t =
        measure(count, repetitions,
                {[&](std::size_t i) { judge_line_flex(rust[i]); }, [&](std::size_t i) { (void)ours(lines[i], here); },
                 [&](std::size_t i) { (void)ours(refused[i], here); }});
    std::printf("%-12s %5zu %7.2f %9.0f %9.0f %7.3f %9.0f %7.3f %6zu\n", name, n, rounds / double(count), t[0], t[1],
                t[1] / t[0], t[2], (t[1] - t[2]) / t[0], differ);
    std::fflush(stdout);
    for (judge_line *l : rust) judge_line_drop(l);
}

} // namespace

int main(int argc, char **argv) {
    const int repetitions = argc > 1 ? std::atoi(argv[1]) : 200;
    const std::size_t count = argc > 2 ? std::size_t(std::atoi(argv[2])) : 200;
    std::printf("flexing one line, %d repetitions; ns for one line, checks counted\n", repetitions);
    std::printf("%-12s %5s %7s %9s %9s %7s %9s %7s %6s\n", "", "n", "rounds", "Rust", "ours", "ratio", "checks", "9.7",
                "differ");
    for (std::size_t n : {4, 32, 1024}) {
        const std::size_t lines = n == 1024 ? std::max<std::size_t>(chunk, count / 10) : count;
        flexing("growing", n, Way::growing, lines, repetitions);
        flexing("shrinking", n, Way::shrinking, lines, repetitions);
        flexing("violations", n, Way::violations, lines, repetitions);
    }
}
