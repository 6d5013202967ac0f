// Times fratolivem_pass beside the Rust's own stages in the order of its own layout, in one process. A benchmark, not a
// test. The Rust makes its items out of the same records, which is counted, as is our unpacking of them; it makes no
// checks.
#include <cstdio>
#include <cstdlib>
#include <cstring>
#include <random>

#include "../include/fratolivem.h"
#include "../judge/judge.h"
#include "measure.hpp"

namespace {

std::mt19937_64 random_bits(20261115);

struct Frame {
    fratolivem_container container;
    std::vector<fratolivem_item> items;
};

// Gauges of 20 to 120 px in about twelve lines, none of them so that a listed difference shows.
Frame frame(std::size_t n, uint32_t wrap) {
    const auto px = [](int least, int most) {
        return float(least * 64 + int(random_bits() % uint64_t((most - least) * 64))) / 64.0f;
    };
    Frame f{};
    const float width = float(n) * 78.0f / 12.0f;
    f.container = {width,
                   8,
                   FRATOLIVEM_DEFINITE,
                   width,
                   1,
                   FRATOLIVEM_ROW,
                   wrap,
                   FRATOLIVEM_SPACE_BETWEEN,
                   FRATOLIVEM_STRETCH,
                   1080,
                   1,
                   0,
                   0,
                   0,
                   0,
                   8};
    f.items.resize(n);
    for (fratolivem_item &it : f.items) {
        it.main_base = px(20, 120), it.grow = 1, it.shrink = 1, it.main_minimum = 10, it.cross_measured = px(20, 60);
        it.align_self = FRATOLIVEM_STRETCH, it.auto_cross_size = uint32_t(random_bits() % 2);
        if (random_bits() % 4 == 0) it.has_main_maximum = 1, it.main_maximum = it.main_base + 2;
    }
    return f;
}

struct Room {
    std::vector<float> placed, lines;
    std::vector<uint32_t> counts, rounds, work;
    std::vector<int32_t> free;
    std::vector<double> sums;
    explicit Room(std::size_t n)
        : placed(8 * n), lines(2 * n), counts(n), rounds(n), work(n * n + 3 * n), free(n), sums(3 * n) {}
};

fratolivem_passed ours(const Frame &f, Room &r) {
    return fratolivem_pass(f.container, f.items.data(), f.items.size(), r.placed.data(), r.placed.size(),
                           r.lines.data(), r.lines.size(), r.counts.data(), r.counts.size(), r.rounds.data(),
                           r.rounds.size(), r.free.data(), r.free.size(), r.work.data(), r.work.size(), r.sums.data(),
                           r.sums.size());
}

std::size_t theirs(const Frame &f, Room &r, float &inner) {
    static_assert(sizeof(judge_item) == sizeof(fratolivem_item) &&
                      sizeof(judge_container) == sizeof(fratolivem_container),
                  "the same cells");
    judge_container c;
    std::memcpy(&c, &f.container, sizeof c);
    return judge_pass(&c, reinterpret_cast<const judge_item *>(f.items.data()), f.items.size(), r.placed.data(),
                      r.lines.data(), r.counts.data(), &inner);
}

void pass(const char *name, std::size_t n, uint32_t wrap, std::size_t count, int repetitions) {
    std::vector<Frame> frames;
    while (frames.size() < count) frames.push_back(frame(n, wrap));
    Room here(n), there(n);
    std::size_t differ = 0, lines = 0;
    float inner = 0;
    for (const Frame &f : frames) {
        const auto a = ours(f, here);
        const std::size_t made = theirs(f, there, inner);
        lines += a.lines;
        differ += a.number != 0 || a.lines != made ||
                  std::memcmp(here.placed.data(), there.placed.data(), 8 * n * sizeof(float)) != 0 ||
                  std::memcmp(&a.inner_cross, &inner, sizeof inner) != 0;
    }
    const auto t = measure(
        count, repetitions,
        {[&](std::size_t i) { theirs(frames[i], there, inner); }, [&](std::size_t i) { ours(frames[i], here); }});
    std::printf("%-10s %5zu %7.1f %10.0f %10.0f %7.3f %6zu\n", name, n, double(lines) / double(count), t[0], t[1],
                t[1] / t[0], differ);
    std::fflush(stdout);
}

} // namespace

int main(int argc, char **argv) {
    const int repetitions = argc > 1 ? std::atoi(argv[1]) : 60;
    const std::size_t count = argc > 2 ? std::size_t(std::atoi(argv[2])) : 200;
    std::printf("the whole pass, %d repetitions; ns for one container, checks and clearing counted\n", repetitions);
    std::printf("%-10s %5s %7s %10s %10s %7s %6s\n", "", "n", "lines", "Rust", "ours", "ratio", "differ");
    for (std::size_t n : {20, 200, 1024}) {
        const std::size_t frames = std::max<std::size_t>(chunk, count * 20 / n);
        pass("nowrap", n, FRATOLIVEM_NOWRAP, frames, repetitions);
        pass("wrap", n, FRATOLIVEM_WRAP, frames, repetitions);
        pass("balance", n, FRATOLIVEM_BALANCE, frames, repetitions);
    }
}
