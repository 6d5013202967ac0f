// Times fratolivem_balanced and fratolivem_greedy beside the Rust's own text, in one process. A benchmark, not a test.
#include <algorithm>
#include <cmath>
#include <cstdio>
#include <cstdlib>
#include <cstring>
#include <functional>
#include <random>
#include <string>
#include <vector>

#include "../include/fratolivem.h"
#include "../judge/judge.h"
#include "measure.hpp"
#include "walks.hpp"

namespace {

constexpr float gap = 8.0f;
constexpr std::size_t lines_wanted = 12;

std::mt19937_64 random_bits(20260115);

struct List {
    std::vector<float> sizes;
    uint32_t kind;
    float limit;
    uint32_t minimum;
};

struct Room {
    std::vector<uint32_t> counts, other, work;
    std::vector<double> sums;
    explicit Room(std::size_t n) : counts(n), other(n + 1), work(n * n + 3 * n), sums(3 * n) {}
};

// Gauges of 20 to 120 px.
std::vector<float> gauges(std::size_t n) {
    std::uniform_int_distribution<int> sixtyfourths(20 * 64, 120 * 64);
    std::vector<float> sizes(n);
    for (float &size : sizes) size = float(sixtyfourths(random_bits)) / 64.0f;
    return sizes;
}

std::size_t greedy_lines(const std::vector<float> &sizes, float limit) {
    std::vector<uint32_t> counts(sizes.size());
    return fratolivem_greedy(FRATOLIVEM_DEFINITE, limit, gap, sizes.data(), sizes.size(), counts.data(), counts.size())
        .lines;
}

// The least limit, in sixty-fourths, under which greedy breaking makes at most this many lines.
int least_limit(const std::vector<float> &sizes, std::size_t lines) {
    int low = 0, high = 262144 * 64;
    while (low < high) {
        const int middle = low + (high - low) / 2;
        if (greedy_lines(sizes, float(middle) / 64.0f) <= lines)
            high = middle;
        else
            low = middle + 1;
    }
    return low;
}

// `part` 0 is the tightest limit that gives these lines, 1 the loosest.
List limited(std::size_t n, double part) {
    List list{gauges(n), FRATOLIVEM_DEFINITE, 0.0f, 1};
    const int tight = least_limit(list.sizes, lines_wanted), loose = least_limit(list.sizes, lines_wanted - 1) - 1;
    list.limit = float(tight + int(part * (loose - tight))) / 64.0f;
    if (greedy_lines(list.sizes, list.limit) != lines_wanted) std::abort();
    return list;
}

List unlimited(std::size_t n) { return {gauges(n), FRATOLIVEM_MAX_CONTENT, 0.0f, uint32_t(lines_wanted)}; }

uint32_t ours(const List &list, Room &room) {
    const std::size_t n = list.sizes.size();
    return fratolivem_balanced(list.kind, list.limit, gap, list.minimum, list.sizes.data(), n, room.counts.data(), n,
                               room.work.data(), room.work.size(), room.sums.data(), room.sums.size())
        .lines;
}

std::size_t theirs(const List &list, Room &room) {
    const float limit = list.kind == FRATOLIVEM_DEFINITE ? list.limit : INFINITY;
    return judge_balance(limit, gap, list.minimum, list.sizes.data(), list.sizes.size(), room.other.data());
}

// Clearing the work cells by itself. The call clears them too, since they may hold any bits before.
void clear(Room &room) {
    std::memset(room.work.data(), 0, room.work.size() * sizeof(uint32_t));
    std::memset(room.sums.data(), 0, room.sums.size() * sizeof(double));
    asm volatile("" : : "r"(room.work.data()), "r"(room.sums.data()) : "memory");
}

// The same list with one size so large that the sum is refused last of all: what is left of the call is its checks.
List refused(List list) {
    list.sizes.back() = 262144.0f;
    return list;
}

void balanced(const char *name, const std::vector<List> &lists, int repetitions) {
    const std::size_t n = lists[0].sizes.size();
    Room room(n);
    std::size_t differ = 0;
    std::vector<List> too_large;
    for (const List &list : lists) {
        const uint32_t lines = ours(list, room);
        differ += lines != theirs(list, room) ||
                  !std::equal(room.counts.begin(), room.counts.begin() + lines, room.other.begin());
        too_large.push_back(refused(list));
    }
    const auto t =
        measure(lists.size(), repetitions,
                {[&](std::size_t i) { theirs(lists[i], room); }, [&](std::size_t i) { ours(lists[i], room); },
                 [&](std::size_t) { clear(room); }, [&](std::size_t i) { ours(too_large[i], room); }});
    std::printf("%-34s %5zu %9.0f %9.0f %7.3f %9.0f %7.3f %9.0f %6zu\n", name, n, t[0], t[1], t[1] / t[0], t[2],
                (t[1] - t[2]) / t[0], t[3], differ);
    std::fflush(stdout);
}

void greedy(const std::vector<List> &lists, int repetitions) {
    const std::size_t n = lists[0].sizes.size();
    Room room(n);
    std::vector<judge_list *> items;
    for (const List &list : lists) items.push_back(judge_items(list.sizes.data(), n));
    std::size_t differ = 0;
    auto rust = [&](std::size_t i) {
        const judge_breaking c{1, 1, 1, lists[i].kind, lists[i].limit, 0, 0.0f, 0, 0.0f, gap, 1};
        return judge_lines(0, &c, items[i], room.other.data());
    };
    auto here = [&](std::size_t i) {
        return fratolivem_greedy(lists[i].kind, lists[i].limit, gap, lists[i].sizes.data(), n, room.counts.data(), n)
            .lines;
    };
    for (std::size_t i = 0; i < lists.size(); i++) {
        const uint32_t lines = here(i);
        differ += lines != rust(i) || !std::equal(room.counts.begin(), room.counts.begin() + lines, room.other.begin());
    }
    const auto t = measure(lists.size(), repetitions, {rust, here});
    std::printf("\ngreedy, definite limit: Rust %.0f ns, ours with its checks %.0f ns, ratio %.2f, %zu differ\n", t[0],
                t[1], t[1] / t[0], differ);
    // Models of its sum and walk in three forms.
    differ = 0;
    std::vector<Side> sides{rust, here};
    for (auto *walk : {walk_pixels, walk_converting, walk_swept}) {
        const auto walked = [&, walk](std::size_t i) {
            return walk(lists[i].sizes.data(), n, gap, {lists[i].kind, lists[i].limit}, room.other.data());
        };
        for (std::size_t i = 0; i < lists.size(); i++) {
            const uint32_t lines = here(i);
            differ +=
                lines != walked(i) || !std::equal(room.counts.begin(), room.counts.begin() + lines, room.other.begin());
        }
        sides.push_back(walked);
    }
    for (double part : {0.0, 0.5}) {
        const auto m = measure(lists.size(), repetitions, sides, part);
        std::printf(
            "  %s: Rust %.0f ns, ours %.0f; models of its sum and walk: in f32 pixels %.0f, in i32 sixty-fourths "
            "%.0f, in those that the sum kept %.0f, %zu differ\n",
            part > 0.0 ? "medians" : "minima", m[0], m[1], m[2], m[3], m[4], differ);
    }
    for (judge_list *list : items) judge_drop(list);
}

std::vector<List> many(std::size_t count, const std::function<List()> &make) {
    std::vector<List> lists;
    while (lists.size() < count) lists.push_back(make());
    return lists;
}

} // namespace

int main(int argc, char **argv) {
    const int repetitions = argc > 1 ? std::atoi(argv[1]) : 60;
    const std::size_t count = argc > 2 ? std::size_t(std::atoi(argv[2])) : 1000;
    std::printf("%zu lists, %d repetitions, chunks of %zu; ns for one list, checks and clearing counted\n", count,
                repetitions, chunk);
    std::printf("%-34s %5s %9s %9s %7s %9s %7s %9s %6s\n", "", "n", "Rust", "ours", "ratio", "clearing", "without",
                "checks", "differ");
    const auto middle = many(count, [] { return limited(200, 0.5); });
    balanced("definite limit, 12 lines", middle, repetitions);
    balanced("  the tightest such limit", many(count / 4, [] { return limited(200, 0.0); }), repetitions);
    balanced("  the loosest such limit", many(count / 4, [] { return limited(200, 1.0); }), repetitions);
    balanced("max-content, minimum 12", many(count, [] { return unlimited(200); }), repetitions);
    for (std::size_t n = 64; n <= 1024; n *= 2) {
        const std::size_t lists = std::max<std::size_t>(chunk, count * 20 / n);
        balanced("growth: definite limit, 12 lines", many(lists, [&] { return limited(n, 0.5); }), repetitions);
        balanced("growth: max-content, minimum 12", many(lists, [&] { return unlimited(n); }), repetitions);
    }
    greedy(middle, repetitions);
}
