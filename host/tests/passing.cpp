// Boundary tests of the whole pass: made on lent lists with dirty cells, and compared with the model: answer, place and
// every cell.
// passing [SEED] [LISTS]
#include <pthread.h>

#include <chrono>
#include <cinttypes>
#include <cmath>
#include <string>

#include "cells.hpp"
#include "fratolivem.hpp"
#include "pass_model.hpp"

namespace {

using model::Container;
using model::Item;
using model::PassRoom;

long calls = 0, bad = 0;

static_assert(sizeof(Item) == sizeof(fratolivem_item) && sizeof(Container) == sizeof(fratolivem_container),
              "the model's structs lie as the header's");

void expect(bool ok, const char *what, const Container &c, std::size_t n) {
    if (ok) return;
    if (++bad <= 20)
        std::printf(
            "DIFFERS: %s; inner %a gap %a limit %u:%a minimum %u direction %u wrap %u justify %u align %u, %zu items\n",
            what, double(c.inner_main), double(c.gap_main), c.limit_kind, double(c.limit), c.minimum_lines, c.direction,
            c.wrap, c.justify_content, c.align_content, n);
}

constexpr std::size_t most = 1100;
// The items as cells of 4 bytes, which all of theirs are.
constexpr std::size_t cells = sizeof(Item) / 4;
Lent<uint32_t> items{cells * most};
Lent<float> placed(8 * most), lines(2 * most);
Lent<uint32_t> counts(most), rounds(most), work{most * most + 3 * most};
Lent<int32_t> free_space(most);
Lent<double> sums(3 * most);

void try_pass(const Container &c, const std::vector<Item> &list, const PassRoom &room) {
    const std::size_t n = list.size();
    std::vector<uint32_t> bits(cells * n);
    if (n) std::memcpy(bits.data(), list.data(), bits.size() * 4);
    items.lend(bits, any_stand());
    placed.lend(room.placed, any_stand()), lines.lend(room.lines, any_stand()), counts.lend(room.counts, any_stand());
    rounds.lend(room.rounds, any_stand()), free_space.lend(room.free, any_stand()), work.lend(room.work, any_stand()),
        sums.lend(room.sums, any_stand());
    fratolivem_container cc;
    std::memcpy(&cc, &c, sizeof cc);
    const auto a =
        fratolivem_pass(cc, reinterpret_cast<const fratolivem_item *>(items.data()), n, placed.data(), placed.size(),
                        lines.data(), lines.size(), counts.data(), counts.size(), rounds.data(), rounds.size(),
                        free_space.data(), free_space.size(), work.data(), work.size(), sums.data(), sums.size());
    const auto e = model::pass(c, list, room);
    calls++;
    expect(a.number == e.refusal.number && a.where == e.refusal.where && a.place == e.refusal.place, "number or place",
           c, n);
    expect(a.lines == e.lines_made && a.rounds == e.rounds_made, "lines or rounds", c, n);
    expect(!std::memcmp(&a.inner_cross, &e.inner_cross, 4), "the inner cross size", c, n);
    expect(holds(placed, e.placed), "cells by item", c, n);
    expect(holds(lines, e.lines), "cross sizes or offsets by line", c, n);
    expect(holds(counts, e.counts) && holds(rounds, e.rounds) && holds(free_space, e.free),
           "counts, rounds or free space", c, n);
    const bool worked = !a.number && c.balanced();
    expect(worked ? work.zero_up_to(n * n + 3 * n) && work.kept_from(n * n + 3 * n) : work.kept(), "work cells", c, n);
    expect(worked ? sums.zero_up_to(3 * n) && sums.kept_from(3 * n) : sums.kept(), "sums to work in", c, n);
    expect(items.kept(), "an item was changed", c, n);
}

void try_pass(const Container &c, const std::vector<Item> &list) { try_pass(c, list, PassRoom::named(list.size())); }

Container plain(uint32_t wrap) {
    Container c;
    c.inner_main = 150, c.gap_main = 4, c.limit_kind = 0, c.limit = 150, c.minimum_lines = 2, c.wrap = wrap;
    c.justify_content = 11, c.align_content = 10, c.gap_cross = 6;
    return c;
}

std::vector<Item> five() {
    std::vector<Item> list(5);
    for (std::size_t i = 0; i < 5; i++) {
        Item &it = list[i];
        it.main_base = 40 + float(i), it.grow = 1, it.shrink = 1, it.cross_measured = 10 + 3 * float(i),
        it.main_maximum = 60, it.has_main_maximum = i % 2;
        it.main_start = 2, it.cross_end = 1, it.auto_cross_size = i % 2, it.align_self = uint32_t(2 * i);
    }
    return list;
}

// Every keyword and wrap mode with every other; an auto margin here and there.
void keywords() {
    for (uint32_t wrap = 0; wrap < 6; wrap++)
        for (uint32_t justify = 0; justify < 15; justify++)
            for (uint32_t align = 0; align < 15; align++)
                for (uint32_t direction = 0; direction < 5; direction++) {
                    Container c = plain(wrap);
                    c.justify_content = justify, c.align_content = align, c.direction = direction;
                    c.has_inner_cross = align % 2, c.inner_cross = 120, c.has_minimum_cross = justify % 2,
                    c.minimum_cross = 90;
                    auto list = five();
                    list[align % 5].auto_main_end = 1, list[justify % 5].auto_cross_start = 1,
                                 list[(align + justify) % 5].align_self = align % 12;
                    try_pass(c, list);
                }
}

// Any bits in one cell of the container or of an item, each in turn.
void damaged() {
    const uint32_t patterns[] = {0x7fc00000, 0x7f800001, 0xff800000, 0x00000001, 0x3c800001, 0x48800001,
                                 0xc8800000, 0x48000001, 0xc8000000, 0x44800001, 0x80000000, 0x00000000,
                                 0x42c80000, 0xffffffff, 2,          5};
    for (uint32_t bits : patterns)
        for (uint32_t wrap : {0u, 1u, 3u})
            for (std::size_t cell = 0; cell < sizeof(Container) / 4 + 2 * sizeof(Item) / 4; cell++) {
                Container c = plain(wrap);
                auto list = five();
                const std::size_t own = sizeof(Container) / 4, each = sizeof(Item) / 4;
                char *at = cell < own
                               ? reinterpret_cast<char *>(&c) + 4 * cell
                               : reinterpret_cast<char *>(&list[(cell - own) / each * 3]) + 4 * ((cell - own) % each);
                std::memcpy(at, &bits, 4);
                try_pass(c, list);
                list[4].grow = NAN;
                try_pass(c, list);
            }
}

// Each lent list short by one cell, or longer; 0 to 1,090 items; under a code that names no wrap mode no work cells are
// asked for.
void lengths() {
    for (std::size_t n : {0, 1, 2, 64, 1023, 1024, 1025, 1090})
        for (uint32_t wrap : {0u, 2u, 4u, 5u})
            for (int which = 0; which < 15; which++) {
                PassRoom r = PassRoom::named(n);
                std::size_t *const rooms[] = {&r.placed, &r.lines, &r.counts, &r.rounds, &r.free, &r.work, &r.sums};
                if (which < 7 && *rooms[which]) --*rooms[which];
                if (which >= 7 && which < 14) *rooms[which - 7] += 3;
                if (which == 14 && wrap != 4) r.work = r.sums = 0;
                std::vector<Item> list(n, five()[0]);
                for (auto &it : list) it.main_base = 0.25f, it.main_start = 0;
                Container c = plain(wrap);
                c.gap_main = 0;
                try_pass(c, list, r);
            }
    const auto a = fratolivem_pass(fratolivem_container(), nullptr, 0, nullptr, 0, nullptr, 0, nullptr, 0, nullptr, 0,
                                   nullptr, 0, nullptr, 0, nullptr, 0);
    expect(a.number == 0 && a.lines == 0 && a.rounds == 0, "NULLs", Container(), 0);
    calls++;
}

void random_passes(uint64_t seed, long lists) {
    std::mt19937_64 random(seed);
    const auto below = [&](uint64_t n) { return random() % n; };
    for (long k = 0; k < lists; k++) {
        const std::size_t n = below(k % 100 == 0 ? 300 : k % 8 == 0 ? 40 : 8);
        const float unit = below(2) ? 1.0f : 0.015625f * float(1 + below(70));
        const auto length = [&] { return unit * float(below(60)); };
        Container c;
        c.inner_main = unit * float(below(400)), c.gap_main = below(2) ? 0 : unit * float(below(5));
        c.limit_kind = uint32_t(below(4) ? 0 : below(3)), c.limit = below(3) ? c.inner_main : length() - 2,
        c.minimum_lines = uint32_t(below(5));
        c.direction = uint32_t(below(4)), c.wrap = uint32_t(below(5)), c.justify_content = uint32_t(below(14)),
        c.align_content = uint32_t(below(14));
        c.has_inner_cross = below(2), c.inner_cross = unit * float(below(200)), c.has_minimum_cross = below(4) == 0,
        c.minimum_cross = length();
        c.has_maximum_cross = below(4) == 0, c.maximum_cross = 2 * length(),
        c.gap_cross = below(2) ? 0 : unit * float(below(5));
        std::vector<Item> list(n);
        for (Item &it : list) {
            it.main_base = length(), it.grow = below(2) ? 0 : float(below(30)) / 10,
            it.shrink = below(2) ? 1 : float(below(30)) / 17;
            if (below(3) == 0) it.main_minimum = length();
            it.has_main_maximum = below(3) == 0,
            it.main_maximum = it.has_main_maximum ? length() : of_bits(uint32_t(random()));
            if (below(4) == 0) it.main_edges = unit * float(below(9));
            it.auto_main_start = below(8) == 0, it.main_start = it.auto_main_start ? of_bits(uint32_t(random()))
                                                                : below(3)         ? 0
                                                                                   : unit * (float(below(9)) - 4);
            it.auto_main_end = below(8) == 0, it.main_end = it.auto_main_end ? of_bits(uint32_t(random()))
                                                            : below(3)       ? -0.0f
                                                                             : unit * (float(below(9)) - 4);
            it.cross_measured = length(), it.align_self = uint32_t(below(11)), it.auto_cross_size = below(2);
            if (below(4) == 0) it.cross_minimum = length();
            it.has_cross_maximum = below(4) == 0,
            it.cross_maximum = it.has_cross_maximum ? length() : of_bits(uint32_t(random()));
            if (below(4) == 0) it.cross_edges = unit * float(below(9));
            it.auto_cross_start = below(6) == 0,
            it.cross_start = it.auto_cross_start ? of_bits(uint32_t(random())) : unit * (float(below(9)) - 4);
            it.auto_cross_end = below(6) == 0,
            it.cross_end = it.auto_cross_end ? of_bits(uint32_t(random())) : unit * (float(below(9)) - 4);
        }
        PassRoom r = PassRoom::named(n);
        r.placed += below(3), r.lines += below(3), r.counts += below(3), r.work += below(3), r.sums += below(3);
        try_pass(c, list, r);
    }
}

// The C++ panel: a good frame, a refused one that leaves it, and the boxes of both directions.
void panels() {
    fratolivem::container c{100, 10, fratolivem::space::definite(100)};
    c.wrap = FRATOLIVEM_WRAP;
    c.across(90, 5);
    std::vector<fratolivem::item> list{{40, 20}, {50, 30}, {60, 10}};
    fratolivem::panel panel;
    const auto good = panel.lay(c, list);
    const auto frame = panel.last();
    const Container none;
    // Two lines of 30 and 10, stretched by (90 - 45) / 2 each.
    expect(good && frame.lines.size() == 2 && frame.lines[0].count == 2 && frame.inner_cross == 90, "a panel's lines",
           none, 3);
    expect(frame.lines[0].cross_size == 52.5f && frame.lines[1].cross_size == 32.5f && frame.lines[1].cross_offset == 5,
           "a panel's stretch", none, 3);
    const auto at = fratolivem::boxes(frame);
    expect(at[1].main == 50 && at[1].cross == 0 && at[2].main == 0 && at[2].cross == 57.5f && at[0].cross_size == 52.5f,
           "boxes", none, 3);
    list[1].main_base = NAN;
    c.direction = FRATOLIVEM_ROW_REVERSE;
    const auto refused = panel.lay(c, list);
    const auto stays = fratolivem::boxes(panel.last());
    expect(stays[1].main == 50 && stays[2].cross == 57.5f, "the boxes of the last good frame", none, 3);
    expect(!refused && refused.text() == "a number is NaN or infinite, at item 1" && panel.last().lines.size() == 2,
           "a refused frame", none, 3);
    list[1].main_base = 50;
    c.wrap = FRATOLIVEM_WRAP_REVERSE;
    const auto back = panel.lay(c, list);
    const auto from = fratolivem::boxes(panel.last());
    expect(back && from[1].main == 0 && from[0].main == 60 && from[2].main == 40 && from[2].cross == 0 &&
               from[0].cross == 37.5f,
           "boxes reversed", none, 3);
    const std::vector<fratolivem::item> many(1025, list[0]);
    const auto over = panel.lay(c, many);
    expect(!over && over.why() == fratolivem::refusal::too_many_items && panel.last().items.size() == 3, "1,025 items",
           none, 1025);
    calls += 4;
}

// A thread with the stack that the header promises, and no more: the most items, by the mode that works in the most
// cells. A call that took more would run into the page past the stack.
void *on_a_small_stack(void *) {
    Container c;
    c.inner_main = 1024, c.limit = 1024, c.minimum_lines = 1, c.wrap = FRATOLIVEM_BALANCE;
    std::vector<Item> list(FRATOLIVEM_MOST_ITEMS);
    for (std::size_t i = 0; i < list.size(); i++) list[i].main_base = float(1 + i % 60), list[i].grow = 1;
    const PassRoom r = PassRoom::named(list.size());
    try_pass(c, list, r);
    return nullptr;
}

void small_stack() {
    pthread_attr_t promised;
    pthread_t thread;
    pthread_attr_init(&promised);
    const bool made = pthread_attr_setstacksize(&promised, 256 * 1024) == 0 &&
                      pthread_create(&thread, &promised, on_a_small_stack, nullptr) == 0;
    expect(made && pthread_join(thread, nullptr) == 0, "a thread of 256 KB", Container(), FRATOLIVEM_MOST_ITEMS);
    pthread_attr_destroy(&promised);
}

} // namespace

int main(int argc, char **argv) {
    const uint64_t seed = argc > 1 ? std::strtoull(argv[1], nullptr, 0)
                                   : uint64_t(std::chrono::system_clock::now().time_since_epoch().count());
    const long lists = argc > 2 ? std::atol(argv[2]) : 20000;
    std::printf("passing: seed %" PRIu64 ", %ld random lists\n", seed, lists);
    std::fflush(stdout);
    dirt.seed(seed);
    keywords();
    damaged();
    lengths();
    random_passes(seed, lists);
    panels();
    small_stack();
    std::printf("passing: %ld calls compared, %ld differences\n", calls, bad);
    return bad ? 1 : 0;
}
