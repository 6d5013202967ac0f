// The calls of fratolivem.h, each made on lent lists with dirty cells and compared with the model: answer, place and
// every cell.
#ifndef CALLS_HPP
#define CALLS_HPP

#include <array>
#include <cstdio>
#include <string>

#include "cells.hpp"
#include "fratolivem.h"
#include "lists.hpp"
#include "model.hpp"

inline long calls = 0, bad = 0;

inline std::string shown(const Call &c) {
    char text[96];
    std::snprintf(text, sizeof text, "kind %u limit %a [%08x] gap %a [%08x] minimum %u n %zu:", c.kind, double(c.limit),
                  model::bits(c.limit), double(c.gap), model::bits(c.gap), c.minimum, c.sizes.size());
    std::string all = text;
    for (std::size_t i = 0; i < c.sizes.size() && i < 40; i++) {
        std::snprintf(text, sizeof text, " %g", double(c.sizes[i]));
        all += text;
    }
    return all;
}

inline void expect(bool ok, const char *what, const Call &c) {
    if (ok) return;
    if (++bad <= 20) std::printf("DIFFERS: %s; %s\n", what, shown(c).c_str());
}

constexpr std::size_t most = 1100;
inline Lent<float> sizes(most);
inline Lent<uint32_t> counts(most), work(1024 * 1024 + 4 * most);
inline Lent<double> sums(4 * most);

// Cells lent beyond those that are named; -1 is a list too short by one cell.
struct Extra {
    int counts = 0, work = 0, sums = 0;
};

struct Expected {
    model::Refusal refusal;
    model::Counts counts;
};

inline void compare(const char *what, const Call &c, const fratolivem_answer &a, const Expected &e) {
    calls++;
    expect(a.number == e.refusal.number,
           (std::string(what) + ": the number is " + std::to_string(a.number) + " and not " +
            std::to_string(e.refusal.number))
               .c_str(),
           c);
    expect(a.where == e.refusal.where && a.place == e.refusal.place, (std::string(what) + ": place").c_str(), c);
    expect(a.lines == e.counts.size() && a.rounds == 0, (std::string(what) + ": lines or rounds").c_str(), c);
    expect(sizes.kept(), "the sizes were changed", c);
    if (e.refusal.number) {
        expect(counts.kept(), "a refusal changed the counts", c);
        return;
    }
    const std::size_t n = c.sizes.size();
    bool same = true;
    for (std::size_t i = 0; i < n; i++) same = same && counts.data()[i] == (i < e.counts.size() ? e.counts[i] : 0);
    expect(same, (std::string(what) + ": counts").c_str(), c);
    expect(counts.kept_from(n), "cells past the named counts were changed", c);
}

inline Expected expected(const Call &c, bool room, bool balanced) {
    Expected e{model::check_breaking(c.kind, c.limit, c.gap, c.sizes, room), {}};
    if (e.refusal.number) return e;
    const model::Items items(c.kind, c.limit, c.gap, c.sizes, balanced);
    e.counts = balanced ? model::balanced(items, c.minimum) : model::greedy(items);
    return e;
}

inline void try_greedy(const Call &c, Extra x = {}) {
    sizes.lend(c.sizes, any_stand());
    counts.lend(with(c.sizes.size(), x.counts), any_stand());
    const auto a = fratolivem_greedy(c.kind, c.limit, c.gap, sizes.data(), sizes.size(), counts.data(), counts.size());
    compare("greedy", c, a, expected(c, counts.size() >= c.sizes.size(), false));
}

inline void try_balanced(const Call &c, Extra x = {}) {
    const std::size_t n = c.sizes.size(), m = n > 1024 ? 0 : n, work_named = m * m + 3 * m, sums_named = 3 * m;
    sizes.lend(c.sizes, any_stand());
    counts.lend(with(n, x.counts), any_stand());
    work.lend(with(work_named, x.work), any_stand());
    sums.lend(with(sums_named, x.sums), any_stand());
    const auto a = fratolivem_balanced(c.kind, c.limit, c.gap, c.minimum, sizes.data(), n, counts.data(), counts.size(),
                                       work.data(), work.size(), sums.data(), sums.size());
    const bool room = counts.size() >= n && work.size() >= work_named && sums.size() >= sums_named;
    compare("balanced", c, a, expected(c, room, true));
    const bool accepted = a.number == 0;
    expect(work.zero_up_to(accepted ? work_named : 0) && sums.zero_up_to(accepted ? sums_named : 0),
           "work cells are not 0", c);
    expect(work.kept_from(accepted ? work_named : 0) && sums.kept_from(accepted ? sums_named : 0),
           "other work cells were changed", c);
}

inline void try_break_limit(const model::Query &q) {
    const auto e = model::break_limit(q);
    const auto a = fratolivem_break_limit(q.known_is_definite, q.main_is_definite, q.is_row, q.available_kind,
                                          q.available, q.has_minimum, q.minimum, q.has_maximum, q.maximum);
    calls++;
    const bool same = a.number == e.number && a.where == e.where && a.place == e.place && a.kind == e.kind &&
                      model::bits(a.limit) == model::bits(e.limit);
    if (same || ++bad > 20) return;
    std::printf("DIFFERS: break limit of known %u main %u row %u, kind %u %a, minimum %u %a, maximum %u %a\n",
                q.known_is_definite, q.main_is_definite, q.is_row, q.available_kind, double(q.available), q.has_minimum,
                double(q.minimum), q.has_maximum, double(q.maximum));
}

inline void try_both(const Call &c, Extra x = {}) {
    try_greedy(c, x);
    try_balanced(c, x);
}

#endif
