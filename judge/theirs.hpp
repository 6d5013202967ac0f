// The Rust's own answer to a case that is accepted.
#ifndef THEIRS_HPP
#define THEIRS_HPP

#include "case.hpp"
#include "judge.h"

namespace theirs {

template <class To, class From>
To recast(const From &from) {
    static_assert(sizeof(To) == sizeof(From), "the same cells");
    To to;
    std::memcpy(&to, &from, sizeof to);
    return to;
}

inline Answer answer(const Case &c) {
    const judge_container k = recast<judge_container>(c.container);
    std::vector<judge_item> items;
    for (const model::Item &it : c.items) items.push_back(recast<judge_item>(it));
    const std::size_t n = c.items.size(), m = c.list.size();
    Answer a;
    switch (c.stage) {
    case Stage::greedy:
    case Stage::balanced: {
        const judge_breaking b = recast<judge_breaking>(c.breaking);
        a.counts.resize(m + 1);
        judge_list *list = judge_items(c.list.data(), m);
        a.counts.resize(judge_lines(c.stage == Stage::balanced, &b, list, a.counts.data()));
        judge_drop(list);
        break;
    }
    case Stage::flex:
        a.numbers.resize(n);
        judge_flex(&k, items.data(), n, a.numbers.data());
        break;
    case Stage::main:
        a.numbers.resize(3 * n);
        judge_main(&k, items.data(), c.list.data(), n, a.numbers.data());
        break;
    case Stage::size: a.numbers = {judge_cross_size(&k, items.data(), n)}; break;
    case Stage::lines:
        a.numbers.resize(1 + 2 * m);
        a.numbers[0] = judge_across_lines(&k, c.list.data(), m, a.numbers.data() + 1);
        break;
    case Stage::across:
        a.numbers.resize(4 * n);
        judge_across(&k, c.list[0], items.data(), n, a.numbers.data());
        break;
    default: {
        std::vector<float> placed(8 * n), lines(2 * n);
        float inner = 0;
        a.counts.resize(n);
        const std::size_t made = judge_pass(&k, items.data(), n, placed.data(), lines.data(), a.counts.data(), &inner);
        a.counts.resize(made);
        a.numbers = {inner};
        a.numbers.insert(a.numbers.end(), lines.begin(), lines.begin() + long(made));
        a.numbers.insert(a.numbers.end(), lines.begin() + long(n), lines.begin() + long(n + made));
        a.numbers.insert(a.numbers.end(), placed.begin(), placed.end());
    }
    }
    return a;
}

} // namespace theirs
#endif
