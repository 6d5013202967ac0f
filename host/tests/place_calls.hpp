// The calls of fratolivem.h that place, each made on lent lists with dirty cells and compared with the model: answer,
// place and every cell.
#ifndef PLACE_CALLS_HPP
#define PLACE_CALLS_HPP

#include <array>
#include <cstdio>
#include <string>

#include "cells.hpp"
#include "fratolivem.h"
#include "place_model.hpp"

inline long calls = 0, bad = 0;

struct MainCall {
    float inner, gap;
    uint32_t justify, reversed;
    model::MainLists items;
};

struct SizeCall {
    model::CrossContainer container;
    model::CrossLists items;
};

struct LinesCall {
    model::CrossContainer container;
    uint32_t align_content;
    std::vector<float> lines;
};

struct AcrossCall {
    float line;
    uint32_t reversed;
    model::CrossLists items;
};

// ---- a call in words

template <class... Numbers>
std::string words(const char *format, Numbers... numbers) {
    char text[256];
    std::snprintf(text, sizeof text, format, numbers...);
    return text;
}

// The first cells of a list.
template <class T>
std::string listed(const char *name, const std::vector<T> &list) {
    std::string all = std::string(" ") + name + "[" + std::to_string(list.size()) + "]";
    for (std::size_t i = 0; i < list.size() && i < 6; i++) all += words(" %g", double(list[i]));
    return all;
}

inline std::string shown(const model::CrossContainer &c) {
    return words("inner %u:%g minimum %u:%g maximum %u:%g gap %g wrap %u;", c.has_inner, double(c.inner), c.has_minimum,
                 double(c.minimum), c.has_maximum, double(c.maximum), double(c.gap), c.wrap);
}
inline std::string shown(const model::CrossLists &l) {
    return listed("measured", l.measured) + listed("minimum", l.minimum) + listed("maximum", l.maximum) +
           listed("has", l.has_maximum) + listed("edges", l.edges) + listed("start", l.start) + listed("end", l.end) +
           listed("auto", l.auto_start) + listed("auto", l.auto_end) + listed("align", l.align_self) +
           listed("auto_size", l.auto_size);
}
inline std::string shown(const MainCall &c) {
    return words("inner %a gap %a justify %u reversed %u;", double(c.inner), double(c.gap), c.justify, c.reversed) +
           listed("targets", c.items.targets) + listed("start", c.items.start) + listed("end", c.items.end) +
           listed("auto", c.items.auto_start) + listed("auto", c.items.auto_end);
}
inline std::string shown(const SizeCall &c) { return shown(c.container) + shown(c.items); }
inline std::string shown(const LinesCall &c) {
    return shown(c.container) + words(" align %u", c.align_content) + listed("lines", c.lines);
}
inline std::string shown(const AcrossCall &c) {
    return words("line %a reversed %u;", double(c.line), c.reversed) + shown(c.items);
}

template <class Call>
void expect(bool ok, const char *what, const Call &c) {
    if (ok) return;
    if (++bad <= 20) std::printf("DIFFERS: %s; %s\n", what, shown(c).c_str());
}

// ---- lists

constexpr std::size_t most = 1100;
inline std::array<Lent<float>, 6> floats{Lent<float>(most), Lent<float>(most), Lent<float>(most),
                                         Lent<float>(most), Lent<float>(most), Lent<float>(most)};
inline std::array<Lent<uint32_t>, 5> codes{Lent<uint32_t>(most), Lent<uint32_t>(most), Lent<uint32_t>(most),
                                           Lent<uint32_t>(most), Lent<uint32_t>(most)};
inline std::array<Lent<float>, 4> answers{Lent<float>(most), Lent<float>(most), Lent<float>(most), Lent<float>(most)};

template <class List>
auto floats_of(List &l) -> std::vector<decltype(&l.start)> {
    if constexpr (std::is_same_v<std::remove_const_t<List>, model::MainLists>)
        return {&l.targets, &l.start, &l.end};
    else
        return {&l.measured, &l.minimum, &l.maximum, &l.edges, &l.start, &l.end};
}
template <class List>
auto codes_of(List &l) -> std::vector<decltype(&l.auto_start)> {
    if constexpr (std::is_same_v<std::remove_const_t<List>, model::MainLists>)
        return {&l.auto_start, &l.auto_end};
    else
        return {&l.has_maximum, &l.auto_start, &l.auto_end, &l.align_self, &l.auto_size};
}

template <class List>
void lend(const List &l) {
    std::size_t at = 0;
    for (const auto *list : floats_of(l)) floats[at++].lend(*list, any_stand());
    at = 0;
    for (const auto *list : codes_of(l)) codes[at++].lend(*list, any_stand());
}

inline bool inputs_kept() {
    bool kept = true;
    for (const auto &l : floats) kept = kept && l.kept();
    for (const auto &l : codes) kept = kept && l.kept();
    return kept;
}

// Cells lent beyond n, of each list in turn; a list too short by one cell is -1.
using Extra = std::array<int, 4>;

// Lends so many answer lists; whether there is room in all of them.
inline bool lend_answers(std::size_t lists, std::size_t n, const Extra &x) {
    bool room = true;
    for (std::size_t i = 0; i < lists; i++) {
        answers[i].lend(with(n, x[i]), any_stand());
        room = room && answers[i].size() >= n;
    }
    return room;
}

#define CELLS(list) list.data(), list.size()
#define NINE_LISTS                                                                                                     \
    CELLS(floats[0]), CELLS(floats[1]), CELLS(floats[2]), CELLS(codes[0]), CELLS(floats[3]), CELLS(floats[4]),         \
        CELLS(floats[5]), CELLS(codes[1]), CELLS(codes[2])
#define ELEVEN_LISTS NINE_LISTS, CELLS(codes[3]), CELLS(codes[4])

// ---- the calls

template <class Answer, class Call>
void compare(const Answer &a, const model::Refusal &e, const Call &c) {
    calls++;
    expect(a.number == e.number, words("number %u and not %u", a.number, e.number).c_str(), c);
    expect(a.where == e.where && a.place == e.place, "place", c);
    expect(inputs_kept(), "an input was changed", c);
}

// The answer lists hold these cells, and those of before past them: after a refusal, all of them.
template <class Call>
void compare_cells(const std::vector<std::vector<float>> &cells, uint32_t refused, const Call &c) {
    for (std::size_t i = 0; i < cells.size(); i++)
        if (refused)
            expect(answers[i].kept(), words("a refusal changed list %zu", i).c_str(), c);
        else
            expect(holds(answers[i], cells[i]), words("answer list %zu", i).c_str(), c);
}

inline void try_main(const MainCall &c, const Extra &x = {}) {
    lend(c.items);
    const bool room = lend_answers(3, c.items.n(), x);
    const auto a = fratolivem_place_main(c.inner, c.gap, c.justify, c.reversed, CELLS(floats[0]), CELLS(floats[1]),
                                         CELLS(floats[2]), CELLS(codes[0]), CELLS(codes[1]), CELLS(answers[0]),
                                         CELLS(answers[1]), CELLS(answers[2]));
    const auto e = model::check_main(c.inner, c.gap, c.justify, c.reversed, c.items, room);
    compare(a, e, c);
    expect(a.lines == 0 && a.rounds == 0, "place_main: lines or rounds", c);
    const auto p = e.number ? model::PlacedMain{} : model::place_main(c.inner, c.gap, c.justify, c.reversed, c.items);
    compare_cells({p.offsets, p.start, p.end}, e.number, c);
}

inline fratolivem_cross crossed(const model::CrossContainer &c) {
    return {c.inner, c.has_inner, c.minimum, c.has_minimum, c.maximum, c.has_maximum, c.gap, c.wrap};
}

inline void try_size(const SizeCall &c) {
    lend(c.items);
    const auto a = fratolivem_line_size(crossed(c.container), NINE_LISTS);
    const auto e = model::check_cross_size(c.container, c.items);
    compare(a, e, c);
    expect(model::bits(a.size) ==
               model::bits(e.number ? 0.0f : model::cross_size(c.container, c.items, 0, c.items.n())),
           "line_size: size", c);
}

inline void try_lines(const LinesCall &c, const Extra &x = {}) {
    lend(model::CrossLists{});
    floats[0].lend(c.lines, any_stand());
    const bool room = lend_answers(2, c.lines.size(), x);
    const auto a = fratolivem_place_lines(crossed(c.container), c.align_content, CELLS(floats[0]), CELLS(answers[0]),
                                          CELLS(answers[1]));
    const auto e = model::check_lines(c.container, c.align_content, c.lines, room);
    compare(a, e, c);
    const auto p = e.number ? model::PlacedLines{} : model::place_lines(c.container, c.align_content, c.lines);
    expect(model::bits(a.size) == model::bits(p.inner), "place_lines: the inner cross size", c);
    compare_cells({p.sizes, p.offsets}, e.number, c);
}

inline void try_across(const AcrossCall &c, const Extra &x = {}) {
    lend(c.items);
    const bool room = lend_answers(4, c.items.n(), x);
    const auto a = fratolivem_place_across(c.line, c.reversed, ELEVEN_LISTS, CELLS(answers[0]), CELLS(answers[1]),
                                           CELLS(answers[2]), CELLS(answers[3]));
    const auto e = model::check_across(c.line, c.reversed, 1, c.items, room);
    compare(a, e, c);
    expect(a.lines == 0 && a.rounds == 0, "place_across: lines or rounds", c);
    std::vector<std::vector<float>> cells(4);
    for (std::size_t i = 0; !e.number && i < c.items.n(); i++) {
        const auto p = model::place_item(c.line, c.reversed, c.items.at(i));
        cells[0].push_back(p.size), cells[1].push_back(p.start), cells[2].push_back(p.end),
            cells[3].push_back(p.offset);
    }
    compare_cells(cells, e.number, c);
}

#endif
