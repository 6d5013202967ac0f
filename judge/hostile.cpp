// hostile SEED CALLS: any bits in every argument of every exported call, on lists with canaries or forbidden pages
// beside them. Writes each call with the number and place that it answered, for judge/refusals.py; what a refusal must
// leave alone is looked at here.
#include <array>
#include <cinttypes>

#include "../host/tests/lent.hpp"
#include "case.hpp"
#include "random_cases.hpp"

namespace {

long bad = 0, calls = 0;

void expect(bool ok, const char *what, const std::string &line) {
    if (ok) return;
    if (++bad <= 20) std::fprintf(stderr, "HOSTILE: %s: %.1000s\n", what, line.c_str());
}

// ---- a call as text

class Text {
public:
    explicit Text(const char *call) : line_(call) {}
    Text &f(float x) { return word(hex(x)); }
    Text &u(uint64_t x) { return word(std::to_string(x)); }
    Text &cells(const void *record, std::size_t n, const Cell *names) {
        for (std::size_t i = 0; i < n; i++) names[i].is_float ? f(float_of(cell_of(record, i))) : u(cell_of(record, i));
        return *this;
    }
    template <class T>
    Text &list(const std::vector<T> &xs) {
        std::string all = "[";
        for (T x : xs) all += (all.size() > 1 ? "," : "") + shown(x);
        return word(all + "]");
    }
    Text &items(const std::vector<model::Item> &items) {
        std::string all = "[";
        for (const model::Item &it : items)
            for (std::size_t i = 0; i < 22; i++) {
                const uint32_t bits = cell_of(&it, i);
                all += (all.size() > 1 ? "," : "") + (item_cells[i].is_float ? shown(float_of(bits)) : shown(bits));
            }
        return word(all + "]");
    }
    const std::string &answered(uint32_t number, uint32_t where, uint32_t place) {
        line_ += " => " + std::to_string(number) + " " + std::to_string(where) + " " + std::to_string(place);
        std::puts(line_.c_str());
        calls++;
        return line_;
    }

private:
    static std::string hex(float x) {
        char text[16];
        std::snprintf(text, sizeof text, "x%08x", model::bits(x));
        return text;
    }
    static std::string shown(float x) { return hex(x); }
    static std::string shown(uint32_t x) { return std::to_string(x); }
    Text &word(const std::string &w) {
        line_ += " " + w;
        return *this;
    }
    std::string line_;
};

// ---- damage

std::mt19937_64 chance;
uint64_t below(uint64_t n) { return chance() % n; }
bool one_in(uint64_t n) { return below(n) == 0; }

float any_float() {
    constexpr float edges[] = {262144.0f, 131072.0f, 16777216.0f, 1024.0f, 0.015625f, 0.0078125f, 1.0f, 0.0f, 2.0f};
    float x = edges[below(9)];
    switch (below(6)) {
    case 0: return float_of(uint32_t(chance()));
    case 1:
        return float_of(0x7f800000u + uint32_t(below(3)) * uint32_t(below(0x400000)) + (one_in(2) ? 0x80000000u : 0));
    case 2: return float_of(uint32_t(below(3)) + (one_in(2) ? 0x80000000u : 0)); // 0, -0.0, the least
    case 3: x = std::nextafterf(x, one_in(2) ? 3e38f : -3e38f); break;
    case 4: x = float(below(1 << 24)) / 64.0f; break;
    default: break;
    }
    return one_in(2) ? -x : x;
}

uint32_t any_code() { return one_in(3) ? uint32_t(chance()) : uint32_t(below(16)); }

void damage_cell(void *record, std::size_t i, const Cell &cell) {
    if (cell.is_float) {
        const float x = any_float();
        set_cell(record, i, model::bits(x));
    } else {
        set_cell(record, i, any_code());
    }
}

int damages() { return std::array{0, 0, 1, 1, 1, 2, 3, 8}[below(8)]; }

std::size_t any_count(std::size_t small) { return one_in(150) ? 1020 + below(8) : small; }

// Cells to lend for a list that needs `named`: those, more, or too few. Calls with more lists are seldomer wrong about
// each.
uint64_t room_odds = 24;
std::size_t room(std::size_t named) {
    switch (room_odds ? below(room_odds) : 99) {
    case 0: return named ? named - 1 : 0;
    case 1: return named ? below(named) : 0;
    case 2: return named + 1 + below(20);
    case 3: return named + 1;
    default: return named;
    }
}

Stand any_stand() { return std::array{Stand::between_canaries, Stand::before_a_page, Stand::after_a_page}[below(3)]; }

constexpr std::size_t most = 1200;
Lent<float> in_floats[9] = {Lent<float>(most), Lent<float>(most), Lent<float>(most),
                            Lent<float>(most), Lent<float>(most), Lent<float>(most),
                            Lent<float>(most), Lent<float>(most), Lent<float>(most)};
Lent<uint32_t> in_codes[5] = {Lent<uint32_t>(most), Lent<uint32_t>(most), Lent<uint32_t>(most), Lent<uint32_t>(most),
                              Lent<uint32_t>(most)};
Lent<float> out_floats[3] = {Lent<float>(9 * most), Lent<float>(3 * most), Lent<float>(most)};
Lent<uint32_t> out_codes[3] = {Lent<uint32_t>(1024 * 1024 + 5 * most), Lent<uint32_t>(most), Lent<uint32_t>(most)};
Lent<int32_t> out_ints(most);
Lent<double> out_doubles(4 * most);

// Whether the first `named` cells may have changed, and nothing else has.
template <class T>
bool kept(const Lent<T> &list, bool accepted, std::size_t named) {
    return list.kept_from(accepted ? named : 0);
}

// ---- breaking

void try_break_limit(Draw &draw) {
    Breaking b = draw.next(Stage::greedy).breaking;
    for (int i = damages(); i > 0; i--) {
        const std::size_t at = below(9);
        damage_cell(&b, at, breaking_cells[at]);
    }
    const auto a = fratolivem_break_limit(b.known_is_definite, b.main_is_definite, b.is_row, b.available_kind,
                                          b.available, b.has_minimum, b.minimum, b.has_maximum, b.maximum);
    const std::string line = Text("break_limit").cells(&b, 9, breaking_cells).answered(a.number, a.where, a.place);
    expect(a.number == 0 || (a.kind == FRATOLIVEM_NO_LIMIT && model::bits(a.limit) == 0), "a refused limit has a value",
           line);
}

struct BreakingCall {
    uint32_t kind;
    float limit, gap;
    uint32_t minimum;
    std::vector<float> sizes;
};

BreakingCall breaking_call(Draw &draw) {
    room_odds = 24, draw.most_items = 8;
    const Case c = draw.next(Stage::balanced);
    BreakingCall b{c.breaking.available_kind, c.breaking.available, c.breaking.gap, c.breaking.line_count, c.list};
    if (one_in(10)) b.sizes.clear();
    const std::size_t n = any_count(b.sizes.size());
    while (b.sizes.size() < n) b.sizes.push_back(float(below(4)));
    for (int i = damages(); i > 0; i--) switch (below(4)) {
        case 0: b.kind = any_code(); break;
        case 1: b.limit = any_float(); break;
        case 2: b.gap = any_float(); break;
        default:
            if (!b.sizes.empty()) b.sizes[below(b.sizes.size())] = any_float();
        }
    if (one_in(3)) b.minimum = any_code();
    return b;
}

// Whether the cells are the division that the model makes, with 0 past its last line.
bool divided(const BreakingCall &b, bool balanced, uint32_t lines) {
    const model::Items items(b.kind, b.limit, b.gap, b.sizes, balanced);
    const model::Counts counts = balanced ? model::balanced(items, b.minimum) : model::greedy(items);
    bool same = lines == counts.size();
    for (std::size_t i = 0; i < b.sizes.size(); i++)
        same = same && out_codes[1].data()[i] == (i < counts.size() ? counts[i] : 0);
    return same;
}

void try_greedy(Draw &draw) {
    const BreakingCall b = breaking_call(draw);
    const std::size_t n = b.sizes.size();
    in_floats[0].lend(b.sizes, any_stand()), out_codes[1].lend(room(n), any_stand());
    const auto a =
        fratolivem_greedy(b.kind, b.limit, b.gap, in_floats[0].data(), n, out_codes[1].data(), out_codes[1].size());
    const std::string line = Text("greedy")
                                 .u(b.kind)
                                 .f(b.limit)
                                 .f(b.gap)
                                 .list(b.sizes)
                                 .u(out_codes[1].size())
                                 .answered(a.number, a.where, a.place);
    expect(in_floats[0].kept() && kept(out_codes[1], a.number == 0, n), "other cells were changed", line);
    expect(a.number != 0 || divided(b, false, a.lines), "the answer is not the model's", line);
    expect(a.number == 0 || (a.lines == 0 && a.rounds == 0), "a refusal has lines or rounds", line);
}

void try_balanced(Draw &draw) {
    const BreakingCall b = breaking_call(draw);
    const std::size_t n = b.sizes.size(), m = n > 1024 ? 0 : n;
    in_floats[0].lend(b.sizes, any_stand()), out_codes[1].lend(room(n), any_stand());
    out_codes[0].lend(room(m * m + 3 * m), any_stand()), out_doubles.lend(room(3 * m), any_stand());
    const auto a = fratolivem_balanced(b.kind, b.limit, b.gap, b.minimum, in_floats[0].data(), n, out_codes[1].data(),
                                       out_codes[1].size(), out_codes[0].data(), out_codes[0].size(),
                                       out_doubles.data(), out_doubles.size());
    const std::string line = Text("balanced")
                                 .u(b.kind)
                                 .f(b.limit)
                                 .f(b.gap)
                                 .u(b.minimum)
                                 .list(b.sizes)
                                 .u(out_codes[1].size())
                                 .u(out_codes[0].size())
                                 .u(out_doubles.size())
                                 .answered(a.number, a.where, a.place);
    const bool ok = a.number == 0;
    expect(in_floats[0].kept() && kept(out_codes[1], ok, n) && kept(out_codes[0], ok, m * m + 3 * m) &&
               kept(out_doubles, ok, 3 * m),
           "other cells were changed", line);
    expect(!ok || n > 100 || divided(b, true, a.lines), "the answer is not the model's", line);
    expect(!ok || (out_codes[0].zero_up_to(m * m + 3 * m) && out_doubles.zero_up_to(3 * m)), "work cells are not 0",
           line);
    expect(ok || (a.lines == 0 && a.rounds == 0), "a refusal has lines or rounds", line);
}

// ---- calls on lists by item

// Lists of one length, mostly; seldom one of them is cut, longer by one, or all are near the most items.
struct Columns {
    std::vector<std::vector<float>> floats;
    std::vector<std::vector<uint32_t>> codes;

    void stretch_to(std::size_t n) {
        for (auto &list : floats) list.resize(n, list.empty() ? 0.0f : list[0]);
        for (auto &list : codes) list.resize(n, list.empty() ? 0 : list[0]);
    }
    void damage() {
        if (one_in(10)) stretch_to(0);
        if (one_in(150)) stretch_to(1020 + below(8));
        for (int i = damages(); i > 0; i--) {
            const std::size_t at = below(floats.size() + codes.size());
            if (at < floats.size()) {
                if (!floats[at].empty()) floats[at][below(floats[at].size())] = any_float();
            } else if (auto &list = codes[at - floats.size()]; !list.empty()) {
                list[below(list.size())] = any_code();
            }
        }
        if (!one_in(20)) return;
        const std::size_t at = below(floats.size() + codes.size());
        const auto change = [](auto &list) {
            if (one_in(2) || list.empty())
                list.push_back({});
            else
                list.pop_back();
        };
        if (at < floats.size())
            change(floats[at]);
        else
            change(codes[at - floats.size()]);
    }
    void lend() {
        for (std::size_t i = 0; i < floats.size(); i++) in_floats[i].lend(floats[i], any_stand());
        for (std::size_t i = 0; i < codes.size(); i++) in_codes[i].lend(codes[i], any_stand());
    }
    bool kept() const {
        bool all = true;
        for (std::size_t i = 0; i < floats.size(); i++) all = all && in_floats[i].kept();
        for (std::size_t i = 0; i < codes.size(); i++) all = all && in_codes[i].kept();
        return all;
    }
    std::size_t n() const { return floats[0].size(); }
};

// The lists of the calls in their order: which are floats, and which codes.
constexpr const char *flex_order = "fffcfffffcc", *main_order = "fffcc", *size_order = "fffcfffcc",
                     *across_order = "fffcfffcccc";

Columns flex_columns(Draw &draw) {
    room_odds = 40, draw.most_items = 5;
    const Case c = draw.next(Stage::flex);
    Columns l{std::vector<std::vector<float>>(8), std::vector<std::vector<uint32_t>>(3)};
    for (const model::Item &it : c.items) {
        const float f[] = {it.main_base, it.main_minimum, it.main_maximum, it.main_edges,
                           it.grow,      it.shrink,       it.main_start,   it.main_end};
        const uint32_t u[] = {it.has_main_maximum, it.auto_main_start, it.auto_main_end};
        for (std::size_t i = 0; i < 8; i++) l.floats[i].push_back(f[i]);
        for (std::size_t i = 0; i < 3; i++) l.codes[i].push_back(u[i]);
    }
    return l;
}

model::FlexLists flex_lists(const Columns &l) {
    return {l.floats[0], l.floats[1], l.floats[2], l.codes[0], l.floats[3], l.floats[4],
            l.floats[5], l.floats[6], l.floats[7], l.codes[1], l.codes[2]};
}

void add_columns(Text &text, const Columns &l, const char *order) {
    std::size_t f = 0, u = 0;
    for (; *order; order++) *order == 'f' ? text.list(l.floats[f++]) : text.list(l.codes[u++]);
}

template <class T>
bool holds(const Lent<T> &list, const std::vector<T> &cells) {
    return cells.empty() || !std::memcmp(list.data(), cells.data(), cells.size() * sizeof(T));
}

#define LENT(list) list.data(), list.size()

void try_flex_line(Draw &draw) {
    Columns l = flex_columns(draw);
    float inner = float(below(20)), gap = float(below(3));
    l.damage();
    if (one_in(8)) inner = any_float();
    if (one_in(8)) gap = any_float();
    l.lend(), out_floats[0].lend(room(l.n()), any_stand());
    const auto a =
        fratolivem_flex_line(inner, gap, LENT(in_floats[0]), LENT(in_floats[1]), LENT(in_floats[2]), LENT(in_codes[0]),
                             LENT(in_floats[3]), LENT(in_floats[4]), LENT(in_floats[5]), LENT(in_floats[6]),
                             LENT(in_floats[7]), LENT(in_codes[1]), LENT(in_codes[2]), LENT(out_floats[0]));
    Text text("flex_line");
    text.f(inner).f(gap), add_columns(text, l, flex_order), text.u(out_floats[0].size());
    const std::string line = text.answered(a.number, a.where, a.place);
    const bool ok = a.number == 0;
    expect(l.kept() && kept(out_floats[0], ok, l.n()), "other cells were changed", line);
    expect(ok || (a.free == 0 && a.rounds == 0), "a refusal has values", line);
    if (!ok) return;
    const auto m = model::flex_line(inner, gap, flex_lists(l), out_floats[0].size());
    expect(a.free == m.free && a.rounds == m.rounds && holds(out_floats[0], m.targets), "the answer is not the model's",
           line);
}

void try_flex_lines(Draw &draw) {
    Columns l = flex_columns(draw);
    float inner = float(below(20)), gap = float(below(3));
    l.damage();
    if (one_in(8)) inner = any_float();
    if (one_in(8)) gap = any_float();
    std::vector<uint32_t> counts;
    for (std::size_t left = l.n(); left;) {
        const std::size_t count = left > 1000 ? left : 1 + below(left);
        counts.push_back(uint32_t(count)), left -= count;
    }
    switch (below(30)) {
    case 0: counts.push_back(0); break;
    case 1: counts.push_back(uint32_t(chance())); break;
    case 2:
        if (!counts.empty()) counts[below(counts.size())] = any_code();
        break;
    case 3: counts.assign(1020 + below(8), 1); break;
    case 4: counts = {0xffffffffu, uint32_t(l.n()) + 1}; break; // a sum that wraps round in 32 bits
    default: break;
    }
    Lent<uint32_t> &lines = in_codes[3];
    l.lend(), lines.lend(counts, any_stand());
    out_floats[0].lend(room(l.n()), any_stand()), out_ints.lend(room(l.n()), any_stand()),
        out_codes[1].lend(room(l.n()), any_stand());
    const auto a = fratolivem_flex_lines(inner, gap, LENT(lines), LENT(in_floats[0]), LENT(in_floats[1]),
                                         LENT(in_floats[2]), LENT(in_codes[0]), LENT(in_floats[3]), LENT(in_floats[4]),
                                         LENT(in_floats[5]), LENT(in_floats[6]), LENT(in_floats[7]), LENT(in_codes[1]),
                                         LENT(in_codes[2]), LENT(out_floats[0]), LENT(out_ints), LENT(out_codes[1]));
    Text text("flex_lines");
    text.f(inner).f(gap).list(counts), add_columns(text, l, flex_order);
    text.u(out_floats[0].size()).u(out_ints.size()).u(out_codes[1].size());
    const std::string line = text.answered(a.number, a.where, a.place);
    const bool ok = a.number == 0;
    expect(l.kept() && lines.kept() && kept(out_floats[0], ok, l.n()) && kept(out_ints, ok, l.n()) &&
               kept(out_codes[1], ok, l.n()),
           "other cells were changed", line);
    expect(ok || (a.lines == 0 && a.rounds == 0), "a refusal has values", line);
    if (!ok) return;
    const auto m = model::flex_lines(inner, gap, counts, flex_lists(l), l.n());
    expect(a.lines == m.lines && a.rounds == m.rounds && holds(out_floats[0], m.targets) && holds(out_ints, m.free) &&
               holds(out_codes[1], m.rounds_by_line),
           "the answer is not the model's", line);
}

// ---- placing

void try_main(Draw &draw) {
    room_odds = 40, draw.most_items = 5;
    const Case c = draw.next(Stage::main);
    Columns l{{c.list, {}, {}}, {{}, {}}};
    for (const model::Item &it : c.items) {
        l.floats[1].push_back(it.main_start), l.floats[2].push_back(it.main_end);
        l.codes[0].push_back(it.auto_main_start), l.codes[1].push_back(it.auto_main_end);
    }
    float inner = c.container.inner_main, gap = c.container.gap_main;
    uint32_t justify = c.container.justify_content, reversed = uint32_t(below(2));
    l.damage();
    if (one_in(10)) inner = any_float();
    if (one_in(10)) gap = any_float();
    if (one_in(10)) justify = any_code();
    if (one_in(10)) reversed = any_code();
    const std::size_t n = l.n();
    l.lend();
    for (auto &list : out_floats) list.lend(room(n), any_stand());
    const auto a = fratolivem_place_main(inner, gap, justify, reversed, LENT(in_floats[0]), LENT(in_floats[1]),
                                         LENT(in_floats[2]), LENT(in_codes[0]), LENT(in_codes[1]), LENT(out_floats[0]),
                                         LENT(out_floats[1]), LENT(out_floats[2]));
    Text text("place_main");
    text.f(inner).f(gap).u(justify).u(reversed), add_columns(text, l, main_order);
    for (auto &list : out_floats) text.u(list.size());
    const std::string line = text.answered(a.number, a.where, a.place);
    const bool ok = a.number == 0;
    bool same = l.kept();
    for (auto &list : out_floats) same = same && kept(list, ok, n);
    expect(same, "other cells were changed", line);
    expect(a.lines == 0 && a.rounds == 0, "lines or rounds", line);
    if (!ok) return;
    const auto m = model::place_main(inner, gap, justify, reversed == 1,
                                     {l.floats[0], l.floats[1], l.floats[2], l.codes[0], l.codes[1]});
    expect(holds(out_floats[0], m.offsets) && holds(out_floats[1], m.start) && holds(out_floats[2], m.end),
           "the answer is not the model's", line);
}

// A container's cross axis with some damage, its eight numbers as the calls take them.
model::CrossContainer cross_container(const Case &c) {
    model::CrossContainer k = c.container.cross();
    constexpr Cell cells[] = {{"", true}, {"", false}, {"", true}, {"", false},
                              {"", true}, {"", false}, {"", true}, {"", false}};
    static_assert(sizeof k == sizeof cells / sizeof(Cell) * 4, "a cell is 4 bytes");
    for (int i = one_in(2) ? 0 : damages(); i > 0; i--) {
        const std::size_t at = below(8);
        damage_cell(&k, at, cells[at]);
    }
    return k;
}

fratolivem_cross to_c(const model::CrossContainer &k) {
    return {k.inner, k.has_inner, k.minimum, k.has_minimum, k.maximum, k.has_maximum, k.gap, k.wrap};
}

void add_cross(Text &text, const model::CrossContainer &k) {
    text.f(k.inner).u(k.has_inner).f(k.minimum).u(k.has_minimum).f(k.maximum).u(k.has_maximum).f(k.gap).u(k.wrap);
}

Columns cross_columns(const Case &c, bool aligned) {
    Columns l{std::vector<std::vector<float>>(6), std::vector<std::vector<uint32_t>>(aligned ? 5 : 3)};
    for (const model::Item &it : c.items) {
        const float f[] = {it.cross_measured, it.cross_minimum, it.cross_maximum,
                           it.cross_edges,    it.cross_start,   it.cross_end};
        const uint32_t u[] = {it.has_cross_maximum, it.auto_cross_start, it.auto_cross_end, it.align_self,
                              it.auto_cross_size};
        for (std::size_t i = 0; i < 6; i++) l.floats[i].push_back(f[i]);
        for (std::size_t i = 0; i < l.codes.size(); i++) l.codes[i].push_back(u[i]);
    }
    l.damage();
    return l;
}

model::CrossLists model_lists(const Columns &l) {
    const std::vector<uint32_t> none(l.n());
    return {l.floats[0],
            l.floats[1],
            l.floats[2],
            l.codes[0],
            l.floats[3],
            l.floats[4],
            l.floats[5],
            l.codes[1],
            l.codes[2],
            l.codes.size() > 3 ? l.codes[3] : none,
            l.codes.size() > 3 ? l.codes[4] : none};
}

void try_line_size(Draw &draw) {
    draw.most_items = 5;
    const Case c = draw.next(Stage::size);
    const model::CrossContainer k = cross_container(c);
    Columns l = cross_columns(c, false);
    l.lend();
    const auto a = fratolivem_line_size(to_c(k), LENT(in_floats[0]), LENT(in_floats[1]), LENT(in_floats[2]),
                                        LENT(in_codes[0]), LENT(in_floats[3]), LENT(in_floats[4]), LENT(in_floats[5]),
                                        LENT(in_codes[1]), LENT(in_codes[2]));
    Text text("line_size");
    add_cross(text, k), add_columns(text, l, size_order);
    const std::string line = text.answered(a.number, a.where, a.place);
    expect(l.kept(), "an input was changed", line);
    expect(model::bits(a.size) == (a.number ? 0 : model::bits(model::cross_size(k, model_lists(l), 0, l.n()))),
           "the answer is not the model's", line);
}

void try_lines(Draw &draw) {
    room_odds = 40, draw.most_items = 5;
    const Case c = draw.next(Stage::lines);
    const model::CrossContainer k = cross_container(c);
    Columns l{{c.list}, {}};
    uint32_t align = c.container.align_content;
    if (one_in(10)) align = any_code();
    l.damage();
    const std::size_t n = l.n();
    l.lend(), out_floats[0].lend(room(n), any_stand()), out_floats[1].lend(room(n), any_stand());
    const auto a = fratolivem_place_lines(to_c(k), align, LENT(in_floats[0]), LENT(out_floats[0]), LENT(out_floats[1]));
    Text text("place_lines");
    add_cross(text, k), text.u(align), add_columns(text, l, "f"), text.u(out_floats[0].size()).u(out_floats[1].size());
    const std::string line = text.answered(a.number, a.where, a.place);
    const bool ok = a.number == 0;
    expect(l.kept() && kept(out_floats[0], ok, n) && kept(out_floats[1], ok, n), "other cells were changed", line);
    expect(ok || model::bits(a.size) == 0, "a refusal has a size", line);
    if (!ok) return;
    const auto m = model::place_lines(k, align, l.floats[0]);
    expect(model::bits(a.size) == model::bits(m.inner) && holds(out_floats[0], m.sizes) &&
               holds(out_floats[1], m.offsets),
           "the answer is not the model's", line);
}

void try_across(Draw &draw) {
    room_odds = 50, draw.most_items = 5;
    const Case c = draw.next(Stage::across);
    Columns l = cross_columns(c, true);
    float height = c.list[0];
    uint32_t reversed = uint32_t(below(2));
    if (one_in(10)) height = any_float();
    if (one_in(10)) reversed = any_code();
    const std::size_t n = l.n();
    l.lend();
    Lent<float> *out[] = {&out_floats[0], &out_floats[1], &out_floats[2], &in_floats[8]};
    for (Lent<float> *list : out) list->lend(room(n), any_stand());
    const auto a = fratolivem_place_across(
        height, reversed, LENT(in_floats[0]), LENT(in_floats[1]), LENT(in_floats[2]), LENT(in_codes[0]),
        LENT(in_floats[3]), LENT(in_floats[4]), LENT(in_floats[5]), LENT(in_codes[1]), LENT(in_codes[2]),
        LENT(in_codes[3]), LENT(in_codes[4]), LENT((*out[0])), LENT((*out[1])), LENT((*out[2])), LENT((*out[3])));
    Text text("place_across");
    text.f(height).u(reversed), add_columns(text, l, across_order);
    for (Lent<float> *list : out) text.u(list->size());
    const std::string line = text.answered(a.number, a.where, a.place);
    const bool ok = a.number == 0;
    bool same = l.kept();
    for (Lent<float> *list : out) same = same && kept(*list, ok, n);
    expect(same, "other cells were changed", line);
    expect(a.lines == 0 && a.rounds == 0, "lines or rounds", line);
    if (!ok) return;
    const model::CrossLists m = model_lists(l);
    std::vector<float> cells[4];
    for (std::size_t i = 0; i < n; i++) {
        const auto p = model::place_item(height, reversed == 1, m.at(i));
        cells[0].push_back(p.size), cells[1].push_back(p.start), cells[2].push_back(p.end),
            cells[3].push_back(p.offset);
    }
    for (int i = 0; i < 4; i++) expect(holds(*out[i], cells[i]), "the answer is not the model's", line);
}

// ---- the whole pass

// Records as their cells, so that the last one can end where a page does.
Lent<uint32_t> in_items(22 * most);

template <class To, class From>
To recast(const From &from) {
    static_assert(sizeof(To) == sizeof(From), "the same cells");
    To to;
    std::memcpy(&to, &from, sizeof to);
    return to;
}

void run_pass(const Case &c) {
    const std::size_t n = c.items.size(), m = n > 1024 ? 0 : n;
    static_assert(sizeof(fratolivem_item) == 22 * 4, "22 cells");
    std::vector<uint32_t> items;
    for (const model::Item &it : c.items)
        for (std::size_t i = 0; i < 22; i++) items.push_back(cell_of(&it, i));
    const model::PassRoom named = model::PassRoom::named(m);
    in_items.lend(items, any_stand());
    out_floats[0].lend(room(named.placed), any_stand()), out_floats[1].lend(room(named.lines), any_stand());
    out_codes[1].lend(room(n), any_stand()), out_codes[2].lend(room(n), any_stand()),
        out_ints.lend(room(n), any_stand());
    const bool none = !c.container.balanced() && one_in(2);
    out_codes[0].lend(none ? 0 : room(named.work), any_stand()),
        out_doubles.lend(none ? 0 : room(named.sums), any_stand());
    const auto *records = reinterpret_cast<const fratolivem_item *>(in_items.data());
    const auto a =
        fratolivem_pass(recast<fratolivem_container>(c.container), records, n, out_floats[0].data(),
                        out_floats[0].size(), out_floats[1].data(), out_floats[1].size(), out_codes[1].data(),
                        out_codes[1].size(), out_codes[2].data(), out_codes[2].size(), out_ints.data(), out_ints.size(),
                        out_codes[0].data(), out_codes[0].size(), out_doubles.data(), out_doubles.size());
    Text text("pass");
    text.cells(&c.container, 16, container_cells)
        .items(c.items)
        .u(out_floats[0].size())
        .u(out_floats[1].size())
        .u(out_codes[1].size());
    text.u(out_codes[2].size()).u(out_ints.size()).u(out_codes[0].size()).u(out_doubles.size());
    const std::string line = text.answered(a.number, a.where, a.place);
    const bool ok = a.number == 0, balanced = ok && c.container.balanced();
    expect(in_items.kept() && kept(out_floats[0], ok, 8 * n) && kept(out_floats[1], ok, 2 * n) &&
               kept(out_codes[1], ok, n) && kept(out_codes[2], ok, n) && kept(out_ints, ok, n) &&
               kept(out_codes[0], balanced, named.work) && kept(out_doubles, balanced, named.sums),
           "other cells were changed", line);
    expect(!balanced || (out_codes[0].zero_up_to(named.work) && out_doubles.zero_up_to(named.sums)),
           "work cells are not 0", line);
    expect(ok || (a.lines == 0 && a.rounds == 0 && model::bits(a.inner_cross) == 0), "a refusal has values", line);
    if (!ok) return;
    const model::Passed p = model::pass(c.container, c.items, model::PassRoom::named(n));
    expect(p.refusal.number == 0 && a.lines == p.lines_made && a.rounds == p.rounds_made &&
               model::bits(a.inner_cross) == model::bits(p.inner_cross) && holds(out_floats[0], p.placed) &&
               holds(out_floats[1], p.lines) && holds(out_codes[1], p.counts) && holds(out_codes[2], p.rounds) &&
               holds(out_ints, p.free),
           "the answer is not the model's", line);
}

void try_pass(Draw &draw) {
    room_odds = 90;
    draw.most_items = 5;
    Case c = draw.next(Stage::pass);
    if (one_in(12)) c.items.clear();
    if (one_in(150)) c.items.resize(1020 + below(8), c.items.empty() ? model::Item() : c.items[0]);
    for (int i = damages(); i > 0; i--) {
        const bool item = !c.items.empty() && one_in(2);
        const std::size_t at = below(item ? 22 : 16);
        if (item)
            damage_cell(&c.items[below(c.items.size())], at, item_cells[at]);
        else
            damage_cell(&c.container, at, container_cells[at]);
    }
    run_pass(c);
}

// Every cell of a container and of two items in turn with every odd number.
void every_cell_of_a_pass() {
    constexpr uint32_t odd[] = {0x7fc00000, 0xff800001, 0x7f800000, 0xff800000, 0x7f7fffff, 0x80000000, 0x00000001,
                                0x807fffff, 0x00800000, 0x48800000, 0x48800001, 0xc8800000, 0xc8800001, 0x48000000,
                                0x48000001, 0xc8000000, 0xc8000001, 0x44800000, 0x44800001, 0xbf800000, 0x3c800000,
                                0x3c800001, 0x3c000000, 0,          1,          2,          3,          4,
                                5,          9,          10,         11,         13,         14,         0xffffffff};
    room_odds = 0;
    Case plain{Stage::pass, {}, {}, {}, {}};
    plain.container.inner_main = 300, plain.container.wrap = 3, plain.container.limit_kind = 0,
    plain.container.limit = 150;
    plain.items.resize(2);
    for (model::Item &it : plain.items) it.main_base = 100, it.grow = 1, it.cross_measured = 10;
    for (uint32_t wrap = 0; wrap <= 4; wrap += 2)
        for (uint32_t bits : odd) {
            plain.container.wrap = wrap;
            for (std::size_t i = 0; i < 16; i++) {
                Case c = plain;
                set_cell(&c.container, i, bits);
                run_pass(c);
            }
            for (std::size_t i = 0; i < 44; i++) {
                Case c = plain;
                c.items[i / 22].has_main_maximum = c.items[i / 22].has_cross_maximum = 1,
                            c.items[i / 22].main_maximum = c.items[i / 22].cross_maximum = 500;
                set_cell(&c.items[i / 22], i % 22, bits);
                run_pass(c);
            }
        }
}

} // namespace

int main(int argc, char **argv) {
    const uint64_t seed = argc > 1 ? std::strtoull(argv[1], nullptr, 0) : 1;
    const long wanted = argc > 2 ? std::atol(argv[2]) : 20000;
    std::fprintf(stderr, "hostile: seed %" PRIu64 ", %ld calls\n", seed, wanted);
    chance.seed(seed), dirt.seed(seed + 1);
    Draw draw(seed + 2);
    void (*const tries[])(Draw &) = {
        try_break_limit, try_greedy, try_balanced, try_flex_line, try_flex_lines, try_main,
        try_line_size,   try_lines,  try_across,   try_pass,      try_pass,
    };
    every_cell_of_a_pass();
    while (calls < wanted) tries[below(sizeof tries / sizeof *tries)](draw);
    // Without this line the reader at the other end of the pipe fails.
    if (!bad) std::puts("end");
    if (bad) std::fprintf(stderr, "hostile: %ld calls changed what they should not\n", bad);
    return bad ? 1 : 0;
}
