// One question to the library and to the Rust: a stage with its numbers, as text and back.
#ifndef CASE_HPP
#define CASE_HPP

#include <cstdio>
#include <cstring>
#include <sstream>
#include <string>
#include <vector>

#include "../host/tests/pass_model.hpp"

enum class Stage { greedy, balanced, flex, main, size, lines, across, pass };
constexpr const char *stage_names[] = {"greedy", "balanced", "flex", "main", "size", "lines", "across", "pass"};
constexpr int stage_count = 8;

// What the break limit and breaking turn on; judge_breaking has the same cells.
struct Breaking {
    uint32_t known_is_definite = 0, main_is_definite = 0, is_row = 0, available_kind = 0;
    float available = 0;
    uint32_t has_minimum = 0;
    float minimum = 0;
    uint32_t has_maximum = 0;
    float maximum = 0, gap = 0;
    uint32_t line_count = 0;
};

// `list` is the sizes of breaking, the targets of `main`, the line sizes of `lines`, and the one line size of `across`.
struct Case {
    Stage stage;
    Breaking breaking;
    model::Container container;
    std::vector<model::Item> items;
    std::vector<float> list;

    bool breaks() const { return stage == Stage::greedy || stage == Stage::balanced; }
};

// Numbers of an answer in the order of the stage, floats as they are and counts beside them.
struct Answer {
    std::vector<float> numbers;
    std::vector<uint32_t> counts;
};

inline bool same_bits(const std::vector<float> &a, const std::vector<float> &b) {
    return a.size() == b.size() && (a.empty() || !std::memcmp(a.data(), b.data(), a.size() * sizeof(float)));
}
inline bool same(const Answer &a, const Answer &b) { return a.counts == b.counts && same_bits(a.numbers, b.numbers); }

// ---- the cells of the three structs by name: each is 4 bytes, and all are f32 or u32

struct Cell {
    const char *name;
    bool is_float;
};
constexpr Cell breaking_cells[] = {{"known", false},  {"main", false},        {"row", false},
                                   {"kind", false},   {"available", true},    {"has-minimum", false},
                                   {"minimum", true}, {"has-maximum", false}, {"maximum", true},
                                   {"gap", true},     {"least-lines", false}};
constexpr Cell container_cells[] = {
    {"inner", true},          {"gap", true},        {"kind", false},          {"limit", true},
    {"least-lines", false},   {"direction", false}, {"wrap", false},          {"justify", false},
    {"align", false},         {"cross", true},      {"has-cross", false},     {"cross-min", true},
    {"has-cross-min", false}, {"cross-max", true},  {"has-cross-max", false}, {"cross-gap", true}};
constexpr Cell item_cells[] = {{"base", true},
                               {"min", true},
                               {"max", true},
                               {"edges", true},
                               {"grow", true},
                               {"shrink", true},
                               {"start", true},
                               {"end", true},
                               {"measured", true},
                               {"cross-min", true},
                               {"cross-max", true},
                               {"cross-edges", true},
                               {"cross-start", true},
                               {"cross-end", true},
                               {"has-max", false},
                               {"auto-start", false},
                               {"auto-end", false},
                               {"has-cross-max", false},
                               {"auto-cross-start", false},
                               {"auto-cross-end", false},
                               {"self", false},
                               {"auto-size", false}};
static_assert(sizeof(Breaking) == sizeof breaking_cells / sizeof(Cell) * 4, "a cell is 4 bytes");
static_assert(sizeof(model::Container) == sizeof container_cells / sizeof(Cell) * 4, "a cell is 4 bytes");
static_assert(sizeof(model::Item) == sizeof item_cells / sizeof(Cell) * 4, "a cell is 4 bytes");

inline uint32_t cell_of(const void *record, std::size_t i) {
    uint32_t bits;
    std::memcpy(&bits, static_cast<const char *>(record) + 4 * i, 4);
    return bits;
}
inline void set_cell(void *record, std::size_t i, uint32_t bits) {
    std::memcpy(static_cast<char *>(record) + 4 * i, &bits, 4);
}

inline float float_of(uint32_t bits) {
    float x;
    std::memcpy(&x, &bits, 4);
    return x;
}

inline std::string number_text(float x) {
    char text[32];
    std::snprintf(text, sizeof text, "%.9g", double(x));
    return text;
}

template <std::size_t N>
std::string record_text(const void *record, const Cell (&cells)[N]) {
    std::string all;
    for (std::size_t i = 0; i < N; i++) {
        const uint32_t bits = cell_of(record, i);
        if (bits)
            all += std::string(" ") + cells[i].name + "=" +
                   (cells[i].is_float ? number_text(float_of(bits)) : std::to_string(bits));
    }
    return all;
}

// "flex inner=300 gap=20 ; base=100 grow=0.25 ; base=100 : 1 2 => 100 100 / 2": cells that are 0 are not written.
inline std::string text_of(const Case &c) {
    std::string all = stage_names[int(c.stage)];
    all += c.breaks() ? record_text(&c.breaking, breaking_cells) : record_text(&c.container, container_cells);
    for (const model::Item &it : c.items) all += " ;" + record_text(&it, item_cells);
    if (!c.list.empty()) all += " :";
    for (float x : c.list) all += " " + number_text(x);
    return all;
}

inline std::string text_of(const Answer &a) {
    std::string all;
    for (float x : a.numbers) all += (all.empty() ? "" : " ") + number_text(x);
    if (!a.counts.empty()) all += all.empty() ? "/" : " /";
    for (uint32_t count : a.counts) all += " " + std::to_string(count);
    return all;
}

template <std::size_t N>
bool read_cell(void *record, const Cell (&cells)[N], const std::string &word) {
    const std::size_t equals = word.find('=');
    if (equals == std::string::npos) return false;
    for (std::size_t i = 0; i < N; i++) {
        if (word.compare(0, equals, cells[i].name)) continue;
        const char *value = word.c_str() + equals + 1;
        uint32_t bits = 0;
        if (cells[i].is_float) {
            const float x = std::strtof(value, nullptr);
            std::memcpy(&bits, &x, 4);
        } else {
            bits = uint32_t(std::strtoul(value, nullptr, 10));
        }
        set_cell(record, i, bits);
        return true;
    }
    return false;
}

// A line of the sample; false where it is none.
inline bool read_case(const std::string &line, Case &c, Answer &a) {
    std::istringstream words(line);
    std::string word;
    if (!(words >> word)) return false;
    int stage = 0;
    while (stage < stage_count && word != stage_names[stage]) stage++;
    if (stage == stage_count) return false;
    c = Case{Stage(stage), {}, {}, {}, {}};
    c.container.limit_kind = 0; // what is not written is 0
    a = Answer{};
    enum { container, items, list, numbers, counts } part = container;
    while (words >> word) {
        if (word == ";") {
            part = items;
            c.items.emplace_back();
        } else if (word == ":")
            part = list;
        else if (word == "=>")
            part = numbers;
        else if (word == "/")
            part = counts;
        else if (part == list)
            c.list.push_back(std::strtof(word.c_str(), nullptr));
        else if (part == numbers)
            a.numbers.push_back(std::strtof(word.c_str(), nullptr));
        else if (part == counts)
            a.counts.push_back(uint32_t(std::strtoul(word.c_str(), nullptr, 10)));
        else if (part == items) {
            if (!read_cell(&c.items.back(), item_cells, word)) return false;
        } else if (!(c.breaks() ? read_cell(&c.breaking, breaking_cells, word)
                                : read_cell(&c.container, container_cells, word))) {
            return false;
        }
    }
    return part == numbers || part == counts;
}

#endif
