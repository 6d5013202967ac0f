// Document 01's checks 3 to 5 over whatever numbers a call takes, read anew in C++ for the calls beyond breaking
// (model.hpp has those of breaking). A caller lists its numbers, the container's first, then item after item; nothing
// here knows a call.
#ifndef NUMBER_MODEL_HPP
#define NUMBER_MODEL_HPP

#include <cfloat>

#include "model.hpp"

#if FLT_EVAL_METHOD != 0 || defined(__FAST_MATH__)
#error "the models round each f32 operation once"
#endif

namespace model {

// "-0.0 reads as 0, and an answer that would be -0.0 is 0.0".
inline float cleaned(float x) { return x == 0.0f ? 0.0f : x; }

constexpr double longest_length = 262144.0, longest_margin = 131072.0, largest_factor = 1024.0,
                 longest_worked = 16777216.0;

// One number that a call takes.
struct Taken {
    enum Kind { length, size, margin, factor, worked, code } kind;
    float value;
    uint32_t code_value, most;
    int64_t at; // the item, or -1 for the container
};

class Taking {
public:
    void at_container() { at_ = -1; }
    void at_item(std::size_t i) { at_ = int64_t(i); }

    void length(float x) { add(Taken::length, x); }
    void size(float x) { add(Taken::size, x); }
    void margin(float x) { add(Taken::margin, x); }
    void factor(float x) { add(Taken::factor, x); }
    void worked(float x) { add(Taken::worked, x); }
    void code(uint32_t code, uint32_t most) { all_.push_back({Taken::code, 0.0f, code, most, at_}); }
    // A bound is taken where its code says that it is given, a margin where its code says that it is not auto.
    void bound(uint32_t has, float x) {
        code(has, 1);
        if (has == 1) size(x);
    }
    void margin_or_auto(uint32_t is_auto, float x) {
        code(is_auto, 1);
        if (is_auto == 0) margin(x);
    }
    // A fault of the container that the table's row 5 is the nearest for.
    void fault(bool faulty) { code(faulty ? 1 : 0, 0); }

    // One check after the other over the whole input.
    Refusal check() const {
        for (int number = 3; number <= 5; number++)
            for (const Taken &x : all_)
                if (!passes(number, x))
                    return x.at < 0 ? refused(number) : Refusal{uint32_t(number), FRATOLIVEM_AT, uint32_t(x.at)};
        return {};
    }

    static Refusal refused(int number) { return {uint32_t(number), FRATOLIVEM_CONTAINER, 0}; }

private:
    void add(Taken::Kind kind, float x) { all_.push_back({kind, x, 0, 0, at_}); }

    static bool within(float x, double least, double most) { return double(x) >= least && double(x) <= most; }

    static bool passes(int number, const Taken &x) {
        if (x.kind == Taken::code) return number != 5 || x.code_value <= x.most;
        if (number == 3) return finite(x.value);
        if (number == 4) return x.kind == Taken::factor || x.kind == Taken::worked || on_grid(x.value);
        switch (x.kind) {
        case Taken::length: return within(x.value, -longest_length, longest_length);
        case Taken::size: return within(x.value, 0.0, longest_length);
        case Taken::margin: return within(x.value, -longest_margin, longest_margin);
        case Taken::factor: return within(x.value, 0.0, largest_factor);
        default: return within(x.value, -longest_worked, longest_worked);
        }
    }

    std::vector<Taken> all_;
    int64_t at_ = -1;
};

// Check 1 over the lengths of the input lists, then check 2: whether they are all n, and there is room.
inline Refusal check_shape(const std::vector<std::size_t> &lengths, std::size_t n, bool room) {
    for (std::size_t length : lengths)
        if (length > 1024) return Taking::refused(1);
    for (std::size_t length : lengths)
        if (length != n) return Taking::refused(2);
    return room ? Refusal{} : Taking::refused(2);
}

} // namespace model
#endif
