// Random lists for the tests: they make ties, zero items, negative sizes and lines that are exactly full likely.
#ifndef LISTS_HPP
#define LISTS_HPP

#include <array>
#include <cmath>
#include <cstdint>
#include <random>
#include <vector>

using Sizes = std::vector<float>;

struct Call {
    uint32_t kind;
    float limit, gap;
    uint32_t minimum;
    Sizes sizes;
};

inline Call random_call(std::mt19937_64 &random, std::size_t longest) {
    const auto below = [&](uint64_t n) { return random() % n; };
    const std::size_t n = below(longest + 1);
    const int scale = int(1 + below(6)), unit = std::array{1, 64, 37}[below(3)];
    const uint32_t kind = std::array{0u, 0u, 0u, 0u, 0u, 2u, 2u, 1u}[below(8)];
    const float gap = float(below(2) ? 0 : int(below(3)) * unit) / 64;
    Call c{kind, 0, gap, uint32_t(below(3) ? 1 : below(n + 3)), {}};
    double sum = 0;
    for (std::size_t i = 0; i < n; i++) {
        int size = int(below(uint64_t(scale) * 3)) * unit;
        if (below(4) == 0) size = 0;
        if (below(12) == 0) size = -size;
        c.sizes.push_back(float(size) / 64);
        sum += size > 0 ? size : 0;
    }
    const double lines = double(1 + below(n + 1));
    c.limit = float(std::floor(sum / lines + double(below(uint64_t(3 * unit))))) / 64;
    if (below(40) == 0) c.limit = -c.limit;
    return c;
}

#endif
