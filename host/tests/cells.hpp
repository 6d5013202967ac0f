// What the boundary tests share beside lent.hpp: a float of any bits, where a list stands, how long it is, and what its
// cells must hold.
#ifndef CELLS_HPP
#define CELLS_HPP

#include <array>
#include <cstdint>
#include <cstring>
#include <vector>

#include "lent.hpp"

inline float of_bits(uint32_t bits) {
    float x;
    std::memcpy(&x, &bits, sizeof x);
    return x;
}

inline Stand any_stand() {
    return std::array{Stand::between_canaries, Stand::before_a_page, Stand::after_a_page}[dirt() % 3];
}

// n cells and so many more, or fewer.
inline std::size_t with(std::size_t n, int extra) { return extra < 0 && n == 0 ? 0 : n + std::size_t(extra); }

// The first cells hold these bits, and the others those of before.
template <class T>
bool holds(const Lent<T> &list, const std::vector<T> &cells) {
    return list.kept_from(cells.size()) &&
           (cells.empty() || !std::memcmp(list.data(), cells.data(), cells.size() * sizeof(T)));
}

#endif
