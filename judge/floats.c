/* Every one of the 2^32 float patterns, once as an item's size and once as a gap: what the library answers, against a
 * reading of the bits that shares nothing with it, and against counts worked out on paper. Takes minutes, so it is no
 * part of scripts/test. */
#include <inttypes.h>
#include <stdio.h>
#include <string.h>

#include "../include/fratolivem.h"

/* 3, 4, 5 or 0, from sign, exponent and digits. */
static uint32_t reading(uint32_t bits, int may_be_negative) {
    const uint32_t size = bits & 0x7fffffff, exponent = size >> 23, digits = size & 0x7fffff;
    if (exponent == 255) return 3;
    /* 2^e with e from -6 to 16 leaves 17 - e digits for less than 1/64; below that only 0 is a multiple, above it every
     * float. */
    if (exponent < 121 ? size != 0 : exponent < 144 && (digits & ((1u << (144 - exponent)) - 1))) return 4;
    if (size > 0x48800000 || (!may_be_negative && bits >> 31 && size)) return 5;
    return 0;
}

static int run(const char *name, int as_gap, const uint64_t paper[7]) {
    uint64_t seen[7] = {0}, differ = 0;
    uint32_t bits = 0, count = 0;
    do {
        float x;
        memcpy(&x, &bits, sizeof x);
        const fratolivem_answer a = as_gap ? fratolivem_greedy(FRATOLIVEM_MAX_CONTENT, 0, x, NULL, 0, NULL, 0)
                                           : fratolivem_greedy(FRATOLIVEM_MAX_CONTENT, 0, 0, &x, 1, &count, 1);
        differ += a.number != reading(bits, !as_gap);
        seen[a.number < 7 ? a.number : 6]++;
    } while (++bits);
    printf("%s: %" PRIu64 " differ;", name, differ);
    for (int i = 0; i < 7; i++) {
        if (seen[i])
            printf(" answer %d: %" PRIu64 "%s", i, seen[i], seen[i] == paper[i] ? "" : " (not the paper's count)");
        differ += seen[i] != paper[i];
    }
    puts("");
    return differ != 0;
}

int main(void) {
    /* Not finite: 2 signs of 2^23. On the grid: 2 signs of 112 * 2^23. Of these within 262,144 px: 2^24 + 1 sizes, 0
     * among them, of 2 signs. */
    const uint64_t every = UINT64_C(1) << 32, three = UINT64_C(1) << 24, grid = UINT64_C(112) << 24;
    const uint64_t item = 2 * ((UINT64_C(1) << 24) + 1), gap = (UINT64_C(1) << 24) + 2;
    const uint64_t items[7] = {item, 0, 0, three, every - three - grid, grid - item, 0};
    const uint64_t gaps[7] = {gap, 0, 0, three, every - three - grid, grid - gap, 0};
    const int bad = run("as an item's size", 0, items);
    return run("as a gap", 1, gaps) | bad;
}
