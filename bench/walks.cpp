#include "walks.hpp"

namespace {

// As grid::to_sixtyfourths.
int to_sixtyfourths(float x) { return int(x * 64.0f + 0.0f); }

unsigned long magnitude(int v) { return v < 0 ? (unsigned long)(0 - v) : (unsigned long)(v); }

constexpr unsigned long most = 16777216;

unsigned long sum_of(const float *sizes, unsigned long n, float gap) {
    const unsigned long apart = magnitude(to_sixtyfourths(gap));
    unsigned long total = 0;
    for (unsigned long i = 0; i < n; i++) total = total + (magnitude(to_sixtyfourths(sizes[i])) + apart);
    return total;
}

unsigned long sum_and_keep(const float *sizes, unsigned long n, float gap, int *kept) {
    const unsigned long apart = magnitude(to_sixtyfourths(gap));
    unsigned long total = 0;
    for (unsigned long i = 0; i < n; i++) {
        kept[i] = to_sixtyfourths(sizes[i]);
        total = total + (magnitude(kept[i]) + apart);
    }
    return total;
}

// How a form reads a number of the container's, and an item's.
struct Pixels {
    using Number = float;
    static float of(float pixels) { return pixels; }
    static float item(float size) { return size; }
};
struct Sixtyfourths {
    using Number = int;
    static int of(float pixels) { return to_sixtyfourths(pixels); }
    static int item(float size) { return to_sixtyfourths(size); }
    static int item(int size) { return size; }
};

template <class Number>
bool fits(unsigned kind, Number limit, Number size) {
    switch (kind) {
    case 0: return size <= limit;
    case 1: return false;
    default: return true;
    }
}

template <class Form, class Item, class Number = typename Form::Number>
unsigned long line_end(const Item *sizes, unsigned long n, Number gap, unsigned kind, Number limit,
                       unsigned long start) {
    Number size = Form::item(sizes[start]);
    unsigned long i = start + 1;
    while (i < n) {
        const Number next = size + (Form::item(sizes[i]) + gap);
        if (!fits(kind, limit, next)) return i;
        size = next;
        i++;
    }
    return i;
}

template <class Form, class Item>
unsigned long walk(const Item *sizes, unsigned long n, float gap, walk_limit limit, unsigned *counts) {
    const auto apart = Form::of(gap), at = limit.kind == 0 ? Form::of(limit.pixels) : 0;
    unsigned long start = 0, lines = 0;
    while (start < n) {
        const unsigned long end = line_end<Form>(sizes, n, apart, limit.kind, at, start);
        counts[lines] = unsigned(end - start);
        lines++;
        start = end;
    }
    return lines;
}

// The library's frames have 256 or 1,024 cells, as n asks.
template <unsigned long cells>
unsigned long swept(const float *sizes, unsigned long n, float gap, walk_limit limit, unsigned *counts) {
    int kept[cells] = {};
    return sum_and_keep(sizes, n, gap, kept) > most ? 0 : walk<Sixtyfourths>(kept, n, gap, limit, counts);
}

} // namespace

unsigned long walk_pixels(const float *sizes, unsigned long n, float gap, walk_limit limit, unsigned *counts) {
    return sum_of(sizes, n, gap) > most ? 0 : walk<Pixels>(sizes, n, gap, limit, counts);
}

unsigned long walk_converting(const float *sizes, unsigned long n, float gap, walk_limit limit, unsigned *counts) {
    return sum_of(sizes, n, gap) > most ? 0 : walk<Sixtyfourths>(sizes, n, gap, limit, counts);
}

unsigned long walk_swept(const float *sizes, unsigned long n, float gap, walk_limit limit, unsigned *counts) {
    return n > 256 ? swept<1024>(sizes, n, gap, limit, counts) : swept<256>(sizes, n, gap, limit, counts);
}
