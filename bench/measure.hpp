// Times several sides on the same lists. A shared machine drifts by a factor of two within a second. So the lists go by
// in small chunks, every side is timed on a chunk before the next, all chunks are repeated many times, and of each
// chunk and side the least time counts, or another part of the times in order.
#ifndef MEASURE_HPP
#define MEASURE_HPP

#include <algorithm>
#include <chrono>
#include <cmath>
#include <functional>
#include <vector>

constexpr std::size_t chunk = 4;

using Side = std::function<void(std::size_t)>;

// For each side, nanoseconds for one list: of each chunk the least time, or the median where `part` is 0.5, summed.
inline std::vector<double> measure(std::size_t lists, int repetitions, const std::vector<Side> &sides,
                                   double part = 0.0) {
    std::vector<double> sum(sides.size(), 0.0);
    for (std::size_t from = 0; from < lists; from += chunk) {
        const std::size_t to = std::min(lists, from + chunk);
        std::vector<std::vector<double>> times(sides.size());
        for (int r = 0; r < repetitions; r++)
            for (std::size_t s = 0; s < sides.size(); s++) {
                const auto before = std::chrono::steady_clock::now();
                for (std::size_t i = from; i < to; i++) sides[s](i);
                const std::chrono::duration<double, std::nano> took = std::chrono::steady_clock::now() - before;
                times[s].push_back(took.count());
            }
        for (std::size_t s = 0; s < sides.size(); s++) {
            std::sort(times[s].begin(), times[s].end());
            sum[s] += times[s][std::size_t(part * double(repetitions))];
        }
    }
    for (double &s : sum) s /= double(lists);
    return sum;
}

#endif
