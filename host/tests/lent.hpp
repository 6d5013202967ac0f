// Lists to lend, each with canary cells round it or right beside a page that nobody may touch: a read or store past a
// list is seen.
#ifndef LENT_HPP
#define LENT_HPP

#include <sys/mman.h>
#include <unistd.h>

#include <cstdint>
#include <cstdio>
#include <cstdlib>
#include <cstring>
#include <random>
#include <vector>

enum class Stand { between_canaries, before_a_page, after_a_page };

// Bits for cells before a call: any pattern, a NaN as well as a number.
inline std::mt19937_64 dirt;

template <class T>
class Lent {
public:
    static constexpr std::size_t margin = 32;

    explicit Lent(std::size_t most) {
        const std::size_t page = std::size_t(sysconf(_SC_PAGESIZE));
        const std::size_t room = (most + 2 * margin) * sizeof(T), whole = (room + page - 1) / page * page;
        char *all = static_cast<char *>(mmap(nullptr, whole + 2 * page, PROT_NONE, MAP_PRIVATE | MAP_ANONYMOUS, -1, 0));
        if (all == MAP_FAILED || mprotect(all + page, whole, PROT_READ | PROT_WRITE)) {
            std::perror("mmap");
            std::exit(2);
        }
        first_ = reinterpret_cast<T *>(all + page);
        cells_ = whole / sizeof(T);
    }
    Lent(const Lent &) = delete;

    // A list of this many cells, any bits in it and beside it.
    void lend(std::size_t size, Stand stand) {
        size_ = size;
        at_ = stand == Stand::between_canaries ? margin : stand == Stand::after_a_page ? 0 : cells_ - size;
        from_ = at_ < margin ? 0 : at_ - margin;
        to_ = at_ + size + margin > cells_ ? cells_ : at_ + size + margin;
        for (std::size_t i = from_; i < to_; i++) {
            const uint64_t any = dirt();
            std::memcpy(first_ + i, &any, sizeof(T));
        }
        before_.assign(first_ + from_, first_ + to_);
    }
    void lend(const std::vector<T> &values, Stand stand) {
        lend(values.size(), stand);
        if (!values.empty()) std::memcpy(first_ + at_, values.data(), values.size() * sizeof(T));
        before_.assign(first_ + from_, first_ + to_);
    }

    T *data() const { return first_ + at_; }
    std::size_t size() const { return size_; }

    // Whether all cells from `from` on, and the canaries on both sides, hold the bits of before.
    bool kept_from(std::size_t from) const {
        const std::size_t head = at_ - from_, tail = head + from;
        return same(0, head) && same(tail, to_ - from_);
    }
    bool kept() const { return kept_from(0); }
    bool zero_up_to(std::size_t end) const {
        static const T zero{};
        for (std::size_t i = 0; i < end; i++)
            if (std::memcmp(data() + i, &zero, sizeof(T))) return false;
        return true;
    }

private:
    bool same(std::size_t from, std::size_t to) const {
        return from >= to || !std::memcmp(first_ + from_ + from, before_.data() + from, (to - from) * sizeof(T));
    }

    T *first_;
    std::size_t cells_, at_ = 0, size_ = 0, from_ = 0, to_ = 0;
    std::vector<T> before_;
};

#endif
