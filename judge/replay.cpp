// replay FILE: our answers beside the sample of the Rust's answers that the repository carries; no Rust is needed.
// Every difference must be the listed one that the sample names.
// replay FILE names: writes the sample again, each difference named as it is now; the cases and the Rust's answers
// stay.
#include <cstdio>
#include <fstream>

#include "ours.hpp"
#include "rust_ways.hpp"

int main(int argc, char **argv) {
    std::ifstream file(argc > 1 ? argv[1] : "judge/answers.txt");
    if (!file) return std::printf("replay: no sample\n"), 2;
    const bool naming = argc > 2;
    long equal = 0, differ = 0, bad = 0, number = 0, stages[stage_count] = {};
    for (std::string line; std::getline(file, line);) {
        number++;
        const std::size_t hash = line.find('#');
        if (hash == 0) {
            if (naming) std::printf("%s\n", line.c_str());
            continue;
        }
        Case c{};
        Answer rust;
        if (!read_case(line.substr(0, hash), c, rust)) return std::printf("replay: line %ld is none\n", number), 2;
        stages[int(c.stage)]++;
        const ours::Told us = ours::answer(c);
        const bool is_equal = us.number == 0 && same(us.answer, rust);
        const uint32_t set = is_equal ? 0 : us.number ? ways::unexplained : ways::explanation(c, rust);
        const bool is_explained = set != ways::unexplained && same(us.answer, ways::answer(0, c));
        if (naming && is_explained) line = ways::sample_line(c, rust, set), std::printf("%s\n", line.c_str());
        if (!is_explained || line != ways::sample_line(c, rust, set)) {
            if (++bad <= 10)
                std::fprintf(stderr, "DIFFERS, line %ld: %s\n  number %u, %s\n", number, line.c_str(), us.number,
                             text_of(us.answer).c_str());
            continue;
        }
        (is_equal ? equal : differ)++;
    }
    for (int s = 0; s < stage_count; s++)
        if (!stages[s]) bad++, std::fprintf(stderr, "replay: no case of %s\n", stage_names[s]);
    std::fprintf(naming ? stderr : stdout,
                 "replay: %ld of the Rust's answers equal, %ld differ as listed, %ld otherwise\n", equal, differ, bad);
    return bad ? 1 : 0;
}
