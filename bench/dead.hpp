// Frames with dead pixels beside the same frames without: what passing over them costs, and that a frame without a reading
// takes no longer than one of readings.
#pragma once
#include "contest.hpp"
#include "text.hpp"

namespace bench {

// So many pixels of a hundred are dead; the first part is the ordinary frame.
inline constexpr uint32_t DEAD_PARTS[] = {0, 1, 10, 100};
inline constexpr size_t PARTS = std::size(DEAD_PARTS);
inline constexpr size_t LAST_PART = PARTS - 1;

struct Dead {
    Contest contest;
    Settings k;
    double library[PARTS] = {}, yardstick[PARTS] = {};  // nanoseconds a pixel

    // The library's time with that part dead, over that of the ordinary frame and over the C++'s.
    double over_ordinary(size_t part) const { return quotient(library[part], library[0]); }
    double over_yardstick(size_t part) const { return quotient(library[part], yardstick[part]); }
};
using AllDead = std::vector<Dead>;

inline Dead measure_dead(Contest contest, Settings k) {
    k.kind = kind_of(contest);
    Dead times{contest, k, {}, {}};
    std::vector<uint8_t> moves = serpentine(k);
    std::vector<Frame> frames;
    std::vector<Library> libraries;
    for (uint32_t percent : DEAD_PARTS) {
        frames.push_back(ice_for(contest, k, percent));
        libraries.emplace_back(contest, frames.back());
    }
    for (int round = 0; round < ROUNDS; round++)
        for (size_t part = 0; part < PARTS; part++) {
            Walk walk;
            keep_best(times.yardstick[part], frames[part].pixels(),
                      [&] { walk = by_yardstick(contest, frames[part], moves); });
            if (!Library::LINKED) continue;
            keep_best(times.library[part], frames[part].pixels(), [&] { libraries[part].filter(); });
            libraries[part].compare(walk, NAMES[contest]);
            libraries[part].compare_plane(walk, NAMES[contest]);
        }
    return times;
}

inline AllDead measure_all_dead(bool quick) {
    AllDead all;
    for (int c = 0; c < CONTESTS; c++)
        for (auto [radius, levels] : {std::pair{3, 256}, std::pair{15, 256}, std::pair{7, 1024}}) {
            if (quick && levels == 1024) continue;
            all.push_back(measure_dead(Contest(c), {512, 128, levels, 256, GUIDED, radius, 64}));
        }
    return all;
}

// Geometric mean of a ratio over the frames of one contest.
inline double mean_dead(const AllDead &all, int contest, const std::function<double(const Dead &)> &ratio) {
    double sum = 0;
    int count = 0;
    for (const Dead &one : all)
        if (double r = ratio(one); one.contest == contest && r != NOT_TIMED) sum += std::log(r), count++;
    return count ? std::exp(sum / count) : NOT_TIMED;
}

inline void print_dead(const AllDead &all) {
    std::printf("\n## Frames with dead pixels\n\n"
                "Nanoseconds a pixel (library, then C++), 512x128 ice, of which so many pixels of a hundred have no reading, by "
                "chance. The last columns are the library's time over its own on the frame without dead pixels.\n\n"
                "| way | r | L |");
    for (uint32_t percent : DEAD_PARTS) std::printf(" %u %% | C++ |", unsigned(percent));
    for (size_t part = 1; part < PARTS; part++) std::printf(" %u %% / 0 %% |", unsigned(DEAD_PARTS[part]));
    std::printf("\n|---|---|---|");
    for (size_t column = 0; column < 3 * PARTS - 1; column++) std::printf("---|");
    std::printf("\n");
    for (const Dead &one : all) {
        std::printf("| %s | %d | %d |", NAMES[one.contest], one.k.radius, one.k.levels);
        for (size_t part = 0; part < PARTS; part++)
            std::printf(" %s | %s |", number("%.0f", one.library[part]).c_str(), number("%.0f", one.yardstick[part]).c_str());
        for (size_t part = 1; part < PARTS; part++) std::printf(" %s |", number("%.2f", one.over_ordinary(part)).c_str());
        std::printf("\n");
    }
}

}  // namespace bench
