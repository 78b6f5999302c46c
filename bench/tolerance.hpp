// A frame with upper levels beside a filter of the same frame: the library filters twice, and reads one plane more.
#pragma once
#include "contest.hpp"
#include "text.hpp"

namespace bench {

struct Tolerance {
    Picture picture;
    Contest contest;
    Settings k;
    double filter = NOT_TIMED, tolerance = NOT_TIMED;  // nanoseconds a pixel

    double times() const { return tolerance == NOT_TIMED ? NOT_TIMED : tolerance / filter; }
};
using Tolerances = std::vector<Tolerance>;

// Times both calls on one frame, in turns, and holds both planes and counts against the C++.
inline Tolerance measure_tolerance(Picture picture, Contest contest, Settings k) {
    k.kind = kind_of(contest);
    Tolerance times{picture, contest, k};
    if (!Library::LINKED) return times;
    Frame frame = drawn(picture, k);
    if (contest == JOINT_OWN) frame.own_table();
    std::vector<uint8_t> moves = serpentine(k);
    Walk lower = by_yardstick(contest, frame, moves), upper = by_yardstick(contest, raised(frame), moves);
    Library library(contest, frame);
    for (int round = 0; round < ROUNDS; round++) {
        keep_best(times.filter, frame.pixels(), [&] { library.filter(); });
        library.compare(lower, NAMES[contest]);
        keep_best(times.tolerance, frame.pixels(), [&] { library.tolerance(); });
        library.compare(lower, NAMES[contest]);
        library.compare_plane(lower, NAMES[contest]);
        library.compare_greatest(upper, NAMES[contest]);
    }
    return times;
}

inline Tolerances measure_all_tolerances(bool quick) {
    Tolerances all;
    for (Picture picture : {ICE, NOISE})
        for (Contest contest : {JOINT_TABLE, JOINT_OWN})
            for (auto [radius, levels] : {std::pair{3, 256}, std::pair{15, 256}, std::pair{7, 1024}}) {
                if (quick && levels == 1024) continue;
                all.push_back(measure_tolerance(picture, contest, {512, 128, levels, 256, TABLE, radius, 0}));
            }
    return all;
}

// Geometric mean over the frames of one picture and contest.
inline double mean_tolerance(const Tolerances &all, Picture picture, Contest contest) {
    double sum = 0;
    int count = 0;
    for (const Tolerance &one : all)
        if (one.picture == picture && one.contest == contest && one.times() != NOT_TIMED) sum += std::log(one.times()), count++;
    return count ? std::exp(sum / count) : NOT_TIMED;
}

inline void print_tolerances(const Tolerances &all) {
    std::printf("\n## Tolerance over filter (joint, same frame)\n\n"
                "Nanoseconds a pixel, 512x128. The upper levels are a hundredth of the level count above the readings, and at "
                "most the last level. Both planes are compared with the C++.\n\n"
                "| frame | way | r | L | filter | tolerance | tolerance / filter |\n|---|---|---|---|---|---|---|\n");
    for (const Tolerance &one : all)
        std::printf("| %s | %s | %d | %d | %s | %s | %s |\n", PICTURE_NAMES[one.picture], NAMES[one.contest], one.k.radius,
                    one.k.levels, number("%.0f", one.filter).c_str(), number("%.0f", one.tolerance).c_str(),
                    number("%.2f", one.times()).c_str());
}

}  // namespace bench
