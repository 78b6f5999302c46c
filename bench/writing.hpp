// Writing a frame beside plain loops that make the same checks of the planes and store the same bytes.
#pragma once
#include "below.hpp"
#include "contest.hpp"
#include "text.hpp"

namespace bench {

inline uint8_t *stored(const std::vector<uint16_t> &from, uint8_t *__restrict__ output) {
    const uint16_t *__restrict__ numbers = from.data();
    for (size_t p = 0; p < from.size(); p++) {
        output[2 * p] = uint8_t(numbers[p] >> 8);
        output[2 * p + 1] = uint8_t(numbers[p]);
    }
    return output + 2 * from.size();
}

// A call of its own, as the library's is. Both planes are checked before a byte is stored, because a refusal leaves the
// output as it was.
template <Search SEARCH>
[[gnu::noinline]] bool write_plainly(const Settings &k, const Planes &planes, uint8_t *output) {
    if (!below_limits<SEARCH>(k, planes.values, planes.guide)) return false;
    stored(planes.table, stored(planes.guide, stored(planes.values, output)));
    return true;
}

struct Writing {
    const char *weights;
    double library = NOT_TIMED, one_by_one = NOT_TIMED, by_the_largest = NOT_TIMED;  // nanoseconds a pixel

    double plain() const { return std::min(one_by_one, by_the_largest); }
    double times() const { return library == NOT_TIMED ? NOT_TIMED : library / plain(); }
};
using Written = std::vector<Writing>;

// Times all on one frame, in turns of many calls each.
inline Writing measure_writing(const char *weights, Contest contest, const Settings &k, uint32_t dead_percent = 0) {
    Frame frame = ice_for(contest, k, dead_percent);
    Writing times{weights};
    Library library(contest, frame);
    Planes planes(frame);
    std::vector<uint8_t> file = file_of(frame), plain(file.size() - 28);
    bool same = true;
    auto turn = [&](double &best, auto call) { keep_best_of(best, 20, frame.pixels(), call); };
    auto plain_turn = [&](double &best, auto write) {
        std::fill(plain.begin(), plain.end(), 0);
        turn(best, [&] { same &= write(k, planes, plain.data()); });
        same &= std::equal(plain.begin(), plain.end(), file.begin());
    };
    for (int round = 0; round < ROUNDS; round++) {
        plain_turn(times.one_by_one, write_plainly<ONE_BY_ONE>);
        plain_turn(times.by_the_largest, write_plainly<BY_THE_LARGEST>);
        if (Library::LINKED) turn(times.library, [&] { library.write(); });
    }
    if (!same || (Library::LINKED && library.last_written() != file))
        std::printf("written bytes differ: %s\n", weights), std::exit(1);
    return times;
}

inline Written measure_all_writing() {
    Settings k{1024, 256, 1024, 256, GUIDED, 7, 64};
    return {measure_writing("kind 2", JOINT_GUIDED, k), measure_writing("own table", JOINT_OWN, k),
            measure_writing("kind 2, 10 % dead pixels", JOINT_GUIDED, k, 10)};
}

inline void print_writing(const Written &all) {
    std::printf("\n## Writing a frame beside plain loops\n\n"
                "Nanoseconds a pixel, 1024x256 ice, 1,024 levels, 256 guides. The plain loops, in C++, check that the numbers of "
                "both planes are below their limits, but for values of 65,535, one by one or by the largest, and then store "
                "planes and table, high byte first. The ratio is to the faster of the two.\n\n"
                "| weights | library | plain, one by one | plain, by the largest | library / plain |\n|---|---|---|---|---|\n");
    for (const Writing &one : all)
        std::printf("| %s | %s | %s | %s | %s |\n", one.weights, number("%.2f", one.library).c_str(),
                    number("%.2f", one.one_by_one).c_str(), number("%.2f", one.by_the_largest).c_str(),
                    number("%.2f", one.times()).c_str());
}

}  // namespace bench
