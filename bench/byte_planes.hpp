// Splitting a frame's value plane into byte planes and joining them again, beside plain loops over the same bytes. A split
// makes check 7 as well, so beside it there are a loop that only moves bytes and loops that check the numbers before.
#pragma once
#include "below.hpp"
#include "contest.hpp"
#include "text.hpp"

namespace bench {

using File = std::vector<uint8_t>;

// The benchmark's files begin with the value plane. What follows it is copied.
inline void copy_behind(const Settings &k, const File &from, File &to) {
    const size_t plane = 2 * k.pixels();
    std::memcpy(to.data() + plane, from.data() + plane, from.size() - plane);
}

inline void move_apart(const Settings &k, const File &from, File &to) {
    const size_t pixels = k.pixels();
    const uint8_t *__restrict__ numbers = from.data();
    uint8_t *__restrict__ high = to.data();
    uint8_t *__restrict__ low = to.data() + pixels;
    for (size_t p = 0; p < pixels; p++) {
        high[p] = numbers[2 * p];
        low[p] = numbers[2 * p + 1];
    }
    copy_behind(k, from, to);
}

// Calls of their own, as the library's are.
[[gnu::noinline]] inline void split_plainly(const Settings &k, const File &from, File &to) { move_apart(k, from, to); }
template <Search SEARCH> [[gnu::noinline]] void check_and_split(const Settings &k, const File &from, File &to) {
    const size_t pixels = k.pixels();
    const InFile values{from.data(), pixels}, guide{from.data() + 2 * pixels, pixels};
    if (below_limits<SEARCH>(k, values, guide)) move_apart(k, from, to);
}
[[gnu::noinline]] inline void join_plainly(const Settings &k, const File &from, File &to) {
    const size_t pixels = k.pixels();
    const uint8_t *__restrict__ high = from.data();
    const uint8_t *__restrict__ low = from.data() + pixels;
    uint8_t *__restrict__ numbers = to.data();
    for (size_t p = 0; p < pixels; p++) {
        numbers[2 * p] = high[p];
        numbers[2 * p + 1] = low[p];
    }
    copy_behind(k, from, to);
}

// Nanoseconds a pixel.
struct BytePlanes {
    const char *frame;
    size_t pixels;
    double split = NOT_TIMED, join = NOT_TIMED;                 // the library
    double plain_split = NOT_TIMED, plain_join = NOT_TIMED;     // bytes moved, and nothing else
    double one_by_one = NOT_TIMED, by_the_largest = NOT_TIMED;  // numbers checked so, then bytes moved

    double split_times() const { return quotient(split, plain_split); }
    double join_times() const { return quotient(join, plain_join); }
    double checked_times() const { return quotient(split, std::min(one_by_one, by_the_largest)); }
};
using AllBytePlanes = std::vector<BytePlanes>;

// Times all on one frame, in turns of many calls each, in the same buffers.
inline BytePlanes measure_byte_planes(const char *name, Contest contest, const Settings &k, uint32_t dead_percent = 0) {
    const Frame frame = ice_for(contest, k, dead_percent);
    const File file = file_of(frame);
    File apart(file.size()), output(file.size());
    split_plainly(frame, file, apart);
    // A turn takes about as long whatever the frame's size is.
    const size_t calls = 20 * 262144 / frame.pixels();
    auto turn = [&](double &best, const File &from, const File &wanted, auto call) {
        std::fill(output.begin(), output.end(), 0);
        keep_best_of(best, calls, frame.pixels(), [&] { call(frame, from, output); });
        if (output != wanted) std::printf("byte planes differ: %s\n", name), std::exit(1);
    };
    BytePlanes times{name, frame.pixels()};
    for (int round = 0; round < ROUNDS; round++) {
        turn(times.plain_split, file, apart, split_plainly);
        turn(times.one_by_one, file, apart, check_and_split<ONE_BY_ONE>);
        turn(times.by_the_largest, file, apart, check_and_split<BY_THE_LARGEST>);
        turn(times.plain_join, apart, file, join_plainly);
        if (!Library::LINKED) continue;
        turn(times.split, file, apart, [](const Settings &, const File &from, File &to) { Library::split(from, to); });
        turn(times.join, apart, file, [](const Settings &, const File &from, File &to) { Library::join(from, to); });
    }
    return times;
}

inline AllBytePlanes measure_all_byte_planes() {
    Settings k{1024, 256, 1024, 256, GUIDED, 7, 64}, small = k;
    small.width = 64, small.height = 32;
    return {measure_byte_planes("kind 2", JOINT_GUIDED, k), measure_byte_planes("own table", JOINT_OWN, k),
            measure_byte_planes("kind 2, 10 % dead pixels", JOINT_GUIDED, k, 10),
            measure_byte_planes("kind 2, 64x32", JOINT_GUIDED, small)};
}

inline void print_byte_planes(const AllBytePlanes &all) {
    std::printf("\n## Byte planes beside plain loops\n\n"
                "Nanoseconds a pixel, ice, 1,024 levels, 256 guides; 1024x256 but for the last line. The plain loops, in C++, "
                "move the value plane's bytes and copy the rest. A split also checks the numbers of both planes: one plain "
                "loop only moves bytes, and the goals are held against it; two check first, one by one or by the largest, and "
                "the last ratio of a split, which shows what the check costs, is to the faster of them. A join checks no "
                "number. On the small frame no goal is held: there what a call costs whatever the frame's size is shows.\n\n"
                "| frame | split | plain, moved only | checked one by one | checked by the largest | split / moved only "
                "| split / checked | join | plain | join / plain |\n|---|---|---|---|---|---|---|---|---|---|\n");
    for (const BytePlanes &one : all) {
        std::printf("| %s |", one.frame);
        for (double time : {one.split, one.plain_split, one.one_by_one, one.by_the_largest})
            std::printf(" %s |", number("%.3f", time).c_str());
        std::printf(" %s | %s |", number("%.2f", one.split_times()).c_str(), number("%.2f", one.checked_times()).c_str());
        for (double time : {one.join, one.plain_join}) std::printf(" %s |", number("%.3f", time).c_str());
        std::printf(" %s |\n", number("%.2f", one.join_times()).c_str());
    }
}

}  // namespace bench
