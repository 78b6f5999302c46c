// The contestants, the proved library and the yardstick in the same contests, and the clock.
#pragma once
#include "../include/icemedian.h"
#include "yardstick.hpp"
#include <cstdio>
#include <ctime>
#include <functional>

namespace bench {

// What is timed: a way and a kind, and in kind 1 the built-in weights or a table of the file's own. The
// library and the yardstick both have all of them.
enum Contest { JOINT_TABLE, JOINT_OWN, JOINT_GUIDED, COLUMNS, CHAIN, COARSE_TABLE, COARSE_GUIDED, CONTESTS };
inline constexpr const char *NAMES[CONTESTS] = {"joint, kind 1", "joint, own table", "joint, kind 2", "columns",
                                                "chain",         "coarse, kind 1",   "coarse, kind 2"};
inline Kind kind_of(int contest) {
    return contest == JOINT_TABLE || contest == JOINT_OWN || contest == COARSE_TABLE ? TABLE : GUIDED;
}
inline bool is_coarse(int contest) { return contest == COARSE_TABLE || contest == COARSE_GUIDED; }
inline const char *weights_of(Contest contest) {
    return contest == JOINT_OWN ? "own table" : kind_of(contest) == TABLE ? "kind 1" : "kind 2";
}
// Cameras are filtered by way 1.
inline bool is_joint(Contest contest) { return contest == JOINT_TABLE || contest == JOINT_OWN || contest == JOINT_GUIDED; }
// A tolerance is by way 1 and of kind 1.
inline bool has_tolerance(Contest contest) { return contest == JOINT_TABLE || contest == JOINT_OWN; }
// Ice of the contest's kind and with its table, of which so many pixels of a hundred are dead.
inline Frame ice_for(Contest contest, Settings k, uint32_t dead_percent, uint64_t seed = 1) {
    k.kind = kind_of(contest);
    Frame frame = ice(k, seed);
    if (contest == JOINT_OWN) frame.own_table();
    kill(frame, dead_percent);
    return frame;
}
inline constexpr double NOT_TIMED = 0;
inline double quotient(double a, double b) { return a == NOT_TIMED || b == NOT_TIMED ? NOT_TIMED : a / b; }
// Every contestant has so many turns, and its best counts.
inline constexpr int ROUNDS = 6;

// Processor time of this thread: all contestants run on it alone, and what the machine does for others
// between is not theirs.
inline double now() {
    timespec time;
    clock_gettime(CLOCK_THREAD_CPUTIME_ID, &time);
    return double(time.tv_sec) + 1e-9 * double(time.tv_nsec);
}

// Keeps the best time of a run of `parts` pixels or moves, in nanoseconds for each.
inline void keep_best(double &best, size_t parts, const std::function<void()> &run) {
    double start = now();
    run();
    double time = (now() - start) * 1e9 / double(parts);
    if (best == NOT_TIMED || time < best) best = time;
}

// The same over many calls, where one is too short to be timed by itself: nanoseconds for each part of a call.
inline void keep_best_of(double &best, size_t calls, size_t parts, const std::function<void()> &call) {
    keep_best(best, calls * parts, [&] {
        for (size_t i = 0; i < calls; i++) call();
    });
}

// The yardstick's walk from the first pixel.
inline Walk by_yardstick(Contest contest, const Frame &frame, const std::vector<uint8_t> &moves) {
    auto with = [&](auto way) { return walk(way, frame, 0, 0, moves); };
    if (contest == COLUMNS) return with(Columns(frame));
    if (contest == CHAIN) return with(Chain(frame));
    if (!is_coarse(contest)) return with(Joint(frame));
    Coarse coarse(frame);
    Walk made = walk<by_blocks>(coarse, frame, 0, 0, moves);
    coarse.summarise();
    return made;
}

// No frame of the benchmark is one to refuse.
inline void accept(uint32_t status) {
    if (status != 0) std::printf("the library refused a frame: %u\n", unsigned(status)), std::exit(1);
}

// What the library gives as the grounds of a pixel's level.
struct Explanation {
    size_t pixels;
    int64_t total, below, reached;
    uint32_t cause;
    uint16_t level;
};

// A frame as the writer takes it: planes and table of 16-bit numbers, the table empty for the built-in weights.
struct Planes {
    std::vector<uint16_t> values, guide, table;

    explicit Planes(const Frame &frame) : values(frame.pixels()), guide(frame.pixels()) {
        for (size_t p = 0; p < frame.pixels(); p++) values[p] = uint16_t(frame.values[p]), guide[p] = uint16_t(frame.guide[p]);
        if (!frame.built_in) table = frame.table;
    }
};

// The library's calls with their buffers, which a caller makes once and uses for many frames.
class Library {
  public:
#ifdef WITH_LIBRARY
    static constexpr bool LINKED = true;
#else
    static constexpr bool LINKED = false;
#endif
    uint64_t shifts = 0, greatest_shifts = 0;

    Library(Contest contest, const Frame &frame, size_t longest_walk = 0)
        : k(frame), planes(frame), file(file_of(frame)), written(file.size()), way(way_of(contest)),
          output(std::max(frame.pixels(), ICEMEDIAN_ANSWERS_LENGTH(longest_walk))) {
        bool joint = way == ICEMEDIAN_JOINT || way == ICEMEDIAN_COARSE;
        if (joint) counts.resize(ICEMEDIAN_COUNTS_LENGTH(frame.levels, frame.guides));
        if (joint) words.resize(ICEMEDIAN_WORDS_LENGTH(frame.levels, frame.guides));
        if (way == ICEMEDIAN_COARSE) summary.resize(ICEMEDIAN_SUMMARY_LENGTH(frame.levels));
        if (way == ICEMEDIAN_COLUMNS) numbers.resize(ICEMEDIAN_COLUMNS_LENGTH(frame.width, frame.levels));
        if (way == ICEMEDIAN_CHAIN) numbers.resize(ICEMEDIAN_CHAIN_LENGTH(frame.radius));
        if (!has_tolerance(contest)) return;
        upper = Planes(raised(frame)).values;
        greatest.resize(frame.pixels());
    }
    void filter() {
#ifdef WITH_LIBRARY
        uint64_t offset;
        accept(icemedian_filter(file.data(), file.size(), way, counts.data(), counts.size(), words.data(), words.size(),
                                numbers.data(), numbers.size(), summary.data(), summary.size(), output.data(),
                                output.size(), &shifts, &offset));
#endif
    }
    // The frame and its upper levels, with the least answers where a filter has its own.
    void tolerance() {
#ifdef WITH_LIBRARY
        uint64_t offset;
        accept(icemedian_tolerance(file.data(), file.size(), upper.data(), upper.size(), counts.data(), counts.size(),
                                   words.data(), words.size(), output.data(), output.size(), greatest.data(),
                                   greatest.size(), &shifts, &greatest_shifts, &offset));
#endif
    }
    // From the first pixel.
    void walk([[maybe_unused]] const std::vector<uint8_t> &moves) {
#ifdef WITH_LIBRARY
        uint64_t offset;
        uint16_t cut;
        int16_t box[ICEMEDIAN_BOX_LENGTH];
        accept(icemedian_walk(file.data(), file.size(), way, 0, 0, moves.data(), moves.size(), counts.data(), counts.size(),
                              words.data(), words.size(), numbers.data(), numbers.size(), summary.data(), summary.size(),
                              output.data(), output.size(), &shifts, &cut, box, &offset));
#endif
    }
    void check() {
#ifdef WITH_LIBRARY
        uint64_t offset;
        accept(icemedian_check(file.data(), file.size(), &offset));
#endif
    }
    int64_t balance([[maybe_unused]] size_t column, [[maybe_unused]] size_t row, [[maybe_unused]] uint32_t level) {
        int64_t balance = 0;
#ifdef WITH_LIBRARY
        uint64_t offset;
        accept(icemedian_balance(file.data(), file.size(), column, row, level, &balance, &offset));
#endif
        return balance;
    }
    Explanation explain([[maybe_unused]] size_t column, [[maybe_unused]] size_t row) {
        Explanation why{};
#ifdef WITH_LIBRARY
        uint64_t offset;
        accept(icemedian_explain(file.data(), file.size(), column, row, &why.pixels, &why.total, &why.level, &why.below,
                                 &why.reached, &why.cause, &offset));
#endif
        return why;
    }
    // Writes the frame, to a buffer of its own.
    void write() {
#ifdef WITH_LIBRARY
        uint64_t offset;
        size_t length;
        auto wide = [](int number) { return uint32_t(number); };
        const auto &[values, guide, table] = planes;
        accept(icemedian_write(wide(k.width), wide(k.height), wide(k.levels), wide(k.guides), wide(k.kind), wide(k.radius),
                               wide(k.smoothing), values.data(), values.size(), guide.data(), guide.size(), table.data(),
                               table.size(), written.data(), written.size(), &length, &offset));
#endif
    }
    const std::vector<uint8_t> &last_written() const { return written; }
    // A file split into byte planes, and such a file joined, in buffers of the caller.
    static void split([[maybe_unused]] const std::vector<uint8_t> &from, [[maybe_unused]] std::vector<uint8_t> &to) {
#ifdef WITH_LIBRARY
        uint64_t offset;
        accept(icemedian_split(from.data(), from.size(), to.data(), to.size(), &offset));
#endif
    }
    static void join([[maybe_unused]] const std::vector<uint8_t> &from, [[maybe_unused]] std::vector<uint8_t> &to) {
#ifdef WITH_LIBRARY
        accept(icemedian_join(from.data(), from.size(), to.data(), to.size()));
#endif
    }
    // The same of the frame's own file: one that is not split is rearranged by a join all the same.
    void split() { split(file, written); }
    void join() { join(file, written); }
    // The contestants must have done the same work.
    void compare(const Walk &yardstick, const char *name) const {
        if (shifts != yardstick.shifts) std::printf("shift counts differ: %s\n", name), std::exit(1);
    }
    // The same of a filter's plane, which a shift count says nothing of where no window has a reading.
    void compare_plane(const Walk &yardstick, const char *name) const { compare_answers(output, yardstick, name); }
    // Of the upper levels, their plane and their count.
    void compare_greatest(const Walk &yardstick, const char *name) const {
        if (greatest_shifts != yardstick.shifts) std::printf("upper shift counts differ: %s\n", name), std::exit(1);
        compare_answers(greatest, yardstick, name);
    }
    // Way 1's stores as the last call left them, behind those of other frames.
    void add_stores(std::vector<uint16_t> &all_counts, std::vector<uint64_t> &all_words) const {
        all_counts.insert(all_counts.end(), counts.begin(), counts.end());
        all_words.insert(all_words.end(), words.begin(), words.end());
    }
    // The bytes of the stores that the way needs.
    size_t store_bytes() const {
        return counts.size() * sizeof counts[0] + words.size() * sizeof words[0] + numbers.size() * sizeof numbers[0] +
               summary.size() * sizeof summary[0];
    }

  private:
    Settings k;
    Planes planes;
    std::vector<uint8_t> file, written;
    uint32_t way;
    std::vector<uint16_t> counts, output, upper, greatest;
    std::vector<uint64_t> words;
    std::vector<uint32_t> numbers;
    std::vector<int64_t> summary;

    void compare_answers(const std::vector<uint16_t> &plane, const Walk &yardstick, const char *name) const {
        const size_t width = size_t(k.width);
        for (size_t p = 0; p < yardstick.answers.size(); p++) {
            size_t row = p / width, column = p % width, turn = row % 2 ? width - 1 - column : column;
            if (plane[p] != yardstick.answers[row * width + turn])
                std::printf("answers differ: %s, pixel %zu\n", name, p), std::exit(1);
        }
    }
    static uint32_t way_of(Contest contest) {
        if (is_coarse(contest)) return ICEMEDIAN_COARSE;
        return contest == COLUMNS ? ICEMEDIAN_COLUMNS : contest == CHAIN ? ICEMEDIAN_CHAIN : ICEMEDIAN_JOINT;
    }
};

}  // namespace bench
