// Way 2's sideways move, level by level. It adds an entering column's counts and guide sums to the window's
// and takes a leaving column's away in one pass over the levels, so its time grows with the level count:
// what more levels cost, divided by their number, is the time of one level.
#pragma once
#include "contest.hpp"
#include "text.hpp"

namespace bench {

struct Sideways {
    static constexpr int FEW = 256, MANY = 1024, RADIUS = 2;
    static constexpr size_t MOVES = 262144;

    // Nanoseconds a move with few levels and with many.
    struct Times {
        double few = NOT_TIMED, many = NOT_TIMED;

        double a_level() const { return many == NOT_TIMED ? NOT_TIMED : (many - few) / (MANY - FEW); }
    };
    Times library, yardstick;
};

// A flat guide makes every window monotone and values that hardly change keep the search short, so that
// little of a move is left beside the pass.
inline Frame calm(int width, int levels) {
    Frame frame({width, Sideways::RADIUS + 1, levels, 256, GUIDED, Sideways::RADIUS, 64});
    for (size_t p = 0; p < frame.pixels(); p++) {
        frame.values.set(p, uint32_t(p % size_t(width) / 16 % 2));
        frame.guide.set(p, 128);
    }
    return frame;
}

// To the row's end and back, again and again.
inline std::vector<uint8_t> to_and_fro(int width) {
    std::vector<uint8_t> moves(Sideways::MOVES);
    for (size_t i = 0; i < moves.size(); i++) moves[i] = i / size_t(width - 1) % 2 ? LEFT : RIGHT;
    return moves;
}

inline Sideways measure_sideways(int width) {
    const Frame few = calm(width, Sideways::FEW), many = calm(width, Sideways::MANY);
    const std::vector<uint8_t> moves = to_and_fro(width);
    Library of_few(COLUMNS, few, moves.size()), of_many(COLUMNS, many, moves.size());
    auto turn = [&](const Frame &frame, Library &library, double &library_time, double &yardstick_time) {
        Walk walk;
        keep_best(yardstick_time, moves.size(), [&] { walk = by_yardstick(COLUMNS, frame, moves); });
        if (!Library::LINKED) return;
        keep_best(library_time, moves.size(), [&] { library.walk(moves); });
        library.compare(walk, "sideways moves");
    };
    Sideways times;
    for (int round = 0; round < ROUNDS; round++) {
        turn(few, of_few, times.library.few, times.yardstick.few);
        turn(many, of_many, times.library.many, times.yardstick.many);
    }
    return times;
}

inline void print_sideways(int width, const Sideways &times) {
    std::printf("| %d |", width);
    for (const Sideways::Times &side : {times.library, times.yardstick})
        std::printf(" %s | %s | %s |", number("%.0f", side.few).c_str(), number("%.0f", side.many).c_str(),
                    number("%.3f", side.a_level()).c_str());
    std::printf(" %s |\n", ratio(times.library.a_level(), times.yardstick.a_level()).c_str());
}

// A narrow picture, whose columns stay near the processor, and the widest, whose columns do not.
inline void print_all_sideways() {
    constexpr int FEW = Sideways::FEW, MANY = Sideways::MANY;
    std::printf("\n## Columns: time per level of a sideways move\n\n"
                "Nanoseconds a move over %zu moves right and left along one row, flat guide, r %d. "
                "A level is the difference / %d.\n\n"
                "| columns of the picture | library, L %d | L %d | a level | C++, L %d | L %d | a level "
                "| library / C++, a level |\n"
                "|---|---|---|---|---|---|---|---|\n",
                Sideways::MOVES, Sideways::RADIUS, MANY - FEW, FEW, MANY, FEW, MANY);
    for (int width : {64, 1024}) print_sideways(width, measure_sideways(width));
}

}  // namespace bench
