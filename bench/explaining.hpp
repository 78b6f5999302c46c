// An explanation beside a balance of the same window. Both check the whole frame first, so the smallest frame that has
// such a window shows best what explaining takes more: the weights of all its levels instead of those on two sides.
#pragma once
#include "contest.hpp"
#include "text.hpp"

namespace bench {

struct Explaining {
    Contest contest;
    Settings k;
    uint32_t level;                                   // the answer
    double balance = NOT_TIMED, explain = NOT_TIMED;  // nanoseconds a call

    double times() const { return explain == NOT_TIMED ? NOT_TIMED : explain / balance; }
};
using Explained = std::vector<Explaining>;

// Eight of nine pixels have the level that is to be the answer, the others any, and one alone has it; the centre's guide
// is a middle one, so that in kind 2 no pixel weighs much more than another.
inline Frame with_answer(const Settings &k, uint32_t level) {
    Frame frame = noise(k);
    for (size_t p = 0; p < frame.pixels(); p++)
        if (p % 9 || frame.pixels() == 1) frame.values.set(p, level);
    frame.guide.set(frame.at(k.width / 2, k.height / 2), uint32_t(k.guides / 2));
    return frame;
}

// Times both calls at the centre, in turns of many calls each.
inline Explaining measure_explaining(Contest contest, Settings k, uint32_t level) {
    k.kind = kind_of(contest);
    Explaining times{contest, k, level};
    if (!Library::LINKED) return times;
    Frame frame = with_answer(k, level);
    if (contest == JOINT_OWN) frame.own_table();
    Library library(contest, frame);
    const size_t column = size_t(k.width / 2), row = size_t(k.height / 2), calls = 20 + 200000 / frame.pixels();
    Explanation why{};
    int64_t balance = 0;
    for (int round = 0; round < ROUNDS; round++) {
        keep_best_of(times.balance, calls, 1, [&] { balance = library.balance(column, row, level); });
        keep_best_of(times.explain, calls, 1, [&] { why = library.explain(column, row); });
    }
    // Both must have looked at the same window, with the answer that was meant.
    if (why.level != level || 2 * why.reached - why.total != balance)
        std::printf("an explanation differs from the balance: %s, r %d\n", weights_of(contest), k.radius), std::exit(1);
    return times;
}

inline Explained measure_all_explaining() {
    Explained all;
    for (Contest contest : {JOINT_TABLE, JOINT_OWN, JOINT_GUIDED})
        for (int radius : {0, 1, 7, 15})
            for (int guides : {2, 256})
                for (int level : {1, 1023}) {
                    int side = 2 * radius + 1;
                    all.push_back(measure_explaining(contest, {side, side, 1024, guides, TABLE, radius, 64}, uint32_t(level)));
                }
    all.push_back(measure_explaining(JOINT_TABLE, {1024, 256, 1024, 256, TABLE, 7, 64}, 1023));
    return all;
}

inline void print_explaining(const Explained &all) {
    std::printf("\n## An explanation beside a balance of the same window\n\n"
                "Nanoseconds a call with 1,024 levels, of the centre of a frame that has no pixel outside its window, but for "
                "the last line. The answer is near the lowest level or the last one.\n\n"
                "| weights | size | r | M | answer | balance | explanation | explanation / balance |\n"
                "|---|---|---|---|---|---|---|---|\n");
    for (const Explaining &one : all)
        std::printf("| %s | %s | %d | %d | %u | %s | %s | %s |\n", weights_of(one.contest), size_of(one.k).c_str(),
                    one.k.radius, one.k.guides, unsigned(one.level), number("%.0f", one.balance).c_str(),
                    number("%.0f", one.explain).c_str(), number("%.2f", one.times()).c_str());
}

}  // namespace bench
