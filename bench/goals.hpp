// The goals, each held against the times of the run.
#pragma once
#include "byte_planes.hpp"
#include "cameras.hpp"
#include "dead.hpp"
#include "explaining.hpp"
#include "rows.hpp"
#include "text.hpp"
#include "tolerance.hpp"
#include "writing.hpp"

namespace bench {

struct Goal {
    std::string what;
    enum { AT_LEAST, AT_MOST } side;
    double bound, seen;

    bool met() const { return side == AT_LEAST ? seen >= bound : seen <= bound; }
    // The part by which what was seen falls short of the bound or goes beyond it.
    double missed_by() const { return std::abs(seen / bound - 1); }

    void print() const {
        const char *than = side == AT_LEAST ? "at least" : "at most";
        std::printf("| %s: %s %g | %s |", what.c_str(), than, bound, number("%.2f", seen).c_str());
        if (seen == NOT_TIMED)
            std::printf(" not measured |\n");
        else if (met())
            std::printf(" met |\n");
        else
            std::printf(" missed by %.1f %% |\n", 100 * missed_by());
    }
};

inline std::string place(Picture picture) { return std::string(" on ") + PICTURE_NAMES[picture]; }

// The frame on which the joint way is slowest beside OpenCV.
inline Goal slowest(const Rows &rows) {
    const Row *least = nullptr;
    for (const Row &row : rows) {
        if (row.opencv == NOT_TIMED || row.over_opencv() == NOT_TIMED) continue;
        if (!least || row.over_opencv() < least->over_opencv()) least = &row;
    }
    Goal goal{"OpenCV's time / library's, joint, kind 1, every frame", Goal::AT_LEAST, 1.0, NOT_TIMED};
    if (!least) return goal;
    goal.seen = least->over_opencv();
    goal.what += " (least: " + std::string(least->name()) + " " + size_of(least->k) + ", r " +
                 std::to_string(least->k.radius) + ")";
    return goal;
}

// The window whose explanation takes longest beside its balance.
inline Goal longest(const Explained &all) {
    Goal goal{"explanation's time / balance's, every window", Goal::AT_MOST, 5, NOT_TIMED};
    auto shorter = [](const Explaining &one, const Explaining &other) { return one.times() < other.times(); };
    auto most = std::max_element(all.begin(), all.end(), shorter);
    if (most == all.end() || most->times() == NOT_TIMED) return goal;
    goal.seen = most->times();
    goal.what += std::string(" (most: ") + weights_of(most->contest) + " " + size_of(most->k) + ", M " +
                 std::to_string(most->k.guides) + ", answer " + std::to_string(most->level) + ")";
    return goal;
}

// Frames of dead pixels only beside ordinary ones, and the C++ beside the library where some are dead.
inline void add_dead_goals(const AllDead &all, std::vector<Goal> &goals) {
    for (int c = 0; c < CONTESTS; c++)
        goals.push_back({std::string("library's time, dead pixels only / none, ") + NAMES[c], Goal::AT_MOST, 1.0,
                         mean_dead(all, c, [](const Dead &one) { return one.over_ordinary(LAST_PART); })});
    for (int c = 0; c < CONTESTS; c++)
        for (size_t part = 1; part < LAST_PART; part++)
            goals.push_back({std::string("library's time / C++'s, ") + NAMES[c] + ", " + std::to_string(DEAD_PARTS[part]) +
                                 " % dead pixels",
                             Goal::AT_MOST, 1.15, mean_dead(all, c, [&](const Dead &one) { return one.over_yardstick(part); })});
}

// A filter of two planes beside one of the first.
inline void add_tolerance_goals(const Tolerances &all, std::vector<Goal> &goals) {
    for (Contest contest : {JOINT_TABLE, JOINT_OWN})
        for (Picture picture : {ICE, NOISE})
            goals.push_back({std::string("tolerance's time / filter's, ") + NAMES[contest] + "," + place(picture),
                             Goal::AT_MOST, 2.1, mean_tolerance(all, picture, contest)});
}

// Both calls beside loops that only move bytes. A small frame is there to show what a call costs whatever the size is.
inline void add_byte_planes_goals(const AllBytePlanes &all, std::vector<Goal> &goals) {
    for (const BytePlanes &one : all) {
        if (one.pixels < 262144) continue;
        goals.push_back({std::string("split's time / plain loop's, ") + one.frame, Goal::AT_MOST, 1.5, one.split_times()});
        goals.push_back({std::string("join's time / plain loop's, ") + one.frame, Goal::AT_MOST, 1.5, one.join_times()});
    }
}

// The frames on which a grant takes longest beside a pixel of their own filters.
inline Goal longest_grant(const Halls &all, size_t frames, Contest contest) {
    const std::string many = std::to_string(frames) + (frames == 1 ? " frame, " : " frames, ");
    Goal goal{"cameras' time / filters', " + many + weights_of(contest) + ", every row", Goal::AT_MOST, 1.4, NOT_TIMED};
    const Hall *most = nullptr;
    for (const Hall &hall : all) {
        if (!hall.held || hall.times() == NOT_TIMED) continue;
        if (hall.sheets.size() != frames || hall.sheets[0].contest != contest) continue;
        if (!most || hall.times() > most->times()) most = &hall;
    }
    if (!most) return goal;
    const Settings &k = most->sheets[0].k;
    goal.seen = most->times();
    goal.what += " (most: r " + std::to_string(k.radius) + ", L " + std::to_string(k.levels) + ")";
    return goal;
}

inline void add_camera_goals(const Halls &all, std::vector<Goal> &goals) {
    for (size_t frames : HELD_FRAMES)
        for (Contest contest : {JOINT_TABLE, JOINT_GUIDED}) goals.push_back(longest_grant(all, frames, contest));
}

inline std::vector<Goal> goals_of(const Rows &rows, const AllDead &dead, const Tolerances &tolerances,
                                  const Explained &explained, const Written &written, const AllBytePlanes &byte_planes,
                                  const Halls &halls) {
    std::vector<Goal> goals;
    for (Picture picture : {ICE, NOISE})
        goals.push_back({"OpenCV's time / library's, joint, kind 1," + place(picture), Goal::AT_LEAST,
                         picture == NOISE ? 1.5 : 1.8, mean(on(picture, rows), opencv(), library(JOINT_TABLE))});
    goals.push_back(slowest(rows));
    for (int c = 0; c < CONTESTS; c++)
        for (Picture picture : {ICE, NOISE, BROAD, NARROW})
            if (picture == ICE || picture == NOISE || is_coarse(c))
                goals.push_back({std::string("library's time / C++'s, ") + NAMES[c] + "," + place(picture), Goal::AT_MOST,
                                 1.15, mean(on(picture, rows), library(c), yardstick(c))});
    for (const Beside &kind : BESIDE)
        goals.push_back({"library's time, joint / coarse, " + std::string(kind.name) + "," + place(ICE), Goal::AT_LEAST, 0.9,
                         mean(on(ICE, rows), library(kind.joint), library(kind.coarse))});
    for (const Beside &kind : BESIDE)
        goals.push_back({"library's time, joint / coarse, " + std::string(kind.name) + "," + place(NARROW) + ", L 1024",
                         Goal::AT_LEAST, 1.5,
                         mean(with_levels(1024, on(NARROW, rows)), library(kind.joint), library(kind.coarse))});
    const double growth[CONTESTS] = {3, 3, 3, 1.4, 5, 3, 3};
    for (int c = 0; c < CONTESTS; c++)
        goals.push_back({std::string("library's time at r 15 / at r 3, ") + NAMES[c] + "," + place(ICE), Goal::AT_MOST,
                         growth[c], growth_in_radius(on(ICE, rows), library(c))});
    add_dead_goals(dead, goals);
    add_tolerance_goals(tolerances, goals);
    goals.push_back(longest(explained));
    for (const Writing &one : written)
        goals.push_back({std::string("writing's time / plain loops', ") + one.weights, Goal::AT_MOST, 1.5, one.times()});
    add_byte_planes_goals(byte_planes, goals);
    add_camera_goals(halls, goals);
    return goals;
}

inline void print_goals(const std::vector<Goal> &goals) {
    std::printf("\n## Goals\n\nGeometric means over the frames of this run, but for those of every frame, window or row.\n\n"
                "| goal | seen | |\n|---|---|---|\n");
    for (const Goal &goal : goals) goal.print();
}

}  // namespace bench
