// The times of all frames, and the ratios and means over them that the tables and the goals share.
#pragma once
#include "contest.hpp"

namespace bench {

// One frame's times in nanoseconds a pixel.
struct Row {
    Picture picture;
    Settings k;
    double opencv, library[CONTESTS], yardstick[CONTESTS];

    const char *name() const { return PICTURE_NAMES[picture]; }
    double over_opencv() const { return library[JOINT_TABLE] == NOT_TIMED ? NOT_TIMED : opencv / library[JOINT_TABLE]; }
};
using Rows = std::vector<Row>;

// Whose time is meant.
using Pick = std::function<double(const Row &)>;
inline Pick opencv() {
    return [](const Row &row) { return row.opencv; };
}
inline Pick library(int contest) {
    return [contest](const Row &row) { return row.library[contest]; };
}
inline Pick yardstick(int contest) {
    return [contest](const Row &row) { return row.yardstick[contest]; };
}

// The two ways that serve both kinds, beside each other in one kind.
struct Beside {
    const char *name;
    Contest joint, coarse;
};
inline constexpr Beside BESIDE[] = {{"kind 1", JOINT_TABLE, COARSE_TABLE}, {"kind 2", JOINT_GUIDED, COARSE_GUIDED}};

inline Rows where(const Rows &rows, const std::function<bool(const Row &)> &wanted) {
    Rows found;
    std::copy_if(rows.begin(), rows.end(), std::back_inserter(found), wanted);
    return found;
}
inline Rows on(Picture picture, const Rows &rows) {
    return where(rows, [&](const Row &row) { return row.picture == picture; });
}
inline Rows with_levels(int levels, const Rows &rows) {
    return where(rows, [&](const Row &row) { return row.k.levels == levels; });
}
inline Rows with_radius(int radius, const Rows &rows) {
    return where(rows, [&](const Row &row) { return row.k.radius == radius; });
}

// Geometric mean of a ratio over the rows that have both sides.
inline double mean(const Rows &rows, const Pick &above, const Pick &below) {
    double sum = 0;
    int count = 0;
    for (const Row &row : rows) {
        double a = above(row), b = below(row);
        if (a != NOT_TIMED && b != NOT_TIMED) sum += std::log(a / b), count++;
    }
    return count ? std::exp(sum / count) : NOT_TIMED;
}

// A time of the same frame with another radius and level count.
inline double sibling(const Rows &rows, const Row &row, int radius, int levels, const Pick &time) {
    for (const Row &other : rows)
        if (other.picture == row.picture && other.k.width == row.k.width && other.k.radius == radius && other.k.levels == levels)
            return time(other);
    return NOT_TIMED;
}

// How much longer r 15 takes than r 3, and 1,024 levels than 256: geometric means.
inline double growth_in_radius(const Rows &rows, const Pick &time) {
    return mean(with_radius(3, rows), [&](const Row &row) { return sibling(rows, row, 15, row.k.levels, time); }, time);
}
inline double growth_in_levels(const Rows &rows, const Pick &time) {
    return mean(with_levels(256, rows), [&](const Row &row) { return sibling(rows, row, row.k.radius, 1024, time); }, time);
}

}  // namespace bench
