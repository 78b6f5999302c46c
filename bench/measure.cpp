// Times the proved library, the yardstick and OpenCV on one thread and prints tables in Markdown.
//
// All contestants take turns in one run and the best of several rounds counts, so that what else the
// machine does falls on all alike. Only ratios within a line mean something on another machine.
#include "goals.hpp"
#include "memory.hpp"
#include "opencv.hpp"
#include "sideways.hpp"
#include <chrono>

using namespace bench;

// Strips are for the two ways of both kinds beside each other, with the built-in weights and without OpenCV.
static bool is_strips(Picture picture) { return picture == BROAD || picture == NARROW; }
static bool is_timed(Picture picture, int contest) {
    return !is_strips(picture) || contest == JOINT_TABLE || contest == JOINT_GUIDED || is_coarse(contest);
}

// Times every contestant on one frame, in turns.
static Row measure(Picture picture, Settings k) {
    k.kind = TABLE;
    Frame table = drawn(picture, k), own = table;
    own.own_table();
    k.kind = GUIDED;
    Frame guided = drawn(picture, k);
    auto frame_for = [&](int c) -> const Frame & { return c == JOINT_OWN ? own : kind_of(c) == TABLE ? table : guided; };
    std::vector<uint8_t> moves = serpentine(k);
    OpenCv opencv(table);
    std::vector<Library> libraries;
    for (int c = 0; c < CONTESTS; c++) libraries.emplace_back(Contest(c), frame_for(c));

    Row row{picture, k, NOT_TIMED, {}, {}};
    for (int round = 0; round < ROUNDS; round++) {
        if (k.levels == 256 && !is_strips(picture)) keep_best(row.opencv, table.pixels(), [&] { opencv.filter(); });
        for (int c = 0; c < CONTESTS; c++) {
            if (!is_timed(picture, c)) continue;
            Walk walk;
            keep_best(row.yardstick[c], table.pixels(), [&] { walk = by_yardstick(Contest(c), frame_for(c), moves); });
            if (!Library::LINKED) continue;
            Library &library = libraries[size_t(c)];
            keep_best(row.library[c], table.pixels(), [&] { library.filter(); });
            library.compare(walk, NAMES[c]);
        }
    }
    return row;
}

static void print_row(const Row &row) {
    std::printf("| %s | %dx%d | %d | %d | %s |", row.name(), row.k.width, row.k.height, row.k.radius, row.k.levels,
                number("%.0f", row.opencv).c_str());
    for (int c = 0; c < CONTESTS; c++)
        std::printf(" %s | %s |", number("%.0f", row.library[c]).c_str(), number("%.0f", row.yardstick[c]).c_str());
    std::printf(" %s |\n", number("%.2f", row.over_opencv()).c_str());
    std::fflush(stdout);
}

static void print_head() {
    std::printf("\n## Nanoseconds a pixel (library, then C++)\n\n"
                "OpenCV %s; best of %d turns, 256 guides, smoothing 64 in kind 2. Kind 1 with the built-in weights, and with a "
                "finer table of the file's own: 65,535 * 16 / (16 + d), rounded down, for guides that differ by d. Strips are "
                "%d (broad) and %d (narrow) columns wide, every second one freshly resurfaced: warmer by half of the level "
                "range, and shinier. There only joint and coarse take turns.\n\n"
                "| frame | size | r | L | OpenCV |",
                CV_VERSION, ROUNDS, BROAD_COLUMNS, NARROW_COLUMNS);
    for (const char *name : NAMES) std::printf(" %s | C++ |", name);
    std::printf(" OpenCV / library |\n|---|---|---|---|---|");
    for (int c = 0; c < CONTESTS; c++) std::printf("---|---|");
    std::printf("---|\n");
}

static void print_ratios(const Rows &rows) {
    std::printf("\n## Geometric means\n\n| |");
    for (const char *name : PICTURE_NAMES) std::printf(" %s |", name);
    std::printf("\n|---|---|---|---|---|\n");
    auto line = [&](const char *what, int contest, const Pick &above, const Pick &below) {
        std::printf("| %s, %s |", what, NAMES[contest]);
        for (Picture picture : {ICE, NOISE, BROAD, NARROW})
            std::printf(" %s |", number("%.2f", mean(on(picture, rows), above, below)).c_str());
        std::printf("\n");
    };
    for (int c = 0; c < CONTESTS; c++) {
        line("OpenCV's time / library's", c, opencv(), library(c));
        line("OpenCV's time / C++'s", c, opencv(), yardstick(c));
        line("library's time / C++'s", c, library(c), yardstick(c));
    }
}

// How much faster way 4 is than way 1, in the library: a line for each picture and level count.
static void print_beside(const Rows &rows) {
    std::printf("\n## Coarse beside joint: the library's time by joint / by coarse, geometric means\n\n"
                "Above 1 coarse is faster: it passes over whole blocks of 16 levels where joint goes level by level.\n\n"
                "| frame | L |");
    for (const Beside &kind : BESIDE)
        for (int radius : {3, 7, 15}) std::printf(" %s, r %d |", kind.name, radius);
    std::printf("\n|---|---|---|---|---|---|---|---|\n");
    for (Picture picture : {ICE, NOISE, BROAD, NARROW})
        for (int levels : {256, 1024}) {
            std::printf("| %s | %d |", PICTURE_NAMES[picture], levels);
            for (const Beside &kind : BESIDE)
                for (int radius : {3, 7, 15}) {
                    Rows alike = with_radius(radius, with_levels(levels, on(picture, rows)));
                    std::printf(" %s |", number("%.2f", mean(alike, library(kind.joint), library(kind.coarse))).c_str());
                }
            std::printf("\n");
        }
}

static void print_growth(const Rows &rows) {
    std::printf("\n## Growth: geometric means of time ratios, ice / noise\n\n"
                "| | library, r 15 / r 3 | C++ | library, L 1024 / L 256 | C++ |\n|---|---|---|---|---|\n");
    auto both = [&](double (*growth)(const Rows &, const Pick &), const Pick &time) {
        return number("%.2f", growth(on(ICE, rows), time)) + " / " + number("%.2f", growth(on(NOISE, rows), time));
    };
    for (int c = 0; c < CONTESTS; c++)
        std::printf("| %s | %s | %s | %s | %s |\n", NAMES[c], both(growth_in_radius, library(c)).c_str(),
                    both(growth_in_radius, yardstick(c)).c_str(), both(growth_in_levels, library(c)).c_str(),
                    both(growth_in_levels, yardstick(c)).c_str());
    std::printf("| OpenCV | | %s | | |\n", both(growth_in_radius, opencv()).c_str());
}

static double frames_a_second(double nanoseconds) {
    return nanoseconds == NOT_TIMED ? NOT_TIMED : 1e9 / nanoseconds / (1024 * 256);
}

static void print_full_frames(const Rows &rows) {
    std::printf("\n## Frames a second, 1024x256\n\n| frame | r | L | OpenCV |");
    for (const char *name : NAMES) std::printf(" %s | C++ |", name);
    std::printf("\n|---|---|---|---|");
    for (int c = 0; c < CONTESTS; c++) std::printf("---|---|");
    std::printf("\n");
    auto rate = [](double time) { return number("%.1f", frames_a_second(time)); };
    for (const Row &row : rows) {
        if (row.k.width != 1024) continue;
        std::printf("| %s | %d | %d | %s |", row.name(), row.k.radius, row.k.levels, rate(row.opencv).c_str());
        for (int c = 0; c < CONTESTS; c++)
            std::printf(" %s | %s |", rate(row.library[c]).c_str(), rate(row.yardstick[c]).c_str());
        std::printf("\n");
    }
}

// The sentence to quote, with all that it does not say.
static void print_headline(const Rows &rows) {
    double rate = NOT_TIMED;
    for (const Row &row : rows)
        if (row.picture == ICE && row.k.width == 1024 && row.k.radius == 7 && row.k.levels == 256)
            rate = frames_a_second(row.library[JOINT_TABLE]);
    auto times = [&](Picture picture, const Pick &above, const Pick &below) {
        return number("%.2f", mean(on(picture, rows), above, below)) + " times";
    };
    auto way = library(JOINT_TABLE), same_way = yardstick(JOINT_TABLE);
    std::printf("\n## Headline\n\nOn 1024x256 ice at r 7 with 256 levels, joint in kind 1 filters %s frames a second. "
                "Over this run it is %s as fast as OpenCV on ice and %s on noise, and takes %s as long as C++ of the same way "
                "on ice and %s on noise.\n\n",
                number("%.1f", rate).c_str(), times(ICE, opencv(), way).c_str(), times(NOISE, opencv(), way).c_str(),
                times(ICE, way, same_way).c_str(), times(NOISE, way, same_way).c_str());
    std::printf("Its limits: drawn frames of the sizes and radii above; kind 1 with the built-in weights; beside OpenCV "
                "256 levels only, since OpenCV's filter takes planes of 8 bits; one thread of this one processor.\n");
}

static Rows measure_all(bool quick) {
    using Sizes = std::vector<std::pair<int, int>>;
    Rows rows;
    for (Picture picture : {ICE, NOISE, BROAD, NARROW})
        for (auto [width, height] : is_strips(picture) ? Sizes{{512, 256}} : Sizes{{512, 512}, {1024, 256}, {640, 400}})
            for (int levels : {256, 1024})
                for (int radius : {3, 7, 15}) {
                    if (quick && (width == 640 || levels == 1024)) continue;
                    rows.push_back(measure(picture, {width, height, levels, 256, GUIDED, radius, 64}));
                    print_row(rows.back());
                }
    return rows;
}

int main(int count, char **words) {
    bool quick = count > 1 && std::string(words[1]) == "--quick";
    auto start = std::chrono::steady_clock::now();
    if (!Library::LINKED) std::printf("\nThe proved library is not linked: its columns stay empty.\n");
    print_head();
    Rows rows = measure_all(quick);
    print_ratios(rows);
    print_beside(rows);
    print_growth(rows);
    print_all_sideways();
    AllDead dead = measure_all_dead(quick);
    print_dead(dead);
    Tolerances tolerances = measure_all_tolerances(quick);
    print_tolerances(tolerances);
    Explained explained = measure_all_explaining();
    print_explaining(explained);
    Written written = measure_all_writing();
    print_writing(written);
    AllBytePlanes byte_planes = measure_all_byte_planes();
    print_byte_planes(byte_planes);
    Halls halls = measure_all_halls(quick);
    print_halls(halls);
    print_full_frames(rows);
    print_memory();
    print_goals(goals_of(rows, dead, tolerances, explained, written, byte_planes, halls));
    print_headline(rows);
    std::chrono::duration<double> passed = std::chrono::steady_clock::now() - start;
    std::printf("\nThe measurements took %.0f seconds.\n", passed.count());
    return 0;
}
