// One call that filters the frames of a hall's sheets as far as their grants reach, beside a filter of each frame.
#pragma once
#include "contest.hpp"
#include "text.hpp"

namespace bench {

// The most grants that a period may have.
inline constexpr uint32_t LONGEST_PERIOD = 4096;

// What frames leave in the lent buffers, each in its own part, end to end.
struct Parts {
    std::vector<uint16_t> counts, answers;
    std::vector<uint64_t> words;

    bool operator==(const Parts &other) const {
        return counts == other.counts && answers == other.answers && words == other.words;
    }
    // A frame that was filtered by itself, its answers in the order of the walk.
    void add(const Library &library, const Walk &walk) {
        library.add_stores(counts, words);
        answers.insert(answers.end(), walk.answers.begin(), walk.answers.end());
    }
};

// The call with its buffers, and with periods enough to filter all frames to the end.
class Cameras {
  public:
    Cameras(const std::vector<Frame> &frames, uint32_t period) {
        auto lengthen = [](auto &part, size_t length, auto filled) { part.resize(part.size() + length, filled); };
        for (const Frame &frame : frames) {
            const std::vector<uint8_t> file = file_of(frame);
            files.insert(files.end(), file.begin(), file.end());
            lengths.push_back(file.size());
            lengthen(parts.counts, ICEMEDIAN_COUNTS_LENGTH(frame.levels, frame.guides), uint16_t(0));
            lengthen(parts.words, ICEMEDIAN_WORDS_LENGTH(frame.levels, frame.guides), uint64_t(0));
            lengthen(parts.answers, frame.pixels(), uint16_t(OFF_PICTURE));  // no pixel's answer
        }
        limits.assign(pixels() / period + 1, period);
    }
    size_t pixels() const { return parts.answers.size(); }
    void filter() {
#ifdef WITH_LIBRARY
        uint64_t offset;
        auto &[counts, answers, words] = parts;
        accept(icemedian_cameras(files.data(), files.size(), lengths.data(), lengths.size(), limits.data(), limits.size(),
                                 counts.data(), counts.size(), words.data(), words.size(), answers.data(), answers.size(),
                                 &grants, &offset));
#endif
    }
    // The call must have done the work of the filters, and no more.
    void compare(const Parts &filters, const std::string &name) const {
        if (grants != pixels()) std::printf("grants are not the pixels: %s\n", name.c_str()), std::exit(1);
        if (!(parts == filters)) std::printf("cameras differ from filters: %s\n", name.c_str()), std::exit(1);
    }

  private:
    std::vector<uint8_t> files;
    std::vector<size_t> lengths;
    std::vector<uint32_t> limits;
    Parts parts;
    uint64_t grants = 0;
};

// A frame's weights and settings; the kind is the contest's.
struct Sheet {
    Contest contest;
    Settings k;
};

struct Hall {
    std::vector<Sheet> sheets;
    uint32_t period;
    bool held;                                     // to the goal
    double filter = NOT_TIMED, grant = NOT_TIMED;  // nanoseconds a pixel, over all frames

    double times() const { return quotient(grant, filter); }
    // What a column says of the sheets: once where they are alike.
    std::string each(const std::function<std::string(const Sheet &)> &say) const {
        std::string all = say(sheets[0]);
        const bool alike = std::all_of(sheets.begin(), sheets.end(), [&](const Sheet &one) { return say(one) == all; });
        for (size_t i = 1; i < sheets.size() && !alike; i++) all += ", " + say(sheets[i]);
        return all;
    }
    std::string weights() const {
        return each([](const Sheet &one) { return std::string(weights_of(one.contest)); });
    }
};
using Halls = std::vector<Hall>;

// Times both in turns, all filters one after the other and then the one call. Before that each filter is held against the
// C++, and before and after it the call against the filters: grants, answers in the order of the walk, counts and words.
inline Hall measure_hall(Hall hall) {
    if (!Library::LINKED) return hall;
    std::vector<Frame> frames;
    std::vector<Library> libraries;
    for (const Sheet &sheet : hall.sheets) {
        frames.push_back(ice_for(sheet.contest, sheet.k, 0, 1 + frames.size()));
        libraries.emplace_back(sheet.contest, frames.back());
    }
    Cameras cameras(frames, hall.period);
    auto filter_each = [&] {
        for (Library &library : libraries) library.filter();
    };
    auto filter_all = [&] { cameras.filter(); };
    filter_each();
    filter_all();
    Parts filters;
    for (size_t i = 0; i < frames.size(); i++) {
        const Walk walk = by_yardstick(hall.sheets[i].contest, frames[i], serpentine(frames[i]));
        libraries[i].compare(walk, hall.weights().c_str());
        libraries[i].compare_plane(walk, hall.weights().c_str());
        filters.add(libraries[i], walk);
    }
    cameras.compare(filters, hall.weights());
    // A turn of small frames is of many calls.
    const size_t pixels = cameras.pixels(), calls = std::max(size_t(1), 131072 / pixels);
    for (int round = 0; round < ROUNDS; round++) {
        keep_best_of(hall.filter, calls, pixels, filter_each);
        keep_best_of(hall.grant, calls, pixels, filter_all);
    }
    cameras.compare(filters, hall.weights());
    return hall;
}

inline constexpr size_t HELD_FRAMES[] = {1, 2, 8};

inline Halls measure_all_halls(bool quick) {
    Halls all;
    auto measure = [&](const std::vector<Sheet> &sheets, uint32_t period, bool held) {
        all.push_back(measure_hall({sheets, period, held}));
    };
    auto alike = [](size_t frames, Contest contest, const Settings &k) { return std::vector<Sheet>(frames, {contest, k}); };
    for (Contest contest : {JOINT_TABLE, JOINT_GUIDED}) {
        for (auto [radius, levels] : {std::pair{3, 256}, std::pair{15, 256}, std::pair{7, 1024}}) {
            if (quick && levels == 1024) continue;
            for (size_t frames : HELD_FRAMES)
                measure(alike(frames, contest, {512, 256, levels, 256, GUIDED, radius, 64}), LONGEST_PERIOD, true);
        }
        measure(alike(8, contest, {64, 32, 256, 256, GUIDED, 7, 64}), LONGEST_PERIOD, false);
    }
    // Where a pixel takes least, what a period costs shows best.
    measure(alike(8, JOINT_TABLE, {512, 256, 256, 256, GUIDED, 3, 64}), 16, false);
    measure({{JOINT_TABLE, {512, 256, 256, 256, GUIDED, 3, 64}},
             {JOINT_OWN, {320, 200, 256, 256, GUIDED, 15, 64}},
             {JOINT_GUIDED, {640, 400, 1024, 256, GUIDED, 7, 64}}},
            LONGEST_PERIOD, false);
    return all;
}

inline void print_halls(const Halls &all) {
    std::printf("\n## Cameras: a grant beside a pixel of the frames' own filters (joint)\n\n"
                "Nanoseconds a pixel over all frames of a line, ice, each frame another, 256 guides: a filter of each frame, one "
                "after the other, and one call that filters all to the end. Each period has as many "
                "grants as the line says. Answers, counts and words are compared with the filters', and these with the C++. "
                "Lines without a goal show short periods, small frames, where what a call costs whatever the frames' size is "
                "shows, and unlike frames, which end one after the other.\n\n"
                "| frames | weights | size | r | L | grants a period | filters | cameras | cameras / filters | |\n"
                "|---|---|---|---|---|---|---|---|---|---|\n");
    for (const Hall &hall : all) {
        auto settings = [&](int Settings::*setting) {
            return hall.each([&](const Sheet &one) { return std::to_string(one.k.*setting); });
        };
        std::printf("| %zu | %s | %s | %s | %s | %u | %s | %s | %s | %s |\n", hall.sheets.size(), hall.weights().c_str(),
                    hall.each([](const Sheet &one) { return size_of(one.k); }).c_str(), settings(&Settings::radius).c_str(),
                    settings(&Settings::levels).c_str(), unsigned(hall.period), number("%.0f", hall.filter).c_str(),
                    number("%.0f", hall.grant).c_str(), number("%.2f", hall.times()).c_str(),
                    hall.held ? "goal" : "no goal");
    }
}

}  // namespace bench
