// Holds the yardstick's four ways against its sorting filter on random frames and walks of both kinds, with dead pixels
// from none to all: answers, shift counts and stores. Prints how many windows were hollow, negative, not steady, heavy,
// without a reading, and around a dead centre.
#include "yardstick.hpp"
#include <cstdio>

using namespace bench;

static long differences = 0;
static struct {
    long windows, hollow, negative, unsteady, heavy, empty, dead_centre;
} met;

static void expect(bool fact, const char *what, int frame) {
    if (fact) return;
    if (differences++ < 20) std::printf("frame %d: %s differs\n", frame, what);
}

static void compare(const char *what, int frame, const Walk &way, const Walk &definition) {
    expect(way.answers == definition.answers && way.shifts == definition.shifts, what, frame);
}

// The stores after a walk that ends at (column, row), counted anew from the frame.
template <bool BY_BLOCKS> static bool holds(const JointStore<BY_BLOCKS> &joint, const Frame &frame, int column, int row) {
    std::vector<uint16_t> counts(joint.counts.size());
    std::vector<uint64_t> words(joint.words.size());
    std::vector<int16_t> box(256);
    each_live(frame, window_at(frame, column, row), [&](size_t p) {
        uint32_t level = frame.values[p], g = frame.guide[p];
        counts[size_t(level) * frame.guides + g]++;
        words[level * joint.words_per_level + g / 64] |= uint64_t(1) << (g % 64);
        box[g] = int16_t(box[g] + (int(level) <= joint.cut ? 1 : -1));
    });
    bool boxed = !(BY_BLOCKS && joint.guided);
    return counts == joint.counts && words == joint.words && (!boxed || std::equal(box.begin(), box.end(), joint.box));
}

static bool holds(Coarse &coarse, const Frame &frame, int column, int row) {
    Sorting sorting(frame);
    sorting.answer(column, row);
    std::vector<int64_t> summary(coarse.summary.size());
    for (auto &pixel : sorting.pixels) summary[pixel.level / BLOCK] += pixel.weight;
    coarse.summarise();
    return summary == coarse.summary && holds<true>(coarse, frame, column, row);
}

static bool holds(const Columns &columns, const Frame &frame, int column, int row) {
    std::vector<uint32_t> store(columns.store.size());
    size_t all = size_t(frame.width) * frame.levels;
    Rectangle w = window_at(frame, column, row);
    for (int t = w.top; t <= w.bottom; t++)
        for (int s = 0; s < frame.width; s++) {
            uint32_t level = frame.values[frame.at(s, t)], g = frame.guide[frame.at(s, t)];
            if (level == NO_READING) continue;
            store[size_t(s) * frame.levels + level]++;
            store[all + size_t(s) * frame.levels + level] += g;
            if (s < w.left || s > w.right) continue;
            store[2 * all + level]++;
            store[2 * all + frame.levels + level] += g;
        }
    return store == columns.store;
}

static bool holds(const Chain &chain, const Frame &frame, int column, int row) {
    std::vector<uint32_t> counts(frame.levels), sums(frame.levels);
    each_live(frame, window_at(frame, column, row), [&](size_t p) {
        counts[frame.values[p]]++;
        sums[frame.values[p]] += frame.guide[p];
    });
    uint32_t node = chain.first;
    for (int level = 0; level < frame.levels; level++) {
        if (counts[level] == 0) continue;
        if (node == 0) return false;
        const Chain::Node &n = chain.nodes[node];
        if (n.level != uint32_t(level) || n.count != counts[level] || n.guide_sum != sums[level]) return false;
        node = n.next;
    }
    return node == 0;
}

static void count_windows(const Frame &frame) {
    Sorting sorting(frame);
    for (int row = 0; row < frame.height; row++)
        for (int column = 0; column < frame.width; column++) {
            Answer answer = sorting.answer(column, row);
            met.windows++, met.hollow += sorting.hollow, met.unsteady += !answer.steady, met.empty += answer.empty();
            met.dead_centre += !answer.empty() && !frame.live(frame.at(column, row));
            met.negative += std::any_of(sorting.pixels.begin(), sorting.pixels.end(), [](auto &p) { return p.weight < 0; });
            met.heavy += frame.kind == TABLE &&
                         std::any_of(sorting.pixels.begin(), sorting.pixels.end(), [](auto &p) { return p.weight > 32767; });
        }
}

// A table of small weights, of the built-in ones' size, of any, of the largest, or of those about 32,768; all
// 0, mostly 0, or with rows of 0.
static void random_table(Random &random, Frame &frame, int number) {
    static const uint32_t SIZES[][2] = {{0, 9}, {0, 256}, {0, 65535}, {65534, 65535}, {32766, 32769}};
    auto [least, most] = SIZES[random.below(5)];
    int sort = number % 4;
    bool empty_row = false;
    for (size_t i = 0; i < frame.table.size(); i++) {
        if (i % size_t(frame.guides) == 0) empty_row = sort == 2 && random.below(4) == 0;
        bool none = sort == 0 || (sort == 1 && random.below(8)) || empty_row;
        frame.table[i] = uint16_t(none ? 0 : least + random.below(most - least + 1));
    }
}

// Dead pixels in every second frame: a few, many, all, or stripes of columns or rows, which leave windows without a
// reading beside others.
static void kill_some(Random &random, Frame &frame, int number) {
    static const uint32_t PARTS[] = {2, 50, 95, 100};
    uint32_t sort = random.below(4);
    if (sort == 1) kill(frame, PARTS[random.below(4)], uint64_t(number));
    if (sort != 2) return;
    int stripe = 1 + int(random.below(uint32_t(2 * frame.radius + 3)));
    bool columns = random.below(2);
    for (int row = 0; row < frame.height; row++)
        for (int column = 0; column < frame.width; column++)
            if ((columns ? column : row) / stripe % 2) frame.values.set(frame.at(column, row), NO_READING);
}

static Frame random_frame(Random &random, int number) {
    Settings k;
    k.width = 1 + int(random.below(24)), k.height = 1 + int(random.below(24));
    k.levels = 2 + int(random.below(number % 5 == 0 ? 1023 : 30));
    k.guides = 2 + int(random.below(number % 3 == 0 ? 255 : 20));
    k.kind = random.below(2) ? TABLE : GUIDED;
    k.radius = int(random.below(number % 7 == 0 ? 16 : 5));
    k.smoothing = 1 + int(random.below(number % 2 ? 3 : 65025));
    // Now and then a picture that holds a whole window of the largest radius.
    if (number % 49 == 0) k.width = k.height = 33, k.radius = 15;
    Frame frame = noise(k, uint64_t(number) + 1);
    if (k.kind == TABLE && number % 3) random_table(random, frame, number);
    kill_some(random, frame, number);
    // Lonely guides have windows with negative weights.
    if (number % 11 == 0)
        for (size_t p = 0; p < frame.pixels(); p++) frame.guide.set(p, random.below(6) ? 0 : uint32_t(k.guides - 1));
    return frame;
}

template <class Way, auto ADDED = by_cut>
static void validate(const char *what, int number, const Frame &frame, int column, int row, const std::vector<uint8_t> &moves) {
    Sorting sorting(frame);
    Way way(frame);
    compare(what, number, walk<ADDED>(way, frame, column, row, moves), walk<ADDED>(sorting, frame, column, row, moves));
    for (uint8_t move : moves) {
        int s = column + (move == RIGHT) - (move == LEFT), t = row + (move == DOWN) - (move == UP);
        if (s >= 0 && t >= 0 && s < frame.width && t < frame.height) column = s, row = t;
    }
    expect(holds(way, frame, column, row), what, number);
}

int main(int count, char **words) {
    int frames = count > 1 ? std::atoi(words[1]) : 1500;
    Random random{99};
    for (int number = 0; number < frames; number++) {
        Frame frame = random_frame(random, number);
        count_windows(frame);
        std::vector<uint8_t> moves = serpentine(frame);
        int column = 0, row = 0;
        if (number % 2 == 0) {
            column = int(random.below(uint32_t(frame.width))), row = int(random.below(uint32_t(frame.height)));
            moves.clear();
            for (int i = 0; i < 200; i++) moves.push_back(uint8_t(random.below(50) == 0 ? 7 : random.below(4)));
        }
        validate<Joint>("joint", number, frame, column, row, moves);
        validate<Coarse, by_blocks>("coarse", number, frame, column, row, moves);
        if (frame.kind == TABLE) continue;
        validate<Columns>("columns", number, frame, column, row, moves);
        validate<Chain>("chain", number, frame, column, row, moves);
    }
    std::printf("The C++ against a filter that sorts: %d frames, %ld windows (%ld hollow, %ld with a negative weight, "
                "%ld not steady, %ld with a table's weight above 32,767, %ld without a reading, %ld with one around a dead "
                "centre), %ld differences.\n",
                frames, met.windows, met.hollow, met.negative, met.unsteady, met.heavy, met.empty, met.dead_centre,
                differences);
    bool all_met = met.hollow && met.negative && met.unsteady && met.heavy && met.empty && met.dead_centre;
    if (!all_met) std::printf("Some sort of window was never met.\n");
    return differences != 0 || !all_met;
}
