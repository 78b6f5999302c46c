// Frames for the benchmark: an ice sheet, plain noise and resurfaced strips, with dead pixels or without, and their files
// as document 01 has them.
#pragma once
#include <algorithm>
#include <cmath>
#include <cstdint>
#include <cstdlib>
#include <vector>

namespace bench {

// The planes are kept as the file has them, two bytes a pixel, high byte first: a filter that is timed
// against the library has to start from the same bytes.
struct Plane {
    std::vector<uint8_t> bytes;

    explicit Plane(size_t pixels = 0) : bytes(2 * pixels) {}
    uint32_t operator[](size_t pixel) const { return uint32_t(bytes[2 * pixel]) << 8 | bytes[2 * pixel + 1]; }
    void set(size_t pixel, uint32_t number) {
        bytes[2 * pixel] = uint8_t(number >> 8);
        bytes[2 * pixel + 1] = uint8_t(number);
    }
};

enum Kind { TABLE = 1, GUIDED = 2 };

// A value that is no reading, and the answer of a window without any.
inline constexpr uint32_t NO_READING = 65535;

struct Settings {
    int width, height, levels, guides;
    Kind kind;
    int radius, smoothing;

    size_t pixels() const { return size_t(width) * height; }
};

struct Frame : Settings {
    Plane values, guide;
    std::vector<uint16_t> table;  // guides x guides weights in kind 1, the centre's guide choosing the row
    bool built_in = true;         // the table is the built-in one: the file has none

    explicit Frame(const Settings &settings) : Settings(settings), values(pixels()), guide(pixels()) {
        if (kind != TABLE) return;
        smoothing = 0;
        table.resize(size_t(guides) * guides);
        weigh(256);
    }
    // Weights that fall with the difference of the guides from `most` on, rounded down to whole numbers.
    void weigh(int most) {
        for (int a = 0; a < guides; a++)
            for (int b = 0; b < guides; b++) table[size_t(a) * guides + b] = uint16_t(most * 16 / (16 + std::abs(a - b)));
    }
    // A table of the file's own, of the same form as the built-in one and as fine as weights of 16 bits can be.
    void own_table() {
        built_in = false;
        weigh(65535);
    }

    bool live(size_t pixel) const { return values[pixel] != NO_READING; }
    size_t dead_pixels() const {
        size_t dead = 0;
        for (size_t p = 0; p < pixels(); p++) dead += !live(p);
        return dead;
    }
    size_t at(int column, int row) const { return size_t(row) * width + column; }
    // A pixel from parts of the level range and of the guide range; what is outside is at their ends.
    void set(int column, int row, double warmth, double brightness) {
        auto step = [](double part, int count) { return uint32_t(std::clamp(part * count, 0.0, count - 1.0)); };
        values.set(at(column, row), step(warmth, levels));
        guide.set(at(column, row), step(brightness, guides));
    }
};

// A small generator of pseudo-random numbers (xorshift), the same on every machine.
struct Random {
    uint64_t state;

    uint64_t bits() {
        state ^= state << 13;
        state ^= state >> 7;
        state ^= state << 17;
        return state * 0x2545F4914F6CDD1Dull;
    }
    uint32_t below(uint32_t bound) { return uint32_t((bits() >> 33) % bound); }
    double unit() { return double(bits() >> 11) * (1.0 / 9007199254740992.0); }
    double gauss() {  // nearly: a sum of twelve
        double sum = -6;
        for (int i = 0; i < 12; i++) sum += unit();
        return sum;
    }
};

// A lamp's reflection or a skater: where, how large, how much warmer and how much brighter.
struct Spot {
    double x, y, size, warmth, brightness;
};

inline std::vector<Spot> spots(Random &random, const Settings &k, int count, Spot like) {
    std::vector<Spot> made;
    for (int i = 0; i < count; i++) {
        double x = random.unit() * k.width, y = random.unit() * k.height;
        made.push_back({x, y, like.size + (like.size + 2) * random.unit(), like.warmth, like.brightness});
    }
    return made;
}

// A smooth temperature field with noise, a resurfaced strip that is warm and shiny, painted lines,
// lamps and skaters, and a few bad pixels.
inline Frame ice(const Settings &settings, uint64_t seed = 1) {
    Frame frame(settings);
    Random random{seed * 7919 + 12345};
    auto lamps = spots(random, settings, 12, {0, 0, 4, 0.06, 0.6});
    auto skaters = spots(random, settings, 20, {0, 0, 3, 0.5, -0.35});
    for (int y = 0; y < frame.height; y++)
        for (int x = 0; x < frame.width; x++) {
            double u = double(x) / frame.width, v = double(y) / frame.height;
            double warmth = 0.30 + 0.08 * std::sin(3 * u + 1) + 0.06 * std::cos(4 * v) + 0.04 * u * v;
            double brightness = 0.55 + 0.12 * std::cos(2 * u - v) + 0.05 * std::sin(9 * v);
            double edge = 0.35 + 0.06 * std::sin(6 * u);
            if (v > edge && v < edge + 0.2) warmth += 0.18, brightness += 0.12;
            if (std::abs(u - 0.5) < 0.004 || std::abs(u - 0.25) < 0.003) brightness -= 0.25;
            auto distance = [&](const Spot &s, double flat) {
                return ((x - s.x) * (x - s.x) + (y - s.y) * (y - s.y) * flat) / (s.size * s.size);
            };
            for (auto &lamp : lamps)
                if (double d = distance(lamp, 1); d < 9)
                    warmth += lamp.warmth * std::exp(-d), brightness += lamp.brightness * std::exp(-d);
            for (auto &skater : skaters)
                if (double d = distance(skater, 0.4); d < 1)
                    warmth += skater.warmth * (1 - 0.3 * d), brightness += skater.brightness;
            warmth += 0.012 * random.gauss();
            brightness += 0.015 * random.gauss();
            if (random.below(400) == 0) warmth += 0.4 * (random.unit() - 0.5);
            frame.set(x, y, warmth, brightness);
        }
    return frame;
}

// Every pixel by chance: no two windows have much in common.
inline Frame noise(const Settings &settings, uint64_t seed = 1) {
    Frame frame(settings);
    Random random{seed * 104729 + 77};
    for (size_t i = 0; i < frame.pixels(); i++) frame.values.set(i, random.below(frame.levels));
    for (size_t i = 0; i < frame.pixels(); i++) frame.guide.set(i, random.below(frame.guides));
    return frame;
}

// Strips of so many columns: every second one is freshly resurfaced, warmer by half of the level range and
// shinier, so that the cut travels far from one to the next.
inline Frame strips(const Settings &settings, int columns, uint64_t seed = 1) {
    Frame frame(settings);
    Random random{seed * 7919 + 12345};
    for (int y = 0; y < frame.height; y++)
        for (int x = 0; x < frame.width; x++) {
            double u = double(x) / frame.width, v = double(y) / frame.height;
            bool fresh = x / columns % 2;
            double warmth = 0.25 + 0.03 * std::sin(3 * u) + 0.03 * std::cos(4 * v) + (fresh ? 0.5 : 0);
            double brightness = 0.35 + 0.05 * std::cos(2 * u - v) + (fresh ? 0.35 : 0);
            warmth += 0.012 * random.gauss();
            brightness += 0.015 * random.gauss();
            frame.set(x, y, warmth, brightness);
        }
    return frame;
}

// Makes so many pixels of a hundred dead, by chance.
inline void kill(Frame &frame, uint32_t percent, uint64_t seed = 1) {
    Random random{seed * 15485863 + 99};
    for (size_t p = 0; p < frame.pixels(); p++)
        if (random.below(100) < percent) frame.values.set(p, NO_READING);
}

// The frame with upper levels for its readings: a hundredth of the level count above them, and at most the last level.
inline Frame raised(Frame frame) {
    for (size_t p = 0; p < frame.pixels(); p++)
        if (frame.live(p))
            frame.values.set(p, std::min(frame.values[p] + uint32_t(frame.levels / 100), uint32_t(frame.levels - 1)));
    return frame;
}

// What the frames show.
enum Picture { ICE, NOISE, BROAD, NARROW, PICTURES };
inline constexpr const char *PICTURE_NAMES[PICTURES] = {"ice", "noise", "broad strips", "narrow strips"};
inline constexpr int BROAD_COLUMNS = 24, NARROW_COLUMNS = 2;

inline Frame drawn(Picture picture, const Settings &settings) {
    if (picture == ICE) return ice(settings);
    if (picture == NOISE) return noise(settings);
    return strips(settings, picture == BROAD ? BROAD_COLUMNS : NARROW_COLUMNS);
}

// The frame's file: planes, table if it is not built in, trailer.
inline std::vector<uint8_t> file_of(const Frame &frame) {
    std::vector<uint8_t> file = frame.values.bytes;
    file.insert(file.end(), frame.guide.bytes.begin(), frame.guide.bytes.end());
    auto put = [&](uint32_t number, int bytes) {
        for (int i = bytes - 1; i >= 0; i--) file.push_back(uint8_t(number >> (8 * i)));
    };
    size_t table = frame.kind == TABLE && !frame.built_in ? frame.table.size() : 0;
    for (size_t i = 0; i < table; i++) put(frame.table[i], 2);
    uint32_t body = uint32_t(file.size()), plane = uint32_t(2 * frame.pixels());
    for (int number : {frame.width, frame.height, frame.levels, frame.guides}) put(uint32_t(number), 2);
    put(frame.kind, 1);
    put(uint32_t(frame.radius), 1);
    put(uint32_t(frame.smoothing), 2);
    for (uint32_t distance : {body, body - plane, uint32_t(2 * table)}) put(distance, 4);
    put(0x49434531, 4);
    return file;
}

}  // namespace bench
