// What OpenCV's filter computes, so that its time may be set beside ours: with a table of ones it must give
// the same answers everywhere, border included; with weights 1 / (16 + d) it differs from the built-in
// weights where their rounding down decides.
#include "opencv.hpp"
#include "yardstick.hpp"
#include <cstdio>

using namespace bench;

// The filtered plane: the serpentine's answers, every other row turned round.
static std::vector<uint16_t> filtered(const Frame &frame) {
    Joint joint(frame);
    std::vector<uint16_t> plane = walk(joint, frame, 0, 0, serpentine(frame)).answers;
    for (int row = 1; row < frame.height; row += 2)
        std::reverse(plane.begin() + frame.at(0, row), plane.begin() + frame.at(0, row) + frame.width);
    return plane;
}

// Pixels in which OpenCV's answer is another, and the greatest distance.
static std::pair<int, int> differences(const Frame &frame, int weights) {
    OpenCv opencv(frame);
    opencv.filter(weights);
    std::vector<uint16_t> ours = filtered(frame);
    std::pair<int, int> found{0, 0};
    for (size_t p = 0; p < ours.size(); p++) {
        int distance = std::abs(int(opencv.output.data[p]) - int(ours[p]));
        found.first += distance > 0;
        found.second = std::max(found.second, distance);
    }
    return found;
}

int main() {
    bool same = true;
    std::printf("\n## Pixels in which OpenCV %s departs from document 01\n\n"
                "OpenCV weighs with floating point numbers. Frames of 160x120, 256 levels and guides.\n\n"
                "| frame | r | weights 1 / (16 + d) | at most so many levels | all weights 1 |\n|---|---|---|---|---|\n",
                CV_VERSION);
    for (Picture picture : {ICE, NOISE})
        for (int radius : {3, 7, 15}) {
            Frame frame = drawn(picture, {160, 120, 256, 256, TABLE, radius, 0});
            auto [rounded, most] = differences(frame, cv::ximgproc::WMF_IV1);
            std::fill(frame.table.begin(), frame.table.end(), uint16_t(1));
            int ones = differences(frame, cv::ximgproc::WMF_OFF).first;
            same = same && ones == 0;
            std::printf("| %s | %d | %d of %zu | %d | %d |\n", PICTURE_NAMES[picture], radius, rounded, frame.pixels(), most,
                        ones);
        }
    return same ? 0 : 1;
}
