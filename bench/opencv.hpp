// OpenCV's weighted median filter (ximgproc) on the benchmark's frames, on one thread.
#pragma once
#include "frames.hpp"
#include <opencv2/core.hpp>
#include <opencv2/ximgproc/weighted_median_filter.hpp>

namespace bench {

// OpenCV filters planes of 8 bits.
inline cv::Mat plane_of_bytes(const Plane &plane, const Settings &k) {
    cv::Mat made(k.height, k.width, CV_8U);
    for (size_t p = 0; p < size_t(k.width) * k.height; p++) made.data[p] = uint8_t(plane[p]);
    return made;
}

struct OpenCv {
    // Weights 1 / (16 + d), as the built-in ones are before they are rounded down to whole numbers.
    static constexpr double SIGMA = 16;
    cv::Mat values, guide, output;
    int radius;

    explicit OpenCv(const Frame &frame)
        : values(plane_of_bytes(frame.values, frame)), guide(plane_of_bytes(frame.guide, frame)), radius(frame.radius) {
        cv::setNumThreads(1);
    }
    void filter(int weights = cv::ximgproc::WMF_IV1) {
        cv::ximgproc::weightedMedianFilter(guide, values, output, radius, SIGMA, weights);
    }
};

}  // namespace bench
