// Numbers in the printed tables.
#pragma once
#include "contest.hpp"
#include <string>

namespace bench {

inline std::string number(const char *format, double value) {
    char text[32];
    std::snprintf(text, sizeof text, format, value);
    return value == NOT_TIMED || !std::isfinite(value) ? "-" : text;
}
inline std::string size_of(const Settings &k) { return std::to_string(k.width) + "x" + std::to_string(k.height); }
inline std::string ratio(double a, double b) { return number("%.2f", quotient(a, b)); }

}  // namespace bench
