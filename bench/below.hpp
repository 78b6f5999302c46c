// Check 7 in plain loops, for those that are timed beside calls of the library that make it.
#pragma once
#include "frames.hpp"
#include <cstring>

namespace bench {

// The numbers of a plane where they stand in a file, high byte first. Both bytes are read at once and turned around: of
// that the compiler makes a faster search for the largest than of two bytes put together.
struct InFile {
    const uint8_t *bytes;
    size_t count;

    size_t size() const { return count; }
    uint16_t operator[](size_t place) const {
        uint16_t turned;
        std::memcpy(&turned, bytes + 2 * place, sizeof turned);
        return __builtin_bswap16(turned);
    }
};

// Whether all numbers of a plane are below a limit, but for 65,535, no reading, among the values: one by one with a way
// out, as check 7 needs the first that is not; and by their largest, which the compiler makes faster. One more than no
// reading is 0 in 16 bits.
template <bool VALUES, class Numbers> bool one_by_one(const Numbers &numbers, int limit) {
    for (size_t p = 0; p < numbers.size(); p++) {
        uint16_t number = numbers[p];
        if (number >= limit && !(VALUES && number == NO_READING)) return false;
    }
    return true;
}
template <bool VALUES, class Numbers> bool by_the_largest(const Numbers &numbers, int limit) {
    constexpr int MORE = VALUES ? 1 : 0;
    uint16_t largest = 0;
    for (size_t p = 0; p < numbers.size(); p++) largest = std::max(largest, uint16_t(numbers[p] + MORE));
    return largest < limit + MORE;
}

// Check 7 of both planes, by one or the other.
enum Search { ONE_BY_ONE, BY_THE_LARGEST };
template <Search SEARCH, class Numbers> bool below_limits(const Settings &k, const Numbers &values, const Numbers &guide) {
    if constexpr (SEARCH == ONE_BY_ONE)
        return one_by_one<true>(values, k.levels) && one_by_one<false>(guide, k.guides);
    else
        return by_the_largest<true>(values, k.levels) && by_the_largest<false>(guide, k.guides);
}

}  // namespace bench
