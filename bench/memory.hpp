// The memory of each way: the stores that a caller lends, and the stack that the library takes.
#pragma once
#include "cameras.hpp"
#include <ucontext.h>

namespace bench {

// The stack that a run touches: it runs on a stack of its own, filled with one byte before, and what still holds that
// byte at the far end was not used. A context of its own and no thread: a thread that does nothing takes more than the
// frame that a call is made from, so that every call would come out too small.
inline size_t stack_touched(std::function<void()> run) {
    constexpr uint8_t FILL = 0xA5;
    alignas(4096) static uint8_t stack[1 << 20];
    static ucontext_t caller, own;
    static std::function<void()> *chosen;
    std::fill(std::begin(stack), std::end(stack), FILL);
    chosen = &run;
    getcontext(&own);
    own.uc_stack.ss_sp = stack;
    own.uc_stack.ss_size = sizeof stack;
    own.uc_link = &caller;
    makecontext(&own, [] { (*chosen)(); }, 0);
    swapcontext(&caller, &own);
    auto deepest = std::find_if(std::begin(stack), std::end(stack), [](uint8_t byte) { return byte != FILL; });
    return size_t(std::end(stack) - deepest);
}

// A small frame of a contest with windows as large as they get, and eight cameras: half of them have such frames, the
// others those of the other kind.
struct Measured {
    Library library;
    Cameras cameras;

    Measured(Contest contest, uint32_t dead_percent)
        : library(contest, frame_of(contest, dead_percent)), cameras(eight_of(contest, dead_percent), LONGEST_PERIOD) {}

  private:
    static Frame frame_of(Contest contest, uint32_t dead_percent) {
        Frame frame = noise({64, 32, 1024, 256, kind_of(contest), 15, 64});
        if (contest == JOINT_OWN) frame.own_table();
        kill(frame, dead_percent);
        return frame;
    }
    static std::vector<Frame> eight_of(Contest contest, uint32_t dead_percent) {
        const Contest other = kind_of(contest) == TABLE ? JOINT_GUIDED : JOINT_TABLE;
        std::vector<Frame> frames(4, frame_of(contest, dead_percent));
        frames.insert(frames.end(), 4, frame_of(other, dead_percent));
        return frames;
    }
};

// The calls, the most bytes of stack that the header says they take, and whether they serve a contest.
struct Call {
    const char *what;
    void (*make)(Measured &);
    size_t most;
    bool (*serves)(Contest) = [](Contest) { return true; };
};
inline constexpr Call CALLS[] = {
    {"a filter", [](Measured &m) { m.library.filter(); }, ICEMEDIAN_FILTER_STACK},
    {"a tolerance", [](Measured &m) { m.library.tolerance(); }, ICEMEDIAN_TOLERANCE_STACK, has_tolerance},
    {"eight cameras", [](Measured &m) { m.cameras.filter(); }, ICEMEDIAN_CAMERAS_STACK, is_joint},
    {"a walk", [](Measured &m) { m.library.walk({RIGHT, DOWN, LEFT, UP}); }, ICEMEDIAN_WALK_STACK},
    {"a balance", [](Measured &m) { m.library.balance(0, 0, 1); }, ICEMEDIAN_BALANCE_STACK},
    {"an explanation", [](Measured &m) { m.library.explain(0, 0); }, ICEMEDIAN_EXPLAIN_STACK},
    {"a check", [](Measured &m) { m.library.check(); }, ICEMEDIAN_CHECK_STACK},
    {"a split", [](Measured &m) { m.library.split(); }, ICEMEDIAN_SPLIT_STACK},
    {"a join", [](Measured &m) { m.library.join(); }, ICEMEDIAN_JOIN_STACK},
    {"a writing", [](Measured &m) { m.library.write(); }, ICEMEDIAN_WRITE_STACK},
};

// The most bytes that a call takes of the stack, less what a run takes that does nothing: on frames without a dead pixel,
// with many and with none else. None where the call does not serve.
inline size_t call_stack(Contest contest, const Call &call) {
    size_t most = 0;
    if (!call.serves(contest)) return most;
    for (uint32_t dead_percent : {0u, 50u, 100u}) {
        Measured measured(contest, dead_percent);
        most = std::max(most, stack_touched([&] { call.make(measured); }) - stack_touched([] {}));
    }
    return most;
}

inline void print_stack(const Call &call) {
    std::printf("| stack of %s |", call.what);
    for (int c = 0; c < CONTESTS; c++) {
        double bytes = Library::LINKED ? double(call_stack(Contest(c), call)) : NOT_TIMED;
        std::printf(" %s |", number("%.2f", bytes / 1024).c_str());
    }
    std::printf(" %.2f |\n", double(call.most) / 1024);
}

inline void print_stores(int levels, int radius) {
    std::printf("| stores, L %d, r %d |", levels, radius);
    for (int c = 0; c < CONTESTS; c++) {
        Library library(Contest(c), Frame({1024, 1, levels, 256, kind_of(c), radius, 64}));
        std::printf(" %.1f |", double(library.store_bytes()) / 1024);
    }
    std::printf(" |\n");
}

// Frame and output, which are the caller's own, come on top; nothing else does.
inline void print_memory() {
    std::printf("\n## Memory, kilobytes, 1024 columns and 256 guides\n\n| |");
    for (const char *name : NAMES) std::printf(" %s |", name);
    std::printf(" at most, by the header |\n|---|");
    for (int c = 0; c < CONTESTS; c++) std::printf("---|");
    std::printf("---|\n");
    for (int levels : {256, 1024})
        for (int radius : {3, 7, 15}) print_stores(levels, radius);
    for (const Call &call : CALLS) print_stack(call);
}

}  // namespace bench
