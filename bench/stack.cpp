// Measures the stack that each call of the library takes, and holds it against the header. Prints a line for each call; the
// exit status is 1 where one takes more than the header says.
#include "memory.hpp"

using namespace bench;

int main() {
    bool kept = Library::LINKED;
    for (const Call &call : CALLS) {
        size_t most = 0;
        for (int c = 0; c < CONTESTS; c++) most = std::max(most, call_stack(Contest(c), call));
        std::printf("stack of %s: %zu bytes, at most %zu by the header\n", call.what, most, call.most);
        kept = kept && most <= call.most;
    }
    return kept ? 0 : 1;
}
