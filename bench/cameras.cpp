// Times cameras beside filters and prints that table and its goals alone: OpenCV has no part in them.
#include "goals.hpp"

using namespace bench;

int main() {
    const Halls halls = measure_all_halls(false);
    print_halls(halls);
    std::vector<Goal> goals;
    add_camera_goals(halls, goals);
    print_goals(goals);
    return 0;
}
