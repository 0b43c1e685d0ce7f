// Tries schedules of each model, for .ci/models: all with few interruptions, and then some with any. As it is, a model must be right in each. With one
// step or order left out it must be wrong in one.
// Arguments: how many schedules with any interruptions, and `tell` to print a line for each model and step.
#include "bounds.hpp"
#include "cxx_epochs.hpp"
#include "cxx_flights.hpp"
#include "cxx_generations.hpp"
#include "cxx_object_generations.hpp"
#include "cxx_passes.hpp"
#include "cxx_waits.hpp"
#include "cxx_weights.hpp"
#include "rust_epochs.hpp"
#include "rust_generations.hpp"
#include "rust_flights.hpp"
#include "rust_object_generations.hpp"
#include "rust_slots.hpp"
#include <cstdio>
#include <cstdlib>
#include <string>

static int faults = 0;
static bool tells = false;

static void told(const char *model, std::string_view step, std::string_view wrong, bool is_expected) {
    faults += !is_expected;
    if (tells || !is_expected) {
        const std::string left_out = step.empty() ? "" : ", " + std::string(step) + " left out";
        const std::string found = wrong.empty() ? "right in each schedule" : std::string(wrong);
        std::printf("models: %s%s: %s%s\n", model, left_out.c_str(), found.c_str(), is_expected ? "" : ", which must not be");
    }
}

template <class Model> static std::string_view tried(rl::iteration_t schedules) {
    const std::string_view wrong = explored::found_in_all<Model>(Model::interruptions);
    return wrong.empty() ? explored::found_in_some<Model>(schedules) : wrong;
}

template <class Model> static void explore(const char *name, rl::iteration_t schedules) {
    explored::left_out = "";
    const std::string_view wrong = tried<Model>(schedules);
    told(name, "", wrong, wrong.empty());
    for (const std::string_view step : Model::steps) {
        explored::left_out = step;
        explored::was_asked = false;
        const std::string_view found = tried<Model>(schedules);
        told(name, step, found, !found.empty() && explored::was_asked);
    }
}

int main(int argc, char **argv) {
    const rl::iteration_t schedules = argc > 1 ? std::strtoull(argv[1], nullptr, 10) : 20000;
    tells = argc > 2 && argv[2] == std::string("tell");
    explore<CxxEpochs>("C++ epochs", schedules);
    explore<CxxFlights>("C++ flights", schedules);
    explore<CxxGenerations>("C++ generations", schedules);
    explore<CxxObjectGenerations>("C++ generations of objects", schedules);
    explore<CxxPasses>("C++ passes", schedules);
    explore<CxxWaits>("C++ waits", schedules);
    explore<CxxWeights>("C++ weights", schedules);
    explore<Bounds>("bounds", schedules);
    explore<RustFlights>("Rust flights", schedules);
    explore<RustSlots>("Rust slots", schedules);
    explore<RustEpochs>("Rust epochs", schedules);
    explore<RustGenerations>("Rust generations", schedules);
    explore<RustObjectGenerations>("Rust generations of objects", schedules);
    return faults == 0 ? 0 : 1;
}
