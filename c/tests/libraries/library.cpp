// A shared library that is compiled with -fvisibility=hidden: it has the header's functions and variables by itself, and shows its calls alone.
#include "calls.hpp"

static Map *open() {
    auto map = std::make_unique<Map>();
    return map->open({100, 1, 4}) == cefrodil::Status::ok ? map.release() : nullptr;
}
static bool insert(Map *map, uint64_t key, uint64_t value) { return map->insert(key, value).status == cefrodil::Status::ok; }
static uint64_t find(Map *map, uint64_t key) { return map->find(key).value_or(0); }
static Map *move(Map *map) {
    auto moved = std::make_unique<Map>(std::move(*map));
    delete map;
    return moved.release();
}
static void close(Map *map) { delete map; }

extern "C" [[gnu::visibility("default")]] const Calls *calls();
const Calls *calls() {
    static constexpr Calls all{open, insert, find, move, close};
    return &all;
}
