// What a shared library of the test can do with a map, its own or that of another library.
#ifndef LIBRARIES_CALLS_HPP
#define LIBRARIES_CALLS_HPP

#include "cefrodil_map.hpp"

using Map = cefrodil::map<uint64_t, uint64_t>;

struct Calls {
    Map *(*open)();
    bool (*insert)(Map *map, uint64_t key, uint64_t value);
    uint64_t (*find)(Map *map, uint64_t key); // 0: none
    Map *(*move)(Map *map); // to a new one
    void (*close)(Map *map);
};

#endif
