// A look at each place of the table shows each entry once, by a Handle and by a Writing.
#include "cefrodil.hpp"
#include "must.h"
#include <map>
#include <vector>

enum : uint64_t { KEYS = 50 };

// The entries that a round shows: since when each key is there. Key k has the value k, 2k.
template <class Look> static std::map<uint64_t, uint64_t> round_of(uint32_t items, Look look) {
    std::map<uint64_t, uint64_t> shown;
    for (uint32_t item = 0; item <= items; item++) {
        const cefrodil::Shown<2> entry = look(item);
        MUST(entry.value.has_value() == (entry.status == cefrodil::Status::ok));
        MUST(entry.value || (entry.status == cefrodil::Status::absent && entry.key == 0 && entry.since == 0));
        if (entry.value) {
            MUST((*entry.value)[0] == entry.key && (*entry.value)[1] == 2 * entry.key && shown.emplace(entry.key, entry.since).second);
        }
    }
    return shown;
}

int main() {
    cefrodil_shape shape;
    MUST(cefrodil_shape_for_items(2 * KEYS, 1, &shape) == CEFRODIL_OK);
    std::vector<cefrodil::Handle<2>> handles;
    MUST(cefrodil::open(shape, 1, 2, handles) == cefrodil::Status::ok);
    std::map<uint64_t, uint64_t> expected;
    for (uint64_t key = 0; key < KEYS; key++) {
        MUST(handles[0].try_put(key, {key, 2 * key}).status == cefrodil::Status::ok);
        expected[key] = key + 1;
    }
    MUST(round_of(shape.items, [&](uint32_t item) { return handles[1].try_entry_at(7, item); }) == expected);
    cefrodil::Writing<2> writing;
    MUST(handles[0].hold(writing) == cefrodil::Status::ok);
    MUST(writing.remove(3).status == cefrodil::Status::ok);
    expected.erase(3);
    MUST(round_of(shape.items, [&](uint32_t item) { return writing.entry_at(7, item); }) == expected);
    MUST(handles[1].try_entry_at(7, 0).status == cefrodil::Status::held);
    return outcome("places in C++");
}
