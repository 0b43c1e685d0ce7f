// In C++ each function of the header is one function in all files of a program: both files have it at the same address.
#include "../must.h"
#include "common.hpp"

int main() {
    cefrodil_handle handles[2] = {CEFRODIL_EMPTY, CEFRODIL_EMPTY};
    cefrodil_shape shape;
    MUST(cefrodil_shape_for_items(100, 1, &shape) == CEFRODIL_OK && cefrodil_open(&shape, 1, 1, handles, 2) == CEFRODIL_OK);
    MUST(serves(&handles[0], &handles[1], 7) && serves_in_other_file(&handles[0], &handles[1]));
    const Addresses here = ADDRESSES_HERE, there = addresses_of_other_file();
    for (size_t which = 0; which < here.size(); which++) {
        MUST(here[which] == there[which]);
    }
    MUST(cefrodil_close(&handles[0]) == CEFRODIL_OK && cefrodil_close(&handles[1]) == CEFRODIL_OK);
    return outcome("units");
}
