// The other file of units.cpp.
#include "common.hpp"

Addresses addresses_of_other_file() { return ADDRESSES_HERE; }
bool serves_in_other_file(cefrodil_handle *one, cefrodil_handle *other) { return serves(one, other, 8); }
