// What the two files of the test share: an inline function that calls the header's functions, and where this file has those.
#ifndef UNITS_HPP
#define UNITS_HPP

#include "cefrodil.h"
#include <array>

// Puts a key by one handle and looks it up by another in both ways, so that the header's functions are called from an inline function.
inline bool serves(cefrodil_handle *one, cefrodil_handle *other, uint64_t key) {
    cefrodil_reply reply;
    cefrodil_answer answer;
    uint64_t value = key + 1, found = 0, many = 0;
    return cefrodil_put(one, key, &value, 1, &reply) == CEFRODIL_OK && cefrodil_get(other, key, &found, 1, nullptr) == CEFRODIL_OK &&
           cefrodil_get_many(other, &key, 1, &many, 1, &answer, 1) == CEFRODIL_OK && found == value && many == value &&
           cefrodil_text(answer.status) == cefrodil_text(CEFRODIL_OK);
}

using Address = void (*)();
using Addresses = std::array<Address, 13>;

// The addresses of the header's functions, and of the one above, in the file that calls this.
#define ADDRESSES_HERE \
    Addresses { \
        {reinterpret_cast<Address>(cefrodil_empty), reinterpret_cast<Address>(cefrodil_move), reinterpret_cast<Address>(cefrodil_get_of_width), \
         reinterpret_cast<Address>(cefrodil_put_of_width), reinterpret_cast<Address>(cefrodil_get_or_turn_of_width), \
         reinterpret_cast<Address>(cefrodil_close_unless_null), reinterpret_cast<Address>(cefrodil_open_with_or_none), \
         reinterpret_cast<Address>(cefrodil_get_many_or_none), \
         reinterpret_cast<Address>(cefrodil_list_without_room), reinterpret_cast<Address>(cefrodil_entries_or_none), \
         reinterpret_cast<Address>(cefrodil_stamped_entries_or_none), reinterpret_cast<Address>(cefrodil_text), reinterpret_cast<Address>(serves)} \
    }

Addresses addresses_of_other_file();
bool serves_in_other_file(cefrodil_handle *one, cefrodil_handle *other);

#endif
