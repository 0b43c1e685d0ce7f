// A table that grows, so that it evicts nothing: before it is full, a larger one takes over its entries. C++17.
#include "cefrodil.hpp"
#include <cstdio>
#include <optional>
#include <stdexcept>
#include <utility>
#include <vector>

using cefrodil::Status;

// A table for one thread. Handles in other threads would keep the old table: give them handles of the new one.
class Table {
  public:
    explicit Table(uint32_t items) {
        if (!opens(items, {})) {
            throw std::runtime_error("a table does not open");
        }
    }

    // Puts the key. Grows first if the table is full, or if the key finds no place in it.
    void put(uint64_t key, uint64_t value) {
        if (len() == capacity() && !get(key)) {
            grow();
        }
        Status status = writing_.put(key, {value}).status;
        while (status == Status::no_path) {
            grow();
            status = writing_.put(key, {value}).status;
        }
        must(status);
    }

    std::optional<uint64_t> get(uint64_t key) {
        const auto found = writing_.get(key).value;
        return found ? std::optional((*found)[0]) : std::nullopt;
    }

    uint64_t len() {
        uint64_t number = 0;
        must(writing_.len(number));
        return number;
    }
    uint64_t capacity() {
        uint64_t number = 0;
        must(writing_.capacity(number));
        return number;
    }

  private:
    static void must(Status status) {
        if (status != Status::ok) {
            throw std::runtime_error(cefrodil::text(status));
        }
    }

    // Opens a table for `items` items with these entries, in place of this one. False if one of them finds no place in it.
    bool opens(uint64_t items, const std::vector<uint64_t> &entries) {
        const auto shape = cefrodil::shape_for_items(static_cast<uint32_t>(items));
        std::vector<cefrodil::Handle<1>> handles;
        std::vector<Status> statuses;
        if (!shape) {
            throw std::runtime_error("the table is too large");
        }
        must(cefrodil::open_with(*shape, 1, 1, entries, handles, statuses));
        for (const Status status : statuses) {
            if (status != Status::ok) {
                return false;
            }
        }
        writing_.end();
        must(writing_.own(std::move(handles[0])));
        return true;
    }

    // Moves all entries to a table of twice the size, or of four times, until each has a place there.
    void grow() {
        std::vector<uint64_t> entries;
        must(writing_.entries(entries));
        uint64_t items = 2 * capacity();
        while (!opens(items, entries)) {
            items *= 2;
        }
    }

    cefrodil::Writing<1> writing_;
};

int main() {
    constexpr uint64_t keys = 50000;
    Table table(100);
    for (uint64_t key = 0; key < keys; key++) {
        table.put(key, key * key);
    }
    uint64_t found = 0;
    for (uint64_t key = 0; key < keys; key++) {
        found += table.get(key) == key * key;
    }
    const uint64_t capacity = table.capacity();
    std::printf("%d of %d keys, in a table for %d\n", static_cast<int>(found), static_cast<int>(keys), static_cast<int>(capacity));
    return found != keys || table.len() != keys;
}
