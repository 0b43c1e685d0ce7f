// On a processor that is too old each opening returns that, and opens nothing. .ci/door-cxx links this with an archive that finds each processor too
// old, and then gives it an argument. Over any other archive each opening opens.
#include "cefrodil_map.hpp"
#include "must.h"

using namespace cefrodil;

static Status expected = Status::ok;
static bool runs = true;
static const cefrodil_shape shape{uint64_t(1) << 62, 64, 100, 64, 5, 8, CEFRODIL_MIX_FULL, CEFRODIL_POLICY_SCAN_RESISTANT};

static bool is(cefrodil_status status) { return static_cast<Status>(status) == expected; }

static void in_c() {
    cefrodil_handle handles[2] = {CEFRODIL_EMPTY, CEFRODIL_EMPTY}, of_shards = CEFRODIL_EMPTY, loaded = CEFRODIL_EMPTY;
    cefrodil_shape chosen = shape;
    const uint64_t entry[2] = {1, 10};
    cefrodil_status told = CEFRODIL_BUSY;
    MUST(is(cefrodil_shape_for_items(1000, 4, &chosen)) && (chosen.items == shape.items) != runs);
    MUST(is(cefrodil_open(&shape, 1, 1, handles, 2)) && handles[0].live_ == runs && handles[1].live_ == runs);
    MUST(is(cefrodil_open(&shape, 4, 1, &of_shards, 1)) && of_shards.live_ == runs);
    MUST(is(cefrodil_open_with(&shape, 4, 1, entry, 2, &told, 1, &loaded, 1)) && loaded.live_ == runs && told == (runs ? CEFRODIL_OK : CEFRODIL_BUSY));
    // It comes before what else an opening refuses.
    MUST((cefrodil_open(&shape, 1, 9, handles, 2) == CEFRODIL_PROCESSOR) != runs);
    for (cefrodil_handle *handle : {&handles[0], &handles[1], &of_shards, &loaded}) {
        MUST(cefrodil_close(handle) == (runs ? CEFRODIL_OK : CEFRODIL_CLOSED));
    }
}

static void in_cxx() {
    std::vector<Handle<1>> handles, of_shards, loaded;
    std::vector<Status> statuses;
    MUST(shape_for_items(100).has_value() == runs && shape_for_items(100, 4).has_value() == runs);
    MUST(open(shape, 1, 1, handles) == expected && handles.size() == size_t(runs) && open(shape, 4, 1, of_shards) == expected);
    MUST(open_with(shape, 4, 1, {1, 10}, loaded, statuses) == expected && statuses.size() == size_t(runs) && loaded.size() == size_t(runs));
    MUST(!runs || handles[0].try_put(1, {10}).status == Status::ok);
    map<int, int> numbers;
    MUST(numbers.open({100}) == expected && numbers.is_open() == runs);
}

int main(int argc, char **) {
    runs = argc == 1;
    expected = runs ? Status::ok : Status::processor;
    in_c();
    in_cxx();
    MUST(cefrodil_version() / 100 == CEFRODIL_VERSION / 100);
    return outcome("processor");
}
