// Each opening refuses an archive of another minor version, and one whose patch alone is another opens. So this test passes over any archive.
#include "cefrodil_map.hpp"
#include "must.h"
#include <string>

using namespace cefrodil;

static std::string dotted(uint32_t version) {
    return std::to_string(version / 10000) + '.' + std::to_string(version / 100 % 100) + '.' + std::to_string(version % 100);
}

int main() {
    const bool same = cefrodil_version() / 100 == CEFRODIL_VERSION / 100;
    const Status expected = same ? Status::ok : Status::other_version;
    const cefrodil_shape shape{uint64_t(1) << 62, 64, 100, 64, 5, 8, CEFRODIL_MIX_FULL, CEFRODIL_POLICY_SCAN_RESISTANT};
    std::vector<Handle<1>> handles, of_shards, loaded;
    std::vector<Status> statuses;
    MUST(shape_for_items(100).has_value() == same && shape_for_items(100, 4).has_value() == same);
    MUST(open(shape, 1, 1, handles) == expected && handles.size() == size_t(same) && open(shape, 4, 1, of_shards) == expected);
    MUST(open_with(shape, 4, 1, {1, 10}, loaded, statuses) == expected && statuses.size() == size_t(same) && loaded.size() == size_t(same));
    map<int, int> numbers;
    MUST(numbers.open({0}) == (same ? Status::bad_items : Status::other_version) && !numbers.is_open());
    MUST(numbers.open({100}) == expected && numbers.is_open() == same);
    MUST(text(Status::other_version) == "the library has version " + dotted(cefrodil_version()) + ", and the header " + dotted(CEFRODIL_VERSION));
    return outcome("versions");
}
