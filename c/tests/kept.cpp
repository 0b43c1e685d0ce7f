// A forked child has the number of its parent, as the first processes of two namespaces have. It knows all the same what its parent opened, destroys
// that, and ends by exit. No leak checker finds anything of it there (.ci/door-cxx).
#define getpid number_of_each_process
#include "cefrodil_object_map.hpp"
#include "must.h"
#include <cstdlib>
#include <memory>
#include <string>
#include <sys/wait.h>
#include <unistd.h>

using Map = cefrodil::map<uint64_t, uint64_t>;
using Names = cefrodil::object_map<uint64_t, std::string>;
using cefrodil::Status;

extern "C" pid_t number_of_each_process() noexcept { return 1; }

static bool is_of_parent(const Map &map, const Names &names, const cefrodil::Handle<1> &handle) {
    return !map.is_open() && !names.is_open() && handle.meter().counts().hits == 0;
}

// Each object is on the heap, so nothing else knows what it had.
int main() {
    auto map = std::make_unique<Map>();
    auto names = std::make_unique<Names>();
    std::vector<cefrodil::Handle<1>> handles;
    const auto shape = cefrodil::shape_for_items(100);
    MUST(map->open({100}) == Status::ok && map->insert(1, 2).status == Status::ok);
    MUST(names->open({100}) == Status::ok && names->insert(1, "one").status == Status::ok);
    MUST(shape && cefrodil::open(*shape, 1, 1, handles) == Status::ok && handles[0].try_put(1, {2}).status == Status::ok);
    MUST(handles[0].get(1).status == Status::ok && handles[0].meter().counts().hits == 1);
    const pid_t child = fork();
    int status = -1;
    if (child == 0) {
        alarm(20);
        MUST(is_of_parent(*map, *names, handles[0]));
        map.reset();
        names.reset();
        handles.clear();
        std::exit(line_of_failure == 0 ? 0 : outcome("a child"));
    }
    MUST(waitpid(child, &status, 0) == child && status == 0);
    MUST(map->find(1) == 2u && names->find(1) == "one" && handles[0].get(1).status == Status::ok);
    return outcome("kept");
}
