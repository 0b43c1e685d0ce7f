// A program that defines CEFRODIL_COUNTS as 0 counts nothing, and its calls answer as ever.
#define CEFRODIL_COUNTS 0
#include "cefrodil_object_map.hpp"
#include "must.h"

using namespace cefrodil;

int main() {
    std::vector<Handle<1>> handles;
    Writing<1> writing;
    cefrodil_shape shape = *shape_for_items(100);
    shape.items = 1;
    MUST(open(shape, 1, 2, handles) == Status::ok && handles[1].hold(writing) == Status::ok);
    MUST(writing.put(1, {10}).status == Status::ok && writing.put(2, {20}).evicted && handles[0].try_put(3, {30}).status == Status::held);
    const Answer<1> found = handles[0].get(2);
    MUST(found.value && (*found.value)[0] == 20 && handles[0].get(1).status == Status::absent);
    const Counts counts = writing.meter().counts();
    MUST(counts.hits == 0 && counts.misses == 0 && counts.held == 0 && counts.evictions == 0);
    writing.end();
    MUST(handles[0].try_put(3, {30}).evicted && handles[1].get(3).at == 5);
    map<int, int> numbers;
    object_map<int, int> objects;
    MUST(numbers.open({100}) == Status::ok && numbers.insert(1, 10).status == Status::ok && numbers.find(1) == 10 && !numbers.find(2));
    MUST(objects.open({100}) == Status::ok && objects.insert(1, 10).status == Status::ok && objects.find(1) == 10 && !objects.find(2));
    MUST(numbers.meter().counts().hits == 0 && numbers.meter().counts().misses == 0 && objects.meter().counts().hits == 0);
    return outcome("uncounted");
}
