// Each method of a handle or a guard throws nothing. If that is not open, it returns closed and writes nothing, and a list is empty.
#include "each_method.hpp"
#include "must.h"
#include <string_view>

#define THROWS_NOTHING(object, method, arguments) static_assert(noexcept(object.method arguments));
EACH_METHOD(THROWS_NOTHING)
EACH_UNCHECKED_METHOD(THROWS_NOTHING)

#define IS_CLOSED(object, method, arguments) \
    list = {1}; \
    MUST(cefrodil::inside::status_of(object.method arguments) == cefrodil::Status::closed); \
    MUST(number == 9 && handles.empty() && list.empty() == (std::string_view(#arguments) == "(list)"));

int main() {
    EACH_METHOD(IS_CLOSED)
    EACH_UNCHECKED_METHOD(IS_CLOSED)
    return outcome("each method of C++");
}
