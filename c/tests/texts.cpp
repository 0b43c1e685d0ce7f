// Each status has its text in C++ as well.
#include "cefrodil.hpp"
#include "must.h"
#include "texts.h"
#include <cstring>

int main() {
#define ROW(name, in_cxx, itself) \
    MUST(static_cast<uint32_t>(cefrodil::Status::in_cxx) == CEFRODIL_##name && std::strcmp(cefrodil::text(cefrodil::Status::in_cxx), itself) == 0);
    EACH_STATUS(ROW)
    return outcome("texts");
}
