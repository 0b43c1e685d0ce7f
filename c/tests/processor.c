/* Each part of x86-64-v2 is asked for: if one is missing, the processor is too old. A function of this file answers for CPUID. */
#include <cpuid.h>

static unsigned features, extended_features, highest_leaf;

static int some_cpuid(unsigned leaf, unsigned *a, unsigned *b, unsigned *c, unsigned *d) {
    *a = *b = *d = ~0u;
    *c = leaf == 1 ? features : extended_features;
    return leaf <= highest_leaf;
}

#define __get_cpuid some_cpuid
#include "../processor.c"
#include "must.h"

/* The openings are guarded here, and not called. */
#pragma weak proved_cefrodil_shape_for_items
#pragma weak proved_cefrodil_open
#pragma weak proved_cefrodil_open_with

/* In ECX of leaf 1: SSE3, SSSE3, CMPXCHG16B, SSE4.1, SSE4.2, POPCNT. */
static const unsigned parts[] = {1u << 0, 1u << 9, 1u << 13, 1u << 19, 1u << 20, 1u << 23};
/* In ECX of leaf 80000001: LAHF. */
static const unsigned lahf = 1u << 0, extended = 0x80000001;

static bool supports(unsigned has, unsigned has_extended, unsigned leaf) {
    features = has, extended_features = has_extended, highest_leaf = leaf;
    return processor_supports_v2();
}

int main(void) {
    unsigned all = 0;
    for (size_t n = 0; n < sizeof parts / sizeof *parts; n++) {
        all |= parts[n];
    }
    MUST(supports(all, lahf, extended) && supports(~0u, ~0u, extended) && !supports(0, 0, extended));
    for (size_t n = 0; n < sizeof parts / sizeof *parts; n++) {
        MUST(!supports(~parts[n], ~0u, extended));
    }
    MUST(!supports(~0u, ~lahf, extended));
    MUST(!supports(~0u, ~0u, extended - 1) && !supports(~0u, ~0u, 0));
    return outcome("processor");
}
