/* What a program calls first: the openings, and the choice of a shape. On x86-64 the cache's code is for x86-64-v2, and on an older processor an
 * illegal instruction could end the program. So these calls ask the processor first. This file is for any x86-64, as memory.c and text.c are.
 * On aarch64 the code is for every one, and nothing is asked.
 *
 * c/build gives the cache's own calls other names: cefrodil_open is proved_cefrodil_open, and so on. By the header these here have the series in
 * their names for a linker. */
#define CEFRODIL_NO_MACROS
#include "cefrodil.h"
#ifdef __x86_64__
#include <cpuid.h>
#include <stdatomic.h>

/* Weak, so that .ci/door can put another in its place. */
bool processor_supports_v2(void) __attribute__((weak));

/* By CPUID itself: __builtin_cpu_supports needs a part of libgcc that not every linker is given, and clang's doesn't know CMPXCHG16B. */
bool processor_supports_v2(void) {
    const unsigned needed = bit_SSE3 | bit_SSSE3 | bit_CMPXCHG16B | bit_SSE4_1 | bit_SSE4_2 | bit_POPCNT;
    unsigned a, b, c, d;
    if (!__get_cpuid(1, &a, &b, &c, &d) || (c & needed) != needed) {
        return false;
    }
    return __get_cpuid(0x80000001, &a, &b, &c, &d) && (c & bit_LAHF_LM) != 0;
}

enum { UNKNOWN, OLDER, SUPPORTED };

/* The processor is asked once. If several threads ask at once, they get the same answer. It says nothing of other memory, so its load and its
 * store are relaxed. */
static bool is_supported(void) {
    static atomic_int answer = UNKNOWN;
    int known = atomic_load_explicit(&answer, memory_order_relaxed);
    if (known == UNKNOWN) {
        known = processor_supports_v2() ? SUPPORTED : OLDER;
        atomic_store_explicit(&answer, known, memory_order_relaxed);
    }
    return known == SUPPORTED;
}
#else
static bool is_supported(void) { return true; }
#endif

/* A call with these parameters, which are passed on as they are. */
#define GUARDED(call, parameters, passed) \
    cefrodil_status proved_cefrodil_##call parameters; \
    cefrodil_status cefrodil_##call parameters { return is_supported() ? proved_cefrodil_##call passed : CEFRODIL_PROCESSOR; }

GUARDED(shape_for_items, (uint32_t items, uint32_t shards, cefrodil_shape *shape), (items, shards, shape))
GUARDED(open, (const cefrodil_shape *shape, uint32_t shards, size_t words, cefrodil_handle *handles, size_t count),
        (shape, shards, words, handles, count))
GUARDED(open_with,
        (const cefrodil_shape *shape, uint32_t shards, size_t words, const uint64_t *entries, size_t entry_words, cefrodil_status *statuses,
         size_t status_count, cefrodil_handle *handles, size_t count),
        (shape, shards, words, entries, entry_words, statuses, status_count, handles, count))
