/* A full shard of few items finds a place for each new key, in the table that cefrodil_shape_for_items chooses. The keys are drawn from one
 * seed, so each run is the same. In a table of half the buckets some find none: so the test would see it. */
#include "cefrodil.h"
#include "must.h"

enum { PUTS = 50000 };

static uint64_t state = 1;

/* SplitMix64. */
static uint64_t draw(void) {
    uint64_t z = state += UINT64_C(0x9e3779b97f4a7c15);
    z = (z ^ (z >> 30)) * UINT64_C(0xbf58476d1ce4e5b9);
    z = (z ^ (z >> 27)) * UINT64_C(0x94d049bb133111eb);
    return z ^ (z >> 31);
}

static size_t refused_by(const cefrodil_shape *shape) {
    cefrodil_handle handle = {0};
    cefrodil_reply reply;
    size_t refused = 0;
    MUST(cefrodil_open(shape, 1, 1, &handle, 1) == CEFRODIL_OK);
    MUST(cefrodil_hold(&handle) == CEFRODIL_OK);
    for (size_t n = 0; n < PUTS; n++) {
        const uint64_t value = n;
        refused += cefrodil_put(&handle, draw(), &value, 1, &reply) != CEFRODIL_OK;
    }
    MUST(cefrodil_close(&handle) == CEFRODIL_OK);
    return refused;
}

int main(void) {
    static const uint32_t items[] = {1, 3, 6, 7, 12, 14, 25, 28, 50, 57, 63, 100, 115, 200, 230, 255, 256, 460, 921, 1000};
    size_t crowded = 0;
    for (size_t n = 0; n < sizeof items / sizeof *items; n++) {
        cefrodil_shape shape;
        MUST(cefrodil_shape_for_items(items[n], 1, &shape) == CEFRODIL_OK);
        MUST(shape.items == items[n]);
        MUST(refused_by(&shape) == 0);
        shape.policy = CEFRODIL_POLICY_CLOCK;
        MUST(refused_by(&shape) == 0);
        if (items[n] > 7 && items[n] < 256) {
            shape.buckets /= 2;
            crowded += refused_by(&shape);
        }
    }
    MUST(crowded > 0);
    return outcome("small_shards");
}
