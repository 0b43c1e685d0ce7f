/* A cache with two handles: one puts, the other looks up. README shows what it prints. */
#include "cefrodil.h"
#include <stdio.h>

int main(void) {
    cefrodil_handle handles[2] = {CEFRODIL_EMPTY, CEFRODIL_EMPTY};
    cefrodil_shape shape;
    cefrodil_reply reply;
    uint64_t value = 70;
    if (cefrodil_shape_for_items(1000, 1, &shape) != CEFRODIL_OK || cefrodil_open(&shape, 1, 1, handles, 2) != CEFRODIL_OK) {
        return 1;
    }
    uint32_t status = cefrodil_put(&handles[0], 7, &value, 1, &reply);
    value = 0;
    if (status == CEFRODIL_OK) {
        status = cefrodil_get(&handles[1], 7, &value, 1, &reply);
    }
    printf("%s: %llu at %llu\n", cefrodil_text(status), (unsigned long long)value, (unsigned long long)reply.at);
    cefrodil_close(&handles[1]);
    return cefrodil_close(&handles[0]) != CEFRODIL_OK;
}
