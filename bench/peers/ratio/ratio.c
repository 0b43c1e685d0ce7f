/* How many lookups find their key in a cache of the library, for `bench/policies.py`. Standard input has the keys, as words of 64 bits. Each that is
 * missed is put.
 *
 * usage: ratio ITEMS SHARDS POLICY     ITEMS: of all shards together; POLICY: scan-resistant or clock. It prints a line of 0 and 1: which
 * lookups hit. */
#include "cefrodil.h"
#include <stdio.h>
#include <stdlib.h>
#include <string.h>

/* Each shard has just its share of the items. The buckets are those that the library gives to a shard with more. */
static cefrodil_status open_shards(uint32_t items, uint32_t shards, bool by_clock, cefrodil_handle *handle) {
    cefrodil_shape shape;
    const cefrodil_status status = cefrodil_shape_for_items(items, shards, &shape);
    if (status != CEFRODIL_OK) {
        return status;
    }
    shape.items = items / shards;
    shape.policy = by_clock ? CEFRODIL_POLICY_CLOCK : CEFRODIL_POLICY_SCAN_RESISTANT;
    return cefrodil_open(&shape, shards, 1, handle, 1);
}

static void must(int is_so, const char *fault) {
    if (!is_so) {
        fprintf(stderr, "ratio: %s\n", fault);
        exit(1);
    }
}

/* Looks the key up, and puts it if it is absent. '0' or '1': whether it was found. */
static char look_up(cefrodil_handle *handle, uint64_t key) {
    cefrodil_reply reply;
    uint64_t value = 0;
    cefrodil_status status = cefrodil_get(handle, key, &value, 1, &reply);
    if (status == CEFRODIL_OK) {
        must(value == key, "another value");
        return '1';
    }
    must(status == CEFRODIL_ABSENT, cefrodil_text(status));
    status = cefrodil_put(handle, key, &key, 1, &reply);
    must(status == CEFRODIL_OK, cefrodil_text(status));
    return '0';
}

int main(int count, char **words) {
    if (count != 4) {
        return 2;
    }
    const uint32_t items = (uint32_t)strtoul(words[1], NULL, 10), shards = (uint32_t)strtoul(words[2], NULL, 10);
    cefrodil_handle handle = CEFRODIL_EMPTY;
    const cefrodil_status status = open_shards(items, shards, strcmp(words[3], "clock") == 0, &handle);
    must(status == CEFRODIL_OK, cefrodil_text(status));
    for (uint64_t key; fread(&key, sizeof key, 1, stdin) == 1;) {
        putchar(look_up(&handle, key));
    }
    putchar('\n');
    return cefrodil_close(&handle) != CEFRODIL_OK;
}
