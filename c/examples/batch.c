/* One thread looks up in batches: an order's products in one call. Prices that the cache doesn't have come from the price list, and are
 * put for the next order. Reads as C and as C++. */
#include "cefrodil.h"
#include <stdio.h>

enum { PRODUCTS = 10000, ORDERS = 5000, LINES = 32 };

/* The cache, whose values are prices. Its one handle looks up and puts: no other handle has a turn, so no put is held. */
struct prices {
    cefrodil_handle handle;
    unsigned long misses;
    unsigned long unput;
};

/* The price list: the slow way. */
static uint64_t listed(uint64_t product) {
    return product * 37 % 1000 + 1;
}

/* What an order costs, or 0 if the lookup failed. */
static uint64_t total(struct prices *prices, const uint64_t *order) {
    uint64_t found[LINES], sum = 0;
    cefrodil_answer answers[LINES];
    cefrodil_reply reply;
    if (cefrodil_get_many(&prices->handle, order, LINES, found, LINES, answers, LINES) != CEFRODIL_OK) {
        return 0;
    }
    for (int line = 0; line < LINES; line++) {
        if (answers[line].status != CEFRODIL_OK) {
            found[line] = listed(order[line]);
            prices->misses++;
            /* A price that finds no place is read from the list again. */
            prices->unput += cefrodil_put(&prices->handle, order[line], &found[line], 1, &reply) != CEFRODIL_OK;
        }
        sum += found[line];
    }
    return sum;
}

int main(void) {
    struct prices prices = {CEFRODIL_EMPTY, 0, 0};
    cefrodil_shape shape;
    int wrong = 0;
    if (cefrodil_shape_for_items(PRODUCTS, 1, &shape) != CEFRODIL_OK || cefrodil_open(&shape, 1, 1, &prices.handle, 1) != CEFRODIL_OK) {
        return 1;
    }
    for (uint64_t order = 0; order < ORDERS; order++) {
        uint64_t products[LINES], expected = 0;
        for (uint64_t line = 0; line < LINES; line++) {
            products[line] = (order * 97 + line * 311) % PRODUCTS;
            expected += listed(products[line]);
        }
        wrong += total(&prices, products) != expected;
    }
    cefrodil_close(&prices.handle);
    printf("%lu of %d prices came from the list\n", prices.misses, ORDERS * LINES);
    return wrong != 0 || prices.unput != 0 || prices.misses != PRODUCTS;
}
