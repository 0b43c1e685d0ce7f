/* cefrodil_get, cefrodil_put and cefrodil_get_or_turn for values of each width: where the compiler knows `words`, and where it does not. */
#include "cefrodil.h"
#include "must.h"

static cefrodil_handle handles[2], none;
static cefrodil_handle *const one = &handles[0], *const other = &handles[1];
static cefrodil_reply reply;

/* A number that the compiler does not know. */
static size_t unknown(size_t number) {
    volatile size_t hidden = number;
    return hidden;
}

/* Whether the first `words` words of `found` are those of `value`, and the word after them is 9. */
static bool is_found(const uint64_t *found, const uint64_t *value, size_t words) {
    for (size_t n = 0; n < words; n++) {
        if (found[n] != value[n]) {
            return false;
        }
    }
    return found[words] == 9;
}

/* Values of `words` words are put and found. Those of `wrong` words are refused. The compiler knows both numbers. */
static inline __attribute__((always_inline)) void serves(size_t words, size_t wrong) {
    const uint64_t first[8] = {1, 2, 3, 4, 5, 6, 7, 8}, second[8] = {11, 12, 13, 14, 15, 16, 17, 18};
    uint64_t found[9] = {9, 9, 9, 9, 9, 9, 9, 9, 9}, again[9] = {9, 9, 9, 9, 9, 9, 9, 9, 9};

    MUST(cefrodil_get(other, 5, found, words, &reply) == CEFRODIL_ABSENT && reply.at == 0 && found[0] == 9);
    MUST(cefrodil_get_or_turn(other, 5, found, words, &reply) == CEFRODIL_ABSENT && reply.at == 0 && found[0] == 9);
    MUST(cefrodil_put(one, 5, first, words, &reply) == CEFRODIL_OK && reply.at == 1 && reply.put == CEFRODIL_PUT_STORED);
    MUST(cefrodil_get(other, 5, found, unknown(words), &reply) == CEFRODIL_OK && reply.since == 1 && is_found(found, first, words));
    MUST(cefrodil_get_or_turn(other, 5, again, words, &reply) == CEFRODIL_OK && reply.since == 1 && is_found(again, first, words));
    MUST(cefrodil_put(one, 5, second, unknown(words), &reply) == CEFRODIL_OK && reply.at == 2 && reply.put == CEFRODIL_PUT_RENEWED);
    MUST(cefrodil_get(other, 5, found, words, &reply) == CEFRODIL_OK && reply.since == 2 && is_found(found, second, words));
    MUST(cefrodil_get_or_turn(other, 5, again, unknown(words), &reply) == CEFRODIL_OK && reply.since == 2 && is_found(again, second, words));
    MUST(cefrodil_get(one, 5, found, words, NULL) == CEFRODIL_OK && is_found(found, second, words));

    MUST(cefrodil_put(one, 5, first, wrong, &reply) == CEFRODIL_WIDTH && reply.at == 0);
    MUST(cefrodil_get(other, 5, found, wrong, &reply) == CEFRODIL_WIDTH && reply.at == 0 && is_found(found, second, words));
    MUST(cefrodil_get_or_turn(other, 5, found, wrong, &reply) == CEFRODIL_WIDTH && reply.since == 0 && is_found(found, second, words));
    MUST(cefrodil_get(one, 5, found, words, &reply) == CEFRODIL_OK && reply.at == 2);

    MUST(cefrodil_get_or_turn(&none, 5, found, words, &reply) == CEFRODIL_CLOSED);
    MUST(cefrodil_put(&none, 5, first, words, &reply) == CEFRODIL_CLOSED);
    MUST(cefrodil_get(&none, 5, found, words, &reply) == CEFRODIL_CLOSED && is_found(found, second, words));
}

static void opened(size_t words) {
    cefrodil_shape shape;
    MUST(cefrodil_shape_for_items(20, 1, &shape) == CEFRODIL_OK && cefrodil_open(&shape, 1, words, handles, 2) == CEFRODIL_OK);
}

static void close_both(void) { MUST(cefrodil_close(one) == CEFRODIL_OK && cefrodil_close(other) == CEFRODIL_OK); }

/* By a handle that tries, and by one that holds the turns. */
static inline __attribute__((always_inline)) void serves_in_each_way(size_t words, size_t wrong) {
    opened(words);
    serves(words, wrong);
    close_both();
    opened(words);
    MUST(cefrodil_hold(one) == CEFRODIL_OK);
    serves(words, wrong);
    close_both();
    opened(words);
    MUST(cefrodil_hold(other) == CEFRODIL_OK);
    const uint64_t value[8] = {1, 2, 3, 4, 5, 6, 7, 8};
    MUST(cefrodil_put(one, 5, value, words, &reply) == CEFRODIL_HELD);
    close_both();
}

int main(void) {
    uint64_t value[9] = {0};
    serves_in_each_way(1, 2);
    serves_in_each_way(2, 3);
    serves_in_each_way(3, 4);
    serves_in_each_way(4, 5);
    serves_in_each_way(5, 6);
    serves_in_each_way(6, 7);
    serves_in_each_way(7, 8);
    serves_in_each_way(8, 1);
    opened(8);
    MUST(cefrodil_get(other, 1, value, 9, &reply) == CEFRODIL_WIDTH && cefrodil_put(one, 1, value, 9, &reply) == CEFRODIL_WIDTH);
    MUST(cefrodil_get(other, 1, value, 0, &reply) == CEFRODIL_WIDTH && cefrodil_put(one, 1, value, 0, &reply) == CEFRODIL_WIDTH);
    MUST(cefrodil_get_or_turn(one, 1, value, 9, &reply) == CEFRODIL_WIDTH && cefrodil_get_or_turn(one, 1, value, 0, &reply) == CEFRODIL_WIDTH);
    close_both();
    return outcome("widths");
}
