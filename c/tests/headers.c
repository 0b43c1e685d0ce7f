/* The header in a program that defines CEFRODIL_NO_MACROS, or not: the names of calls are those of the exports, or the header's own. Compiled as
 * C99 to C17 and as C++, with warnings of redundant declarations and of zeros as null pointers. */
#include "cefrodil.h"
#include "must.h"

#define NAME_OF(call) NAME_AS_IT_IS(call)
#define NAME_AS_IT_IS(call) #call

static cefrodil_handle single = CEFRODIL_EMPTY, both[2] = {CEFRODIL_EMPTY, CEFRODIL_EMPTY};

static bool same(const char *one, const char *other) {
    while (*one != 0 && *one == *other) {
        one++, other++;
    }
    return *one == *other;
}

/* A handle that was used for something else is empty again, and can be opened. */
static void assigned(const cefrodil_shape *shape) {
    cefrodil_handle other;
    single.live_ = true;
    single = cefrodil_empty();
    MUST(!single.live_ && single.at_ == cefrodil_empty().at_ && cefrodil_close(&single) == CEFRODIL_CLOSED);
    MUST(cefrodil_open(shape, 1, 1, &single, 1) == CEFRODIL_OK && single.live_);
    other = cefrodil_move(&single);
    MUST(!single.live_ && other.live_ && cefrodil_close(&other) == CEFRODIL_OK);
}

int main(void) {
    uint64_t value = 70, count = 9;
    cefrodil_shape shape;
    cefrodil_reply reply;
    MUST(cefrodil_shape_for_items(100, 1, &shape) == CEFRODIL_OK);
    assigned(&shape);
#ifdef CEFRODIL_NO_MACROS
    MUST(same(NAME_OF(cefrodil_get), "cefrodil_get") && same(NAME_OF(cefrodil_put), "cefrodil_put") && same(NAME_OF(cefrodil_close), "cefrodil_close"));
    MUST(same(NAME_OF(cefrodil_open_with), "cefrodil_open_with") && same(NAME_OF(cefrodil_get_many), "cefrodil_get_many"));
    MUST(same(NAME_OF(cefrodil_get_or_turn), "cefrodil_get_or_turn"));
    MUST(same(NAME_OF(cefrodil_entries), "cefrodil_entries") && same(NAME_OF(cefrodil_stamped_entries), "cefrodil_stamped_entries"));
#else
    MUST(same(NAME_OF(cefrodil_get), "cefrodil_get_of_width") && same(NAME_OF(cefrodil_close), "cefrodil_close_unless_null"));
#endif
    MUST(cefrodil_open(&shape, 1, 1, both, 2) == CEFRODIL_OK && cefrodil_put(&both[0], 7, &value, 1, &reply) == CEFRODIL_OK);
    value = 0;
    MUST(cefrodil_get(&both[1], 7, &value, 1, &reply) == CEFRODIL_OK && value == 70 && reply.since == 1);
    MUST(cefrodil_get_or_turn_of_width(&both[1], 7, &value, 1, &reply) == CEFRODIL_OK && reply.at == 1);
    MUST(cefrodil_get_of_width(&both[1], 7, &value, 1, NULL) == CEFRODIL_OK && cefrodil_close_unless_null(NULL) == CEFRODIL_CLOSED);
    MUST(cefrodil_entries_or_none(&both[0], NULL, 0, &count) == CEFRODIL_BAD_COUNT && count == 1);
    count = 9;
    MUST(cefrodil_stamped_entries_or_none(&both[1], NULL, 0, &count) == CEFRODIL_BAD_COUNT && count == 1);
    MUST(cefrodil_close(&both[0]) == CEFRODIL_OK && cefrodil_close(&both[1]) == CEFRODIL_OK);
    return outcome("headers");
}
