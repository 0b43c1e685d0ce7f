/* Each call of a handle is refused where it should be: then it changes nothing but the reply, which is empty. */
#include "cefrodil.h"
#include "each_call.h"

static cefrodil_shape shape;
static cefrodil_handle handles[2], none;
static cefrodil_handle *const one = &handles[0], *const other = &handles[1];

/* With the key, or with a limit at which nothing can be put. */
static void opens(uint32_t shards, size_t words, bool at_limit) {
    cefrodil_reply reply;
    MUST(cefrodil_shape_for_items(20, shards, &shape) == CEFRODIL_OK);
    shape.limit = at_limit ? 0 : shape.limit;
    MUST(cefrodil_open(&shape, shards, words, handles, 2) == CEFRODIL_OK);
    MUST(cefrodil_put(one, key, value, words, &reply) == (at_limit ? CEFRODIL_SPENT : CEFRODIL_OK));
}

/* Nothing was changed since. */
static void stays(size_t words) {
    uint64_t found[MOST] = {0}, moment = 9;
    cefrodil_reply reply;
    MUST(cefrodil_get(other, key, found, words, &reply) == CEFRODIL_OK && reply.at == 1 && reply.since == 1);
    MUST(memcmp(found, value, words * sizeof *found) == 0 && cefrodil_moment(one, &moment) == CEFRODIL_OK && moment == 1);
}

static void close_both(void) { MUST(cefrodil_close(one) == CEFRODIL_OK && cefrodil_close(other) == CEFRODIL_OK); }

/* A handle that was never opened, was moved from, or is closed. */
static void closed(uint32_t shards) {
    opens(shards, WORDS, false);
    cefrodil_handle moved = cefrodil_move(other);
    for (size_t i = 0; i < CALLS; i++) {
        is_refused(&calls[i], &none, WORDS, CEFRODIL_CLOSED);
        is_refused(&calls[i], other, WORDS, CEFRODIL_CLOSED);
    }
    *other = cefrodil_move(&moved);
    stays(WORDS);
    close_both();
    for (size_t i = 0; i < CALLS; i++) {
        is_refused(&calls[i], one, WORDS, CEFRODIL_CLOSED);
    }
}

/* A value has as many words as those of the cache. */
static void other_widths(cefrodil_handle *handle, size_t own) {
    for (size_t i = 0; i < CALLS; i++) {
        for (size_t words = 0; words <= MOST && (calls[i].has & WIDTH) != 0; words++) {
            if (words != own) {
                is_refused(&calls[i], handle, words, CEFRODIL_WIDTH);
            }
        }
    }
}

static void widths(uint32_t shards) {
    for (size_t words = 1; words < MOST; words++) {
        opens(shards, words, false);
        other_widths(other, words);
        MUST(cefrodil_hold(one) == CEFRODIL_OK);
        other_widths(one, words);
        other_widths(other, words);
        stays(words);
        close_both();
    }
}

/* While another handle holds the turns. */
static void held(uint32_t shards) {
    opens(shards, WORDS, false);
    MUST(cefrodil_hold(one) == CEFRODIL_OK);
    for (size_t i = 0; i < CALLS; i++) {
        if ((calls[i].has & TURN) != 0) {
            is_refused(&calls[i], other, WORDS, CEFRODIL_HELD);
        }
    }
    stays(WORDS);
    close_both();
}

/* A turn whose call is refused is given back: no call after it is held. */
static void spent_by(cefrodil_handle *handle) {
    uint64_t len = 99;
    for (size_t i = 0; i < CALLS; i++) {
        if ((calls[i].has & LIMIT) != 0) {
            is_refused(&calls[i], handle, WORDS, CEFRODIL_SPENT);
        }
    }
    MUST(cefrodil_len(handle, &len) == CEFRODIL_OK && len == 0);
}

static void spent(uint32_t shards) {
    opens(shards, WORDS, true);
    spent_by(one);
    MUST(cefrodil_hold(other) == CEFRODIL_OK);
    spent_by(other);
    MUST(cefrodil_release(other) == CEFRODIL_OK);
    spent_by(one);
    close_both();
}

/* No other call is held or spent. */
static void served(uint32_t shards, bool at_limit) {
    for (size_t i = 0; i < CALLS; i++) {
        opens(shards, WORDS, at_limit);
        MUST(at_limit || cefrodil_hold(one) == CEFRODIL_OK);
        const cefrodil_status status = calls[i].make(other, WORDS);
        MUST((status == CEFRODIL_HELD) == (!at_limit && (calls[i].has & TURN) != 0));
        MUST((status == CEFRODIL_SPENT) == (at_limit && (calls[i].has & LIMIT) != 0));
        cefrodil_close(told.handles);
        cefrodil_close(one);
        cefrodil_close(other);
    }
}

int main(void) {
    for (uint32_t shards = 1; shards <= 4; shards *= 2) {
        closed(shards);
        widths(shards);
        held(shards);
        spent(shards);
        served(shards, false);
        served(shards, true);
    }
    return outcome("each_call");
}
