/* A forked child makes each call by handles of its parent, also by one that holds the turns: each is refused as by a handle that is not open, and
 * nothing hangs. By handles that it opens itself calls are served. Its own child is refused by those, too. */
#include "each_call.h"
#include <stdlib.h>
#include <sys/wait.h>
#include <unistd.h>

/* The first one holds the turns. */
static void opens(cefrodil_handle *handles, uint32_t shards) {
    cefrodil_shape shape;
    cefrodil_reply reply;
    MUST(cefrodil_shape_for_items(20, shards, &shape) == CEFRODIL_OK);
    MUST(cefrodil_open(&shape, shards, WORDS, handles, 2) == CEFRODIL_OK && cefrodil_hold(&handles[0]) == CEFRODIL_OK);
    MUST(cefrodil_put(&handles[0], key, value, WORDS, &reply) == CEFRODIL_OK);
}

static void serve(cefrodil_handle *handles) {
    uint64_t found[WORDS] = {0};
    MUST(cefrodil_get(&handles[1], key, found, WORDS, NULL) == CEFRODIL_OK && memcmp(found, value, sizeof found) == 0);
    MUST(cefrodil_close(&handles[0]) == CEFRODIL_OK && cefrodil_close(&handles[1]) == CEFRODIL_OK);
}

/* The last call of the table closes the handle. */
static void refuse(cefrodil_handle *handles) {
    for (size_t i = 0; i < 2 * CALLS; i++) {
        is_refused(&calls[i % CALLS], &handles[i / CALLS], WORDS, CEFRODIL_CLOSED);
    }
}

/* Does this in a child, which must end well. */
static void fork_to(void (*child)(cefrodil_handle *), cefrodil_handle *handles) {
    const pid_t number = fork();
    int status = -1;
    if (number == 0) {
        alarm(20);
        child(handles);
        exit(line_of_failure == 0 ? 0 : outcome("a child"));
    }
    MUST(waitpid(number, &status, 0) == number && status == 0);
}

static void be_child(cefrodil_handle *handles) {
    cefrodil_handle own[2] = {CEFRODIL_EMPTY, CEFRODIL_EMPTY};
    refuse(handles);
    opens(own, 2);
    fork_to(refuse, own);
    serve(own);
}

int main(void) {
    for (uint32_t shards = 1; shards <= 4; shards *= 2) {
        cefrodil_handle handles[2] = {CEFRODIL_EMPTY, CEFRODIL_EMPTY};
        opens(handles, shards);
        fork_to(be_child, handles);
        serve(handles);
    }
    return outcome("forked_calls");
}
