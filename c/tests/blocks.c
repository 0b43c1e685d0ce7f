/* The memory of the archive by itself: each block has room, is where it should be, and keeps its bytes while it grows and shrinks. Threads
 * may do so at once. What malloc refuses is reported, and changes nothing. All memory is given back. A forked child knows its parent's blocks, also if
 * both have one number. */
#define _GNU_SOURCE
#define getpid number_of_each_process
#include "full_blocks.h"
#include <sys/wait.h>
#include <unistd.h>

enum { BLOCKS = 64 };

/* So it is with the first processes of several namespaces. */
pid_t number_of_each_process(void) { return 1; }

static void every_size(void) {
    for (size_t size = 0; size <= 16384; size += size < 128 || (size > 4000 && size < 4200) ? 1 : 61) {
        for (size_t align = 1; align <= 16; align *= 2) {
            struct full full;
            make(&full, size, align);
            MUST(holds(&full, size));
            rattle_dealloc(full.at);
        }
    }
}

/* A block of no bytes takes nothing, also where nothing is to be had. It grows, and shrinks back. */
static void blocks_of_no_bytes(void) {
    const long before = in_use;
    struct full full;
    mallocs_left = 0;
    make(&full, 0, 8);
    MUST(in_use == before && !rattle_realloc(full.at, 0, 8, 8).there);
    mallocs_left = -1;
    resize(&full, 100);
    MUST(in_use == before + 1);
    resize(&full, 0);
    MUST(in_use == before);
    rattle_dealloc(full.at);
    MUST(in_use == before);
}

/* No two blocks of up to 4,095 bytes share a pair of cache lines, and none shares one with a block of malloc. */
static void small_blocks_are_alone(void) {
    struct full full[BLOCKS];
    void *others[BLOCKS];
    for (int n = 0; n < BLOCKS; n++) {
        others[n] = malloc((size_t)n + 1);
        make(&full[n], n < BLOCKS / 2 ? (size_t)n * 7 + 1 : (size_t)n * 65, 8);
    }
    for (int n = 0; n < BLOCKS; n++) {
        const uintptr_t first = (uintptr_t)full[n].at / 128, last = ((uintptr_t)full[n].at + full[n].size - 1) / 128;
        for (int m = 0; m < BLOCKS; m++) {
            const uintptr_t other = (uintptr_t)full[m].at / 128, beside = (uintptr_t)others[m] / 128;
            MUST(m == n || other < first || other > last);
            MUST(beside < first || beside > last);
        }
    }
    for (int n = 0; n < BLOCKS; n++) {
        rattle_dealloc(full[n].at);
        free(others[n]);
    }
}

static void large_sizes(void) {
    const size_t sizes[] = {(128 << 10) - 1, 128 << 10, 1 << 20, (2 << 20) - 1, 2 << 20, (8 << 20) - 1, 8 << 20, (8 << 20) + 1, 67108864 + 8};
    for (size_t n = 0; n < sizeof sizes / sizeof *sizes; n++) {
        struct full full;
        make(&full, sizes[n], 8);
        resize(&full, 100);
        resize(&full, sizes[n]);
        resize(&full, sizes[n] / 2);
        rattle_dealloc(full.at);
    }
}

static void many_at_once(void) {
    struct full fulls[BLOCKS] = {{NULL, 0, 0, 0}};
    for (int turn = 0; turn < 20000; turn++) {
        struct full *full = &fulls[draw() % BLOCKS];
        size_t size = draw() % (draw() % 50 == 0 ? 3 << 20 : draw() % 3 ? 9000 : 300);
        if (full->at == NULL) {
            make(full, size, (size_t)1 << draw() % 5);
        } else if (draw() % 2) {
            MUST(holds(full, full->size));
            resize(full, size);
        } else {
            MUST(holds(full, full->size));
            rattle_dealloc(full->at);
            full->at = NULL;
        }
    }
    for (int n = 0; n < BLOCKS; n++) {
        if (fulls[n].at != NULL) {
            rattle_dealloc(fulls[n].at);
        }
    }
}

static void *many_in_a_thread(void *seed) {
    drawn = *(uint64_t *)seed;
    many_at_once();
    return NULL;
}

static void threads_at_once(void) {
    pthread_t threads[4];
    uint64_t seeds[4] = {1, 22, 333, 4444};
    for (int n = 0; n < 4; n++) {
        MUST(pthread_create(&threads[n], NULL, many_in_a_thread, &seeds[n]) == 0);
    }
    for (int n = 0; n < 4; n++) {
        MUST(pthread_join(threads[n], NULL) == 0);
    }
}

static void knows_its_blocks(struct full of_parent[2]) {
    struct full own;
    make(&own, 100, 8);
    bool is_right = is_of_this_process(own.at) && !is_of_this_process(of_parent[0].at) && !is_of_this_process(of_parent[1].at);
    keep_for_parent(of_parent[0].at);
    keep_for_parent(of_parent[1].at);
    _exit(is_right && holds(&of_parent[0], 100) && holds(&of_parent[1], 100) ? 0 : 1);
}

/* A child has the number of its parent. Its own blocks are its own, and no others. */
static void blocks_of_a_parent(void) {
    struct full fulls[2];
    int status = -1;
    make(&fulls[0], 100, 8);
    make(&fulls[1], 100, 8);
    MUST(is_of_this_process(fulls[0].at));
    const pid_t child = fork();
    if (child == 0) {
        knows_its_blocks(fulls);
    }
    MUST(waitpid(child, &status, 0) == child && status == 0 && is_of_this_process(fulls[0].at));
    /* Of another copy's blocks the process's number says so. */
    ((void **)fulls[0].at)[-3] = NULL;
    MUST(is_of_this_process(fulls[0].at));
    rattle_dealloc(fulls[0].at);
    rattle_dealloc(fulls[1].at);
}

static void refused(void) {
    const size_t sizes[] = {1, 8, 5000, 1 << 20, 9 << 20};
    for (size_t from = 0; from < 5; from++) {
        struct full full;
        make(&full, sizes[from], 8);
        for (size_t to = 0; to < 5; to++) {
            /* A region that was begun has room for another block. */
            if (sizes[from] == 1 << 20 && sizes[to] == 1 << 20) {
                continue;
            }
            mallocs_left = 0;
            struct block made = rattle_alloc(sizes[to], 8);
            MUST(!made.there && made.at != NULL);
            made = rattle_realloc(full.at, 0, sizes[to], 8);
            MUST(!made.there && made.at != NULL && holds(&full, full.size));
            mallocs_left = -1;
        }
        rattle_dealloc(full.at);
    }
    struct block made = rattle_alloc(SIZE_MAX / 4, 8);
    MUST(!made.there);
}

int main(void) {
    every_size();
    blocks_of_no_bytes();
    small_blocks_are_alone();
    large_sizes();
    many_at_once();
    threads_at_once();
    blocks_of_a_parent();
    refused();
    return outcome("blocks");
}
