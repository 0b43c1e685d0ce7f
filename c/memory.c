/* The memory of the archive: the three functions by which the cache allocates, over malloc, realloc and free. The toolchain's own hand each
 * call to these as it is. Here large blocks are placed so that a lookup needs few cache lines and few entries of page tables. Small ones share
 * no cache line, unless they are aligned to 16: each put changes words of the writer's, and lookups read the blocks beside it.
 *
 * A block of at least 4,096 bytes begins 56 bytes after the start of a cache line. A table's slots begin at its word 1 + stripes, and
 * stripes are a power of two. So from 8 stripes on they begin on a cache line, and no bucket of four slots crosses one.
 * A block of at least 8 MB begins 56 bytes after a boundary of huge pages, and the huge pages that it fills are requested.
 * Blocks from 128 KB up to that are cut from regions of 32 MB, whose huge pages are requested. The bytes of a block that is given back are cut
 * again if it is the last one, or the largest hole of its region: an opening gives as much back as it keeps. The huge pages that it filled go to the
 * system meanwhile. So the tables of many shards are on huge pages too. The first huge page of the first region isn't: a program with little in its
 * caches takes no more memory than it uses. A region is freed with its last block. Any thread may allocate and free, and so may another copy of these functions in the same program, since
 * libraries that were built apart may pass a handle on.
 *
 * A process may fork at any time: its child allocates and frees as it does. A small block knows in which process it was allocated. What a child
 * closes of its parent's stays in memory, in a list, so that no leak checker reports it.
 *
 * What the toolchain asks of them (its crate `libc`, src/heap.rt): `align` divides 16 and `size` is below 2^63. A block that is returned has
 * `size` bytes, aligned to `align`, which nothing else uses until it is given back. A block that grows or shrinks keeps its first `kept`
 * bytes. Without memory `there` is false, the pointer is not null, and a block that was to be resized is as it was. */
#include <pthread.h>
#include <stdatomic.h>
#include <stdbool.h>
#include <stddef.h>
#include <stdint.h>
#include <stdlib.h>
#include <string.h>
#include <sys/mman.h>
#include <sys/types.h>
#include <unistd.h>

struct block {
    bool there;
    void *at;
};

struct block rattle_alloc(size_t size, size_t align);
struct block rattle_realloc(void *at, size_t kept, size_t size, size_t align);
void rattle_dealloc(void *at);
bool is_of_this_process(const void *at);
void keep_for_parent(void *at);
extern bool has_been_forked __attribute__((visibility("hidden")));

enum { LINE = 64, APART = 2 * LINE, BEHIND = 56, PLACED = 4096, CUT = 128 << 10, HUGE_PAGE = 2 << 20, LARGE = 8 << 20, REGION = 32 << 20, LARGEST_PAGE = 64 << 10 };

/* It is at the start of its region. */
struct region {
    /* The bytes that were cut, with these words; a multiple of a cache line. Only the copy of these functions that opened the region cuts. */
    size_t used;
    /* How many blocks are in use, and one more while the region is open. The thread that takes the last one off frees the region. */
    atomic_size_t users;
    /* The block of malloc that holds the region. */
    void *around;
    /* A hole below `used`: the bytes of a block that was given back, as far as they were not cut again. Only the copy that opened the region
     * uses these words. */
    char *hole;
    size_t hole_bytes;
};

/* The region from which this copy cuts blocks, if it has one. */
static struct region *open_region;
static pthread_mutex_t lock = PTHREAD_MUTEX_INITIALIZER;

/* This process: its number, and above 32 bits how many forks led to it from the one that loaded these functions. Two processes may have one number,
 * each in a namespace of its own. A program that forks without calling the handlers, by a system call of its own, has a child that takes itself
 * for its parent. */
static int64_t process;
bool has_been_forked;

static void before_fork(void) { pthread_mutex_lock(&lock); }
static void after_fork(void) { pthread_mutex_unlock(&lock); }
static void in_child(void) {
    process = ((process >> 32) + 1) << 32 | (uint32_t)getpid();
    has_been_forked = true;
    pthread_mutex_unlock(&lock);
}

__attribute__((constructor)) static void handle_forks(void) {
    process = (uint32_t)getpid();
    (void)pthread_atfork(before_fork, after_fork, in_child);
}

static char nothing;

/* The address of each block of no bytes, in every copy of these functions. Nothing is read or written there. */
static void *const no_bytes = (void *)16;

static struct block told(void *at) { return (struct block){at != NULL, at != NULL ? at : &nothing}; }

/* Each block of malloc is aligned to 16, since no smaller one is requested. A placed one never is. The word before a placed block is
 * the address of the block of malloc that holds it. If it was cut from a region, it is the region's address plus 1, and the word before
 * that is how many bytes were cut. */
static bool is_placed(const void *at) { return (uintptr_t)at % 16 == 8; }

static char *aligned(char *block, size_t align) { return block + (align - (uintptr_t)block % align) % align; }

static size_t whole(size_t size) { return size < 16 ? 16 : size; }

/* A small block. It shares no cache line, and no pair of lines, since a processor loads both. So there are bytes of its own before and after it.
 * Two words before it is the process that it is of, and before that the copy of these functions that counted the forks. */
static void *alone(size_t size) {
    char *block = malloc(APART + sizeof(void *) + size + APART);
    if (block == NULL) {
        return NULL;
    }
    char *at = block + APART + sizeof(void *);
    ((void **)at)[-1] = block;
    ((int64_t *)at)[-2] = process;
    ((int64_t **)at)[-3] = &process;
    return at;
}

/* Whether this process allocated a small block, and not one from which it was forked. Another copy counts its own forks, so of its blocks only the
 * process's number says so. */
bool is_of_this_process(const void *at) {
    if (!is_placed(at)) {
        return true;
    }
    const int64_t by = ((const int64_t *)at)[-2];
    return ((int64_t *const *)at)[-3] == &process ? by == process : (uint32_t)by == (uint32_t)process;
}

/* Lists a small block of the parent that the child has closed. The word for it lies before those of the block. */
void keep_for_parent(void *at) {
    static void *_Atomic kept;
    void **next = &((void **)at)[-4];
    *next = atomic_load(&kept);
    while (!atomic_compare_exchange_weak(&kept, next, at)) {
    }
}

/* If the system has no huge pages, the pages stay as they are. */
static void ask_for_huge_pages(char *first, size_t size) { (void)madvise(first, size / HUGE_PAGE * HUGE_PAGE, MADV_HUGEPAGE); }

static void *placed(size_t size) {
    const size_t align = size < LARGE ? LINE : HUGE_PAGE;
    char *block = size > SIZE_MAX - align - BEHIND ? NULL : malloc(size + align + BEHIND);
    if (block == NULL) {
        return NULL;
    }
    char *first = aligned(block, align), *at = first + BEHIND;
    ((void **)at)[-1] = block;
    if (align == HUGE_PAGE) {
        ask_for_huge_pages(first, BEHIND + size);
    }
    return at;
}

/* Each user's last access of the region comes before its subtraction, and all subtractions before the last one come before the free: that is
 * what release and acquire would give, and a sequentially consistent subtraction gives both. */
static void leave(struct region *region) {
    if (atomic_fetch_sub(&region->users, 1) == 1) {
        free(region->around);
    }
}

/* Opens a region in place of the one that is full, if there is memory. */
static void begin_region(void) {
    char *block = malloc(REGION + HUGE_PAGE);
    if (block == NULL) {
        return;
    }
    char *first = aligned(block, HUGE_PAGE), *advised = open_region == NULL ? first + HUGE_PAGE : first;
    ask_for_huge_pages(advised, (size_t)(first + REGION - advised));
    if (open_region != NULL) {
        leave(open_region);
    }
    open_region = (struct region *)first;
    *open_region = (struct region){LINE, 1, block, NULL, 0};
}

/* So many bytes of the open region: those of its hole, or the next ones. NULL if it has too few. */
static char *next_bytes(size_t bytes) {
    if (bytes <= open_region->hole_bytes) {
        char *first = open_region->hole;
        open_region->hole += bytes;
        open_region->hole_bytes -= bytes;
        return first;
    }
    if (bytes > REGION - open_region->used) {
        return NULL;
    }
    open_region->used += bytes;
    return (char *)open_region + open_region->used - bytes;
}

/* A block of a region, or NULL without memory for one. */
static void *cut(size_t size) {
    const size_t bytes = (BEHIND + size + LINE - 1) / LINE * LINE;
    char *at = NULL;
    pthread_mutex_lock(&lock);
    if (open_region != NULL && open_region->users == 1) {
        /* Another copy gave back the last block. The load has seen its subtraction, so whatever used that block comes before what is cut now. */
        open_region->used = LINE;
        open_region->hole_bytes = 0;
    }
    if (open_region == NULL || (bytes > REGION - open_region->used && bytes > open_region->hole_bytes)) {
        begin_region();
    }
    char *first = open_region == NULL ? NULL : next_bytes(bytes);
    if (first != NULL) {
        at = first + BEHIND;
        ((size_t *)at)[-2] = bytes;
        ((uintptr_t *)at)[-1] = (uintptr_t)open_region + 1;
        open_region->users++;
    }
    pthread_mutex_unlock(&lock);
    return at;
}

/* The system may have the huge pages that a block filled, and what it had of the first one, where pages are small. */
static void give_pages_back(const struct region *region, char *first, size_t bytes) {
    char *const from = aligned(first, first < (const char *)region + HUGE_PAGE ? LARGEST_PAGE : HUGE_PAGE);
    char *const end = first + bytes, *const to = end - (uintptr_t)end % HUGE_PAGE;
    if (from < to) {
        (void)madvise(from, (size_t)(to - from), MADV_DONTNEED);
    }
}

/* Gives a block back to its region. The last one leaves its bytes to the next. Another one leaves a hole, if that is the largest: no block in
 * use ends above `used`, so the hole does neither. */
static void give_back(struct region *region, const char *at) {
    const size_t bytes = ((const size_t *)at)[-2];
    give_pages_back(region, (char *)at - BEHIND, bytes);
    pthread_mutex_lock(&lock);
    if (region == open_region && at - BEHIND + bytes == (char *)region + region->used) {
        region->used -= bytes;
    } else if (region == open_region && bytes > region->hole_bytes) {
        region->hole = (char *)at - BEHIND;
        region->hole_bytes = bytes;
    }
    if (region == open_region && region->users == 2) {
        /* This is its last block. */
        open_region = NULL;
        leave(region);
    }
    /* Before the unlock: so of two threads that give back the last two blocks, one sees that its block is the last. */
    leave(region);
    pthread_mutex_unlock(&lock);
}

static void *at_line(size_t size) {
    void *at = size >= CUT && size < LARGE ? cut(size) : NULL;
    return at != NULL ? at : placed(size);
}

struct block rattle_alloc(size_t size, size_t align) {
    if (size == 0) {
        return told(no_bytes);
    }
    if (align > sizeof(void *)) {
        return told(malloc(whole(size)));
    }
    return told(size < PLACED ? alone(size) : at_line(size));
}

void rattle_dealloc(void *at) {
    if (at == no_bytes) {
        return;
    }
    if (!is_placed(at)) {
        free(at);
        return;
    }
    const uintptr_t around = ((const uintptr_t *)at)[-1];
    if (around % 2 == 1) {
        give_back((struct region *)(around - 1), at);
    } else {
        free((void *)around);
    }
}

struct block rattle_realloc(void *at, size_t kept, size_t size, size_t align) {
    if (at == no_bytes) {
        return rattle_alloc(size, align);
    }
    if (!is_placed(at) && align > sizeof(void *)) {
        return told(realloc(at, whole(size)));
    }
    struct block moved = rattle_alloc(size, align);
    if (moved.there) {
        memcpy(moved.at, at, kept < size ? kept : size);
        rattle_dealloc(at);
    }
    return moved;
}
