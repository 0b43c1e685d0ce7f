/* Refuses memory, reads, writes or threads to the program into which it is loaded (LD_PRELOAD), for .ci/refusals.
 *
 * REFUSE       what is refused: memory, input (file 0), output (file 1), thread, or nothing
 * REFUSE_AT    which call of that kind, counted from 1
 * REFUSE_HOW   once: that call; on: that call and all after it. Of reads and writes also: none: that call moves no byte;
 *              interrupted: that call answers EINTR; short: each call from that one on moves one byte at most
 * REFUSE_TELL  a file that gets a line when the program ends: calls refused, blocks that were not given back, threads started
 */
#define _GNU_SOURCE
#include <dlfcn.h>
#include <errno.h>
#include <fcntl.h>
#include <pthread.h>
#include <stdatomic.h>
#include <stdio.h>
#include <stdlib.h>
#include <string.h>
#include <sys/syscall.h>
#include <sys/uio.h>
#include <unistd.h>

static const char *what = "", *how = "", *tell_to;
static long at;
static atomic_long calls, refused, blocks, threads;
static void *(*next_malloc)(size_t), *(*next_realloc)(void *, size_t);
static void (*next_free)(void *);
static int (*next_thread)(pthread_t *, const pthread_attr_t *, void *(*)(void *), void *);
static int running;

static const char *setting(const char *name) {
    const char *value = getenv(name);
    return value ? value : "";
}

__attribute__((constructor)) static void begin(void) {
    next_malloc = (void *(*)(size_t))dlsym(RTLD_NEXT, "malloc");
    next_realloc = (void *(*)(void *, size_t))dlsym(RTLD_NEXT, "realloc");
    next_free = (void (*)(void *))dlsym(RTLD_NEXT, "free");
    next_thread = (int (*)(pthread_t *, const pthread_attr_t *, void *(*)(void *), void *))dlsym(RTLD_NEXT, "pthread_create");
    what = setting("REFUSE");
    how = setting("REFUSE_HOW");
    tell_to = setting("REFUSE_TELL");
    at = atol(setting("REFUSE_AT"));
    running = 1;
}

static void tell(void) {
    static atomic_flag told = ATOMIC_FLAG_INIT;
    char line[80];
    if (!running || atomic_flag_test_and_set(&told))
        return;
    int file = open(tell_to, O_WRONLY | O_CREAT | O_APPEND, 0600);
    int length = snprintf(line, sizeof line, "%ld %ld %ld\n", (long)refused, (long)blocks, (long)threads);
    if (file >= 0 && syscall(SYS_write, file, line, (size_t)length) != length)
        abort();
}

__attribute__((destructor)) static void end(void) { tell(); }

void _exit(int status) {
    tell();
    for (;;)
        syscall(SYS_exit_group, status);
}

/* Counts a call of this kind. Whether it is one on which the program is to be disturbed. */
static int hits(const char *kind) {
    if (!running || strcmp(what, kind) != 0)
        return 0;
    long number = ++calls;
    int hit = strcmp(how, "on") == 0 || strcmp(how, "short") == 0 ? number >= at : number == at;
    refused += hit;
    return hit;
}

void *malloc(size_t size) {
    if (!next_malloc)
        begin();
    if (hits("memory")) {
        errno = ENOMEM;
        return NULL;
    }
    void *block = next_malloc(size);
    blocks += running && block;
    return block;
}

void *realloc(void *old, size_t size) {
    if (!next_malloc)
        begin();
    if (hits("memory")) {
        errno = ENOMEM;
        return NULL;
    }
    void *block = next_realloc(old, size);
    blocks += running && block && !old;
    return block;
}

void free(void *block) {
    if (!next_malloc)
        begin();
    blocks -= running && block;
    next_free(block);
}

int pthread_create(pthread_t *thread, const pthread_attr_t *attributes, void *(*body)(void *), void *argument) {
    if (hits("thread"))
        return EAGAIN;
    threads++;
    return next_thread(thread, attributes, body, argument);
}

/* What a disturbed read or write answers: a number below 0 is an error, otherwise at most this many bytes are moved. */
static ssize_t disturbed(void) {
    if (strcmp(how, "none") == 0)
        return 0;
    if (strcmp(how, "short") == 0)
        return 1;
    errno = strcmp(how, "interrupted") == 0 ? EINTR : EIO;
    return -1;
}

static ssize_t moved(long call, const char *kind, int file, int ours, char *bytes, size_t many) {
    if (file == ours && hits(kind)) {
        ssize_t most = disturbed();
        if (most <= 0)
            return most;
        many = many < (size_t)most ? many : (size_t)most;
    }
    return syscall(call, file, bytes, many);
}

ssize_t read(int file, void *bytes, size_t many) { return moved(SYS_read, "input", file, 0, bytes, many); }

ssize_t __read(int file, void *bytes, size_t many) { return read(file, bytes, many); }

ssize_t write(int file, const void *bytes, size_t many) { return moved(SYS_write, "output", file, 1, (char *)bytes, many); }

ssize_t __write(int file, const void *bytes, size_t many) { return write(file, bytes, many); }

/* The first part that has bytes. */
static struct iovec first_of(const struct iovec *parts, int many) {
    struct iovec none = {NULL, 0};
    for (int n = 0; n < many; n++)
        if (parts[n].iov_len)
            return parts[n];
    return none;
}

ssize_t readv(int file, const struct iovec *parts, int many) {
    struct iovec first = first_of(parts, many);
    return read(file, first.iov_base, first.iov_len);
}

ssize_t writev(int file, const struct iovec *parts, int many) {
    struct iovec first = first_of(parts, many);
    return write(file, first.iov_base, first.iov_len);
}
