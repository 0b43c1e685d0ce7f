/* What the tests share: the first condition that fails is remembered by its line, and a test says how it ends. */
#ifndef MUST_H
#define MUST_H

#include <stdio.h>

static int line_of_failure;

#define MUST(condition) \
    do { \
        if (!(condition) && line_of_failure == 0) { \
            line_of_failure = __LINE__; \
        } \
    } while (0)

/* Prints how the test of this name ends. Returns the status of the program. */
static inline int outcome(const char *name) {
    if (line_of_failure != 0) {
        printf("%s: line %d fails\n", name, line_of_failure);
        return 1;
    }
    printf("%s: ok\n", name);
    return 0;
}

#endif
