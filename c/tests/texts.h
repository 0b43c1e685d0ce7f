/* Each status: its name in C and in C++, and its text. */
#ifndef TEXTS_H
#define TEXTS_H

/* .ci/calls: texts */
#define EACH_STATUS(row) \
    row(OK, ok, "ok") \
    row(ABSENT, absent, "absent") \
    row(BUSY, busy, "busy") \
    row(NO_PATH, no_path, "no path") \
    row(ALL_RECENT, all_recent, "all recent") \
    row(SPENT, spent, "spent") \
    row(CHANGED, changed, "changed") \
    row(HELD, held, "held") \
    row(CLOSED, closed, "the handle is not open") \
    row(HOLDS, holds, "the handle holds the turns already") \
    row(WIDTH, width, "values of this cache have another number of words") \
    row(IN_USE, in_use, "the handle is open already") \
    row(NO_MEMORY, no_memory, "no memory") \
    row(BAD_WORDS, bad_words, "a value must have from 1 to 8 words") \
    row(BAD_MIX, bad_mix, "mix must be 0 or 1") \
    row(BAD_BUCKETS, bad_buckets, "buckets must be a power of two from 2 to 1048576") \
    row(BAD_ITEMS, bad_items, "items must be from 1 to four times the buckets") \
    row(BAD_STRIPES, bad_stripes, "stripes must be a power of two from 1 to 65536") \
    row(BAD_DEPTH, bad_depth, "depth must be from 0 to 8") \
    row(BAD_TRIES, bad_tries, "tries must be from 1 to 64") \
    row(BAD_LIMIT, bad_limit, "limit must be from 0 to 4611686018427387904") \
    row(BAD_HANDLES, bad_handles, "handles must be from 1 to 1024, and no more than there are to spare") \
    row(BAD_COUNT, bad_count, "counts do not match, or an array is too small for the list") \
    row(NO_ITEM, no_item, "no item") \
    row(BAD_SHARDS, bad_shards, "shards must be a power of two from 1 to 256") \
    row(PRESENT, present, "present") \
    row(HOLDS_NOT, holds_not, "the handle holds no turns") \
    row(PROCESSOR, processor, "the processor is older than x86-64-v2") \
    row(BAD_POLICY, bad_policy, "policy must be 0 or 1")
/* .ci/calls: end */

#endif
