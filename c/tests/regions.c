/* The regions of the archive's memory, from which larger blocks are cut: each is freed with its last block, also by another copy of the functions, and
 * no two blocks share bytes. Only huge pages of a block or region are requested. */
#define _GNU_SOURCE
#include "full_blocks.h"

/* 64 blocks of a megabyte fill two regions and a bit of a third, and each region is freed with its last block. */
static void regions_go_with_their_blocks(void) {
    struct full fulls[64];
    long before = in_use;
    regions_made = 0;
    for (int n = 0; n < 64; n++) {
        make(&fulls[n], 1 << 20, 8);
    }
    MUST(regions_made == 3 && in_use == before + 3);
    for (int n = 63; n >= 0; n--) {
        MUST(holds(&fulls[n], fulls[n].size));
        rattle_dealloc(fulls[n].at);
        MUST(in_use == before + (n > 62) + (n > 31) + (n > 0));
    }
    /* A block that was cut last leaves its bytes to the next one. */
    make(&fulls[0], 1 << 20, 8);
    make(&fulls[1], 1 << 20, 8);
    void *at = fulls[1].at;
    rattle_dealloc(at);
    make(&fulls[1], 200000, 8);
    MUST(fulls[1].at == at);
    rattle_dealloc(fulls[0].at);
    rattle_dealloc(fulls[1].at);
    MUST(in_use == before);
}

/* Each of 60 openings makes a block and a copy of it, and gives the first one back: so they have room in two regions. A hole is cut in parts, too. */
static void holes_are_cut_again(void) {
    struct full first, fulls[60], parts[2];
    long before = in_use;
    regions_made = 0;
    for (int n = 0; n < 60; n++) {
        make(&first, 1 << 20, 8);
        make(&fulls[n], 1 << 20, 8);
        rattle_dealloc(first.at);
    }
    MUST(regions_made == 2);
    make(&parts[0], 400 << 10, 8);
    make(&parts[1], 500 << 10, 8);
    MUST(parts[0].at == first.at && parts[1].at > first.at && parts[1].at + (500 << 10) <= first.at + (1 << 20) && regions_made == 2);
    for (int n = 0; n < 60; n++) {
        MUST(holds(&fulls[n], fulls[n].size));
        rattle_dealloc(fulls[n].at);
    }
    MUST(holds(&parts[0], parts[0].size) && holds(&parts[1], parts[1].size));
    rattle_dealloc(parts[0].at);
    rattle_dealloc(parts[1].at);
    MUST(in_use == before);
}

/* A block that is a line longer than the hole is not cut there, and the larger of two holes stays. */
static void blocks_longer_than_a_hole(void) {
    struct full first, hole, last, longer, smaller, end;
    make(&first, 200000, 8);
    make(&hole, 300000, 8);
    make(&last, 200000, 8);
    make(&smaller, 150000, 8);
    make(&end, 150000, 8);
    rattle_dealloc(hole.at);
    rattle_dealloc(smaller.at);
    make(&longer, 300104, 8);
    make(&smaller, 280000, 8);
    MUST(smaller.at == hole.at && holds(&last, last.size) && holds(&longer, longer.size) && holds(&end, end.size));
    rattle_dealloc(first.at);
    rattle_dealloc(last.at);
    rattle_dealloc(longer.at);
    rattle_dealloc(smaller.at);
    rattle_dealloc(end.at);
}

/* A block of 128 KB to 8 MB is cut from a region, which is freed with it. Any other has a block of malloc by itself. */
static void sizes_of_blocks_of_regions(void) {
    const struct {
        size_t size;
        long regions;
    } rows[] = {{8, 0}, {4096, 0}, {(128 << 10) - 1, 0}, {128 << 10, 1}, {(128 << 10) + 1, 1}, {2 << 20, 1}, {(8 << 20) - 1, 1}, {8 << 20, 0}, {9 << 20, 0}};
    const long before = in_use;
    for (size_t n = 0; n < sizeof rows / sizeof *rows; n++) {
        struct full full;
        regions_made = 0;
        make(&full, rows[n].size, 8);
        MUST(regions_made == rows[n].regions && in_use == before + 1);
        rattle_dealloc(full.at);
        MUST(in_use == before);
    }
}

/* The huge pages from `first` to `end` were requested, and nothing else. */
static int were_requested(uintptr_t first, uintptr_t end) {
    return advices == 1 && advised[0].about == MADV_HUGEPAGE && (uintptr_t)advised[0].at == first && advised[0].size == end - first;
}

/* A block of 8 MB or more has the huge pages requested that it fills, and none beyond. */
static void huge_pages_of_large_blocks(void) {
    const size_t sizes[] = {8 << 20, (10 << 20) - 57, (10 << 20) - 56, (12 << 20) + 100};
    for (size_t n = 0; n < sizeof sizes / sizeof *sizes; n++) {
        struct full full;
        advices = 0;
        make(&full, sizes[n], 8);
        uintptr_t first = (uintptr_t)full.at - 56;
        MUST(first % (2 << 20) == 0 && were_requested(first, ((uintptr_t)full.at + sizes[n]) / (2 << 20) * (2 << 20)));
        rattle_dealloc(full.at);
    }
}

/* A region has 32 MB, and all its huge pages are requested, but the first one of the first region. */
static void huge_pages_of_regions(void) {
    struct full fulls[32];
    advices = 0;
    make(&fulls[0], 1 << 20, 8);
    uintptr_t region = (uintptr_t)fulls[0].at / (2 << 20) * (2 << 20);
    MUST(were_requested(region + (2 << 20), region + (32 << 20)));
    for (int n = 1; n < 31; n++) {
        make(&fulls[n], 1 << 20, 8);
    }
    MUST(advices == 1);
    advices = 0;
    make(&fulls[31], 1 << 20, 8);
    region = (uintptr_t)fulls[31].at / (2 << 20) * (2 << 20);
    MUST(were_requested(region, region + (32 << 20)));
    for (int n = 0; n < 32; n++) {
        rattle_dealloc(fulls[n].at);
    }
}

/* The huge pages that a block filled go to the system when it is given back, and in the first one of its region all that it had. A block that filled none
 * leaves all as it is. What is cut from the hole then is whole. */
static void pages_that_go(void) {
    struct full first, next, last;
    make(&first, 5 << 20, 8);
    make(&next, 3 << 20, 8);
    make(&last, 3 << 20, 8);
    const uintptr_t region = (uintptr_t)first.at / (2 << 20) * (2 << 20);
    advices = 0;
    rattle_dealloc(first.at);
    MUST(advices == 1 && advised[0].about == MADV_DONTNEED && (uintptr_t)advised[0].at == region + (64 << 10) && advised[0].size == (4 << 20) - (64 << 10));
    MUST(holds(&next, next.size) && holds(&last, last.size));
    make(&first, 5 << 20, 8);
    MUST((uintptr_t)first.at / (2 << 20) * (2 << 20) == region && holds(&first, first.size) && holds(&next, next.size));
    advices = 0;
    rattle_dealloc(next.at);
    MUST(advices == 1 && (uintptr_t)advised[0].at == region + (6 << 20) && advised[0].size == 2 << 20 && holds(&first, first.size) && holds(&last, last.size));
    rattle_dealloc(first.at);
    make(&first, 200000, 8);
    advices = 0;
    rattle_dealloc(first.at);
    MUST(advices == 0 && holds(&last, last.size));
    rattle_dealloc(last.at);
}

/* If a region is full and malloc refuses the next one, no block is cut: it would end beyond the region. A smaller one still has room. */
static void full_regions(void) {
    struct full fulls[32];
    for (int n = 0; n < 31; n++) {
        make(&fulls[n], 1 << 20, 8);
    }
    mallocs_left = 0;
    struct block made = rattle_alloc((1 << 20) + (1 << 19), 8);
    MUST(!made.there);
    make(&fulls[31], 1 << 19, 8);
    mallocs_left = -1;
    for (int n = 0; n < 32; n++) {
        MUST(holds(&fulls[n], fulls[n].size));
        rattle_dealloc(fulls[n].at);
    }
}

/* Where malloc has room for a block, but not for a region, the block is placed by itself. */
static void blocks_without_regions(void) {
    struct full full;
    largest_malloc = 4 << 20;
    regions_made = 0;
    make(&full, 1 << 20, 8);
    MUST(regions_made == 0);
    resize(&full, 200000);
    largest_malloc = SIZE_MAX;
    rattle_dealloc(full.at);
}

/* What follows is done by another copy of the functions, which has an open region of its own, until this is called again. */
static void as_the_other_copy(void) {
    static struct region *region_of_other = NULL;
    struct region *const open = open_region;
    open_region = region_of_other;
    region_of_other = open;
}

/* A block may be given back by another copy of the functions. Only the copy that cut it cuts its bytes again, when no block of the region is in
 * use. */
static void blocks_of_another_copy(void) {
    struct full first, second, third;
    const long before = in_use;
    make(&first, 1 << 20, 8);
    make(&second, 1 << 20, 8);
    as_the_other_copy();
    rattle_dealloc(second.at);
    as_the_other_copy();
    make(&third, 1 << 20, 8);
    MUST(third.at == second.at + (second.at - first.at));
    as_the_other_copy();
    rattle_dealloc(first.at);
    rattle_dealloc(third.at);
    as_the_other_copy();
    MUST(in_use == before + 1);
    make(&third, 1 << 20, 8);
    MUST(third.at == first.at);
    rattle_dealloc(third.at);
    MUST(in_use == before);
}

/* The other copy gives back the last block of a region that has a hole. What is cut then shares no bytes. */
static void hole_of_an_empty_region(void) {
    struct full first, hole, last, longer, next;
    const long before = in_use;
    make(&first, 200000, 8);
    make(&hole, 300000, 8);
    make(&last, 200000, 8);
    rattle_dealloc(hole.at);
    rattle_dealloc(first.at);
    as_the_other_copy();
    rattle_dealloc(last.at);
    as_the_other_copy();
    make(&longer, 900000, 8);
    make(&next, 250000, 8);
    MUST(holds(&longer, longer.size) && holds(&next, next.size));
    rattle_dealloc(longer.at);
    rattle_dealloc(next.at);
    MUST(in_use == before);
}

int main(void) {
    regions_go_with_their_blocks();
    holes_are_cut_again();
    blocks_longer_than_a_hole();
    sizes_of_blocks_of_regions();
    huge_pages_of_large_blocks();
    huge_pages_of_regions();
    pages_that_go();
    full_regions();
    blocks_without_regions();
    blocks_of_another_copy();
    hole_of_an_empty_region();
    return outcome("regions");
}
