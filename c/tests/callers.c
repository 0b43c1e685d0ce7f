/* At each instruction of a call, an unwinder finds the caller, and each register that the call must give back. So debuggers, core dumps and
 * profiles name who called the library. The processor stops after each instruction (its trap flag), and a handler unwinds there. */
#define _GNU_SOURCE
#include "cefrodil.h"
#include "must.h"
#include <signal.h>
#include <ucontext.h>
#include <unwind.h>

enum { KEYS = 60, WORDS = 4, MAGIC = 0x5eed0000 };

/* Calls `work` with the trap flag and with known numbers in the registers that a call must keep. */
void call_in_steps(void (*work)(void));
extern const char call_returns[], call_ends[];
__asm__(".text\n"
        ".type call_in_steps, @function\n"
        "call_in_steps:\n"
        ".cfi_startproc\n"
        "push %rbx; .cfi_adjust_cfa_offset 8; .cfi_rel_offset rbx, 0\n"
        "push %rbp; .cfi_adjust_cfa_offset 8; .cfi_rel_offset rbp, 0\n"
        "push %r12; .cfi_adjust_cfa_offset 8; .cfi_rel_offset r12, 0\n"
        "push %r13; .cfi_adjust_cfa_offset 8; .cfi_rel_offset r13, 0\n"
        "push %r14; .cfi_adjust_cfa_offset 8; .cfi_rel_offset r14, 0\n"
        "push %r15; .cfi_adjust_cfa_offset 8; .cfi_rel_offset r15, 0\n"
        "sub $8, %rsp; .cfi_adjust_cfa_offset 8\n"
        "mov $0x5eed0003, %ebx; mov $0x5eed0006, %ebp; mov $0x5eed000c, %r12d\n"
        "mov $0x5eed000d, %r13d; mov $0x5eed000e, %r14d; mov $0x5eed000f, %r15d\n"
        "pushfq; .cfi_adjust_cfa_offset 8; orl $0x100, (%rsp); popfq; .cfi_adjust_cfa_offset -8\n"
        "call *%rdi\n"
        "call_returns:\n"
        "pushfq; .cfi_adjust_cfa_offset 8; andl $~0x100, (%rsp); popfq; .cfi_adjust_cfa_offset -8\n"
        "add $8, %rsp; .cfi_adjust_cfa_offset -8\n"
        "pop %r15; .cfi_adjust_cfa_offset -8; .cfi_restore r15\n"
        "pop %r14; .cfi_adjust_cfa_offset -8; .cfi_restore r14\n"
        "pop %r13; .cfi_adjust_cfa_offset -8; .cfi_restore r13\n"
        "pop %r12; .cfi_adjust_cfa_offset -8; .cfi_restore r12\n"
        "pop %rbp; .cfi_adjust_cfa_offset -8; .cfi_restore rbp\n"
        "pop %rbx; .cfi_adjust_cfa_offset -8; .cfi_restore rbx\n"
        "ret\n"
        ".cfi_endproc\n"
        "call_ends:\n"
        ".size call_in_steps, . - call_in_steps\n");

static long steps, lost;

/* Whether this frame is that of call_in_steps, and has its registers. */
static _Unwind_Reason_Code is_caller(struct _Unwind_Context *context, void *found) {
    if (_Unwind_GetIP(context) != (uintptr_t)call_returns) {
        return _URC_NO_REASON;
    }
    static const int kept[] = {3, 6, 12, 13, 14, 15};
    bool has_all = true;
    for (size_t i = 0; i < sizeof kept / sizeof *kept; i++) {
        has_all &= _Unwind_GetGR(context, kept[i]) == (uintptr_t)(MAGIC + kept[i]);
    }
    *(bool *)found = has_all;
    return _URC_END_OF_STACK;
}

static void step(int signal, siginfo_t *info, void *context) {
    (void)signal, (void)info;
    const uintptr_t at = (uintptr_t)((ucontext_t *)context)->uc_mcontext.gregs[REG_RIP];
    if (at >= (uintptr_t)call_returns && at < (uintptr_t)call_ends) {
        return;
    }
    bool found = false;
    _Unwind_Backtrace(is_caller, &found);
    steps++;
    if (!found && lost++ < 5) {
        fprintf(stderr, "no caller at call_in_steps%+ld\n", (long)(at - (uintptr_t)call_in_steps));
    }
}

static cefrodil_handle handles[2] = {CEFRODIL_EMPTY, CEFRODIL_EMPTY};

/* By a width that is not constant the call has another name. */
static volatile size_t not_constant = WORDS;

/* Each kind of call, so that a table fills up, moves keys and evicts. */
static void use(cefrodil_handle *handle) {
    uint64_t value[WORDS] = {1, 2, 3, 4}, old[WORDS], keys[KEYS], values[KEYS * WORDS] = {0}, count = 0;
    uint64_t entries[KEYS * (1 + WORDS)];
    cefrodil_answer answers[KEYS];
    cefrodil_put_answer put[KEYS];
    cefrodil_reply reply;
    for (uint64_t key = 0; key < KEYS; key++) {
        keys[key] = 3 * key;
        MUST(cefrodil_put(handle, key, value, WORDS, &reply) <= CEFRODIL_ALL_RECENT);
        MUST(cefrodil_put(handle, key, value, not_constant, &reply) <= CEFRODIL_ALL_RECENT);
        MUST(cefrodil_get(handle, key / 2, old, WORDS, NULL) <= CEFRODIL_ABSENT);
        MUST(cefrodil_swap(handle, key, value, WORDS, old, WORDS, &reply) <= CEFRODIL_ALL_RECENT);
    }
    MUST(cefrodil_put_many(handle, keys, KEYS, values, KEYS * WORDS, put, KEYS) == CEFRODIL_OK);
    MUST(cefrodil_get_many(handle, keys, KEYS, values, KEYS * WORDS, answers, KEYS) == CEFRODIL_OK);
    MUST(cefrodil_remove(handle, 3, &reply) <= CEFRODIL_ABSENT && cefrodil_peek(handle, 6, old, WORDS, &reply) <= CEFRODIL_ABSENT);
    MUST(cefrodil_put_if(handle, 6, 0, value, WORDS, &reply) != CEFRODIL_OK);
    MUST(cefrodil_put_if_absent(handle, 6, value, WORDS, &reply) != CEFRODIL_HELD);
    MUST(cefrodil_entries(handle, entries, KEYS * (1 + WORDS), &count) == CEFRODIL_OK && count > KEYS / 2);
    MUST(cefrodil_take(handle, 6, old, WORDS, &reply) <= CEFRODIL_ABSENT && cefrodil_len(handle, &count) == CEFRODIL_OK);
    MUST(cefrodil_evict(handle, 6, old, WORDS, &reply) == CEFRODIL_OK);
    MUST(cefrodil_put(handle, 1, value, WORDS + 1, &reply) == CEFRODIL_WIDTH);
    MUST(cefrodil_get(handle, 1, old, WORDS - 1, &reply) == CEFRODIL_WIDTH);
}

/* The calls that a cache has besides those of its keys. */
static void use_all_shards(cefrodil_handle *handle) {
    uint64_t entries[KEYS * (2 + WORDS)], count = 0, found[WORDS];
    cefrodil_handle more = CEFRODIL_EMPTY;
    MUST(cefrodil_more(handle, &more, 1) == CEFRODIL_OK && cefrodil_get_or_turn(&more, 6, found, WORDS, &(cefrodil_reply){0}) <= CEFRODIL_ABSENT);
    MUST(cefrodil_moment(handle, &count) == CEFRODIL_OK && cefrodil_capacity(handle, &count) == CEFRODIL_OK);
    MUST(cefrodil_stamped_entries(handle, entries, KEYS * (2 + WORDS), &count) == CEFRODIL_OK && cefrodil_close(&more) == CEFRODIL_OK);
}

static void by_shards(uint32_t shards, uint32_t items, uint32_t policy) {
    const cefrodil_shape shape = {1 << 20, 16, items, 8, 4, 4, CEFRODIL_MIX_FULL, policy};
    MUST(cefrodil_open(&shape, shards, WORDS, handles, 2) == CEFRODIL_OK);
    use(&handles[0]);
    use_all_shards(&handles[0]);
    MUST(cefrodil_hold(&handles[1]) == CEFRODIL_OK && cefrodil_hold(&handles[0]) == CEFRODIL_HELD);
    use(&handles[1]);
    MUST(cefrodil_release(&handles[1]) == CEFRODIL_OK && cefrodil_hold(&handles[0]) == CEFRODIL_OK);
    MUST(cefrodil_close(&handles[0]) == CEFRODIL_OK && cefrodil_close(&handles[1]) == CEFRODIL_OK);
}

static void by_one_shard(void) { by_shards(1, KEYS - 10, CEFRODIL_POLICY_SCAN_RESISTANT); }

static void by_clock(void) { by_shards(1, KEYS - 10, CEFRODIL_POLICY_CLOCK); }

static void by_two_shards(void) { by_shards(2, KEYS / 2, CEFRODIL_POLICY_SCAN_RESISTANT); }

int main(void) {
    struct sigaction action = {.sa_sigaction = step, .sa_flags = SA_SIGINFO};
    MUST(sigaction(SIGTRAP, &action, NULL) == 0);
    by_one_shard(); /* so that nothing is bound for the first time in steps */
    call_in_steps(by_one_shard);
    call_in_steps(by_clock);
    call_in_steps(by_two_shards);
    MUST(steps > 10000 && lost == 0);
    return outcome("callers");
}
