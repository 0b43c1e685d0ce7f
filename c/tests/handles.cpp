// A handle makes the call of the archive that its own call says, once, with what it was given. Functions of this file stand in for some calls.
#include "cefrodil.h"
#include "must.h"

static cefrodil_handle *called = nullptr;
static uint32_t asked = 0, put_calls = 0, look_calls = 0;
static cefrodil_status answer = CEFRODIL_OK;

static cefrodil_status noted_put_within(cefrodil_handle *handle, uint32_t tries, uint64_t key, const uint64_t *value, size_t words,
                                        cefrodil_reply *reply) {
    called = handle, asked = tries, put_calls++;
    MUST(key == 7 && words == 2 && value[0] == 70 && value[1] == 71);
    *reply = cefrodil_reply{};
    reply->at = answer == CEFRODIL_OK ? 3 : 0;
    return answer;
}
static cefrodil_status noted_get_or_turn(cefrodil_handle *handle, uint64_t key, uint64_t *value, size_t words, cefrodil_reply *reply) {
    called = handle, look_calls++;
    MUST(key == 7 && words == 2);
    *reply = cefrodil_reply{};
    value[0] = 80, value[1] = 81, reply->at = 5, reply->since = 4;
    return answer;
}
#define cefrodil_put_within noted_put_within
#define cefrodil_get_or_turn_of_width noted_get_or_turn
#include "cefrodil.hpp"

using cefrodil::Status;

// A put hands on how often it may try for the turn.
static void puts_within(std::vector<cefrodil::Handle<2>> &handles) {
    for (uint32_t tries : {0u, 1u, 2u, 1000u, UINT32_MAX}) {
        put_calls = 0, answer = CEFRODIL_OK;
        const auto put = handles[1].put_within(tries, 7, {70, 71});
        MUST(put.status == Status::ok && put.at == 3 && called == handles[1].raw() && asked == tries && put_calls == 1);
        answer = CEFRODIL_HELD;
        MUST(handles[0].put_within(tries, 7, {70, 71}).status == Status::held && called == handles[0].raw() && asked == tries && put_calls == 2);
    }
    MUST(handles[0].meter().counts().held == 5);
}

static void lookups(cefrodil::Handle<2> &handle) {
    answer = CEFRODIL_OK;
    const auto found = handle.get_or_turn(7);
    MUST(found.status == Status::ok && found.value && (*found.value)[0] == 80 && (*found.value)[1] == 81 && found.at == 5 && found.since == 4);
    answer = CEFRODIL_BUSY;
    MUST(handle.get_or_turn(7).status == Status::busy && !handle.get_or_turn(7).value && look_calls == 3 && called == handle.raw());
    const cefrodil::Counts counts = handle.meter().counts();
    MUST(counts.hits == 1 && counts.busy == 2 && counts.misses == 0);
}

int main() {
    std::vector<cefrodil::Handle<2>> handles;
    MUST(cefrodil::open(*cefrodil::shape_for_items(100), 1, 2, handles) == Status::ok);
    puts_within(handles);
    lookups(handles[1]);
    return outcome("handles");
}
