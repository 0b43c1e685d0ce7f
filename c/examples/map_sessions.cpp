// Sessions that live for a time, for any number of threads.
#include "cefrodil_map.hpp"
#include <atomic>
#include <chrono>
#include <cstdio>
#include <string>

struct Session { uint64_t user, requests; };
using Sessions = cefrodil::timed_map<std::string, Session>;
using std::chrono::minutes;

// Each request prolongs its session to half an hour from now. No session that has ended is revived. Returns the user, or 0.
static uint64_t request(Sessions &sessions, const std::string &token) {
    const auto session = sessions.update_for(token, minutes(30), [](const Session &old) { return Session{old.user, old.requests + 1}; });
    return session.value ? session.value->user : 0;
}

int main() {
    // A program leaves out the clock: then it is std::chrono::steady_clock.
    std::atomic<int> now{0};
    const cefrodil::Lives lives{minutes(30), cefrodil::forever, [&] { return minutes(now); }};
    Sessions sessions;
    bool right = sessions.open({1000}, lives) == cefrodil::Status::ok && sessions.insert("c0ffee", {7, 0}).status == cefrodil::Status::ok;
    right = right && sessions.insert_for("guest", {8, 0}, minutes(5)).status == cefrodil::Status::ok;
    now = 20;
    right = right && request(sessions, "c0ffee") == 7 && request(sessions, "guest") == 0;
    now = 49;
    const auto session = sessions.find("c0ffee");
    std::printf("user %d after %d minutes\n", int(session ? session->user : 0), now.load());
    now = 50;
    right = right && session && session->requests == 1 && request(sessions, "c0ffee") == 0;
    return right && sessions.erase_expired() == cefrodil::Status::ok && sessions.size() == 0 ? 0 : 1;
}
