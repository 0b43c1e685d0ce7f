// Sessions as in map_sessions.cpp, with a logout that takes effect at once, even if other threads keep the map from erasing the session.
#include "cefrodil_map.hpp"
#include <atomic>
#include <cstdio>
#include <iterator>
#include <mutex>
#include <optional>
#include <set>
#include <string>

using cefrodil::Status;

struct Session {
    uint64_t deadline; // in seconds
    uint64_t user;
};

// Any thread may call all of it at any time. A token is random, and no two sessions have the same.
class Sessions {
  public:
    [[nodiscard]] Status open(uint32_t entries) { return sessions_.open({entries}); }
    [[nodiscard]] Status log_in(const std::string &token, const Session &session) { return sessions_.insert(token, session).status; }

    // The session's user, or none if there is no session, or it has ended. An ended session is left to its eviction.
    std::optional<uint64_t> user_of(const std::string &token, uint64_t now) {
        const auto session = is_refused(token) ? std::nullopt : sessions_.find(token);
        return session && now < session->deadline ? std::optional(session->user) : std::nullopt;
    }
    // Prolongs a session that has not ended, and returns whether there was one. If it has ended, the function returns the old value: no session is
    // revived.
    bool prolong(const std::string &token, uint64_t now, uint64_t deadline) {
        const auto session = sessions_.update(token, [&](const Session &old) { return now < old.deadline ? Session{deadline, old.user} : old; });
        return session.value && now < session.value->deadline && !is_refused(token);
    }
    // Ends a session. Only ok and absent say that the map no longer has it. With another status the token is refused until `erase_refused` has
    // erased it.
    void log_out(const std::string &token) {
        const Status status = sessions_.erase(token);
        if (status != Status::ok && status != Status::absent) {
            const std::lock_guard<std::mutex> guard(lock_);
            refused_.insert(token);
            refused_count_ = refused_.size();
        }
    }
    // Tries again to erase the tokens that are refused, and returns how many are left. Call it now and then.
    size_t erase_refused() {
        const std::lock_guard<std::mutex> guard(lock_);
        for (auto token = refused_.begin(); token != refused_.end();) {
            const Status status = sessions_.erase(*token);
            token = status == Status::ok || status == Status::absent ? refused_.erase(token) : std::next(token);
        }
        return refused_count_ = refused_.size();
    }

  private:
    // Ask this before the map: a token leaves the set only after the map.
    bool is_refused(const std::string &token) {
        if (refused_count_ == 0) {
            return false;
        }
        const std::lock_guard<std::mutex> guard(lock_);
        return refused_.count(token) != 0;
    }

    cefrodil::map<std::string, Session> sessions_;
    std::atomic<size_t> refused_count_{0}; // so that lookups take the lock only if it is needed
    std::mutex lock_;
    std::set<std::string> refused_;
};

int main() {
    Sessions sessions;
    sessions.log_out("decaf"); // The map is not open yet, so it erases nothing.
    const size_t refused = sessions.erase_refused();
    if (sessions.open(1000) != Status::ok || sessions.log_in("c0ffee", {160, 7}) != Status::ok || sessions.log_in("facade", {160, 8}) != Status::ok) {
        return 1;
    }
    const bool prolonged = sessions.prolong("c0ffee", 150, 200), revived = sessions.prolong("facade", 160, 200);
    const auto early = sessions.user_of("facade", 150), late = sessions.user_of("facade", 160), other = sessions.user_of("decaf", 150);
    const auto later = sessions.user_of("c0ffee", 160);
    sessions.log_out("c0ffee");
    const auto out = sessions.user_of("c0ffee", 160);
    std::printf("user %d, then %d\n", int(early.value_or(0)), int(later.value_or(0)));
    return !(prolonged && !revived && early == 8u && !late && !other && later == 7u && !out && refused == 1 && sessions.erase_refused() == 0);
}
