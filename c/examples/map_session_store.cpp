// A store of sessions for any number of threads: strings of any size, within a bound on their bytes. Sessions that nobody used lately leave for
// others, and each ends when it was not used for half an hour.
#include "cefrodil_object_map.hpp"
#include <chrono>
#include <cstdio>
#include <map>
#include <optional>
#include <string>

struct Session {
    std::string user;
    std::map<std::string, std::string> data;
};
using Sessions = cefrodil::object_map<std::string, Session>;

// The bytes of a session, roughly: its letters, and what it takes beside them.
static uint64_t bytes_of(const std::string &token, const Session &session) {
    uint64_t bytes = 200 + token.capacity() + session.user.capacity();
    for (const auto &[name, value] : session.data) {
        bytes += 150 + name.capacity() + value.capacity();
    }
    return bytes;
}

static std::optional<std::string> data_of(const Sessions &sessions, const std::string &token, const std::string &name) {
    std::optional<std::string> found;
    const auto status = sessions.look(token, [&](const Session &session) {
        const auto value = session.data.find(name);
        found = value != session.data.end() ? std::optional(value->second) : std::nullopt;
    });
    return status == cefrodil::Status::ok ? found : std::nullopt;
}
// Sets a value of a session that is there. Threads that do so at once lose nothing. too_heavy: the session would be larger than the store.
static cefrodil::Status set_data(Sessions &sessions, const std::string &token, const std::string &name, const std::string &value) {
    return sessions.update(token, [&](const Session &old) {
        Session session = old;
        session.data[name] = value;
        return session;
    });
}

int main() {
    constexpr uint64_t most = 1000000;
    Sessions sessions;
    Sessions::Rules rules;
    rules.weigher = bytes_of;
    rules.most_weight = most;
    rules.lives.time_to_idle = std::chrono::minutes(30);
    // Room for as many sessions as the smallest ones would be. So the bytes are the bound, and not the number.
    if (sessions.open({4000}, rules) != cefrodil::Status::ok || sessions.insert("first", {"ann", {}}).status != cefrodil::Status::ok) {
        return 1;
    }
    bool is_right = set_data(sessions, "first", "theme", "dark") == cefrodil::Status::ok;
    is_right = is_right && set_data(sessions, "first", "notes", std::string(most, 'x')) == cefrodil::Status::too_heavy;
    for (int n = 0; n < 5000; n++) {
        const std::string token = "token " + std::to_string(n);
        // Unless ok, it found no place: the user has to log in again.
        is_right = sessions.insert(token, {"user", {{"cart", std::string(size_t(n % 1000), 'c')}}}).status == cefrodil::Status::ok && is_right;
        is_right = data_of(sessions, "first", "theme") == "dark" && is_right;
    }
    std::printf("%d of 5001 sessions are there, with %d of %d bytes\n", int(sessions.size()), int(sessions.weight()), int(most));
    const bool is_full = sessions.weight() <= most && sessions.weight() > most * 9 / 10 && !sessions.contains("token 0");
    return !(is_right && is_full && sessions.erase("first") == cefrodil::Status::ok && !data_of(sessions, "first", "theme"));
}
