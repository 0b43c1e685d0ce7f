// What a forked child does with the maps of its parent, for cefrodil_map.hpp. The parent's other threads are not in the child. So locks may be held
// there for ever, and a cache may have stopped in the middle of a change. The child finds each map closed, and never touches what is left of it. It
// keeps that in a list, so that no leak checker reports it.
#ifndef CEFRODIL_INSIDE_FORKS_HPP
#define CEFRODIL_INSIDE_FORKS_HPP

#include <memory>
#include <mutex>
#include <new>
#include <pthread.h>
#include <sys/types.h>
#include <unistd.h>
#include <utility>

namespace cefrodil::inside {

class Owned;
struct Wait;

// What this process owns, and who waits in it (waits.hpp). A shared library that hides its symbols has one of its own.
class Ownings {
  public:
    static Ownings &of_library() noexcept {
        static Ownings all;
        return all;
    }
    // From now on a forked child finds nothing owned. False without memory.
    [[nodiscard]] bool watch() noexcept {
        const std::lock_guard<std::mutex> guard(lock);
        is_watched_ = is_watched_ || pthread_atfork(before_fork, after_fork, in_child) == 0;
        return is_watched_;
    }
    // How many forks led to this process from the one that loaded the library, as far as they were watched.
    unsigned long forks() const noexcept { return forks_; }
    std::mutex lock{};
    Owned *first = nullptr;
    Wait *first_wait = nullptr;

  private:
    // What the parent owned.
    struct Kept {
        void *at;
        Kept *next;
    };
    constexpr Ownings() noexcept = default;
    static void before_fork() { of_library().lock.lock(); }
    static void after_fork() { of_library().lock.unlock(); }
    static void in_child();

    bool is_watched_ = false;
    unsigned long forks_ = 0;
    Kept *kept_ = nullptr;
};

// At load, since a fork that has begun calls nothing that is registered later. If this fails, the first opening tries again.
inline const bool is_watched_from_load = Ownings::of_library().watch();

// A pointer to what one process owns. A forked child finds null here.
class Owned {
  protected:
    Owned() noexcept {}
    Owned(const Owned &) = delete;
    Owned &operator=(const Owned &) = delete;

    void *get() const noexcept { return at_; }
    // Null before. False without memory: then nothing is owned.
    [[nodiscard]] bool own(void *at) noexcept {
        Ownings &ownings = Ownings::of_library();
        const bool is_watched = ownings.watch();
        if (is_watched) {
            add(ownings, at);
        }
        return is_watched;
    }
    // Null before.
    void take_from(Owned &other) noexcept {
        if (void *const at = other.release(); at != nullptr) {
            add(*other.ownings_, at);
        }
    }
    // Owns nothing from now on.
    void *release() noexcept {
        if (at_ == nullptr) {
            return nullptr;
        }
        const std::lock_guard<std::mutex> guard(ownings_->lock);
        *link_ = next_;
        if (next_ != nullptr) {
            next_->link_ = link_;
        }
        return std::exchange(at_, nullptr);
    }

  private:
    friend Ownings;
    void add(Ownings &ownings, void *at) noexcept {
        const std::lock_guard<std::mutex> guard(ownings.lock);
        ownings_ = &ownings, at_ = at;
        next_ = ownings.first, link_ = &ownings.first;
        if (next_ != nullptr) {
            next_->link_ = &next_;
        }
        ownings.first = this;
    }

    void *at_ = nullptr;
    Ownings *ownings_ = nullptr;
    Owned *next_ = nullptr, **link_ = nullptr;
};

inline void Ownings::in_child() {
    Ownings &ownings = of_library();
    ownings.forks_++;
    ownings.first_wait = nullptr;
    for (Owned *each = std::exchange(ownings.first, nullptr); each != nullptr; each = each->next_) {
        void *const at = std::exchange(each->at_, nullptr);
        Kept *const kept = new (std::nothrow) Kept{at, ownings.kept_};
        ownings.kept_ = kept != nullptr ? kept : ownings.kept_;
    }
    ownings.lock.unlock();
}

// The same as a std::unique_ptr, but for the forked child.
template <class T> class OwnedPointer : Owned {
  public:
    OwnedPointer() noexcept {}
    OwnedPointer(OwnedPointer &&other) noexcept { take_from(other); }
    OwnedPointer &operator=(OwnedPointer &&other) noexcept {
        if (this != &other) {
            static_cast<void>(reset());
            take_from(other);
        }
        return *this;
    }
    ~OwnedPointer() { static_cast<void>(reset()); }

    explicit operator bool() const noexcept { return get() != nullptr; }
    T *operator->() const noexcept { return static_cast<T *>(get()); }
    T &operator*() const noexcept { return *static_cast<T *>(get()); }
    // Null before. False without memory.
    [[nodiscard]] bool own(std::unique_ptr<T> &&made) noexcept { return Owned::own(made.get()) && made.release() != nullptr; }
    // Destroys what is owned. Whether anything was.
    bool reset() noexcept { return std::unique_ptr<T>(static_cast<T *>(release())) != nullptr; }
};

// The process that made an object. Its forked child has a copy of the object, whose lock another thread may have held. Both may have one number, each
// in a namespace of its own.
class Maker {
  public:
    Maker() noexcept { static_cast<void>(ownings_.watch()); }
    bool is_this_process() const noexcept { return forks_ == ownings_.forks() && process_ == getpid(); }

  private:
    // Of the library that made it: each library counts for itself.
    Ownings &ownings_ = Ownings::of_library();
    unsigned long forks_ = ownings_.forks();
    pid_t process_ = getpid();
};

} // namespace cefrodil::inside

#endif
