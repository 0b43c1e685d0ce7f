// A map that one shared library opened is the same map in another one, though each has the header's variables by itself. The arguments are two such
// libraries.
#include "../must.h"
#include "calls.hpp"
#include <dlfcn.h>
#include <memory>

static void *loaded(const char *path) {
    void *const library = dlopen(path, RTLD_NOW | RTLD_LOCAL);
    if (library == nullptr) {
        std::puts(dlerror());
        std::exit(2);
    }
    return library;
}
static const Calls *calls_of(void *library) {
    return reinterpret_cast<const Calls *(*)()>(dlsym(library, "calls"))();
}

// Both maps are the first ones of their libraries, and this thread has called each by its own library.
static void pass_on(const Calls &one, const Calls &other) {
    Map *const first = one.open(), *const second = other.open();
    MUST(one.insert(first, 1, 11) && other.insert(second, 1, 22));
    MUST(other.find(first, 1) == 11 && one.find(second, 1) == 22 && one.find(first, 1) == 11 && other.find(second, 1) == 22);
    MUST(other.insert(first, 2, 12) && one.find(first, 2) == 12 && other.find(second, 2) == 0 && first->find(2) == 12u);
    std::thread([&] { MUST(other.find(second, 1) == 22 && other.find(first, 2) == 12 && one.find(first, 2) == 12); }).join();
    MUST(first->size() == 2 && second->size() == 1);
    other.close(first);
    one.close(second);
}

// A map that another library has moved stays in the list of the one that opened it. So the other one may be unloaded before the map ends.
static void moved_by_a_library_that_is_unloaded(const char *path) {
    const auto &listed = cefrodil::inside::Ownings::of_library().first;
    void *const library = loaded(path);
    auto map = std::make_unique<Map>();
    MUST(listed == nullptr && map->open({100, 1, 4}) == cefrodil::Status::ok && map->insert(1, 11).status == cefrodil::Status::ok);
    const std::unique_ptr<Map> moved(calls_of(library)->move(map.release()));
    MUST(listed != nullptr && dlclose(library) == 0);
    MUST(moved->find(1) == 11u && moved->insert(2, 12).status == cefrodil::Status::ok && moved->find(2) == 12u);
    MUST(moved->close() == cefrodil::Status::ok && listed == nullptr);
}

int main(int argc, char **argv) {
    if (argc != 3) {
        return 2;
    }
    moved_by_a_library_that_is_unloaded(argv[2]);
    const Calls *const one = calls_of(loaded(argv[1])), *const other = calls_of(loaded(argv[2]));
    MUST(one != other && one->find != other->find);
    pass_on(*one, *other);
    pass_on(*other, *one); // each library has opened one map before
    return outcome("libraries");
}
