// Counts the blocks of malloc, realloc and new, and refuses them. Linked with --wrap.
#ifndef REFUSED_MEMORY_HPP
#define REFUSED_MEMORY_HPP

#include <atomic>
#include <cstddef>
#include <cstdlib>
#include <malloc.h>
#include <new>
#include <utility>

// `left`: how many allocations succeed until all are refused, or -1 if none is. `kept`: how many blocks are in use. `bytes`: what they take, with the
// word that malloc keeps of each. `of_library`: how many the library asked for.
static std::atomic<long> left{-1}, kept{0}, bytes{0}, of_library{0};
static void (*in_turn)() = nullptr; // what the library's next allocation calls first

static bool refused() {
    const bool none = left == 0;
    left -= left > 0;
    return none;
}

static long bytes_of(void *block) { return block != nullptr ? static_cast<long>(malloc_usable_size(block) + sizeof(size_t)) : 0; }

static void *taken(void *block) {
    kept += block != nullptr;
    bytes += bytes_of(block);
    return block;
}

static void given_back(void *block) {
    kept -= block != nullptr;
    bytes -= bytes_of(block);
}

extern "C" {
void *__real_malloc(size_t size);
void *__real_realloc(void *block, size_t size);
void __real_free(void *block);
void *__wrap_malloc(size_t size);
void *__wrap_realloc(void *block, size_t size);
void __wrap_free(void *block);

void *__wrap_malloc(size_t size) {
    of_library++;
    if (in_turn != nullptr) {
        std::exchange(in_turn, nullptr)();
    }
    return refused() ? nullptr : taken(__real_malloc(size));
}
void *__wrap_realloc(void *block, size_t size) {
    if (refused()) {
        return nullptr;
    }
    given_back(block);
    return taken(__real_realloc(block, size));
}
void __wrap_free(void *block) {
    given_back(block);
    __real_free(block);
}
}

static void *taken_or_thrown(size_t size, size_t align) {
    void *block = refused() ? nullptr : taken(std::aligned_alloc(align, (size + align - 1) / align * align));
    if (block == nullptr) {
        throw std::bad_alloc();
    }
    return block;
}

void *operator new(size_t size) { return taken_or_thrown(size, 16); }
void *operator new(size_t size, std::align_val_t align) { return taken_or_thrown(size, static_cast<size_t>(align)); }
void operator delete(void *block) noexcept { __wrap_free(block); }
void operator delete(void *block, size_t) noexcept { __wrap_free(block); }
void operator delete(void *block, std::align_val_t) noexcept { __wrap_free(block); }
void operator delete(void *block, size_t, std::align_val_t) noexcept { __wrap_free(block); }

#endif
