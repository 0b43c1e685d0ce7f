// A cache of blocks of files, as a storage engine has one: at most 256 MB for eight threads. Of several threads that miss a block, one reads it. A block
// that is in use is pinned: it stays as it is, whatever leaves the cache. The blocks of a file that was rewritten leave in one call.
#include "cefrodil_object_map.hpp"
#include <array>
#include <atomic>
#include <cstdio>
#include <thread>
#include <vector>

struct BlockId {
    uint64_t file, number;
    bool operator==(const BlockId &other) const { return file == other.file && number == other.number; }
};
using Block = std::vector<uint64_t>;
using Blocks = cefrodil::object_map<BlockId, Block>;

static constexpr uint64_t files = 16, blocks_of_a_file = 10000, words_of_a_block = 512, threads = 8, reads = 20000;

// In place of a disk: each word of a file has the file's version.
static std::array<std::atomic<uint64_t>, files> versions{};
static Block read(const BlockId &id) { return Block(words_of_a_block, versions[id.file] << 32 | id.number); }

static Block::value_type version_of(const BlockId &id, const Block &block) {
    for (const auto word : block) {
        if (word != block.front() || uint32_t(word) != id.number) {
            return 0;
        }
    }
    return block.front() >> 32;
}

// Rewrites a file. Once this has returned, nobody finds a block of the old one.
static bool rewrite(Blocks &blocks, uint64_t file) {
    versions[file]++;
    return blocks.erase_if([&](const BlockId &id, const Block &) { return id.file == file; }).status == cefrodil::Status::ok;
}

int main() {
    Blocks::Rules rules;
    rules.weigher = [](const BlockId &, const Block &block) { return sizeof(BlockId) + sizeof(Block) + 8 * block.size(); };
    rules.most_weight = 256 << 20;
    Blocks blocks;
    // Room for more blocks than have so many bytes together.
    if (blocks.open({80000}, rules) != cefrodil::Status::ok) {
        return 1;
    }
    // The version of each file whose rewrite has returned.
    std::array<std::atomic<uint64_t>, files> current{};
    for (uint64_t file = 0; file < files; file++) {
        current[file] = versions[file] = 1;
    }
    std::atomic<uint64_t> wrong{0}, read_from_disk{0};
    const auto work = [&](uint64_t thread) {
        uint64_t random = thread;
        for (uint64_t n = 0; n < reads; n++) {
            random = random * 6364136223846793005 + 1442695040888963407;
            const BlockId id{(random >> 40) % files, (random >> 20) % blocks_of_a_file};
            const uint64_t least = current[id.file];
            const auto found = blocks.pin_or_compute(id, [&] { return read(id); });
            read_from_disk += found.computed;
            wrong += !found.value || version_of(id, *found.value) < least;
            if (thread == 0 && n % 4000 == 3999) {
                wrong += !rewrite(blocks, id.file);
                current[id.file] = uint64_t(versions[id.file]);
            }
        }
    };
    std::vector<std::thread> running;
    for (uint64_t thread = 0; thread < threads; thread++) {
        running.emplace_back(work, thread);
    }
    for (std::thread &thread : running) {
        thread.join();
    }
    std::printf("%d blocks of %d were read, and %d MB are there\n", int(read_from_disk), int(threads * reads), int(blocks.weight() >> 20));
    return wrong != 0 || blocks.weight() > rules.most_weight || read_from_disk >= threads * reads;
}
