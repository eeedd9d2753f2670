// The benchmark: agree, bytes, time, count, keys (see bench/run). The same keys go to every set, from one fixed seed.
// Results are markdown tables on standard output.
#include "../include/woollydusk.h"
#include "sets.hpp"
#include "twin.h"

#include <algorithm>
#include <chrono>
#include <cstdio>
#include <cstdlib>
#include <cstring>
#include <functional>
#include <map>
#include <random>
#include <unordered_set>

extern "C" size_t held_bytes() __attribute__((weak));

namespace {

using Bytes = std::vector<uint8_t>;

// Ours and the twin have the same calls.
struct Calls {
    decltype(&wd_find) find;
    decltype(&wd_put) put;
    decltype(&wd_build) build;
    decltype(&wd_list) list;
};
constexpr Calls ours = {wd_find, wd_put, wd_build, wd_list};
constexpr Calls twin = {tw_find, tw_put, tw_build, tw_list};

// Where the archives do not link, their bitcode is compiled once more, and every table says so.
#ifdef RECOMPILED
constexpr const char *our_name = "ours, recompiled";
#else
constexpr const char *our_name = "ours";
#endif

template <const Calls &calls> struct Table {
    Shape shape;
    Bytes bytes;
    Table(Shape s, size_t) : shape(s), bytes(WD_TABLE_BYTES(s.m)) {}
    bool put(uint32_t key) { return calls.put(shape.m, shape.r, bytes.data(), bytes.size(), key) == WD_INSERTED; }
    bool has(uint32_t key) const {
        return calls.find(shape.m, shape.r, bytes.data(), bytes.size(), key) == WD_PRESENT;
    }
    void build(const Keys &keys) {
        calls.build(shape.m, shape.r, bytes.data(), bytes.size(), keys.data(), keys.size());
    }
    size_t list(Keys &out) const {
        return calls.list(shape.m, shape.r, bytes.data(), bytes.size(), out.data(), out.size());
    }
};

[[noreturn]] void fail(const char *what) {
    std::fprintf(stderr, "bench: %s\n", what);
    std::exit(1);
}

const Shape shapes[] = {{10, 12}, {14, 12}};
const char *const loads[] = {"0.5", "0.75", "0.9", "full"};
const char *const operations[] = {"find present", "find absent", "put", "build", "list"};

size_t keys_at(Shape s, const char *load) {
    size_t homes = size_t{1} << s.m;
    return std::strcmp(load, "full") ? static_cast<size_t>(static_cast<double>(homes) * std::atof(load)) : homes;
}

// One shape at one load: n distinct keys, the same in another order, and keys that are absent. At full the cluster is
// the whole table, so fewer are looked for.
struct Case {
    Shape shape;
    size_t n;
    Keys keys, present, absent;
    Case(Shape s, const char *load) : shape(s), n(keys_at(s, load)) {
        std::mt19937 random(20261115u + s.m);
        std::unordered_set<uint32_t> seen;
        auto fresh = [&] {
            for (;;)
                if (uint32_t key = static_cast<uint32_t>(random()) >> (32 - s.m - s.r); seen.insert(key).second) return key;
        };
        while (keys.size() < n) keys.push_back(fresh());
        size_t looked = n == size_t{1} << s.m ? 256 : n;
        present = keys;
        std::shuffle(present.begin(), present.end(), random);
        present.resize(looked);
        while (absent.size() < looked) absent.push_back(fresh());
    }
};

// Damage and locks, so that the twin's checks are seen to be ours: same answers, same bytes.
void agree_on(Shape s, std::mt19937 &random, size_t n) {
    auto key = [&] { return static_cast<uint32_t>(random()) >> (32 - s.m - s.r); };
    size_t length = WD_TABLE_BYTES(s.m);
    Keys keys(n), a(n + 2, 7), b = a;
    for (uint32_t &k : keys) k = key();
    Bytes x(length, 1), y(length, 1);
    if (wd_build(s.m, s.r, x.data(), length, keys.data(), n) != tw_build(s.m, s.r, y.data(), length, keys.data(), n))
        fail("build: the twin answers otherwise");
    for (int flips = static_cast<int>(random() % 4); flips > 0; flips--) {
        size_t at = random() % length;
        x[at] = y[at] = static_cast<uint8_t>(x[at] ^ 1u << random() % 8);
    }
    for (int i = 0; i < 40; i++) {
        uint32_t k = i % 2 || n == 0 ? key() : keys[random() % n];
        if (wd_find(s.m, s.r, x.data(), length, k) != tw_find(s.m, s.r, y.data(), length, k))
            fail("find: the twin answers otherwise");
        if (i % 8 == 7 && wd_put(s.m, s.r, x.data(), length, k) != tw_put(s.m, s.r, y.data(), length, k))
            fail("put: the twin answers otherwise");
        if (x != y) fail("the twin leaves other bytes");
    }
    if (wd_list(s.m, s.r, x.data(), length, a.data(), a.size()) !=
            tw_list(s.m, s.r, y.data(), length, b.data(), b.size()) || a != b)
        fail("list: the twin answers otherwise");
}

void agree() {
    std::mt19937 random(1);
    for (int i = 0; i < 20000; i++) {
        uint32_t m = random() % 6, r = random() % 12;
        Shape s = {m + 1, r + 1};
        agree_on(s, random, random() % ((size_t{1} << s.m) * 5 / 4 + 1));
    }
    for (int i = 0; i < 200; i++) agree_on(shapes[0], random, random() % 1100);
    std::printf("Ours and the twin agree on 20200 tables, damaged and locked ones among them.\n\n");
}

double seconds_of(const std::function<void()> &work) {
    auto start = std::chrono::steady_clock::now();
    work();
    return std::chrono::duration<double>(std::chrono::steady_clock::now() - start).count();
}

// One round of one operation: seconds for each key (for each call at build and list, divided by the keys).
double round_of(Runner &set, const Case &c, const std::string &operation, Keys &out) {
    size_t got = 0, want = c.n, divisor = c.n;
    double seconds = 0;
    if (operation == "put") {
        set.make(c.shape, c.n);
        seconds = seconds_of([&] { got = set.put(c.keys); });
    } else if (operation == "build") {
        set.drop();
        seconds = seconds_of([&] { set.build(c.shape, c.keys); });
        got = set.list(out);
    } else if (operation == "list") {
        seconds = seconds_of([&] { got = set.list(out); });
        if (!std::is_sorted(out.begin(), out.begin() + static_cast<std::ptrdiff_t>(c.n))) fail("a list does not ascend");
    } else {
        bool present = operation == "find present";
        const Keys &keys = present ? c.present : c.absent;
        divisor = keys.size(), want = present ? divisor : 0;
        seconds = seconds_of([&] { got = set.find(keys); });
    }
    if (got != want) fail((set.name + ": wrong answers at " + operation).c_str());
    return seconds / static_cast<double>(divisor);
}

// The best of the rounds; in each round every set takes its turn, so that a busy machine meets all alike.
std::vector<double> best_times(Runners &sets, const Case &c, const std::string &operation) {
    std::vector<double> best(sets.size(), 1e9);
    Keys out(c.n);
    for (auto &set : sets) set->build(c.shape, c.keys);
    double spent = 0;
    for (int round = 0; round < 9 || (spent < 1.5 && round < 200); round++)
        for (size_t i = 0; i < sets.size(); i++) {
            double t = round_of(*sets[i], c, operation, out);
            best[i] = std::min(best[i], t);
            spent += t * static_cast<double>(c.n);
        }
    return best;
}

void head(const Runners &sets, const char *first) {
    std::printf("| %s |", first);
    for (auto &set : sets) std::printf(" %s |", set->name.c_str());
    std::printf("\n|---|");
    for (size_t i = 0; i < sets.size(); i++) std::printf("---|");
    std::printf("\n");
}

// Nanoseconds a key, and under each peer ours / peer.
void time_all(Runners &sets) {
    for (Shape s : shapes)
        for (const char *load : loads) {
            Case c(s, load);
            std::printf("Shape (%u, %u), load %s, %zu keys: nanoseconds a key (ours / that set)\n\n", s.m, s.r, load, c.n);
            head(sets, "Call");
            for (const char *operation : operations) {
                std::vector<double> best = best_times(sets, c, operation);
                std::printf("| %s | %.1f |", operation, best[0] * 1e9);
                for (size_t i = 1; i < best.size(); i++) std::printf(" %.1f (%.2f) |", best[i] * 1e9, best[0] / best[i]);
                std::printf("\n");
                std::fflush(stdout);
            }
            std::printf("\n");
        }
}

// The bytes that each set holds for its keys, put one by one into an empty set; the set's own object is among them.
void bytes_all(Runners &sets) {
    if (!held_bytes) fail("this program does not count bytes");
    std::printf("Bytes a key\n\n");
    head(sets, "Shape, load");
    for (Shape s : shapes)
        for (const char *load : loads) {
            Case c(s, load);
            std::printf("| (%u, %u), %s |", s.m, s.r, load);
            for (size_t i = 0; i < sets.size(); i++) {
                size_t before = held_bytes();
                sets[i]->make(s, c.n);
                sets[i]->put(c.keys);
                double bytes = static_cast<double>(held_bytes() - before);
                if (i < 2) bytes = static_cast<double>(WD_TABLE_BYTES(s.m));
                std::printf(" %.2f |", bytes / static_cast<double>(c.n));
                sets[i]->drop();
            }
            std::printf("\n");
        }
    std::printf("\n");
}

// The case of one operation whose instructions are counted; of many finds the first 2000.
Case counted(Shape s, const char *load) {
    Case c(s, load);
    if (c.present.size() > 2000) c.present.resize(2000), c.absent.resize(2000);
    return c;
}

// One operation of ours and of the twin, for a program that counts instructions: prints the number of calls.
void count(Runners &sets, Shape s, const char *load, const std::string &operation) {
    Case c = counted(s, load);
    Keys out(c.n);
    for (int i = 0; i < 2; i++) {
        if (operation != "put") sets[static_cast<size_t>(i)]->build(s, c.keys);
        if (operation != "build") round_of(*sets[static_cast<size_t>(i)], c, operation, out);
    }
    std::printf("%zu\n", operation.compare(0, 4, "find") == 0 ? c.present.size() : c.n);
}

// The same operation for bench/count.c, which has no C++ library: the shape, the operation's number and the keys.
void write_keys(Shape s, const char *load, const std::string &operation) {
    Case c = counted(s, load);
    const Keys &looked = operation == "find present" ? c.present : c.absent;
    auto number = std::find(std::begin(operations), std::end(operations), operation) - std::begin(operations);
    Keys all = {s.m, s.r};
    for (size_t n : {static_cast<size_t>(number), c.n, looked.size()}) all.push_back(static_cast<uint32_t>(n));
    all.insert(all.end(), c.keys.begin(), c.keys.end());
    all.insert(all.end(), looked.begin(), looked.end());
    if (std::fwrite(all.data(), sizeof all[0], all.size(), stdout) != all.size()) fail("the keys cannot be written");
}

}  // namespace

int main(int argc, char **argv) {
    std::string mode = argc > 1 ? argv[1] : "";
    Runners sets;
    sets.push_back(std::make_unique<RunnerOf<Table<ours>>>(our_name, true));
    sets.push_back(std::make_unique<RunnerOf<Table<twin>>>("C twin", true));
    if (mode == "agree") return agree(), 0;
    if ((mode == "count" || mode == "keys") && argc == 6) {
        Shape s = {static_cast<uint32_t>(std::atoi(argv[2])), static_cast<uint32_t>(std::atoi(argv[3]))};
        if (mode == "keys") return write_keys(s, argv[4], argv[5]), 0;
        return count(sets, s, argv[4], argv[5]), 0;
    }
    add_peers(sets);
    if (mode == "time") return time_all(sets), 0;
    if (mode == "bytes") return bytes_all(sets), 0;
    std::fprintf(stderr, "usage: agree | bytes | time | count M R LOAD OPERATION | keys M R LOAD OPERATION\n");
    return 2;
}
