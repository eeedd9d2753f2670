// One face for every set that the benchmark measures: ours, the C twin, and the peers.
// The loops are inside, so that no set pays for the face.
#pragma once
#include <cstddef>
#include <cstdint>
#include <memory>
#include <string>
#include <vector>

using Keys = std::vector<uint32_t>;

struct Shape {
    uint32_t m, r;
};

struct Runner {
    std::string name;
    bool hashed = false;  // a hash set, for the criterion on bytes
    virtual ~Runner() = default;
    virtual void make(Shape shape, size_t n) = 0;  // empty, with room reserved for n keys where the set offers it
    virtual void drop() = 0;
    virtual size_t put(const Keys &keys) = 0;         // how many were new
    virtual size_t find(const Keys &keys) const = 0;  // how many are there
    virtual void build(Shape shape, const Keys &keys) = 0;
    virtual size_t list(Keys &out) const = 0;  // ascending
};

// A set S has: S(shape, n), bool put(key), bool has(key), void build(keys), size_t list(out).
template <class S> struct RunnerOf final : Runner {
    std::unique_ptr<S> set;
    RunnerOf(const char *n, bool h) { name = n, hashed = h; }
    void make(Shape shape, size_t n) override { set = std::make_unique<S>(shape, n); }
    void drop() override { set.reset(); }
    size_t put(const Keys &keys) override {
        size_t n = 0;
        for (uint32_t key : keys) n += set->put(key);
        return n;
    }
    size_t find(const Keys &keys) const override {
        size_t n = 0;
        for (uint32_t key : keys) n += set->has(key);
        return n;
    }
    void build(Shape shape, const Keys &keys) override {
        set = std::make_unique<S>(shape, keys.size());
        set->build(keys);
    }
    size_t list(Keys &out) const override { return set->list(out); }
};

using Runners = std::vector<std::unique_ptr<Runner>>;
void add_peers(Runners &runners);
