// The sets that a user would pick instead, from Debian's packages. Each has the face of sets.hpp.
// bench/run defines HAVE_.. for each package that is there. Room is reserved where a set offers it.
#include "sets.hpp"

#include <algorithm>
#ifdef HAVE_BOOST
#include <boost/unordered/unordered_flat_set.hpp>
#endif
#ifdef HAVE_ABSL
#include <absl/container/flat_hash_set.h>
#endif
#ifdef HAVE_SPARSEHASH
#include <sparsehash/dense_hash_set>
#include <sparsehash/sparse_hash_set>
#endif
#ifdef HAVE_JUDY
#include <Judy.h>
#endif
#ifdef HAVE_ROARING
#include <roaring/roaring.h>
#endif

namespace {

// A hash set has no order: its list is copied out and sorted, since ours ascends.
template <class S> size_t sorted_list(const S &set, Keys &out) {
    size_t n = 0;
    for (uint32_t key : set) out[n++] = key;
    std::sort(out.begin(), out.begin() + static_cast<std::ptrdiff_t>(n));
    return n;
}

template <class S> struct HashSet {
    S set;
    bool put(uint32_t key) { return set.insert(key).second; }
    bool has(uint32_t key) const { return set.find(key) != set.end(); }
    void build(const Keys &keys) { set.insert(keys.begin(), keys.end()); }
    size_t list(Keys &out) const { return sorted_list(set, out); }
};

#ifdef HAVE_BOOST
struct Boost : HashSet<boost::unordered_flat_set<uint32_t>> {
    Boost(Shape, size_t n) { set.reserve(n); }
};
#endif

#ifdef HAVE_ABSL
struct Absl : HashSet<absl::flat_hash_set<uint32_t>> {
    Absl(Shape, size_t n) { set.reserve(n); }
};
#endif

#ifdef HAVE_SPARSEHASH
struct Dense : HashSet<google::dense_hash_set<uint32_t>> {
    Dense(Shape, size_t n) {
        set.set_empty_key(UINT32_MAX);  // no key of the measured shapes
        set.resize(n);
    }
};

struct Sparse : HashSet<google::sparse_hash_set<uint32_t>> {
    Sparse(Shape, size_t n) { set.resize(n); }
};
#endif

#ifdef HAVE_JUDY
struct Judy {
    Pvoid_t set = nullptr;
    Judy(Shape, size_t) {}
    Judy(const Judy &) = delete;
    ~Judy() { Judy1FreeArray(&set, PJE0); }
    bool put(uint32_t key) { return Judy1Set(&set, key, PJE0) == 1; }
    bool has(uint32_t key) const { return Judy1Test(set, key, PJE0) == 1; }
    void build(const Keys &keys) {
        for (uint32_t key : keys) Judy1Set(&set, key, PJE0);
    }
    size_t list(Keys &out) const {
        size_t n = 0;
        Word_t key = 0;
        for (int more = Judy1First(set, &key, PJE0); more == 1; more = Judy1Next(set, &key, PJE0))
            out[n++] = static_cast<uint32_t>(key);
        return n;
    }
};
#endif

#ifdef HAVE_ROARING
struct Roaring {
    roaring_bitmap_t *set = roaring_bitmap_create();
    Roaring(Shape, size_t) {}
    Roaring(const Roaring &) = delete;
    ~Roaring() { roaring_bitmap_free(set); }
    bool put(uint32_t key) { return roaring_bitmap_add_checked(set, key); }
    bool has(uint32_t key) const { return roaring_bitmap_contains(set, key); }
    void build(const Keys &keys) { roaring_bitmap_add_many(set, keys.size(), keys.data()); }
    size_t list(Keys &out) const {
        roaring_bitmap_to_uint32_array(set, out.data());
        return roaring_bitmap_get_cardinality(set);
    }
};
#endif

struct SortedVector {
    Keys set;
    SortedVector(Shape, size_t n) { set.reserve(n); }
    bool put(uint32_t key) {
        auto at = std::lower_bound(set.begin(), set.end(), key);
        if (at != set.end() && *at == key) return false;
        set.insert(at, key);
        return true;
    }
    bool has(uint32_t key) const { return std::binary_search(set.begin(), set.end(), key); }
    void build(const Keys &keys) {
        set.assign(keys.begin(), keys.end());
        std::sort(set.begin(), set.end());
        set.erase(std::unique(set.begin(), set.end()), set.end());
    }
    size_t list(Keys &out) const {
        std::copy(set.begin(), set.end(), out.begin());
        return set.size();
    }
};

template <class S> void add(Runners &runners, const char *name, bool hashed) {
    runners.push_back(std::make_unique<RunnerOf<S>>(name, hashed));
}

}  // namespace

void add_peers(Runners &runners) {
#ifdef HAVE_BOOST
    add<Boost>(runners, "boost flat", true);
#endif
#ifdef HAVE_ABSL
    add<Absl>(runners, "absl flat", true);
#endif
#ifdef HAVE_SPARSEHASH
    add<Dense>(runners, "dense hash", true);
    add<Sparse>(runners, "sparse hash", true);
#endif
#ifdef HAVE_JUDY
    add<Judy>(runners, "Judy", false);
#endif
#ifdef HAVE_ROARING
    add<Roaring>(runners, "roaring", false);
#endif
    add<SortedVector>(runners, "sorted vector", false);
}
