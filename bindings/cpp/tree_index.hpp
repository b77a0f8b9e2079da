// TreeIndex for C++17, in one header over tree_index.h: an ordered index of numbers, and one of byte strings.
//
// An index owns its handle: it moves and swaps, and copies by copy() alone. Look-ups return a std::optional. A call throws
// std::bad_alloc if it cannot allocate, and the pairs are then as they were; at() throws std::out_of_range for an absent key.
// Walks are forward ranges of C++20, and give pairs by value. Threads that share an index take a lock around each call,
// look-ups too, or each read a copy of a `frozen` one, without a lock.
#pragma once

#include <algorithm>
#include <array>
#include <cstddef>
#include <cstdint>
#include <iterator>
#include <memory>
#include <new>
#include <optional>
#include <stdexcept>
#include <string>
#include <string_view>
#include <type_traits>
#include <utility>
#include <vector>
#if __cplusplus >= 202002L
#include <ranges>
#endif

#include "tree_index.h"

namespace tree_index {

namespace inside {

// Answers whether a write was done, and throws if it could not allocate.
inline bool done(int answer) {
  if (answer == TREE_INDEX_NO_MEMORY) throw std::bad_alloc();
  return answer == TREE_INDEX_YES;
}

// The value that a look-up found, or an exception.
inline uint64_t value_at(std::optional<uint64_t> found) {
  if (!found) throw std::out_of_range("tree_index: the key is absent");
  return *found;
}

// An open handle and its end.
class owner {
  mutable ::tree_index_handle handle_ = TREE_INDEX_CLOSED;

public:
  owner() = default;
  ~owner() { tree_index_free(&handle_); }
  owner(const owner &) = delete;
  owner &operator=(const owner &) = delete;
  owner(owner &&other) noexcept : handle_(std::exchange(other.handle_, ::tree_index_handle TREE_INDEX_CLOSED)) {}
  owner &operator=(owner &&other) noexcept {
    owner(std::move(other)).swap(*this);
    return *this;
  }
  void swap(owner &other) noexcept { std::swap(handle_, other.handle_); }
  ::tree_index_handle *get() const noexcept { return &handle_; }
};

// What `->` of a walk leads to, since a walk gives its pairs by value.
template <class Pair> struct arrow {
  Pair pair;
  const Pair *operator->() const noexcept { return &pair; }
};

// How many pairs a walk reads first, or if it was begun for one pair. Each time it reads twice as many, up to the most.
constexpr std::size_t first_ahead = 16, few_ahead = 4, most_ahead = 256, most_keys_ahead = 64;

constexpr std::size_t more_than(std::size_t ahead, std::size_t most) { return std::min(std::max(2 * ahead, first_ahead), most); }

// Where each type is a whole number. An argument `{}` is none, and so is taken as a bound.
template <class... Numbers> using if_numbers = std::enable_if_t<(std::is_integral_v<Numbers> && ...)>;

} // namespace inside

template <class Index> class frozen;

// A bound of a range of keys. `bound{}`, or `{}` in its place, is no bound.
struct bound {
  uint8_t kind = TREE_INDEX_UNBOUNDED;
  uint64_t key = 0;
  static bound including(uint64_t key) { return {TREE_INDEX_INCLUDED, key}; }
  static bound excluding(uint64_t key) { return {TREE_INDEX_EXCLUDED, key}; }
};

// An ordered index of numbers by numbers. A moved-from index has no pair, and takes none: assign to it before it is used.
class index {
  template <class Index> friend class frozen;
  inside::owner owner_;

public:
  using key_type = uint64_t;
  using mapped_type = uint64_t;
  using value_type = std::pair<uint64_t, uint64_t>;
  using size_type = std::size_t;

  class iterator;
  class range_type;
  using const_iterator = iterator;

  // Allocates one block.
  index() { inside::done(tree_index_new(owner_.get())); }
  template <class It> index(It first, It last) : index() {
    for (; first != last; ++first) upsert(first->first, first->second);
  }
  index(index &&) noexcept = default;
  index &operator=(index &&) noexcept = default;

  // A copy of every pair.
  index copy() const {
    index made{closed{}};
    inside::done(tree_index_copy(owner_.get(), made.owner_.get()));
    return made;
  }
  void swap(index &other) noexcept { owner_.swap(other.owner_); }
  friend void swap(index &a, index &b) noexcept { a.swap(b); }

  // Stores a pair if its key is absent. Returns whether it did.
  bool insert(uint64_t key, uint64_t value) { return inside::done(tree_index_insert(owner_.get(), key, value)); }
  // Stores a pair, in place of one with an equal key.
  void upsert(uint64_t key, uint64_t value) { inside::done(tree_index_upsert(owner_.get(), key, value)); }
  // Replaces the value of a key and returns the old one, or nothing if the key is absent.
  std::optional<uint64_t> replace(uint64_t key, uint64_t value) {
    return tree_index_replace(owner_.get(), key, &value) == TREE_INDEX_YES ? std::optional(value) : std::nullopt;
  }
  // Removes the pair with a key. Returns how many there were.
  size_type erase(uint64_t key) { return tree_index_remove(owner_.get(), key) == TREE_INDEX_YES; }
  // Removes the pair with a key and returns its value.
  std::optional<uint64_t> take(uint64_t key) {
    uint64_t value;
    return tree_index_take(owner_.get(), key, &value) == TREE_INDEX_YES ? std::optional(value) : std::nullopt;
  }
  // Removes the keys from low up to high, high itself not.
  template <class Low, class High, class = inside::if_numbers<Low, High>> void erase_range(Low low, High high) { erase_range(bound::including(low), bound::excluding(high)); }
  void erase_range(bound low, bound high) { tree_index_remove_range(owner_.get(), low.kind, low.key, high.kind, high.key); }
  void clear() noexcept { tree_index_clear(owner_.get()); }
  std::optional<value_type> pop_first() {
    return pair_by([this](tree_index_pair *pair) { return tree_index_pop_first(owner_.get(), pair); });
  }
  std::optional<value_type> pop_last() {
    return pair_by([this](tree_index_pair *pair) { return tree_index_pop_last(owner_.get(), pair); });
  }

  // The value of a key.
  std::optional<uint64_t> find(uint64_t key) const {
    uint64_t value;
    return tree_index_peek(owner_.get(), key, &value) == TREE_INDEX_YES ? std::optional(value) : std::nullopt;
  }
  // The same, or std::out_of_range if the key is absent.
  uint64_t at(uint64_t key) const { return inside::value_at(find(key)); }
  // The value of each key of a vector, an array or a span, in order. Out of cache this is faster than single look-ups.
  template <class Keys> std::vector<std::optional<uint64_t>> find_many(const Keys &keys) const {
    std::size_t count = std::size(keys);
    std::vector<uint64_t> values(count + 1);
    std::vector<uint8_t> found(count + 1);
    const uint64_t none = 0, *from = count ? std::data(keys) : &none;
    tree_index_peek_many(owner_.get(), from, count, values.data(), count, found.data(), count);
    std::vector<std::optional<uint64_t>> told(count);
    for (std::size_t at = 0; at < count; at++) {
      if (found[at]) told[at] = values[at];
    }
    return told;
  }
  bool contains(uint64_t key) const { return tree_index_contains(owner_.get(), key) == TREE_INDEX_YES; }
  size_type size() const noexcept { return tree_index_len(owner_.get()); }
  bool empty() const noexcept { return size() == 0; }
  size_type depth() const noexcept { return tree_index_depth(owner_.get()); }
  std::optional<value_type> first() const {
    return pair_by([this](tree_index_pair *pair) { return tree_index_first(owner_.get(), pair); });
  }
  std::optional<value_type> last() const {
    return pair_by([this](tree_index_pair *pair) { return tree_index_last(owner_.get(), pair); });
  }
  // The pair with a key, or else the nearest one on that side.
  std::optional<value_type> at_or_below(uint64_t key) const {
    return pair_by([&](tree_index_pair *pair) { return tree_index_at_or_below(owner_.get(), key, pair); });
  }
  std::optional<value_type> at_or_above(uint64_t key) const {
    return pair_by([&](tree_index_pair *pair) { return tree_index_at_or_above(owner_.get(), key, pair); });
  }

  // The pairs in ascending order, or in descending order. After a write begin a new walk: an old one may still give up to
  // 256 pairs as they were before. Two numbers are the keys from the first up to the second, the second itself not.
  iterator begin() const;
  iterator end() const;
  template <class Low, class High, class = inside::if_numbers<Low, High>> range_type range(Low low, High high) const;
  range_type range(bound low, bound high) const;
  range_type reversed(bound low = {}, bound high = {}) const;
  // A walk from the first key that isn't smaller than this one, or from the first that is larger.
  iterator lower_bound(uint64_t key) const;
  iterator upper_bound(uint64_t key) const;
  // Writes the first keys within two bounds to one vector, array or span of numbers, and their values to the same places of
  // another; or from the last one down. Returns how many, which is all that there are if either has places left.
  template <class Keys, class Values> size_type fill(Keys &&keys, Values &&values, bound low = {}, bound high = {}) const { return fill_by(tree_index_fill_arrays, keys, values, low, high); }
  template <class Keys, class Values> size_type fill_back(Keys &&keys, Values &&values, bound low = {}, bound high = {}) const { return fill_by(tree_index_fill_arrays_back, keys, values, low, high); }

private:
  struct closed {};
  explicit index(closed) {}

  template <class Call, class Keys, class Values> size_type fill_by(Call call, Keys &keys, Values &values, bound low, bound high) const {
    if (std::empty(keys) || std::empty(values)) return 0;
    return call(owner_.get(), low.kind, low.key, high.kind, high.key, std::data(keys), std::size(keys), std::data(values), std::size(values));
  }

  template <class Call> static std::optional<value_type> pair_by(Call call) {
    tree_index_pair pair;
    return call(&pair) == TREE_INDEX_YES ? std::optional(value_type(pair.key, pair.value)) : std::nullopt;
  }
};

// A walk over an index. A copy goes on by itself.
class index::iterator {
  // What was read ahead: only the first `count` places have pairs.
  struct page {
    std::array<tree_index_pair, inside::most_ahead> places;
    std::size_t at = 0, count = 0;

    page() noexcept {}
    page(const page &other) noexcept { *this = other; }
    page &operator=(const page &other) noexcept {
      std::copy_n(other.places.begin(), other.count, places.begin());
      at = other.at;
      count = other.count;
      return *this;
    }
    const tree_index_pair &pair() const noexcept { return places[at]; }
  };

  const index *of_ = nullptr;
  bool descends_ = false;
  bound low_, high_;
  // How many were asked for. If fewer were there, no more are.
  std::size_t asked_ = 0;
  page page_;

  void read(std::size_t most) noexcept {
    auto call = descends_ ? tree_index_fill_back : tree_index_fill;
    page_.count = call(of_->owner_.get(), low_.kind, low_.key, high_.kind, high_.key, page_.places.data(), most);
    page_.at = 0;
    asked_ = most;
    if (page_.count == 0) of_ = nullptr;
    else (descends_ ? high_ : low_) = bound::excluding(page_.places[page_.count - 1].key);
  }

public:
  using iterator_concept = std::forward_iterator_tag;
  using iterator_category = std::input_iterator_tag;
  using value_type = index::value_type;
  using difference_type = std::ptrdiff_t;
  using pointer = inside::arrow<value_type>;
  using reference = value_type;

  iterator() noexcept = default;
  iterator(const index *of, bool descends, bound low, bound high, std::size_t first = inside::first_ahead) noexcept : of_(of), descends_(descends), low_(low), high_(high) { read(first); }

  reference operator*() const noexcept { return {page_.pair().key, page_.pair().value}; }
  pointer operator->() const noexcept { return {**this}; }
  iterator &operator++() noexcept {
    if (++page_.at < page_.count) return *this;
    if (page_.count < asked_) of_ = nullptr;
    else read(inside::more_than(asked_, inside::most_ahead));
    return *this;
  }
  iterator operator++(int) noexcept {
    iterator was = *this;
    ++*this;
    return was;
  }
  friend bool operator==(const iterator &a, const iterator &b) noexcept { return a.of_ == b.of_ && (!a.of_ || a.page_.pair().key == b.page_.pair().key); }
  friend bool operator!=(const iterator &a, const iterator &b) noexcept { return !(a == b); }
};

class index::range_type {
  const index *of_;
  bool descends_;
  bound low_, high_;

public:
  range_type(const index *of, bool descends, bound low, bound high) noexcept : of_(of), descends_(descends), low_(low), high_(high) {}
  iterator begin() const noexcept { return iterator(of_, descends_, low_, high_); }
  iterator end() const noexcept { return iterator(); }
};

inline index::iterator index::begin() const { return iterator(this, false, {}, {}); }
inline index::iterator index::end() const { return iterator(); }
template <class Low, class High, class> index::range_type index::range(Low low, High high) const { return range(bound::including(low), bound::excluding(high)); }
inline index::range_type index::range(bound low, bound high) const { return range_type(this, false, low, high); }
inline index::range_type index::reversed(bound low, bound high) const { return range_type(this, true, low, high); }
inline index::iterator index::lower_bound(uint64_t key) const { return iterator(this, false, bound::including(key), {}, inside::few_ahead); }
inline index::iterator index::upper_bound(uint64_t key) const { return iterator(this, false, bound::excluding(key), {}, inside::few_ahead); }

// A bound of a range of keys that are byte strings. `byte_bound{}`, or `{}` in its place, is no bound.
struct byte_bound {
  uint8_t kind = TREE_INDEX_UNBOUNDED;
  std::string key;
  static byte_bound including(std::string_view key) { return {TREE_INDEX_INCLUDED, std::string(key)}; }
  static byte_bound excluding(std::string_view key) { return {TREE_INDEX_EXCLUDED, std::string(key)}; }
  // The end of a prefix: it excludes the least key that is larger than all that begin with the prefix. If there is none, as
  // of an empty prefix, it is no bound.
  static byte_bound end_of(std::string_view prefix);
};

namespace inside {

inline const uint8_t *bytes_of(std::string_view key) {
  static const uint8_t none = 0;
  return key.empty() ? &none : reinterpret_cast<const uint8_t *>(key.data());
}

} // namespace inside

inline byte_bound byte_bound::end_of(std::string_view prefix) {
  byte_bound end{TREE_INDEX_EXCLUDED, std::string(prefix)};
  std::size_t length = 0;
  if (!inside::done(tree_index_bytes_prefix_end(inside::bytes_of(prefix), prefix.size(), reinterpret_cast<uint8_t *>(&end.key[0]), end.key.size(), &length))) return {};
  end.key.resize(length);
  return end;
}

// An ordered index of byte strings by numbers, in the order of memcmp, a prefix first. It copies its keys.
class byte_index {
  template <class Index> friend class frozen;
  inside::owner owner_;

  static const uint8_t *bytes_of(std::string_view key) { return inside::bytes_of(key); }

public:
  using key_type = std::string;
  using mapped_type = uint64_t;
  using value_type = std::pair<std::string, uint64_t>;
  using size_type = std::size_t;

  class iterator;
  class range_type;
  using const_iterator = iterator;

  // Allocates one block.
  byte_index() { inside::done(tree_index_bytes_new(owner_.get())); }
  template <class It> byte_index(It first, It last) : byte_index() {
    for (; first != last; ++first) upsert(first->first, first->second);
  }
  byte_index(byte_index &&) noexcept = default;
  byte_index &operator=(byte_index &&) noexcept = default;
  byte_index copy() const {
    byte_index made{closed{}};
    inside::done(tree_index_copy(owner_.get(), made.owner_.get()));
    return made;
  }
  void swap(byte_index &other) noexcept { owner_.swap(other.owner_); }
  friend void swap(byte_index &a, byte_index &b) noexcept { a.swap(b); }

  bool insert(std::string_view key, uint64_t value) { return inside::done(tree_index_bytes_insert(owner_.get(), bytes_of(key), key.size(), value)); }
  void upsert(std::string_view key, uint64_t value) { inside::done(tree_index_bytes_upsert(owner_.get(), bytes_of(key), key.size(), value)); }
  // Removals copy the key, or the keys of the bounds, meanwhile.
  size_type erase(std::string_view key) { return inside::done(tree_index_bytes_remove(owner_.get(), bytes_of(key), key.size())); }
  std::optional<uint64_t> take(std::string_view key) {
    uint64_t value;
    return inside::done(tree_index_bytes_take(owner_.get(), bytes_of(key), key.size(), &value)) ? std::optional(value) : std::nullopt;
  }
  void erase_range(const byte_bound &low, const byte_bound &high) {
    inside::done(tree_index_bytes_remove_range(owner_.get(), low.kind, bytes_of(low.key), low.key.size(), high.kind, bytes_of(high.key), high.key.size()));
  }
  // Removes the keys that begin with a prefix. Returns how many there were.
  size_type erase_prefix(std::string_view prefix) {
    size_type count = 0;
    inside::done(tree_index_bytes_remove_prefix(owner_.get(), bytes_of(prefix), prefix.size(), &count));
    return count;
  }
  void clear() noexcept { tree_index_clear(owner_.get()); }
  std::optional<value_type> pop_first() {
    return pair_by([this](uint8_t *key, size_t length, tree_index_entry *entry) { return tree_index_bytes_pop_first(owner_.get(), key, length, entry); });
  }
  std::optional<value_type> pop_last() {
    return pair_by([this](uint8_t *key, size_t length, tree_index_entry *entry) { return tree_index_bytes_pop_last(owner_.get(), key, length, entry); });
  }

  // Look-ups by a key copy nothing.
  std::optional<uint64_t> find(std::string_view key) const {
    uint64_t value;
    return tree_index_bytes_peek(owner_.get(), bytes_of(key), key.size(), &value) == TREE_INDEX_YES ? std::optional(value) : std::nullopt;
  }
  uint64_t at(std::string_view key) const { return inside::value_at(find(key)); }
  bool contains(std::string_view key) const { return tree_index_bytes_contains(owner_.get(), bytes_of(key), key.size()) == TREE_INDEX_YES; }
  size_type size() const noexcept { return tree_index_len(owner_.get()); }
  bool empty() const noexcept { return size() == 0; }
  size_type depth() const noexcept { return tree_index_depth(owner_.get()); }
  std::optional<value_type> first() const {
    return pair_by([this](uint8_t *key, size_t length, tree_index_entry *entry) { return tree_index_bytes_first(owner_.get(), key, length, entry); });
  }
  std::optional<value_type> last() const {
    return pair_by([this](uint8_t *key, size_t length, tree_index_entry *entry) { return tree_index_bytes_last(owner_.get(), key, length, entry); });
  }
  std::optional<value_type> at_or_below(std::string_view sought) const {
    return pair_by([&](uint8_t *key, size_t length, tree_index_entry *entry) { return tree_index_bytes_at_or_below(owner_.get(), bytes_of(sought), sought.size(), key, length, entry); });
  }
  std::optional<value_type> at_or_above(std::string_view sought) const {
    return pair_by([&](uint8_t *key, size_t length, tree_index_entry *entry) { return tree_index_bytes_at_or_above(owner_.get(), bytes_of(sought), sought.size(), key, length, entry); });
  }

  // The pairs in order. After a write begin a new walk: an old one may still give up to 64 pairs as they were before.
  iterator begin() const;
  iterator end() const;
  range_type range(byte_bound low = {}, byte_bound high = {}) const;
  range_type reversed(byte_bound low = {}, byte_bound high = {}) const;
  // The pairs whose keys begin with a prefix. In descending order: reversed(byte_bound::including(prefix), byte_bound::end_of(prefix)).
  range_type prefix(std::string_view prefix) const;
  // A walk from the first key that isn't smaller than this one, or from the first that is larger.
  iterator lower_bound(std::string_view key) const;
  iterator upper_bound(std::string_view key) const;

private:
  struct closed {};
  explicit byte_index(closed) {}

  template <class Call> static std::optional<value_type> pair_by(Call call) {
    std::string key(64, 0);
    tree_index_entry entry;
    for (;;) {
      int answer = call(reinterpret_cast<uint8_t *>(&key[0]), key.size(), &entry);
      if (answer == TREE_INDEX_NO_ROOM) {
        key.resize(entry.length);
        continue;
      }
      if (!inside::done(answer)) return std::nullopt;
      key.resize(entry.length);
      return value_type(std::move(key), entry.value);
    }
  }
};

// A walk over an index. A copy goes on by itself, and shares what was read ahead. If a step cannot allocate, the walk stays.
class byte_index::iterator {
  // What was read ahead: the bytes of one key after another, and the length and the value of each.
  struct page {
    std::vector<uint8_t> keys;
    std::array<tree_index_entry, inside::most_keys_ahead> entries;
    std::size_t count = 0;
  };

  const byte_index *of_ = nullptr;
  bool descends_ = false;
  byte_bound low_, high_;
  std::shared_ptr<const page> page_;
  // The entry, where its key begins, and how many were asked for.
  std::size_t at_ = 0, from_ = 0, asked_ = 0;

  const tree_index_entry &entry() const { return page_->entries[at_]; }

  void read(std::size_t most) {
    auto made = std::make_shared<page>();
    made->keys.resize(32 * most);
    auto call = descends_ ? tree_index_bytes_fill_back : tree_index_bytes_fill;
    for (;;) {
      int answer = call(of_->owner_.get(), low_.kind, bytes_of(low_.key), low_.key.size(), high_.kind, bytes_of(high_.key), high_.key.size(), made->keys.data(), made->keys.size(), made->entries.data(), most, &made->count);
      if (inside::done(answer) || answer != TREE_INDEX_NO_ROOM) break;
      made->keys.resize(made->count);
    }
    if (made->count == 0) {
      of_ = nullptr;
      page_.reset();
      return;
    }
    std::size_t last = made->count - 1, before = 0;
    for (std::size_t n = 0; n < last; n++) before += made->entries[n].length;
    std::string_view bytes(reinterpret_cast<const char *>(made->keys.data()), made->keys.size());
    (descends_ ? high_ : low_) = byte_bound::excluding(bytes.substr(before, made->entries[last].length));
    page_ = std::move(made);
    at_ = from_ = 0;
    asked_ = most;
  }

public:
  using iterator_concept = std::forward_iterator_tag;
  using iterator_category = std::input_iterator_tag;
  using value_type = byte_index::value_type;
  using difference_type = std::ptrdiff_t;
  using pointer = inside::arrow<value_type>;
  using reference = value_type;

  iterator() = default;
  iterator(const byte_index *of, bool descends, byte_bound low, byte_bound high, std::size_t first = inside::first_ahead) : of_(of), descends_(descends), low_(std::move(low)), high_(std::move(high)) { read(first); }

  // The key and the value without a copy of the key. The view is of what was read ahead: it ends with the next step of the
  // walk and of its copies.
  std::string_view key() const noexcept { return {reinterpret_cast<const char *>(page_->keys.data()) + from_, entry().length}; }
  uint64_t value() const noexcept { return entry().value; }
  reference operator*() const { return {std::string(key()), entry().value}; }
  pointer operator->() const { return {**this}; }
  iterator &operator++() {
    if (at_ + 1 == page_->count) {
      read(inside::more_than(asked_, inside::most_keys_ahead));
    } else {
      from_ += entry().length;
      at_++;
    }
    return *this;
  }
  iterator operator++(int) {
    iterator was = *this;
    ++*this;
    return was;
  }
  friend bool operator==(const iterator &a, const iterator &b) { return a.of_ == b.of_ && (!a.of_ || a.key() == b.key()); }
  friend bool operator!=(const iterator &a, const iterator &b) { return !(a == b); }
};

class byte_index::range_type {
  const byte_index *of_;
  bool descends_;
  byte_bound low_, high_;

public:
  range_type(const byte_index *of, bool descends, byte_bound low, byte_bound high) : of_(of), descends_(descends), low_(std::move(low)), high_(std::move(high)) {}
  iterator begin() const { return iterator(of_, descends_, low_, high_); }
  iterator end() const { return iterator(); }
};

inline byte_index::iterator byte_index::begin() const { return iterator(this, false, {}, {}); }
inline byte_index::iterator byte_index::end() const { return iterator(); }
inline byte_index::range_type byte_index::range(byte_bound low, byte_bound high) const { return range_type(this, false, std::move(low), std::move(high)); }
inline byte_index::range_type byte_index::reversed(byte_bound low, byte_bound high) const { return range_type(this, true, std::move(low), std::move(high)); }
inline byte_index::range_type byte_index::prefix(std::string_view prefix) const { return range(byte_bound::including(prefix), byte_bound::end_of(prefix)); }
inline byte_index::iterator byte_index::lower_bound(std::string_view key) const { return iterator(this, false, byte_bound::including(key), {}, inside::few_ahead); }
inline byte_index::iterator byte_index::upper_bound(std::string_view key) const { return iterator(this, false, byte_bound::excluding(key), {}, inside::few_ahead); }

// An index that can't be changed, and that threads read at once without a lock: each has a copy of this object for itself. A
// copy shares the pairs, and allocates one block. `*` and `->` lead to the index.
template <class Index> class frozen {
  Index index_;

  static Index freeze(Index &&index) {
    inside::done(tree_index_freeze(index.owner_.get()));
    return std::move(index);
  }

public:
  // Takes an index over. If it cannot allocate, it throws, and the index is as it was.
  explicit frozen(Index &&index) : index_(freeze(std::move(index))) {}
  frozen(const frozen &other) : index_(typename Index::closed{}) { inside::done(tree_index_share(other.index_.owner_.get(), index_.owner_.get())); }
  frozen(frozen &&) noexcept = default;
  frozen &operator=(frozen other) noexcept {
    index_.swap(other.index_);
    return *this;
  }

  const Index &operator*() const noexcept { return index_; }
  const Index *operator->() const noexcept { return &index_; }

  // The index, to be changed again, or nothing if another object shares it: `std::move(it).thaw()`. Copies no pair. For a
  // copy of the pairs, call `copy()` of the index.
  std::optional<Index> thaw() && {
    if (!inside::done(tree_index_thaw(index_.owner_.get()))) return std::nullopt;
    return std::move(index_);
  }
};

} // namespace tree_index

#ifdef __cpp_lib_ranges
// A range of an index is a view, and its walks outlive it, since they read the index.
template <> inline constexpr bool std::ranges::enable_view<tree_index::index::range_type> = true;
template <> inline constexpr bool std::ranges::enable_borrowed_range<tree_index::index::range_type> = true;
template <> inline constexpr bool std::ranges::enable_borrowed_range<tree_index::byte_index::range_type> = true;
#endif
