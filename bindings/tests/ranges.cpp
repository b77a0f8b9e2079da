// Walks as ranges of C++20: the concepts that they meet, and what the algorithms and views make of them, beside std::map.
#include "tree_index.hpp"
#include <cstdio>
#include <cstdlib>
#include <map>
#include <ranges>
#include <string>
#include <vector>

#define WANT(what)                                                  \
  do {                                                              \
    if (!(what)) {                                                  \
      std::printf("%s:%d: not so: %s\n", __FILE__, __LINE__, #what); \
      std::exit(1);                                                 \
    }                                                               \
  } while (0)

using tree_index::byte_index;

static_assert(std::forward_iterator<tree_index::index::iterator> && std::forward_iterator<byte_index::iterator>);
static_assert(std::ranges::forward_range<const tree_index::index> && std::ranges::forward_range<const byte_index>);
static_assert(std::ranges::common_range<const tree_index::index> && std::ranges::common_range<const byte_index>);
static_assert(std::ranges::forward_range<tree_index::index::range_type> && std::ranges::forward_range<byte_index::range_type>);
static_assert(std::ranges::view<tree_index::index::range_type> && std::ranges::viewable_range<byte_index::range_type>);
static_assert(std::ranges::borrowed_range<tree_index::index::range_type> && std::ranges::borrowed_range<byte_index::range_type>);

// The pairs of a range, in a vector.
template <class Pair, class Range> static std::vector<Pair> gathered(Range &&range) {
  std::vector<Pair> pairs;
  for (auto &&[key, value] : range) pairs.emplace_back(key, value);
  return pairs;
}

// A copy of a walk gives the same pairs again, after the walk has gone on.
template <class Index> static void passes_twice(const Index &index) {
  auto walk = std::ranges::next(index.begin(), index.size() / 3), copy = walk;
  std::vector<typename Index::value_type> first, second;
  for (; walk != index.end(); ++walk) first.push_back(*walk);
  for (; copy != index.end(); copy++) second.push_back(*copy);
  WANT(first == second && first.size() == index.size() - index.size() / 3);
}

template <class Index, class Key> static void pairs_of(int count, Key key_of) {
  Index index;
  std::map<typename Index::key_type, uint64_t> map;
  for (int n = 0; n < count; n++) {
    auto key = key_of(n * 7919 % count);
    index.insert(key, n * n % 1009);
    map.emplace(key, n * n % 1009);
  }
  passes_twice(index);
  WANT(std::ranges::equal(index | std::views::keys, map | std::views::keys));
  WANT(std::ranges::equal(index | std::views::values, map | std::views::values));
  WANT(std::ranges::equal(index.reversed() | std::views::keys, map | std::views::reverse | std::views::keys));
  WANT(std::ranges::distance(index) == count && std::ranges::is_sorted(index | std::views::keys));

  auto most = std::ranges::max_element(index, {}, &Index::value_type::second);
  auto of_map = std::ranges::max_element(map, {}, [](auto &pair) { return pair.second; });
  WANT(most->first == of_map->first && index.at(most->first) == of_map->second);
  WANT(std::ranges::find(index, key_of(count / 2), &Index::value_type::first) == index.lower_bound(key_of(count / 2)));

  auto is_even = [](const auto &pair) { return pair.second % 2 == 0; };
  using pair = typename Index::value_type;
  auto told = gathered<pair>(index | std::views::filter(is_even) | std::views::drop(3) | std::views::take(100));
  auto want = gathered<pair>(map | std::views::filter(is_even) | std::views::drop(3) | std::views::take(100));
  WANT(told == want && told.size() == 100);
}

int main() {
  tree_index::index squares;
  for (uint64_t n = 0; n < 1000; n++) squares.insert(n * n, n);
  // The walk outlives the range that it was found in, and a view outlives the expression.
  auto over = std::ranges::find_if(squares.range(100, 100'000), [](auto pair) { return pair.second > 200; });
  WANT(over->first == 201 * 201);
  uint64_t sum = 0;
  for (auto n : squares.range(100, 200) | std::views::values) sum += n;
  WANT(sum == 10 + 11 + 12 + 13 + 14);

  pairs_of<tree_index::index>(1000, [](int n) { return uint64_t(n) * 3; });
  pairs_of<byte_index>(1000, [](int n) { return std::string(n % 50, 'k') + std::to_string(10'000 + n); });
  std::printf("C++: walks are forward ranges, and algorithms and views give of them what they give of std::map\n");
  return 0;
}
