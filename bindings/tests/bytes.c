/* Random calls on an index of byte strings, each beside a sorted array. */
#include "model.h"

static model m;
static tree_index_handle index_ = TREE_INDEX_CLOSED;

/* A key of few different bytes, 255 among them, so that prefixes and equal keys are met. */
static key_of_bytes some_key(size_t longest, uint64_t letters) {
  key_of_bytes key = {below(longest + 1), {0}};
  for (size_t at = 0; at < key.length; at++) key.bytes[at] = (uint8_t)(below(letters) * 255 / (letters - 1));
  return key;
}

static void same_key(const uint8_t *bytes, size_t length, uint64_t value, size_t at) {
  WANT(at < m.count && length == m.keys[at].length && memcmp(bytes, m.keys[at].bytes, length) == 0 && value == m.values[at]);
}

typedef int (*by_place)(tree_index_handle *, uint8_t *, size_t, tree_index_entry *);
typedef int (*by_key)(tree_index_handle *, const uint8_t *, size_t, uint8_t *, size_t, tree_index_entry *);

static void same_entry(by_place end, by_key near, const key_of_bytes *sought, size_t at) {
  uint8_t bytes[31], places = (uint8_t)below(31);
  tree_index_entry entry = {77, 0};
  int answer = end ? end(&index_, bytes, places, &entry) : near(&index_, sought->bytes, sought->length, bytes, places, &entry);
  if (at >= m.count) {
    WANT(answer == TREE_INDEX_NO && entry.length == 77);
    return;
  }
  WANT(entry.length == m.keys[at].length && entry.value == m.values[at]);
  WANT(answer == (entry.length <= places ? TREE_INDEX_YES : TREE_INDEX_NO_ROOM));
  if (answer == TREE_INDEX_YES) same_key(bytes, entry.length, entry.value, at);
}

static void fills(uint8_t low_kind, const key_of_bytes *low, uint8_t high_kind, const key_of_bytes *high, int descends) {
  uint8_t keys[400];
  tree_index_entry entries[50];
  size_t from = range_begin(&m, low_kind, low), to = range_end(&m, high_kind, high), room = below(400), most = below(50), count = 999, used = 0, want = 0;
  int answer = (descends ? tree_index_bytes_fill_back : tree_index_bytes_fill)(&index_, low_kind, low->bytes, low->length, high_kind, high->bytes, high->length, keys, room, entries, most, &count);
  while (want < most && from + want < to) {
    size_t at = descends ? to - 1 - want : from + want;
    if (used + m.keys[at].length > room) break;
    used += m.keys[at].length;
    want++;
  }
  if (want == 0 && most > 0 && from < to) {
    WANT(answer == TREE_INDEX_NO_ROOM && count == m.keys[descends ? to - 1 : from].length);
    return;
  }
  WANT(answer == TREE_INDEX_YES && count == want);
  used = 0;
  for (size_t at = 0; at < want; at++) {
    same_key(keys + used, entries[at].length, entries[at].value, descends ? to - 1 - at : from + at);
    used += entries[at].length;
  }
}

static int begins_with(const key_of_bytes *key, const key_of_bytes *prefix) {
  return key->length >= prefix->length && memcmp(key->bytes, prefix->bytes, prefix->length) == 0;
}

/* The keys that begin with a prefix are those from it up to its end, and are removed with it. */
static void prefixed(const key_of_bytes *prefix, int removes) {
  size_t from = place(&m, prefix), to = from, count = 999;
  while (to < m.count && begins_with(&m.keys[to], prefix)) to++;
  key_of_bytes end = {99, {0}}, none = {99, {0}};
  int answer = tree_index_bytes_prefix_end(prefix->bytes, prefix->length, end.bytes, 31, &end.length);
  if (answer == TREE_INDEX_NO) {
    WANT(to == m.count && end.length == 99);
    for (size_t at = 0; at < prefix->length; at++) WANT(prefix->bytes[at] == 255);
  } else {
    WANT(answer == TREE_INDEX_YES && end.length <= prefix->length && place(&m, &end) == to);
    WANT(compare(prefix, &end) < 0 && !begins_with(&end, prefix));
    WANT(tree_index_bytes_prefix_end(prefix->bytes, prefix->length, none.bytes, end.length - 1, &none.length) == TREE_INDEX_NO_ROOM);
    WANT(none.length == end.length && none.bytes[0] == 0);
  }
  if (!removes) return;
  WANT(tree_index_bytes_remove_prefix(&index_, prefix->bytes, prefix->length, &count) == TREE_INDEX_YES && count == to - from);
  cut(&m, from, to);
}

static void call(size_t longest, uint64_t letters) {
  key_of_bytes key = some_key(longest, letters), other = some_key(longest, letters);
  uint64_t value = draw() | 1, told = 0;
  size_t at = place(&m, &key);
  int is = is_at(&m, at, &key);
  int yes_if = is ? TREE_INDEX_YES : TREE_INDEX_NO;
  switch (below(14)) {
  case 0: case 1: case 2:
    WANT(tree_index_bytes_insert(&index_, key.bytes, key.length, value) == (is ? TREE_INDEX_NO : TREE_INDEX_YES));
    if (!is) put(&m, &key, value);
    break;
  case 3:
    WANT(tree_index_bytes_upsert(&index_, key.bytes, key.length, value) == TREE_INDEX_YES);
    put(&m, &key, value);
    break;
  case 4:
    WANT(tree_index_bytes_remove(&index_, key.bytes, key.length) == yes_if);
    if (is) cut(&m, at, at + 1);
    break;
  case 5:
    WANT(tree_index_bytes_take(&index_, key.bytes, key.length, &told) == yes_if && told == (is ? m.values[at] : 0));
    if (is) cut(&m, at, at + 1);
    break;
  case 6:
    WANT(tree_index_bytes_peek(&index_, key.bytes, key.length, &told) == yes_if && told == (is ? m.values[at] : 0));
    WANT(tree_index_bytes_contains(&index_, key.bytes, key.length) == yes_if);
    break;
  case 7:
    same_entry(tree_index_bytes_first, NULL, NULL, 0);
    same_entry(tree_index_bytes_last, NULL, NULL, m.count ? m.count - 1 : 0);
    break;
  case 8:
    same_entry(NULL, tree_index_bytes_at_or_above, &key, at);
    same_entry(NULL, tree_index_bytes_at_or_below, &key, is ? at : at ? at - 1 : m.count);
    break;
  case 9: {
    int last = (int)below(2);
    uint8_t bytes[31], places = (uint8_t)below(31);
    tree_index_entry entry = {77, 0};
    size_t which = last ? m.count - 1 : 0;
    int answer = (last ? tree_index_bytes_pop_last : tree_index_bytes_pop_first)(&index_, bytes, places, &entry);
    if (m.count == 0) {
      WANT(answer == TREE_INDEX_NO && entry.length == 77);
      break;
    }
    WANT(entry.length == m.keys[which].length && answer == (entry.length <= places ? TREE_INDEX_YES : TREE_INDEX_NO_ROOM));
    if (answer == TREE_INDEX_YES) {
      same_key(bytes, entry.length, entry.value, which);
      cut(&m, which, which + 1);
    }
    break;
  }
  case 10: case 11:
    fills((uint8_t)below(3), &key, (uint8_t)below(3), &other, (int)below(2));
    break;
  case 12:
    prefixed(&key, below(40) == 0);
    break;
  default:
    if (below(40) == 0) {
      uint8_t low_kind = (uint8_t)(1 + below(2)), high_kind = (uint8_t)(1 + below(2));
      size_t from = range_begin(&m, low_kind, &key), to = range_end(&m, high_kind, &other);
      WANT(tree_index_bytes_remove_range(&index_, low_kind, key.bytes, key.length, high_kind, other.bytes, other.length) == TREE_INDEX_YES);
      cut(&m, from, to);
    }
    WANT(tree_index_len(&index_) == m.count);
  }
}

/* An index of sorted pairs has them all; others are refused. */
static void sorted(void) {
  tree_index_entry *entries = calloc(m.count + 1, sizeof *entries);
  uint8_t *keys = calloc(m.count + 1, 31);
  tree_index_handle made = TREE_INDEX_CLOSED;
  WANT(entries != NULL && keys != NULL);
  size_t size = 0;
  for (size_t at = 0; at < m.count; at++) {
    entries[at] = (tree_index_entry){m.keys[at].length, m.values[at]};
    memcpy(keys + size, m.keys[at].bytes, m.keys[at].length);
    size += m.keys[at].length;
  }
  WANT(tree_index_bytes_from_sorted(&made, keys, size, entries, m.count) == TREE_INDEX_YES && tree_index_len(&made) == m.count);
  WANT(tree_index_bytes_from_sorted(&made, keys, size, entries, m.count) == TREE_INDEX_MISFIT);
  for (size_t at = 0; at < m.count; at++) {
    uint8_t bytes[31];
    tree_index_entry entry = {0, 0};
    WANT(tree_index_bytes_pop_first(&made, bytes, 31, &entry) == TREE_INDEX_YES);
    same_key(bytes, entry.length, entry.value, at);
  }
  tree_index_free(&made);
  if (size > 0) {
    WANT(tree_index_bytes_from_sorted(&made, keys, size - 1, entries, m.count) == TREE_INDEX_NO_ROOM && !made.is_open);
    entries[m.count] = (tree_index_entry){0, 1};
    WANT(tree_index_bytes_from_sorted(&made, keys, size, entries, m.count + 1) == TREE_INDEX_NO && !made.is_open);
  }
  free(entries);
  free(keys);
}

int main(int count, char **words) {
  uint64_t calls = count > 1 ? strtoull(words[1], NULL, 10) : 100000;
  tree_index_handle copy = TREE_INDEX_CLOSED;
  for (size_t longest = 3; longest < 31; longest += 9) {
    uint64_t letters = longest == 3 ? 3 : 30;
    WANT(tree_index_bytes_new(&index_) == TREE_INDEX_YES);
    m.count = 0;
    for (uint64_t at = 0; at < calls; at++) call(longest, letters);
    WANT(tree_index_copy(&index_, &copy) == TREE_INDEX_YES && tree_index_len(&copy) == m.count);
    for (size_t at = 0; at < m.count; at++) WANT(tree_index_bytes_contains(&copy, m.keys[at].bytes, m.keys[at].length) == TREE_INDEX_YES);
    tree_index_free(&copy);
    sorted();
    printf("C, keys of at most %zu bytes: %llu calls, all answers as a sorted array's, %zu pairs at the end\n", longest, (unsigned long long)calls, m.count);
    tree_index_free(&index_);
  }
  return 0;
}
