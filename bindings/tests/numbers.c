/* Random calls on an index of numbers, each beside a sorted array. */
#include "model.h"

static model m;
static tree_index_handle index_ = TREE_INDEX_CLOSED;

static void same_pair(int answer, const tree_index_pair *pair, size_t at) {
  WANT(answer == (at < m.count ? TREE_INDEX_YES : TREE_INDEX_NO));
  if (at >= m.count) return;
  key_of_bytes key = of_number(pair->key);
  WANT(compare(&key, &m.keys[at]) == 0 && pair->value == m.values[at]);
}

/* Keys and values go to an array each, and the places that are left stay. */
static void fills_arrays(uint8_t low_kind, uint64_t low, uint8_t high_kind, uint64_t high, size_t from, size_t to) {
  for (int back = 0; back < 2; back++) {
    uint64_t keys[50], values[50];
    for (size_t at = 0; at < 50; at++) keys[at] = values[at] = 77;
    size_t places = below(50), others = below(2) ? places : below(50), want = to > from ? to - from : 0;
    if (want > places) want = places;
    if (want > others) want = others;
    WANT((back ? tree_index_fill_arrays_back : tree_index_fill_arrays)(&index_, low_kind, low, high_kind, high, keys, places, values, others) == want);
    for (size_t at = 0; at < want; at++) {
      tree_index_pair pair = {keys[at], values[at]};
      same_pair(TREE_INDEX_YES, &pair, back ? to - 1 - at : from + at);
    }
    for (size_t at = want; at < 50; at++) WANT(keys[at] == 77 && values[at] == 77);
  }
}

static void fills(uint8_t low_kind, uint64_t low, uint8_t high_kind, uint64_t high) {
  tree_index_pair places[100] = {{0, 0}};
  key_of_bytes low_key = of_number(low), high_key = of_number(high);
  size_t from = range_begin(&m, low_kind, &low_key), to = range_end(&m, high_kind, &high_key), room = below(100), want = to > from ? to - from : 0;
  if (want > room) want = room;
  WANT(tree_index_fill(&index_, low_kind, low, high_kind, high, places, room) == want);
  for (size_t at = 0; at < want; at++) same_pair(TREE_INDEX_YES, &places[at], from + at);
  WANT(places[want].key == 0);
  WANT(tree_index_fill_back(&index_, low_kind, low, high_kind, high, places, room) == want);
  for (size_t at = 0; at < want; at++) same_pair(TREE_INDEX_YES, &places[at], to - 1 - at);
  fills_arrays(low_kind, low, high_kind, high, from, to);
}

/* Look-ups of many keys, some of them the same. */
static void many(uint64_t keys) {
  uint64_t numbers[40], values[40];
  uint8_t found[40];
  size_t count = below(40), places = below(2) ? 40 : below(40), marks = below(2) ? 40 : below(40);
  for (size_t at = 0; at < 40; at++) {
    numbers[at] = below(keys);
    values[at] = found[at] = 77;
  }
  int answer = tree_index_peek_many(&index_, numbers, count, values, places, found, marks);
  size_t done = count <= places && count <= marks ? count : 0;
  WANT(answer == (done == count ? TREE_INDEX_YES : TREE_INDEX_NO_ROOM));
  for (size_t n = 0; n < done; n++) {
    key_of_bytes key = of_number(numbers[n]);
    size_t at = place(&m, &key);
    int is = is_at(&m, at, &key);
    WANT(found[n] == (is ? TREE_INDEX_YES : TREE_INDEX_NO) && values[n] == (is ? m.values[at] : 0));
  }
  for (size_t n = done; n < 40; n++) WANT(values[n] == 77 && found[n] == 77);
}

static void call(uint64_t keys) {
  uint64_t number = below(keys), value = draw() | 1, told = 0;
  key_of_bytes key = of_number(number);
  size_t at = place(&m, &key);
  int is = is_at(&m, at, &key);
  tree_index_pair pair = {0, 0};
  switch (below(18)) {
  case 0: case 1: case 2: case 3:
    WANT(tree_index_insert(&index_, number, value) == (is ? TREE_INDEX_NO : TREE_INDEX_YES));
    if (!is) put(&m, &key, value);
    break;
  case 4:
    WANT(tree_index_upsert(&index_, number, value) == TREE_INDEX_YES);
    put(&m, &key, value);
    break;
  case 16:
    told = value;
    WANT(tree_index_replace(&index_, number, &told) == (is ? TREE_INDEX_YES : TREE_INDEX_NO) && told == (is ? m.values[at] : value));
    if (is) put(&m, &key, value);
    break;
  case 5:
    WANT(tree_index_remove(&index_, number) == (is ? TREE_INDEX_YES : TREE_INDEX_NO));
    if (is) cut(&m, at, at + 1);
    break;
  case 6:
    WANT(tree_index_take(&index_, number, &told) == (is ? TREE_INDEX_YES : TREE_INDEX_NO) && told == (is ? m.values[at] : 0));
    if (is) cut(&m, at, at + 1);
    break;
  case 7:
    WANT(tree_index_peek(&index_, number, &told) == (is ? TREE_INDEX_YES : TREE_INDEX_NO) && told == (is ? m.values[at] : 0));
    WANT(tree_index_contains(&index_, number) == (is ? TREE_INDEX_YES : TREE_INDEX_NO));
    break;
  case 8:
    same_pair(tree_index_first(&index_, &pair), &pair, m.count ? 0 : 1);
    same_pair(tree_index_last(&index_, &pair), &pair, m.count ? m.count - 1 : 0);
    break;
  case 9:
    same_pair(tree_index_at_or_above(&index_, number, &pair), &pair, at);
    same_pair(tree_index_at_or_below(&index_, number, &pair), &pair, is ? at : at ? at - 1 : m.count);
    break;
  case 10:
    /* Sparse indexes grow. */
    if (keys > 4000 && below(8)) break;
    same_pair(tree_index_pop_first(&index_, &pair), &pair, 0);
    if (m.count) cut(&m, 0, 1);
    break;
  case 11:
    if (keys > 4000 && below(8)) break;
    same_pair(tree_index_pop_last(&index_, &pair), &pair, m.count ? m.count - 1 : 0);
    if (m.count) cut(&m, m.count - 1, m.count);
    break;
  case 12:
    WANT(tree_index_len(&index_) == m.count && (tree_index_depth(&index_) > 0 || m.count == 0) && tree_index_spare(&index_) <= 15);
    break;
  case 15:
    many(keys);
    break;
  case 13: case 14:
    fills((uint8_t)below(3), number, (uint8_t)below(3), number + below(keys / 4 + 1));
    break;
  default:
    if (below(20) == 0) {
      uint8_t low_kind = (uint8_t)below(3), high_kind = (uint8_t)below(3);
      uint64_t high = number + below(keys / 8 + 1);
      key_of_bytes high_key = of_number(high);
      if ((low_kind == TREE_INDEX_UNBOUNDED || high_kind == TREE_INDEX_UNBOUNDED) && below(keys > 4000 ? 200 : 10)) break;
      size_t from = range_begin(&m, low_kind, &key), to = range_end(&m, high_kind, &high_key);
      WANT(tree_index_remove_range(&index_, low_kind, number, high_kind, high) == TREE_INDEX_YES);
      cut(&m, from, to);
    } else if (below(2000) == 0) {
      WANT(tree_index_clear(&index_) == TREE_INDEX_YES);
      m.count = 0;
    }
  }
}

static void same_copy(void) {
  tree_index_handle copy = TREE_INDEX_CLOSED;
  tree_index_pair pair;
  WANT(tree_index_copy(&index_, &copy) == TREE_INDEX_YES && tree_index_copy(&index_, &copy) == TREE_INDEX_MISFIT);
  WANT(tree_index_len(&copy) == m.count);
  for (size_t at = 0; at < m.count; at++) same_pair(tree_index_pop_first(&copy, &pair), &pair, at);
  WANT(tree_index_len(&copy) == 0 && tree_index_len(&index_) == m.count);
  tree_index_free(&copy);
}

/* An index of sorted pairs has them all; others are refused. */
static void sorted(void) {
  tree_index_pair *pairs = calloc(m.count + 1, sizeof *pairs);
  tree_index_handle made = TREE_INDEX_CLOSED;
  WANT(pairs != NULL);
  size_t count = tree_index_fill(&index_, TREE_INDEX_UNBOUNDED, 0, TREE_INDEX_UNBOUNDED, 0, pairs, m.count);
  WANT(count == m.count && tree_index_from_sorted(&made, pairs, count) == TREE_INDEX_YES && tree_index_len(&made) == count);
  WANT(tree_index_from_sorted(&made, pairs, count) == TREE_INDEX_MISFIT);
  tree_index_pair pair = {0, 0};
  same_pair(tree_index_last(&made, &pair), &pair, m.count ? m.count - 1 : 0);
  for (size_t at = 0; at < count; at++) same_pair(tree_index_pop_first(&made, &pair), &pair, at);
  tree_index_free(&made);
  if (count > 1) {
    pairs[count / 2].key = pairs[count / 2 - 1].key;
    WANT(tree_index_from_sorted(&made, pairs, count) == TREE_INDEX_NO && tree_index_len(&made) == 0 && !made.is_open);
  }
  free(pairs);
}

/* A handle that doesn't fit is answered, and nothing else happens. */
static void misfits(void) {
  tree_index_handle closed = TREE_INDEX_CLOSED;
  uint64_t value = 5;
  uint8_t key[1] = {0};
  WANT(tree_index_insert(&closed, 1, 2) == TREE_INDEX_MISFIT && tree_index_peek(&closed, 1, &value) == TREE_INDEX_MISFIT && value == 5);
  WANT(tree_index_len(&closed) == 0 && tree_index_clear(&closed) == TREE_INDEX_MISFIT);
  uint64_t number = 5;
  WANT(tree_index_fill_arrays(&closed, 0, 0, 0, 0, &number, 1, &value, 1) == 0 && number == 5 && value == 5);
  WANT(tree_index_replace(&closed, 1, &value) == TREE_INDEX_MISFIT && value == 5);
  tree_index_free(&closed);
  WANT(tree_index_new(&closed) == TREE_INDEX_YES && tree_index_new(&closed) == TREE_INDEX_MISFIT && tree_index_bytes_new(&closed) == TREE_INDEX_MISFIT);
  WANT(tree_index_bytes_insert(&closed, key, 1, 2) == TREE_INDEX_MISFIT && tree_index_len(&closed) == 0);
  tree_index_free(&closed);
  tree_index_free(&closed);
  WANT(tree_index_remove(&closed, 1) == TREE_INDEX_MISFIT);
}

int main(int count, char **words) {
  uint64_t calls = count > 1 ? strtoull(words[1], NULL, 10) : 100000;
  misfits();
  for (uint64_t keys = 40; keys <= 400000; keys *= 100) {
    WANT(tree_index_new(&index_) == TREE_INDEX_YES);
    m.count = 0;
    for (uint64_t at = 0; at < calls; at++) call(keys);
    same_copy();
    sorted();
    fills(TREE_INDEX_UNBOUNDED, 0, TREE_INDEX_UNBOUNDED, 0);
    printf("C, numbers below %llu: %llu calls, all answers as a sorted array's, %zu pairs at the end\n", (unsigned long long)keys, (unsigned long long)calls, m.count);
    tree_index_free(&index_);
  }
  return 0;
}
