/* The examples of the site's tasks. Those in C++, Rust and Python beside them write the same lines. */
#include <inttypes.h>
#include <pthread.h>
#include <stdio.h>
#include <string.h>
#include <tree_index.h>

/* Opens a handle on the quantity at each price. Returns whether there was memory. */
static int book_of(tree_index_handle *book, const tree_index_pair *orders, size_t count) {
  if (tree_index_new(book) != TREE_INDEX_YES) return 0;
  for (size_t at = 0; at < count; at++) {
    if (tree_index_upsert(book, orders[at].key, orders[at].value) != TREE_INDEX_YES) return 0;
  }
  return 1;
}

/* Adds an amount to the balance of an account, 0 if it has none. Returns whether there was memory. */
static int deposit(tree_index_handle *balances, uint64_t account, uint64_t amount) {
  uint64_t balance = 0;
  tree_index_peek(balances, account, &balance);
  return tree_index_upsert(balances, account, balance + amount) == TREE_INDEX_YES;
}

/* Writes the first and the last price within both bounds. Returns whether there is one. */
static int ends_within(tree_index_handle *prices, uint64_t low, uint64_t high, uint64_t ends[2]) {
  tree_index_pair first, last;
  if (tree_index_fill(prices, TREE_INDEX_INCLUDED, low, TREE_INDEX_INCLUDED, high, &first, 1) == 0) return 0;
  tree_index_fill_back(prices, TREE_INDEX_INCLUDED, low, TREE_INDEX_INCLUDED, high, &last, 1);
  ends[0] = first.key;
  ends[1] = last.key;
  return 1;
}

/* Writes the lowest ask from a price on. Returns whether there is one. */
static int ask_from(tree_index_handle *asks, uint64_t price, tree_index_pair *ask) {
  return tree_index_at_or_above(asks, price, ask) == TREE_INDEX_YES;
}

/* Cancels every offer from one price to another, both included. */
static void cancel(tree_index_handle *offers, uint64_t low, uint64_t high) {
  tree_index_remove_range(offers, TREE_INDEX_INCLUDED, low, TREE_INDEX_INCLUDED, high);
}

/* Removes every pair whose key is below a time. */
static void forget_before(tree_index_handle *samples, uint64_t time) {
  tree_index_remove_range(samples, TREE_INDEX_UNBOUNDED, 0, TREE_INDEX_EXCLUDED, time);
}

static pthread_mutex_t lock = PTHREAD_MUTEX_INITIALIZER;
static tree_index_handle owners = TREE_INDEX_CLOSED;

/* Registers a name for an owner, under the lock. Returns whether the name was free. */
static int register_name(uint64_t name, uint64_t owner) {
  pthread_mutex_lock(&lock);
  int answer = tree_index_insert(&owners, name, owner);
  pthread_mutex_unlock(&lock);
  return answer == TREE_INDEX_YES;
}

/* Returns how often a word was counted. */
static uint64_t count_of(tree_index_handle *counts, const char *word) {
  uint64_t count = 0;
  tree_index_bytes_peek(counts, (const uint8_t *)word, strlen(word), &count);
  return count;
}

/* Registers the name 7 for an owner. Returns the owner, or NULL if the name was taken. */
static void *claim(void *owner) { return register_name(7, *(uint64_t *)owner) ? owner : NULL; }

static int share(void) {
  pthread_t threads[2];
  uint64_t numbers[2] = {1, 2};
  int registered = 0;
  for (int at = 0; at < 2; at++) {
    if (pthread_create(&threads[at], NULL, claim, &numbers[at]) != 0) return -1;
  }
  for (int at = 0; at < 2; at++) {
    void *owner;
    pthread_join(threads[at], &owner);
    registered += owner != NULL;
  }
  return registered;
}

int main(void) {
  const tree_index_pair orders[] = {{104, 1}, {101, 5}, {107, 3}, {102, 7}};
  tree_index_handle book = TREE_INDEX_CLOSED, counts = TREE_INDEX_CLOSED;
  tree_index_pair pairs[4];
  uint64_t ends[2];
  if (!book_of(&book, orders, 4) || !deposit(&book, 104, 2) || tree_index_new(&owners) != TREE_INDEX_YES || tree_index_bytes_new(&counts) != TREE_INDEX_YES) return 1;
  size_t length = tree_index_fill(&book, TREE_INDEX_UNBOUNDED, 0, TREE_INDEX_UNBOUNDED, 0, pairs, 4);
  for (size_t at = 0; at < length; at++) printf("%" PRIu64 " at %" PRIu64 "\n", pairs[at].value, pairs[at].key);
  if (ends_within(&book, 102, 106, ends)) printf("from 102 to 106: %" PRIu64 " and %" PRIu64 "\n", ends[0], ends[1]);
  if (ask_from(&book, 103, pairs)) printf("from 103 on: %" PRIu64 " at %" PRIu64 "\n", pairs[0].value, pairs[0].key);
  cancel(&book, 102, 104);
  printf("%zu offers left\n", tree_index_len(&book));
  forget_before(&book, 105);
  printf("%zu from 105 on\n", tree_index_len(&book));
  printf("%d of 2 threads registered the name\n", share());
  if (tree_index_bytes_upsert(&counts, (const uint8_t *)"tree", 4, 3) != TREE_INDEX_YES) return 1;
  printf("tree %" PRIu64 ", leaf %" PRIu64 "\n", count_of(&counts, "tree"), count_of(&counts, "leaf"));
  tree_index_free(&book);
  tree_index_free(&owners);
  tree_index_free(&counts);
  return 0;
}
