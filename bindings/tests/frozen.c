/* Four threads that read one index at once, each by a handle of its own, and what the calls on a frozen index answer. Linked
 * with --wrap for malloc, realloc and free, so that each request of a freeze and of a share is refused once. */
#include "model.h"
#include <pthread.h>

void *__real_malloc(size_t size);
void *__real_realloc(void *block, size_t size);

/* How many requests of the first thread are granted before one is refused, if it is below 0 all are. */
static long granted = -1;

static int is_refused(void) { return granted >= 0 && granted-- == 0; }

void *__wrap_malloc(size_t size) { return is_refused() ? NULL : __real_malloc(size); }

void *__wrap_realloc(void *block, size_t size) { return is_refused() ? NULL : __real_realloc(block, size); }

#define KEYS 20000
#define THREADS 4
#define LENGTH 9

static tree_index_handle numbers = TREE_INDEX_CLOSED, words = TREE_INDEX_CLOSED;

typedef struct {
  tree_index_handle numbers, words;
  uint64_t seed, found;
} reader;

/* The key of a number as bytes, in the same order. */
static const uint8_t *word_of(uint64_t number, uint8_t *room) {
  room[0] = 'k';
  for (int at = 0; at < 8; at++) room[1 + at] = (uint8_t)(number >> (56 - 8 * at));
  return room;
}

/* Only even keys are present, each with three times itself. */
static void read_number(reader *it, uint64_t key) {
  uint64_t value = 1;
  tree_index_pair pairs[20];
  WANT(tree_index_peek(&it->numbers, key, &value) == (key % 2 == 0 ? TREE_INDEX_YES : TREE_INDEX_NO));
  WANT(value == (key % 2 == 0 ? 3 * key : 1));
  size_t count = tree_index_fill(&it->numbers, TREE_INDEX_INCLUDED, key, TREE_INDEX_UNBOUNDED, 0, pairs, 20);
  for (size_t at = 0; at < count; at++) WANT(pairs[at].key == key + key % 2 + 2 * at && pairs[at].value == 3 * pairs[at].key);
  WANT(tree_index_at_or_below(&it->numbers, key, pairs) == TREE_INDEX_YES && pairs[0].key == key - key % 2);
  it->found += count;
}

static void read_word(reader *it, uint64_t key) {
  uint8_t sought[LENGTH], found[LENGTH];
  uint64_t value = 1;
  tree_index_entry entry;
  word_of(key, sought);
  WANT(tree_index_bytes_peek(&it->words, sought, LENGTH, &value) == (key % 2 == 0 ? TREE_INDEX_YES : TREE_INDEX_NO));
  WANT(value == (key % 2 == 0 ? 3 * key : 1));
  WANT(tree_index_bytes_at_or_below(&it->words, sought, LENGTH, found, LENGTH, &entry) == TREE_INDEX_YES);
  WANT(entry.value == 3 * (key - key % 2));
}

/* Reads, makes handles of its own from its own, and frees them. */
static void *read_all(void *given) {
  reader *it = given;
  for (int turn = 0; turn < 5000; turn++) {
    uint64_t key = (it->seed = it->seed * 6364136223846793005u + 1442695040888963407u) >> 33;
    read_number(it, key % KEYS);
    read_word(it, key % KEYS);
    if (turn % 100 == 0) {
      tree_index_handle other = TREE_INDEX_CLOSED;
      WANT(tree_index_share(&it->numbers, &other) == TREE_INDEX_YES);
      WANT(tree_index_len(&other) == KEYS / 2);
      tree_index_free(&it->numbers);
      it->numbers = other;
    }
  }
  tree_index_free(&it->numbers);
  tree_index_free(&it->words);
  return NULL;
}

/* No call changes a frozen index. */
static void refuses_writes(void) {
  uint64_t value = 1;
  size_t count = 1;
  tree_index_pair pair = {1, 1};
  tree_index_entry entry = {1, 1};
  uint8_t key[LENGTH];
  word_of(2, key);
  WANT(tree_index_insert(&numbers, 1, 1) == TREE_INDEX_MISFIT);
  WANT(tree_index_upsert(&numbers, 2, 1) == TREE_INDEX_MISFIT);
  WANT(tree_index_replace(&numbers, 2, &value) == TREE_INDEX_MISFIT && value == 1);
  WANT(tree_index_remove(&numbers, 2) == TREE_INDEX_MISFIT);
  WANT(tree_index_take(&numbers, 2, &value) == TREE_INDEX_MISFIT && value == 1);
  WANT(tree_index_pop_first(&numbers, &pair) == TREE_INDEX_MISFIT && tree_index_pop_last(&numbers, &pair) == TREE_INDEX_MISFIT && pair.key == 1);
  WANT(tree_index_remove_range(&numbers, 0, 0, 0, 0) == TREE_INDEX_MISFIT);
  WANT(tree_index_bytes_insert(&words, key, 1, 1) == TREE_INDEX_MISFIT);
  WANT(tree_index_bytes_upsert(&words, key, LENGTH, 1) == TREE_INDEX_MISFIT);
  WANT(tree_index_bytes_remove(&words, key, LENGTH) == TREE_INDEX_MISFIT);
  WANT(tree_index_bytes_take(&words, key, LENGTH, &value) == TREE_INDEX_MISFIT && value == 1);
  WANT(tree_index_bytes_pop_first(&words, key, LENGTH, &entry) == TREE_INDEX_MISFIT && tree_index_bytes_pop_last(&words, key, LENGTH, &entry) == TREE_INDEX_MISFIT && entry.value == 1);
  WANT(tree_index_bytes_remove_range(&words, 0, key, 0, 0, key, 0) == TREE_INDEX_MISFIT);
  WANT(tree_index_bytes_remove_prefix(&words, key, 0, &count) == TREE_INDEX_MISFIT && count == 1);
  WANT(tree_index_clear(&numbers) == TREE_INDEX_MISFIT && tree_index_clear(&words) == TREE_INDEX_MISFIT);
  WANT(tree_index_freeze(&numbers) == TREE_INDEX_MISFIT && tree_index_freeze(&words) == TREE_INDEX_MISFIT);
  WANT(tree_index_len(&numbers) == KEYS / 2 && tree_index_len(&words) == KEYS / 2);
}

/* A freeze and a share that can't allocate change nothing. */
static void freeze_refused(tree_index_handle *handle) {
  tree_index_handle other = TREE_INDEX_CLOSED;
  granted = 0;
  WANT(tree_index_freeze(handle) == TREE_INDEX_NO_MEMORY);
  granted = -1;
  WANT(tree_index_len(handle) == KEYS / 2 && tree_index_share(handle, &other) == TREE_INDEX_MISFIT);
  WANT(tree_index_freeze(handle) == TREE_INDEX_YES);
  granted = 0;
  WANT(tree_index_share(handle, &other) == TREE_INDEX_NO_MEMORY);
  granted = -1;
  WANT(tree_index_share(&other, handle) == TREE_INDEX_MISFIT && tree_index_len(handle) == KEYS / 2);
}

/* A frozen index thaws once its handle is the last one. */
static void thaw(tree_index_handle *handle) {
  tree_index_handle other = TREE_INDEX_CLOSED, copy = TREE_INDEX_CLOSED;
  WANT(tree_index_share(handle, &other) == TREE_INDEX_YES);
  WANT(tree_index_thaw(handle) == TREE_INDEX_NO && tree_index_clear(handle) == TREE_INDEX_MISFIT);
  WANT(tree_index_copy(handle, &copy) == TREE_INDEX_YES && tree_index_clear(&copy) == TREE_INDEX_YES);
  tree_index_free(&copy);
  tree_index_free(&other);
  WANT(tree_index_thaw(handle) == TREE_INDEX_YES && tree_index_thaw(handle) == TREE_INDEX_MISFIT);
  WANT(tree_index_clear(handle) == TREE_INDEX_YES && tree_index_len(handle) == 0);
  tree_index_free(handle);
  WANT(tree_index_freeze(handle) == TREE_INDEX_MISFIT && tree_index_thaw(handle) == TREE_INDEX_MISFIT);
}

/* Starts the threads, each with handles of its own. */
static void start(pthread_t *threads, reader *readers, tree_index_handle *of_numbers, tree_index_handle *of_words) {
  for (int at = 0; at < THREADS; at++) {
    readers[at] = (reader){TREE_INDEX_CLOSED, TREE_INDEX_CLOSED, (uint64_t)at, 0};
    WANT(tree_index_share(of_numbers, &readers[at].numbers) == TREE_INDEX_YES);
    WANT(tree_index_share(of_words, &readers[at].words) == TREE_INDEX_YES);
    WANT(pthread_create(&threads[at], NULL, read_all, &readers[at]) == 0);
  }
}

static void join(pthread_t *threads, reader *readers) {
  for (int at = 0; at < THREADS; at++) {
    pthread_join(threads[at], NULL);
    WANT(readers[at].found > 0);
  }
}

/* The last thread frees the index of the others, to which no other handle leads. What orders that is in the library: where
 * ThreadSanitizer doesn't see the library's own accesses, it takes this for a race. */
static void last_of_threads(pthread_t *threads, reader *readers) {
#if !defined(__SANITIZE_THREAD__) || defined(SANITIZED_LIBRARY)
  tree_index_handle copy = TREE_INDEX_CLOSED, copy_of_words = TREE_INDEX_CLOSED;
  WANT(tree_index_copy(&numbers, &copy) == TREE_INDEX_YES && tree_index_freeze(&copy) == TREE_INDEX_YES);
  WANT(tree_index_copy(&words, &copy_of_words) == TREE_INDEX_YES && tree_index_freeze(&copy_of_words) == TREE_INDEX_YES);
  start(threads, readers, &copy, &copy_of_words);
  tree_index_free(&copy);
  tree_index_free(&copy_of_words);
  join(threads, readers);
#else
  (void)threads, (void)readers;
#endif
}

int main(void) {
  static reader readers[THREADS];
  pthread_t threads[THREADS];
  WANT(tree_index_new(&numbers) == TREE_INDEX_YES && tree_index_bytes_new(&words) == TREE_INDEX_YES);
  for (uint64_t key = 0; key < KEYS; key += 2) {
    uint8_t room[LENGTH];
    WANT(tree_index_insert(&numbers, key, 3 * key) == TREE_INDEX_YES);
    WANT(tree_index_bytes_insert(&words, word_of(key, room), LENGTH, 3 * key) == TREE_INDEX_YES);
  }
  freeze_refused(&numbers);
  freeze_refused(&words);
  refuses_writes();
  start(threads, readers, &numbers, &words);
  join(threads, readers);
  last_of_threads(threads, readers);
  thaw(&numbers);
  thaw(&words);
  printf("C: %d threads that read one frozen index of %d pairs, each of its answers as it should be\n", THREADS, KEYS / 2);
  return 0;
}
