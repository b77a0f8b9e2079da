/* The example of the site's page on files. Those in C++, Rust and Python beside it write the same lines. A store is served by the
 * program `storetool`, as a child. */
#define _POSIX_C_SOURCE 200809L
#include <inttypes.h>
#include <signal.h>
#include <stdio.h>
#include <stdlib.h>
#include <tree_index.h>

/* Stores pairs in a file, so that they survive a crash. Returns whether they are on the disk. */
static int save(const char *file, const tree_index_pair *pairs, size_t count) {
  if (setenv("FILE", file, 1) != 0) return 0;
  FILE *store = popen("exec storetool \"$FILE\" load", "w");
  if (store == NULL) return 0;
  for (size_t at = 0; at < count; at++) fprintf(store, "%" PRIu64 " %" PRIu64 "\n", pairs[at].key, pairs[at].value);
  int is_written = fflush(store) == 0;
  return pclose(store) == 0 && is_written;
}

/* Stores the pairs of a file in an index. Returns whether all were read and there was memory. */
static int load(const char *file, tree_index_handle *index) {
  if (setenv("FILE", file, 1) != 0) return 0;
  FILE *store = popen("exec storetool \"$FILE\" dump", "r");
  if (store == NULL) return 0;
  tree_index_pair pair;
  int is_stored = 1;
  while (fscanf(store, "%" SCNu64 " %" SCNu64, &pair.key, &pair.value) == 2) {
    is_stored &= tree_index_upsert(index, pair.key, pair.value) == TREE_INDEX_YES;
  }
  return pclose(store) == 0 && is_stored;
}

int main(int count, char **words) {
  const tree_index_pair first[] = {{101, 5}, {104, 1}}, second[] = {{102, 7}, {104, 3}};
  tree_index_handle prices = TREE_INDEX_CLOSED;
  tree_index_pair pairs[4];
  signal(SIGPIPE, SIG_IGN);
  if (count != 2 || tree_index_new(&prices) != TREE_INDEX_YES) return 1;
  if (!save(words[1], first, 2) || !save(words[1], second, 2) || !load(words[1], &prices)) return 1;
  size_t length = tree_index_fill(&prices, TREE_INDEX_UNBOUNDED, 0, TREE_INDEX_UNBOUNDED, 0, pairs, 4);
  for (size_t at = 0; at < length; at++) printf("%" PRIu64 " at %" PRIu64 "\n", pairs[at].value, pairs[at].key);
  tree_index_free(&prices);
  return 0;
}
