/* An order book: the quantity that is offered at each price, for both sides of a market.
 *
 * Reads orders from standard input, one a line:
 *     buy PRICE QUANTITY        sell PRICE QUANTITY
 *     cancel buy LOW HIGH       cancel sell LOW HIGH       every offer from one price to another, both included
 *     best                      the best bid and the best ask
 *     show                      the three best levels of each side
 * An order is filled from the other side as far as its price allows, and the rest is offered.
 */
#include <inttypes.h>
#include <stdio.h>
#include <string.h>
#include <tree_index.h>

#define LEVELS 3

static tree_index_handle bids = TREE_INDEX_CLOSED, asks = TREE_INDEX_CLOSED;

/* Fills an order from the best levels of a side, and returns what is left of its quantity. */
static uint64_t fill(int is_buy, uint64_t price, uint64_t quantity) {
  tree_index_handle *side = is_buy ? &asks : &bids;
  tree_index_pair best;
  while (quantity > 0 && (is_buy ? tree_index_first : tree_index_last)(side, &best) == TREE_INDEX_YES) {
    if (is_buy ? best.key > price : best.key < price) break;
    uint64_t traded = best.value < quantity ? best.value : quantity;
    printf("traded %" PRIu64 " at %" PRIu64 "\n", traded, best.key);
    quantity -= traded;
    if (traded == best.value) tree_index_remove(side, best.key);
    /* A level that stays is replaced, which may need memory. */
    else if (tree_index_upsert(side, best.key, best.value - traded) != TREE_INDEX_YES) return UINT64_MAX;
  }
  return quantity;
}

/* Returns whether there was memory. */
static int order(int is_buy, uint64_t price, uint64_t quantity) {
  tree_index_handle *side = is_buy ? &bids : &asks;
  uint64_t left = fill(is_buy, price, quantity), offered = 0;
  if (left == UINT64_MAX) return 0;
  if (left == 0) return 1;
  tree_index_peek(side, price, &offered);
  return tree_index_upsert(side, price, offered + left) == TREE_INDEX_YES;
}

static void cancel(int is_buy, uint64_t low, uint64_t high) {
  tree_index_handle *side = is_buy ? &bids : &asks;
  size_t before = tree_index_len(side);
  tree_index_remove_range(side, TREE_INDEX_INCLUDED, low, TREE_INDEX_INCLUDED, high);
  printf("cancelled %zu levels\n", before - tree_index_len(side));
}

static void best(void) {
  tree_index_pair bid, ask;
  if (tree_index_last(&bids, &bid) == TREE_INDEX_YES) printf("bid %" PRIu64 " at %" PRIu64 "\n", bid.value, bid.key);
  if (tree_index_first(&asks, &ask) == TREE_INDEX_YES) printf("ask %" PRIu64 " at %" PRIu64 "\n", ask.value, ask.key);
}

static void show(void) {
  tree_index_pair levels[LEVELS];
  size_t count = tree_index_fill(&asks, TREE_INDEX_UNBOUNDED, 0, TREE_INDEX_UNBOUNDED, 0, levels, LEVELS);
  while (count-- > 0) printf("  sell %6" PRIu64 " at %" PRIu64 "\n", levels[count].value, levels[count].key);
  count = tree_index_fill_back(&bids, TREE_INDEX_UNBOUNDED, 0, TREE_INDEX_UNBOUNDED, 0, levels, LEVELS);
  for (size_t at = 0; at < count; at++) printf("  buy  %6" PRIu64 " at %" PRIu64 "\n", levels[at].value, levels[at].key);
}

int main(void) {
  char line[200], word[10], side[10];
  uint64_t one, two;
  int has_memory = tree_index_new(&bids) == TREE_INDEX_YES && tree_index_new(&asks) == TREE_INDEX_YES;
  while (has_memory && fgets(line, sizeof line, stdin)) {
    if (sscanf(line, "cancel %9s %" SCNu64 " %" SCNu64, side, &one, &two) == 3) cancel(strcmp(side, "buy") == 0, one, two);
    else if (sscanf(line, "%9s %" SCNu64 " %" SCNu64, word, &one, &two) == 3) has_memory = order(strcmp(word, "buy") == 0, one, two);
    else if (strncmp(line, "best", 4) == 0) best();
    else if (strncmp(line, "show", 4) == 0) show();
    else if (line[0] != '\n' && line[0] != '#') fprintf(stderr, "not understood: %s", line);
  }
  if (!has_memory) fprintf(stderr, "out of memory\n");
  tree_index_free(&bids);
  tree_index_free(&asks);
  return !has_memory;
}
