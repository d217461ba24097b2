/* The words of crates/table_load on a plain array of atomic words: cells of a key and a value, open addressing by the
   same product, one compare-exchange an insert and no count. With COUNTED an insert makes the atomic steps of the proved
   table: it loads a count, exchanges the key and the value, and adds to the count. */
#include <pthread.h>
#include <stdatomic.h>
#include <stdint.h>
#include <stdio.h>
#include <stdlib.h>
#include <string.h>
#include <time.h>

struct cell { _Atomic uint64_t key, value; };
struct tally { uint64_t placed, found, full, hits, missing, sum; };
struct caller { uint64_t index; struct tally tally; pthread_t thread; };
enum phase { EMPTY, INSERT, PRESENT, ABSENT, MIXED };

static struct cell *cells;
static uint64_t count;
static uint64_t capacity;
static int shift;
#ifdef COUNTED
static _Alignas(64) _Atomic uint64_t counted;
#endif
static uint64_t threads, keys, rounds;
static int same, mixed;
static enum phase phase;

static inline uint64_t key_of(uint64_t number) {
  uint64_t first = (number + 1) * 0x9e3779b97f4a7c15u;
  uint64_t key = (first ^ (first >> 32)) * 0x243f6a8885a308d3u;
  return key == 0 || key == UINT64_MAX ? 1 : key;
}

static inline uint64_t home(uint64_t key) { return key * 11400714819323198485u >> shift; }

/* The value of a key, or 0. */
static inline uint64_t seek(uint64_t key) {
  uint64_t index = home(key);
  for (uint64_t steps = 0; steps < count; steps++) {
    uint64_t found = atomic_load(&cells[index].key);
    if (found == 0) return 0;
    if (found == key) return atomic_load(&cells[index].value);
    index = (index + 1) & (count - 1);
  }
  return 0;
}

/* Puts the value into a cell that has its key; the value that stood there, or 0. */
static inline uint64_t publish(struct cell *cell, uint64_t value) {
#ifdef COUNTED
  uint64_t found = 0;
  if (atomic_compare_exchange_strong(&cell->value, &found, value)) atomic_fetch_add(&counted, 1);
  return found;
#else
  atomic_store_explicit(&cell->value, value, memory_order_release);
  return 0;
#endif
}

static inline void insert(struct tally *tally, uint64_t key, uint64_t value) {
#ifdef COUNTED
  if (atomic_load(&counted) >= capacity) {
    if (seek(key)) tally->found++; else tally->full++;
    return;
  }
#endif
  uint64_t index = home(key);
  for (uint64_t steps = 0; steps < count; steps++) {
    struct cell *cell = &cells[index];
    uint64_t found = atomic_load(&cell->key);
    int won = found == 0 && atomic_compare_exchange_strong(&cell->key, &found, key);
    if (won || found == key) {
#ifdef COUNTED
      won = publish(cell, value) == 0;
#else
      if (won) publish(cell, value);
#endif
      if (won) tally->placed++; else tally->found++;
      return;
    }
    index = (index + 1) & (count - 1);
  }
  tally->full++;
}

static inline void find(struct tally *tally, uint64_t key) {
  uint64_t value = seek(key);
  if (value == 0) {
    tally->missing++;
  } else {
    tally->hits++;
    tally->sum += value;
  }
}

static void insert_share(struct tally *tally, uint64_t first, uint64_t size, uint64_t index, uint64_t parts) {
  uint64_t to = first + size * (index + 1) / parts;
  for (uint64_t number = first + size * index / parts; number < to; number++) insert(tally, key_of(number), number + 1);
}

static void find_all(struct tally *tally, uint64_t from, uint64_t size, uint64_t times) {
  for (uint64_t round = 0; round < times; round++)
    for (uint64_t number = from; number < from + size; number++) find(tally, key_of(number));
}

static void *work(void *argument) {
  struct caller *caller = argument;
  struct tally tally = caller->tally;
  uint64_t index = caller->index, half = keys / 2;
  if (phase == INSERT && same) insert_share(&tally, 0, keys, 0, 1);
  else if (phase == INSERT) insert_share(&tally, 0, mixed ? half : keys, index, threads);
  else if (phase == MIXED && index % 2) insert_share(&tally, half, keys - half, index / 2, threads / 2);
  else if (phase == MIXED) find_all(&tally, 0, half, rounds);
  else find_all(&tally, phase == ABSENT ? keys : 0, keys, phase == EMPTY ? 1 : rounds);
  caller->tally = tally;
  return NULL;
}

/* Runs a phase in one thread for each caller, the first in this one, and answers its nanoseconds. */
static uint64_t run(enum phase which, struct caller *callers) {
  struct timespec start, end;
  clock_gettime(CLOCK_MONOTONIC, &start);
  phase = which;
  for (uint64_t i = 1; i < threads; i++)
    if (pthread_create(&callers[i].thread, NULL, work, &callers[i])) exit(3);
  work(&callers[0]);
  for (uint64_t i = 1; i < threads; i++) pthread_join(callers[i].thread, NULL);
  clock_gettime(CLOCK_MONOTONIC, &end);
  return (uint64_t)(end.tv_sec - start.tv_sec) * 1000000000u + (uint64_t)end.tv_nsec - (uint64_t)start.tv_nsec;
}

int main(int argc, char **argv) {
  if (argc < 6) return 2;
  threads = strtoull(argv[1], NULL, 10);
  capacity = strtoull(argv[2], NULL, 10);
  keys = strtoull(argv[3], NULL, 10);
  rounds = strtoull(argv[4], NULL, 10);
  same = strcmp(argv[5], "same") == 0;
  mixed = strcmp(argv[5], "mixed") == 0;
  int bits = 6;
  while (3 * (1ull << bits) < 4 * (capacity + threads)) bits++;
  count = 1ull << bits;
  shift = 64 - bits;
  cells = aligned_alloc(64, count * sizeof *cells);
  struct caller *callers = calloc(threads, sizeof *callers);
  if (!cells || !callers) return 3;
  memset(cells, 0, count * sizeof *cells);
  for (uint64_t i = 0; i < threads; i++) callers[i].index = i;
  run(EMPTY, callers);
  uint64_t inserts = run(INSERT, callers);
  uint64_t beside = mixed ? run(MIXED, callers) : 0, again = mixed ? 0 : run(INSERT, callers);
  uint64_t hits = mixed ? 0 : run(PRESENT, callers), misses = mixed ? 0 : run(ABSENT, callers);
  struct tally all = {0};
  for (uint64_t i = 0; i < threads; i++) {
    struct tally *one = &callers[i].tally;
    all.placed += one->placed, all.found += one->found, all.full += one->full;
    all.hits += one->hits, all.missing += one->missing, all.sum += one->sum;
  }
  printf("placed %lu\nfound %lu\nfull %lu\n", all.placed, all.found, all.full);
  printf("hits %lu\nmissing %lu\nsum %lu\n", all.hits, all.missing, all.sum);
  if (argc > 6 && mixed) printf("mixed %lu ns\n", beside);
  else if (argc > 6) printf("insert %lu ns\nagain %lu ns\npresent %lu ns\nabsent %lu ns\n", inserts, again, hits, misses);
  return 0;
}
