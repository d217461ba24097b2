// The words of crates/table_load on a map of another library: TBB's concurrent_hash_map (-DTBB_HASH) or
// concurrent_unordered_map (-DTBB_UNORDERED), or elfutils' own table (-DELFUTILS, with elfutils_map.c). All begin
// small and grow.
#include <chrono>
#include <cstdint>
#include <cstdio>
#include <cstdlib>
#include <cstring>
#include <thread>
#include <vector>

#if defined(TBB_HASH)
#include <tbb/concurrent_hash_map.h>
typedef tbb::concurrent_hash_map<uint64_t, uint64_t> Map;
static Map map;
static inline bool insert(uint64_t key, uint64_t value) { return map.insert(std::make_pair(key, value)); }
static inline uint64_t find(uint64_t key) {
  Map::const_accessor found;
  return map.find(found, key) ? found->second : 0;
}
static void begin(uint64_t) {}
#elif defined(TBB_UNORDERED)
#include <tbb/concurrent_unordered_map.h>
typedef tbb::concurrent_unordered_map<uint64_t, uint64_t> Map;
static Map map;
static inline bool insert(uint64_t key, uint64_t value) { return map.insert(std::make_pair(key, value)).second; }
static inline uint64_t find(uint64_t key) {
  auto found = map.find(key);
  return found == map.end() ? 0 : found->second;
}
static void begin(uint64_t) {}
#else
extern "C" {
int elfutils_begin(uint64_t keys);
int elfutils_insert(uint64_t key, uint64_t value);
uint64_t elfutils_find(uint64_t key);
}
static inline bool insert(uint64_t key, uint64_t value) { return elfutils_insert(key, value); }
static inline uint64_t find(uint64_t key) { return elfutils_find(key); }
static void begin(uint64_t keys) {
  if (elfutils_begin(keys)) exit(3);
}
#endif

struct Tally { uint64_t placed, found, hits, missing, sum; };
enum Phase { EMPTY, INSERT, PRESENT, ABSENT, MIXED };
static uint64_t threads, keys, rounds;
static bool same, mixed;

static inline uint64_t key_of(uint64_t number) {
  uint64_t first = (number + 1) * 0x9e3779b97f4a7c15u;
  uint64_t key = (first ^ (first >> 32)) * 0x243f6a8885a308d3u;
  return key == 0 || key == UINT64_MAX ? 1 : key;
}

static void insert_share(Tally &tally, uint64_t first, uint64_t size, uint64_t index, uint64_t parts) {
  uint64_t to = first + size * (index + 1) / parts;
  for (uint64_t number = first + size * index / parts; number < to; number++)
    if (insert(key_of(number), number + 1)) tally.placed++; else tally.found++;
}

static void find_all(Tally &tally, uint64_t from, uint64_t size, uint64_t times) {
  for (uint64_t round = 0; round < times; round++)
    for (uint64_t number = from; number < from + size; number++) {
      uint64_t value = find(key_of(number));
      if (value) tally.hits++, tally.sum += value; else tally.missing++;
    }
}

static void work(Tally *to, Phase phase, uint64_t index) {
  Tally tally = *to;
  uint64_t half = keys / 2;
  if (phase == INSERT && same) insert_share(tally, 0, keys, 0, 1);
  else if (phase == INSERT) insert_share(tally, 0, mixed ? half : keys, index, threads);
  else if (phase == MIXED && index % 2) insert_share(tally, half, keys - half, index / 2, threads / 2);
  else if (phase == MIXED) find_all(tally, 0, half, rounds);
  else find_all(tally, phase == ABSENT ? keys : 0, keys, phase == EMPTY ? 1 : rounds);
  *to = tally;
}

// Runs a phase in one thread for each tally, the first in this one, and answers its nanoseconds.
static uint64_t run(Phase phase, std::vector<Tally> &tallies) {
  auto start = std::chrono::steady_clock::now();
  std::vector<std::thread> others;
  for (uint64_t i = 1; i < threads; i++) others.emplace_back(work, &tallies[i], phase, i);
  work(&tallies[0], phase, 0);
  for (auto &other : others) other.join();
  return std::chrono::duration_cast<std::chrono::nanoseconds>(std::chrono::steady_clock::now() - start).count();
}

int main(int argc, char **argv) {
  if (argc < 6) return 2;
  threads = strtoull(argv[1], NULL, 10);
  keys = strtoull(argv[3], NULL, 10);
  rounds = strtoull(argv[4], NULL, 10);
  same = strcmp(argv[5], "same") == 0;
  mixed = strcmp(argv[5], "mixed") == 0;
  begin(keys);
  std::vector<Tally> tallies(threads);
  run(EMPTY, tallies);
  uint64_t inserts = run(INSERT, tallies);
  uint64_t beside = mixed ? run(MIXED, tallies) : 0, again = mixed ? 0 : run(INSERT, tallies);
  uint64_t hits = mixed ? 0 : run(PRESENT, tallies), misses = mixed ? 0 : run(ABSENT, tallies);
  Tally all = {};
  for (auto &one : tallies) {
    all.placed += one.placed, all.found += one.found;
    all.hits += one.hits, all.missing += one.missing, all.sum += one.sum;
  }
  printf("placed %lu\nfound %lu\nfull 0\n", all.placed, all.found);
  printf("hits %lu\nmissing %lu\nsum %lu\n", all.hits, all.missing, all.sum);
  if (mixed) printf("mixed %lu ns\n", beside);
  else printf("insert %lu ns\nagain %lu ns\npresent %lu ns\nabsent %lu ns\n", inserts, again, hits, misses);
  return 0;
}
