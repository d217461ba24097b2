/* elfutils' own concurrent table behind three calls. Its source stays in elfutils' source package, whose lib/ is
   given by -I. The table begins with 64 places and keeps a pointer for each key. */
#include <stddef.h>
#include <stdint.h>
#include <stdlib.h>
#define HAVE_STDATOMIC_H 1
#define HAVE_ERR_H 1
#define HAVE_DECL_REALLOCARRAY 1
#define HAVE_DECL_POWEROF2 1
#define HAVE_DECL_MEMPCPY 1
#define attribute_hidden
#define NO_UNDEF
#define NAME Table
#define TYPE uintptr_t *
#include "dynamicsizehash_concurrent.h"
#include "dynamicsizehash_concurrent.c"

static Table table;
static uintptr_t *values;

int elfutils_begin(uint64_t keys) {
  values = malloc((keys + 1) * sizeof *values);
  if (!values) return 1;
  for (uint64_t n = 0; n < keys; n++) values[n] = n + 1;
  return Table_init(&table, 64);
}

int elfutils_insert(uint64_t key, uint64_t value) { return Table_insert(&table, key, &values[value - 1]) == 0; }

uint64_t elfutils_find(uint64_t key) {
  uintptr_t *value = Table_find(&table, key);
  return value ? *value : 0;
}
