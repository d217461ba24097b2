/* calls FILE [memory [met]]: each call for C over this file with buffers of every length (or some, where the whole is
 * long), from four threads at once. With `memory` also with each request for memory refused in turn; with `met` it is
 * wrong where no request was met. Prints what was wrong; the status is 1 where anything was. Linked with --wrap for
 * malloc, realloc and free. */
#include <dwtool_file.h>
#include <pthread.h>
#include <stdalign.h>
#include <string.h>

/* -- memory that is counted, and refused at one request */

static _Thread_local long requests, refuse_at, held;

void *__real_malloc(size_t size);
void *__real_realloc(void *old, size_t size);
void __real_free(void *old);
void *__wrap_malloc(size_t size);
void *__wrap_realloc(void *old, size_t size);
void __wrap_free(void *old);

void *__wrap_malloc(size_t size) {
  if (++requests == refuse_at) return NULL;
  void *made = __real_malloc(size);
  held += made != NULL;
  return made;
}

void *__wrap_realloc(void *old, size_t size) {
  if (++requests == refuse_at) return NULL;
  void *made = __real_realloc(old, size);
  held += old == NULL && made != NULL;
  return made;
}

void __wrap_free(void *old) {
  held -= old != NULL;
  __real_free(old);
}

/* -- one call for all: what is asked for, and what was answered */

enum { TEXT, UNIT_TEXT, SECTIONS, NAME, UNITS, LINES, PLACES, PLACE_NAMES, KINDS };
static const char *const names[] = {"dwtool_text", "dwtool_unit_text", "dwtool_sections", "dwtool_section_name",
                                    "dwtool_units", "dwtool_lines", "dwtool_places", "dwtool_places (names)"};
static const size_t widths[] = {1, 1, sizeof(dwtool_section), 1, sizeof(dwtool_unit), sizeof(dwtool_line),
                                sizeof(dwtool_place), 1};

typedef struct {
  int kind;
  uint32_t command, number;
} question;

typedef struct {
  int status;
  size_t size;
  dwtool_refusal refusal;
} answer;

static const uint64_t addresses[] = {0, 0x1129, 0x1149, 0x401000, UINT64_MAX};

static answer ask(const dwtool_file *file, question q, void *into, size_t room) {
  const uint8_t *bytes = dwtool_bytes(file);
  size_t size = dwtool_size(file), names_size = 0;
  answer a;
  uint8_t few[32];
  memset(&a, 0xa5, sizeof a);
  switch (q.kind) {
    case TEXT: a.status = dwtool_text(q.command, bytes, size, (uint8_t *)into, room, &a.size, &a.refusal); break;
    case UNIT_TEXT:
      a.status = dwtool_unit_text(q.command, bytes, size, q.number, (uint8_t *)into, room, &a.size, &a.refusal);
      break;
    case SECTIONS: a.status = dwtool_sections(bytes, size, (dwtool_section *)into, room, &a.size, &a.refusal); break;
    case NAME:
      a.status = dwtool_section_name(bytes, size, q.number, (uint8_t *)into, room, &a.size, &a.refusal);
      break;
    case UNITS: a.status = dwtool_units(bytes, size, (dwtool_unit *)into, room, &a.size, &a.refusal); break;
    case LINES: a.status = dwtool_lines(bytes, size, q.number, (dwtool_line *)into, room, &a.size, &a.refusal); break;
    case PLACE_NAMES: {
      dwtool_place rows[sizeof addresses / sizeof *addresses];
      size_t count = 0;
      a.status = dwtool_places(bytes, size, addresses, sizeof addresses / sizeof *addresses, rows,
                               sizeof rows / sizeof *rows, &count, (uint8_t *)into, room, &a.size, &a.refusal);
      break;
    }
    default:
      a.status = dwtool_places(bytes, size, addresses, sizeof addresses / sizeof *addresses, (dwtool_place *)into, room,
                               &a.size, few, sizeof few, &names_size, &a.refusal);
  }
  return a;
}

static int same_refusal(const dwtool_refusal *a, const dwtool_refusal *b) {
  return a->place == b->place && a->section == b->section && a->unit == b->unit && a->number == b->number &&
         a->what == b->what;
}

static int same_answer(const answer *a, const answer *b) {
  return a->status == b->status && a->size == b->size && same_refusal(&a->refusal, &b->refusal);
}

static _Thread_local int wrong;
/* how many requests were met and refused, of all questions */
static long met_all;

static void say(question q, const char *what, size_t number) {
  if (wrong++ < 20) {
    printf("%s (command %u, number %u): %s at %zu\n", names[q.kind], (unsigned)q.command, (unsigned)q.number, what, number);
  }
}

/* What bytes of a row count: those behind the last field do not. */
static size_t counting(int kind) {
  return kind == SECTIONS ? 36 : kind == LINES ? 61 : widths[kind];
}

/* Whether the first rows of both are the same. */
static int same_rows(int kind, const uint8_t *a, const uint8_t *b, size_t count) {
  for (size_t i = 0; i < count; i++) {
    if (memcmp(a + i * widths[kind], b + i * widths[kind], counting(kind)) != 0) return 0;
  }
  return 1;
}

/* Whether all of these bytes are those that stood there. */
static int untouched(const uint8_t *from, size_t count) {
  for (size_t i = 0; i < count; i++) {
    if (from[i] != 0xa5) return 0;
  }
  return 1;
}

/* The whole answer; the caller frees it. */
static uint8_t *whole(const dwtool_file *file, question q, answer *a) {
  alignas(16) uint8_t none[64];
  *a = ask(file, q, none, 0);
  uint8_t *all = (uint8_t *)malloc((a->size + 1) * widths[q.kind]);
  answer again = ask(file, q, all, a->size);
  if (!same_answer(a, &again)) say(q, "another answer with all the room", 0);
  return all;
}

/* Buffers of every length, or, of a long answer, of the first, the last and some between. */
static void every_length(const dwtool_file *file, question q) {
  answer all;
  uint8_t *wanted = whole(file, q, &all);
  size_t width = widths[q.kind], step = all.size < 300 ? 1 : all.size / 40;
  for (size_t room = 0;; room = room + step > all.size + 2 && room < all.size ? all.size - 1 : room + step) {
    uint8_t *into = (uint8_t *)malloc((room + 3) * width);
    memset(into, 0xa5, (room + 3) * width);
    answer a = ask(file, q, into, room);
    size_t filled = room < all.size ? room : all.size;
    if (!same_answer(&a, &all)) say(q, "another answer", room);
    if (!same_rows(q.kind, into, wanted, filled)) say(q, "not the front", room);
    if (!untouched(into + filled * width, (room + 3 - filled) * width)) say(q, "more than the front is written", room);
    free(into);
    if (room > all.size) break;
    if (room + step > all.size + 1) step = 1;
  }
  free(wanted);
}

/* Each request for memory refused in turn, up to a run that meets no refusal. */
static void every_request(const dwtool_file *file, question q) {
  answer all;
  uint8_t *wanted = whole(file, q, &all);
  size_t width = widths[q.kind], room = all.size + 1;
  uint8_t *into = (uint8_t *)malloc(room * width);
  long call = 1;
  for (; call < 20000; call++) {
    memset(into, 0xa5, room * width);
    long before = held;
    requests = 0;
    refuse_at = call;
    answer a = ask(file, q, into, room);
    refuse_at = 0;
    int met = requests >= call;
    met_all += met;
    if (held != before) say(q, "memory is kept", (size_t)call);
    if (a.status == DWTOOL_NO_MEMORY && met) {
      if (a.size != 0 || a.refusal.what != DWTOOL_NOTHING) say(q, "a length without memory", (size_t)call);
      if (q.kind != TEXT && !untouched(into, room * width)) say(q, "a buffer is written without memory", (size_t)call);
    } else if (!same_answer(&a, &all) || !same_rows(q.kind, into, wanted, all.size)) {
      say(q, "another answer where a request was refused", (size_t)call);
    }
    if (!met) break;
  }
  if (call == 20000) say(q, "more requests than are tried", 0);
  free(into);
  free(wanted);
}

/* -- all questions, alone and from four threads */

static void each_question(const dwtool_file *file, void (*then)(const dwtool_file *, question)) {
  for (int kind = 0; kind < KINDS; kind++) {
    uint32_t commands = kind == TEXT || kind == UNIT_TEXT ? 7 : 1;
    uint32_t numbers = kind == UNIT_TEXT || kind == LINES || kind == NAME ? 4 : 1;
    for (uint32_t command = 0; command < commands; command++) {
      for (uint32_t number = 0; number < numbers; number++) {
        question q = {kind, command, number == 3 ? UINT32_MAX : number};
        then(file, q);
      }
    }
  }
}

static void *lengths_of(void *context) {
  each_question((const dwtool_file *)context, every_length);
  return wrong != 0 ? context : NULL;
}

int main(int argc, char **argv) {
  pthread_t threads[4];
  void *answer = NULL;
  if (argc < 2) return 2;
  dwtool_file *file = dwtool_open(argv[1]);
  if (file == NULL) return 3;
  int started = 0, failed = 0;
  while (started < 4 && pthread_create(&threads[started], NULL, lengths_of, file) == 0) started++;
  if (started < 4) failed = 1;
  for (int i = 0; i < started; i++) {
    pthread_join(threads[i], &answer);
    failed |= answer != NULL;
  }
  if (argc > 2) each_question(file, every_request);
  /* of a file that is read each call but that of no such number wants memory */
  if (argc > 3 && met_all == 0) {
    puts("no request for memory was met");
    failed = 1;
  }
  dwtool_close(file);
  return failed || wrong != 0;
}
