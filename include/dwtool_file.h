/* A thin layer over dwtool.h: a file that is mapped and kept, texts that are handed to a function unit by unit, and
 * errors as lines. No proof covers this header; it needs POSIX (open, fstat, mmap).
 *
 * The mapped file must not be truncated or written while it is open.
 */
#ifndef DWTOOL_FILE_H
#define DWTOOL_FILE_H

#include <dwtool.h>

#include <errno.h>
#include <fcntl.h>
#include <inttypes.h>
#include <stdio.h>
#include <stdlib.h>
#include <sys/mman.h>
#include <sys/stat.h>
#include <unistd.h>

#ifdef __cplusplus
extern "C" {
#endif

/* A file that is open. Its fields are for the calls below alone. */
typedef struct dwtool_file {
  const uint8_t *bytes;
  size_t size;
} dwtool_file;

/* Opens a regular file and maps it. NULL where it can't be opened or mapped, or memory is wanting; `errno` says why:
 * EISDIR of a directory, EINVAL of a pipe (for whose writer the call waits), a terminal or a device. */
static inline dwtool_file *dwtool_open(const char *path) {
  static const uint8_t none[1] = {0};
  struct stat about;
  void *mapped = NULL;
  int saved = 0;
  dwtool_file *file = (dwtool_file *)malloc(sizeof *file);
  int at = file == NULL ? -1 : open(path, O_RDONLY | O_CLOEXEC);
  if (at < 0) {
    saved = errno;
    free(file);
    errno = saved;
    return NULL;
  }
  if (fstat(at, &about) != 0) {
    saved = errno;
  } else if (!S_ISREG(about.st_mode)) {
    saved = S_ISDIR(about.st_mode) ? EISDIR : EINVAL;
  } else if (about.st_size == 0) {
    file->bytes = none;
    file->size = 0;
  } else {
    mapped = mmap(NULL, (size_t)about.st_size, PROT_READ, MAP_PRIVATE, at, 0);
    saved = mapped == MAP_FAILED ? errno : 0;
    file->bytes = (const uint8_t *)mapped;
    file->size = (size_t)about.st_size;
  }
  close(at);
  if (saved != 0) {
    free(file);
    errno = saved;
    return NULL;
  }
  return file;
}

/* The bytes of an open file, and how many there are. */
static inline const uint8_t *dwtool_bytes(const dwtool_file *file) { return file->bytes; }
static inline size_t dwtool_size(const dwtool_file *file) { return file->size; }

/* Closes a file; NULL is none. */
static inline void dwtool_close(dwtool_file *file) {
  if (file != NULL && file->size != 0) munmap((void *)(uintptr_t)file->bytes, file->size);
  free(file);
}

/* Takes some bytes of a text. Another answer than 0 ends it. */
typedef int dwtool_sink(void *context, const uint8_t *bytes, size_t size);

/* What `dwtool_each_unit` answers where the sink ended the text. */
enum { DWTOOL_STOPPED = 4 };

/* Hands `sink` what a command prints of each unit, one unit at a time: DWTOOL_UNITS, DWTOOL_DUMP, DWTOOL_LINES or
 * DWTOOL_RANGES. Answers DWTOOL_DONE; DWTOOL_REFUSED at the first unit that is refused, or where the file is;
 * DWTOOL_NONE_SUCH where there is no such command; DWTOOL_STOPPED; or DWTOOL_NO_MEMORY. */
static inline int dwtool_each_unit(const dwtool_file *file, uint32_t command, dwtool_sink *sink, void *context,
                                   dwtool_refusal *refusal) {
  static const dwtool_refusal nothing = {0, 0, 0, 0, 0};
  /* the text of a unit has seldom more bytes than the file, and memory that isn't written costs nothing: so no unit is
   * read twice to learn its length */
  size_t least = 1 << 16, room = file->size > least ? file->size : least, size = 0;
  uint8_t *text = (uint8_t *)malloc(room);
  int status = text == NULL ? DWTOOL_NO_MEMORY : DWTOOL_DONE;
  uint32_t unit = 0;
  *refusal = nothing;
  while (status == DWTOOL_DONE) {
    status = dwtool_unit_text(command, file->bytes, file->size, unit, text, room, &size, refusal);
    if (status == DWTOOL_DONE && size > room) {
      /* the text of this unit has no room: make some, and read the unit again */
      free(text);
      room = size + size / 2;
      text = (uint8_t *)malloc(room);
      if (text == NULL) status = DWTOOL_NO_MEMORY;
    } else if (status == DWTOOL_DONE) {
      if (sink(context, text, size) != 0) status = DWTOOL_STOPPED;
      unit++;
    }
  }
  free(text);
  /* behind the last unit there is none: a command has a text of the first, or the file has no unit */
  if (status == DWTOOL_NONE_SUCH && (command == DWTOOL_UNITS || command == DWTOOL_DUMP || command == DWTOOL_LINES ||
                                     command == DWTOOL_RANGES)) {
    status = DWTOOL_DONE;
  }
  return status;
}

/* The bytes that a line has at most, with its newline and a zero byte. */
enum { DWTOOL_LINE_ROOM = 96 };

/* The line that the program writes on standard error for what a call answered; empty where it writes none. */
static inline void dwtool_line_of(int status, const dwtool_refusal *refusal, char line[DWTOOL_LINE_ROOM]) {
  unsigned number = refusal->number;
  line[0] = 0;
  if (status == DWTOOL_NO_MEMORY) {
    snprintf(line, DWTOOL_LINE_ROOM, "dwtool: out of memory\n");
  } else if (status == DWTOOL_NONE_SUCH) {
    snprintf(line, DWTOOL_LINE_ROOM, "dwtool: no such command, unit or section\n");
  } else if (status == DWTOOL_REFUSED && refusal->what == DWTOOL_OF_UNIT) {
    snprintf(line, DWTOOL_LINE_ROOM, "dwtool: unit %" PRIu32 ": refusal %u at 0x%" PRIx64 "\n", refusal->unit, number,
             refusal->place);
  } else if (status == DWTOOL_REFUSED && refusal->what == DWTOOL_OF_TABLES) {
    snprintf(line, DWTOOL_LINE_ROOM, "dwtool: abbrev: refusal %u at 0x%" PRIx64 "\n", number, refusal->place);
  } else if (status == DWTOOL_REFUSED && (number == 6 || number == 7 || number == 9)) {
    snprintf(line, DWTOOL_LINE_ROOM, "dwtool: file: refusal %u section %" PRIu64 "\n", number, refusal->section);
  } else if (status == DWTOOL_REFUSED) {
    snprintf(line, DWTOOL_LINE_ROOM, "dwtool: file: refusal %u\n", number);
  }
}

#ifdef __cplusplus
}
#endif

#endif
