/* dwtool: the debugging information of an ELF file (DWARF 4 and 5), from C and C++.
 *
 * Link libdwtool.a, or -ldwtool by pkg-config. Each call takes the bytes of a whole file, keeps nothing, and may be
 * made from any number of threads at once. Any bytes and any numbers are allowed: a file that is not what it should be
 * is refused, and the refusal says why. The calls are proved: what each one tells is a definition of the library, and
 * is the same as what the program of the same name prints. docs/C_INTERFACE.md has the details.
 *
 * This header is written by hand, and no proof covers it. What a caller must guarantee, and nothing checks:
 *
 * - Each pointer is not null, also where its length is 0, and is aligned for what it points to. Each length is true.
 * - What a call writes (`text`, `rows`, `size`, `refusal`, ..) is writable, and apart from the file, from the addresses
 *   and from each other.
 * - The bytes of the file and the addresses do not change while a call runs. A mapped file that another process
 *   truncates or writes breaks this: read the file into memory, or map one that nobody changes.
 * - `malloc`, `realloc` and `free` are of one allocator, and align to 16 bytes.
 * - No call is made from a signal handler, or in a forked child of a process with threads.
 * - The stack has room: 64 KiB is enough.
 */
#ifndef DWTOOL_H
#define DWTOOL_H

#include <stddef.h>
#include <stdint.h>

#ifdef __cplusplus
extern "C" {
#define DWTOOL_SAYS(fact, words) static_assert(fact, words)
#else
#define DWTOOL_SAYS(fact, words) _Static_assert(fact, words)
#endif

/* What a call answers. */
enum {
  /* All was told. */
  DWTOOL_DONE = 0,
  /* The file, a unit or the abbreviation tables are refused: see `refusal`. */
  DWTOOL_REFUSED = 1,
  /* There is no command, unit or section of this number. */
  DWTOOL_NONE_SUCH = 2,
  /* Memory was wanting: sizes are 0, and nothing is refused. */
  DWTOOL_NO_MEMORY = 5
};

/* The numbers of commands. Each text is the one that the program prints for the command of that name. */
enum {
  DWTOOL_UNITS = 0,    /* one line per unit */
  DWTOOL_SECTIONS = 1, /* one line per section of the file */
  DWTOOL_ABBREV = 2,   /* all abbreviation tables */
  DWTOOL_DUMP = 3,     /* every unit, entry and attribute */
  DWTOOL_LINES = 4,    /* the line tables */
  DWTOOL_RANGES = 5    /* all range and location lists */
};

/* What a refusal is of. */
enum {
  DWTOOL_NOTHING = 0,
  DWTOOL_OF_FILE = 1,
  DWTOOL_OF_UNIT = 2,
  DWTOOL_OF_TABLES = 3
};

/* Why something is refused. docs/FORMATS.md says what the numbers mean. */
typedef struct {
  uint64_t place;   /* offset of the fault from the start of its section, in bytes; 0 where the file is refused */
  uint64_t section; /* the number of the section that a file's refusal names (6, 7, 9), else 0 */
  uint32_t unit;    /* the number of the unit that is refused, else 0 */
  uint16_t number;  /* the number of the cause; 0 where nothing is refused */
  uint16_t what;    /* DWTOOL_NOTHING, DWTOOL_OF_FILE, DWTOOL_OF_UNIT or DWTOOL_OF_TABLES */
} dwtool_refusal;
DWTOOL_SAYS(sizeof(dwtool_refusal) == 24, "a refusal has 24 bytes");

/* A section: what its header says (gABI chapter 4, "Sections"). */
typedef struct {
  uint64_t flags;     /* sh_flags */
  uint64_t size;      /* sh_size, in bytes */
  uint64_t bytes;     /* how many bytes it has in the file; none for the types 0 (null) and 8 (no bits) */
  uint64_t name_size; /* how many bytes its name has, without a zero byte */
  uint32_t kind;      /* sh_type */
} dwtool_section;
DWTOOL_SAYS(sizeof(dwtool_section) == 40, "a section has 40 bytes");

/* A unit: what its header says (DWARF 5 section 7.5.1.1). Places are offsets from the start of .debug_info, in bytes. */
typedef struct {
  uint64_t place;        /* the unit's first byte */
  uint64_t end;          /* the first byte behind the unit */
  uint64_t entries;      /* the first entry, behind the header */
  uint64_t id;           /* dwo_id of a skeleton or split unit, type_signature of a type unit, else 0 */
  uint64_t type_offset;  /* type_offset of a type unit, from the unit's first byte, else 0 */
  uint32_t number;       /* from 0 */
  uint32_t abbrev;       /* where its declarations begin in .debug_abbrev */
  uint16_t version;      /* 4 or 5 */
  uint16_t kind;         /* unit_type (table 7.2), 1 to 6; 1 in version 4 */
  uint16_t address_size; /* 2, 4 or 8 bytes */
  uint16_t offset_size;  /* 4 or 8 bytes */
} dwtool_unit;
DWTOOL_SAYS(sizeof(dwtool_unit) == 56, "a unit has 56 bytes");

/* A row of a line table (DWARF 5 section 6.2.2). A flag is 1 where it holds, else 0. */
typedef struct {
  uint64_t address;
  uint64_t op_index;
  uint64_t file;   /* the number of the file in the unit's line table */
  uint64_t line;   /* modulo 2^64 */
  uint64_t column; /* 0 where none is told */
  uint64_t isa;
  uint64_t discriminator;
  uint8_t stmt;
  uint8_t block;
  uint8_t prologue_end;
  uint8_t epilogue_begin;
  uint8_t end; /* the address is the first behind a sequence of instructions */
} dwtool_line;
DWTOOL_SAYS(sizeof(dwtool_line) == 64, "a row has 64 bytes");

/* Whether an address has a place, and its file a name. */
enum {
  DWTOOL_NO_PLACE = 0,
  DWTOOL_NO_NAME = 1,
  DWTOOL_NAMED = 2
};

/* The place of an address (DWARF 5 section 6.2). Its directory and then its name stand in `names`, from `start` on. */
typedef struct {
  uint64_t line;           /* modulo 2^64; 0 where there is no place */
  uint64_t start;          /* in bytes */
  uint64_t directory_size; /* in bytes */
  uint64_t name_size;      /* in bytes; the name stands behind the directory */
  uint32_t unit;           /* the number of the unit whose line table has the address */
  uint32_t found;          /* DWTOOL_NO_PLACE, DWTOOL_NO_NAME or DWTOOL_NAMED */
} dwtool_place;
DWTOOL_SAYS(sizeof(dwtool_place) == 40, "a place has 40 bytes");

/* Each call fills the front of a buffer, as much as fits, leaves what stands behind that, and sets `*size` or `*count`
 * to the length of the whole, in bytes or in rows; so a call with a buffer of length 0 asks for the length alone. It
 * sets `*refusal`, whose `what` is DWTOOL_NOTHING where nothing is refused. After DWTOOL_NO_MEMORY the buffers are as
 * they were, but that of dwtool_text. It takes memory by `malloc` and gives all of it back. */

/* What a command prints of the file. DWTOOL_REFUSED: the text is that up to the refusal of the section table, of a unit
 * or of the abbreviation tables. DWTOOL_NONE_SUCH: there is no such command. After DWTOOL_NO_MEMORY the buffer has the
 * front of some of the text, and `*size` is 0. It takes the memory of one unit, and not that of the whole text. */
uint8_t dwtool_text(uint32_t command, const uint8_t *file, size_t file_size, uint8_t *text, size_t text_room,
                    size_t *size, dwtool_refusal *refusal);

/* What a command prints of one unit: DWTOOL_UNITS, DWTOOL_DUMP, DWTOOL_LINES or DWTOOL_RANGES. The texts of the units 0,
 * 1, .. one behind the other are what the program prints of the file, up to the first unit that is refused.
 * DWTOOL_REFUSED: the section table or the unit is refused, and there is no text. DWTOOL_NONE_SUCH: there is no unit of
 * this number, or no such command. */
uint8_t dwtool_unit_text(uint32_t command, const uint8_t *file, size_t file_size, uint32_t unit,
                         uint8_t *text, size_t text_room, size_t *size, dwtool_refusal *refusal);

/* The sections of the file in table order, section 0 included. DWTOOL_REFUSED: the section table is refused, and there
 * is no row. */
uint8_t dwtool_sections(const uint8_t *file, size_t file_size, dwtool_section *rows, size_t rows_room, size_t *count,
                        dwtool_refusal *refusal);

/* The bytes of a section's name, without a zero byte. DWTOOL_NONE_SUCH: there is no section of this number. */
uint8_t dwtool_section_name(const uint8_t *file, size_t file_size, uint32_t section, uint8_t *name, size_t name_room,
                            size_t *size, dwtool_refusal *refusal);

/* The units of the file in their order. DWTOOL_REFUSED: the section table is refused, and there is no row; or a unit's
 * header is, and the rows are those of the units before it. */
uint8_t dwtool_units(const uint8_t *file, size_t file_size, dwtool_unit *rows, size_t rows_room, size_t *count,
                     dwtool_refusal *refusal);

/* The rows of a unit's line table, in the order of its line program; none where the unit names no program.
 * DWTOOL_REFUSED: the section table, the unit's header, its first entry or its line program is refused, and there is no
 * row. DWTOOL_NONE_SUCH: there is no unit of this number. */
uint8_t dwtool_lines(const uint8_t *file, size_t file_size, uint32_t unit, dwtool_line *rows, size_t rows_room,
                     size_t *count, dwtool_refusal *refusal);

/* The places of addresses: a row for each, in their order, and the directories and names of all, one behind the other.
 * An index of the whole file is made once for all addresses, so ask for many in one call. A unit that is refused has no
 * rows. DWTOOL_REFUSED: the section table is refused. */
uint8_t dwtool_places(const uint8_t *file, size_t file_size, const uint64_t *addresses, size_t addresses_count,
                      dwtool_place *places, size_t places_room, size_t *count,
                      uint8_t *names, size_t names_room, size_t *size, dwtool_refusal *refusal);

#ifdef __cplusplus
}
#endif

#endif
