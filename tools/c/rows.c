/* rows COMMAND FILE: the lines that the program dwtool writes for `units`, for `sections` and, of rows alone, for `lines`,
 * made of the rows that the calls for C fill. */
#include <dwtool_file.h>
#include <string.h>

static void print_unit(const dwtool_unit *u) {
  static const char *const kinds[] = {"", "compile", "type", "partial", "skeleton", "split_compile", "split_type"};
  printf("unit %" PRIu32 " at 0x%" PRIx64 " format %d version %d type %s address %d abbrev 0x%" PRIx32 " entries 0x%" PRIx64
         " end 0x%" PRIx64, u->number, u->place, u->offset_size * 8, u->version, kinds[u->kind % 7],
         u->address_size, u->abbrev, u->entries, u->end);
  if (u->kind == 4 || u->kind == 5) printf(" id 0x%016" PRIx64, u->id);
  if (u->kind == 2 || u->kind == 6) printf(" signature 0x%016" PRIx64 " type 0x%" PRIx64, u->id, u->type_offset);
  putchar('\n');
}

static void print_line(const dwtool_line *l) {
  printf("0x%" PRIx64 " %" PRIu64 " %" PRIu64 " %" PRIu64 "%s%s%s%s%s", l->address, l->file, l->line, l->column,
         l->stmt ? " stmt" : "", l->block ? " block" : "", l->prologue_end ? " prologue_end" : "",
         l->epilogue_begin ? " epilogue_begin" : "", l->end ? " end" : "");
  if (l->op_index != 0) printf(" op %" PRIu64, l->op_index);
  if (l->isa != 0) printf(" isa %" PRIu64, l->isa);
  if (l->discriminator != 0) printf(" discriminator %" PRIu64, l->discriminator);
  putchar('\n');
}

static int print_units(const dwtool_file *file, dwtool_refusal *refusal) {
  size_t count = 0;
  dwtool_unit none;
  dwtool_units(dwtool_bytes(file), dwtool_size(file), &none, 0, &count, refusal);
  dwtool_unit *rows = (dwtool_unit *)malloc((count + 1) * sizeof *rows);
  if (rows == NULL) return DWTOOL_NO_MEMORY;
  int status = dwtool_units(dwtool_bytes(file), dwtool_size(file), rows, count, &count, refusal);
  for (size_t i = 0; i < count; i++) print_unit(&rows[i]);
  free(rows);
  return status;
}

static int print_sections(const dwtool_file *file, dwtool_refusal *refusal) {
  size_t count = 0, size = 0;
  dwtool_section none;
  uint8_t name[4096];
  dwtool_sections(dwtool_bytes(file), dwtool_size(file), &none, 0, &count, refusal);
  dwtool_section *rows = (dwtool_section *)malloc((count + 1) * sizeof *rows);
  if (rows == NULL) return DWTOOL_NO_MEMORY;
  int status = dwtool_sections(dwtool_bytes(file), dwtool_size(file), rows, count, &count, refusal);
  for (size_t i = 0; i < count; i++) {
    dwtool_section_name(dwtool_bytes(file), dwtool_size(file), (uint32_t)i, name, sizeof name, &size, refusal);
    printf("section %zu \"", i);
    for (size_t k = 0; k < size && k < sizeof name; k++) {
      if (name[k] == '"' || name[k] == '\\') printf("\\%c", name[k]);
      else if (name[k] >= 0x20 && name[k] <= 0x7e) putchar(name[k]);
      else printf("\\x%02x", name[k]);
    }
    printf("\" type 0x%" PRIx32 " flags 0x%" PRIx64 " size 0x%" PRIx64 "\n", rows[i].kind, rows[i].flags, rows[i].size);
    if (size != rows[i].name_size) status = 100;
  }
  free(rows);
  return status;
}

static int print_lines(const dwtool_file *file, dwtool_refusal *refusal) {
  for (uint32_t unit = 0;; unit++) {
    size_t count = 0;
    dwtool_line none;
    dwtool_lines(dwtool_bytes(file), dwtool_size(file), unit, &none, 0, &count, refusal);
    dwtool_line *rows = (dwtool_line *)malloc((count + 1) * sizeof *rows);
    if (rows == NULL) return DWTOOL_NO_MEMORY;
    int status = dwtool_lines(dwtool_bytes(file), dwtool_size(file), unit, rows, count, &count, refusal);
    for (size_t i = 0; i < count; i++) print_line(&rows[i]);
    free(rows);
    if (status == DWTOOL_NONE_SUCH) return DWTOOL_DONE;
    if (status != DWTOOL_DONE) return status;
  }
}

int main(int argc, char **argv) {
  dwtool_refusal refusal;
  char line[DWTOOL_LINE_ROOM];
  if (argc < 3) return 2;
  dwtool_file *file = dwtool_open(argv[2]);
  if (file == NULL) return 3;
  int status = strcmp(argv[1], "units") == 0 ? print_units(file, &refusal)
               : strcmp(argv[1], "lines") == 0 ? print_lines(file, &refusal) : print_sections(file, &refusal);
  dwtool_line_of(status, &refusal, line);
  fputs(line, stderr);
  dwtool_close(file);
  return status;
}
