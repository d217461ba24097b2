/* told COMMAND FILE [whole]: what the program dwtool writes, by way of the calls for C. With `whole`, of dwtool_text; else
 * unit by unit, where the command prints something of each. */
#include <dwtool_file.h>
#include <string.h>

static int print(void *context, const uint8_t *bytes, size_t size) {
  return fwrite(bytes, 1, size, (FILE *)context) != size;
}

/* The whole text: its length first, then the text. */
static int print_whole(const dwtool_file *file, uint32_t command, dwtool_refusal *refusal) {
  uint8_t none = 0;
  size_t size = 0, again = 0;
  int status = dwtool_text(command, dwtool_bytes(file), dwtool_size(file), &none, 0, &size, refusal);
  uint8_t *text = (uint8_t *)malloc(size + 1);
  if (text == NULL) return DWTOOL_NO_MEMORY;
  int second = dwtool_text(command, dwtool_bytes(file), dwtool_size(file), text, size, &again, refusal);
  if (second != status || again != size) status = 100;
  fwrite(text, 1, size, stdout);
  free(text);
  return status;
}

int main(int argc, char **argv) {
  static const char *const words[] = {"units", "sections", "abbrev", "dump", "lines", "ranges"};
  uint32_t command = 0;
  dwtool_refusal refusal;
  char line[DWTOOL_LINE_ROOM];
  if (argc < 3) return 2;
  while (command < 6 && strcmp(argv[1], words[command]) != 0) command++;
  dwtool_file *file = dwtool_open(argv[2]);
  if (file == NULL) return 3;
  int whole = argc > 3 || command == DWTOOL_SECTIONS || command == DWTOOL_ABBREV;
  int status = whole ? print_whole(file, command, &refusal) : dwtool_each_unit(file, command, print, stdout, &refusal);
  dwtool_line_of(status, &refusal, line);
  fputs(line, stderr);
  dwtool_close(file);
  return status;
}
