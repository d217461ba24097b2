/* symbolize FILE ADDRESS ..: the place in the source of each address, as DIRECTORY/NAME:LINE. */
#include <dwtool_file.h>
#include <inttypes.h>
#include <stdio.h>
#include <stdlib.h>

static void print_place(const dwtool_place *place, const uint8_t *names) {
  const char *directory = (const char *)names + place->start;
  const char *name = directory + place->directory_size;
  if (place->found == DWTOOL_NO_PLACE) {
    puts("??:0");
  } else if (place->found == DWTOOL_NO_NAME) {
    printf("??:%" PRIu64 "\n", place->line);
  } else if (place->directory_size == 0 || (place->name_size != 0 && name[0] == '/')) {
    printf("%.*s:%" PRIu64 "\n", (int)place->name_size, name, place->line);
  } else {
    printf("%.*s/%.*s:%" PRIu64 "\n", (int)place->directory_size, directory, (int)place->name_size, name, place->line);
  }
}

int main(int argc, char **argv) {
  if (argc < 3) {
    fprintf(stderr, "symbolize FILE ADDRESS ..\n");
    return 2;
  }
  dwtool_file *file = dwtool_open(argv[1]);
  if (file == NULL) {
    perror(argv[1]);
    return 3;
  }
  size_t asked = (size_t)argc - 2, count = 0, size = 0, room = 65536;
  uint64_t *addresses = calloc(asked, sizeof *addresses);
  dwtool_place *places = calloc(asked, sizeof *places);
  uint8_t *names = malloc(room);
  if (addresses == NULL || places == NULL || names == NULL) return DWTOOL_NO_MEMORY;
  for (size_t i = 0; i < asked; i++) addresses[i] = strtoull(argv[i + 2], NULL, 0);

  dwtool_refusal refusal;
  uint8_t status;
  /* once more where the names had too little room */
  for (;;) {
    status = dwtool_places(dwtool_bytes(file), dwtool_size(file), addresses, asked, places, asked, &count, names, room,
                           &size, &refusal);
    if (size <= room) break;
    free(names);
    if ((names = malloc(room = size)) == NULL) return DWTOOL_NO_MEMORY;
  }
  if (status != DWTOOL_DONE) {
    char line[DWTOOL_LINE_ROOM];
    dwtool_line_of(status, &refusal, line);
    fputs(line, stderr);
  }
  for (size_t i = 0; i < count; i++) print_place(&places[i], names);
  free(names);
  free(places);
  free(addresses);
  dwtool_close(file);
  return status;
}
