/* Prints the dump of a file, unit after unit, by dwtool_unit_text: for bench/all. */
#include <dwtool_file.h>

static int put(void *context, const uint8_t *bytes, size_t size) {
  return fwrite(bytes, 1, size, (FILE *)context) != size;
}

int main(int count, char **words) {
  dwtool_refusal refusal;
  dwtool_file *file = count == 2 ? dwtool_open(words[1]) : NULL;
  if (file == NULL) return 3;
  setvbuf(stdout, NULL, _IONBF, 0);
  int status = dwtool_each_unit(file, DWTOOL_DUMP, put, stdout, &refusal);
  dwtool_close(file);
  return status;
}
