/* ask SURFACE SCRIPT: prints the answers to a script on a surface, as `hilldale run` does, and ends with its status. */
#include "hilldale.h"
#include <stdio.h>
#include <stdlib.h>

static uint8_t *read_file(const char *name, size_t *length) {
  FILE *file = fopen(name, "rb");
  uint8_t *bytes = NULL;
  if (file == NULL || fseek(file, 0, SEEK_END) != 0) exit(5);
  *length = (size_t)ftell(file);
  rewind(file);
  bytes = malloc(*length + 1);
  if (bytes == NULL || fread(bytes, 1, *length, file) != *length) exit(5);
  fclose(file);
  return bytes;
}

int main(int count, char **words) {
  if (count != 3) return 2;
  size_t surface_length, script_length, room = 65536;
  uint64_t needed;
  uint8_t *surface = read_file(words[1], &surface_length), *script = read_file(words[2], &script_length);
  uint8_t *out = malloc(room);
  if (out == NULL) return HILLDALE_MEMORY;
  int status = hilldale_run(surface, surface_length, script, script_length, HILLDALE_TILE, out, room, &needed);
  if (needed > room) {
    out = realloc(out, room = needed);
    if (out == NULL) return HILLDALE_MEMORY;
    status = hilldale_run(surface, surface_length, script, script_length, HILLDALE_TILE, out, room, &needed);
  }
  fwrite(out, 1, needed, stdout);
  free(out), free(script), free(surface);
  return status;
}
