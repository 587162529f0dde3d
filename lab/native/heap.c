/* The heap of the library for C: the three functions that the proved code asks for memory, by malloc, realloc and free.
   An answer says whether memory was given, and where; a size of zero takes a least one, so that each place is one of its own. */
#include <stdint.h>
#include <stdlib.h>

struct place {
  uint64_t is_given;
  void *at;
};

static char nothing;

static struct place told(void *at) {
  struct place place = {at != NULL, at != NULL ? at : &nothing};
  return place;
}

struct place rattle_alloc(size_t size, size_t least) { return told(malloc(size != 0 ? size : least)); }

struct place rattle_realloc(void *at, size_t former, size_t size, size_t least) {
  (void)former;
  return told(realloc(at, size != 0 ? size : least));
}

void rattle_dealloc(void *at) { free(at); }
