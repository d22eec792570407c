/* The three functions by which the proved code takes memory, for a machine for which the Rattle kit has none. They do what the
 * kit's do on x86-64: a block of no bytes is one of as many bytes as it is aligned to, and where there is none a pointer to
 * something stands beside 0. malloc aligns as the C standard requires, which is enough for every record here. Nothing here
 * is proved. */
#include <stddef.h>
#include <stdint.h>
#include <stdlib.h>

struct block {
  uint64_t is_there; /* 1 or 0 */
  void *at;
};

struct block rattle_alloc(size_t bytes, size_t alignment);
struct block rattle_realloc(void *old, size_t before, size_t bytes, size_t alignment);
void rattle_dealloc(void *old);

static uint64_t nothing;

static struct block block_at(void *at) {
  struct block found;
  found.is_there = at != NULL;
  found.at = at ? at : &nothing;
  return found;
}

struct block rattle_alloc(size_t bytes, size_t alignment) { return block_at(malloc(bytes ? bytes : alignment)); }

struct block rattle_realloc(void *old, size_t before, size_t bytes, size_t alignment) {
  (void)before;
  return block_at(realloc(old, bytes ? bytes : alignment));
}

void rattle_dealloc(void *old) { free(old); }
