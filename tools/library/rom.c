/* Takes a configuration ROM from standard input and writes the lines of `busconf rom` on its blocks, or its fault. The
 * blocks are written to a place of exactly their size, after one of one less. */
#include "busconf.h"

#include <stdio.h>
#include <stdlib.h>

/* The line of a fault, in a place of exactly its size, after one of one byte less. */
static int put_fault(const struct busconf_rom_fault *fault) {
  size_t length = 0, told = 0;
  char *place;
  if (busconf_rom_fault_text(fault, NULL, 0, &length) != BUSCONF_TOO_SHORT || length > 48) return 6;
  place = (char *)malloc(length - 1);
  if (busconf_rom_fault_text(fault, place, length - 1, &told) != BUSCONF_TOO_SHORT || told != length) return 7;
  free(place);
  place = (char *)malloc(length);
  if (busconf_rom_fault_text(fault, place, length, &told) != BUSCONF_OK || told != length) return 8;
  fwrite(place, 1, length, stdout);
  free(place);
  return 1;
}

/* There is no line of a kind that there isn't. */
static int has_no_other_kinds(void) {
  struct busconf_rom_fault fault = {0, 0, 0};
  size_t needed = 7;
  unsigned kind;
  for (kind = 0; kind < 256; kind++) {
    enum busconf_status status;
    fault.kind = (uint8_t)kind;
    status = busconf_rom_fault_text(&fault, NULL, 0, &needed);
    if (status != (kind >= 1 && kind <= 9 ? BUSCONF_TOO_SHORT : BUSCONF_REFUSED)) return 0;
  }
  return 1;
}

int main(void) {
  static uint8_t all[4096];
  size_t count = fread(all, 1, sizeof all, stdin), needed = 0, again = 0, n;
  uint8_t *bytes = (uint8_t *)malloc(count ? count : 1);
  struct busconf_block *place = (struct busconf_block *)malloc(sizeof *place);
  struct busconf_rom_fault fault;
  enum busconf_status status;
  if (!bytes || !place) return 2;
  if (!has_no_other_kinds()) return 9;
  for (n = 0; n < count; n++) bytes[n] = all[n];
  status = busconf_rom_check(bytes, count, place, 0, &needed, &fault);
  if (status == BUSCONF_REFUSED) {
    free(bytes);
    free(place);
    return put_fault(&fault);
  }
  if (status != BUSCONF_TOO_SHORT || !needed) return 3;
  free(place);
  place = (struct busconf_block *)malloc(needed * sizeof *place);
  if (!place) return 2;
  if (busconf_rom_check(bytes, count, place, needed - 1, &again, &fault) != BUSCONF_TOO_SHORT || again != needed) return 4;
  if (busconf_rom_check(bytes, count, place, needed, &again, &fault) != BUSCONF_OK || again != needed) return 5;
  for (n = 0; n < needed; n++) {
    const struct busconf_block *b = &place[n];
    printf("%s %u length %u crc ", b->kind == BUSCONF_BLOCK_DIRECTORY ? "directory" : "leaf", (unsigned)b->at,
           (unsigned)b->length);
    if (b->crc == BUSCONF_CRC_GOOD) printf("good\n");
    else printf("bad %04x %04x\n", (unsigned)b->kept, (unsigned)b->computed);
  }
  free(bytes);
  free(place);
  return 0;
}
