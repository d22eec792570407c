/* Accepts exactly the captures on standard input that a bus of IEEE 1394a-2000 can send: status 0, else 1. */
#include <stdint.h>
#include <stdio.h>

static int is_bus(const uint32_t *quads, size_t count) {
  size_t at = 0, waiting = 0;
  for (uint32_t node = 0; node < 63; node++) {
    size_t up = 0, down = 0, n = 0;
    do {
      if (at == count)
        return 0;
      uint32_t quad = quads[at++];
      if (n == 0 && quad >> 23 != (0x100 | node << 1))
        return 0;
      if (n > 0 && quad >> 20 != (0x808 | node << 4 | (n - 1)))
        return 0;
      for (int shift = n ? 16 : 6; shift > (n == 2 ? 6 : 0); shift -= 2) {
        up += (quad >> shift & 3) == 2;
        down += (quad >> shift & 3) == 3;
      }
    } while (quads[at - 1] & 1 && ++n < 3);
    if (up > 1 || down > waiting || (!up && down < waiting))
      return 0;
    waiting += 1 - down;
    if (!up)
      return at == count;
  }
  return 0;
}

int main(void) {
  static uint32_t quads[257];
  uint8_t pair[8];
  size_t count = 0, got;
  while ((got = fread(pair, 1, 8, stdin)) == 8 && count < 257) {
    for (int byte = 0; byte < 4; byte++) {
      if ((pair[byte] ^ pair[byte + 4]) != 0xff)
        return 1;
      quads[count] = quads[count] << 8 | pair[byte];
    }
    count++;
  }
  return got == 0 && is_bus(quads, count) ? 0 : 1;
}
