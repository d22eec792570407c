/* `refusal STANDARD` takes a capture from standard input and writes, where the standard refuses it, the line of the fault
 * and its sentence, as `busview packets` does. Each text is written to a place of exactly its size, after one of none and
 * one of one byte less; each place is a block of its own, so that valgrind sees what is written past it. */
#include "busconf.h"

#include <stdio.h>
#include <stdlib.h>
#include <string.h>

static int bad = 0;
static uint32_t standard;

static void expect(int holds, const char *what) {
  if (!holds) {
    printf("FAILED: %s\n", what);
    bad = 1;
  }
}

static void *block(size_t bytes) {
  void *at = malloc(bytes ? bytes : 1);
  if (!at) exit(2);
  memset(at, 0x5a, bytes ? bytes : 1);
  return at;
}

static int filled(const char *at, size_t count) {
  size_t n;
  for (n = 0; n < count; n++)
    if (at[n] != 0x5a) return 0;
  return 1;
}

/* The sentence of a capture's fault, or of its list's, in a block of exactly its size. */
static char *sentence(const uint8_t *bytes, const uint32_t *quads, size_t count, const struct busconf_fault *fault,
                      size_t *length) {
  size_t rooms[4], told = 0, n;
  char *place = (char *)block(0);
  uint32_t status = quads ? busconf_sentence(quads, count, standard, fault, place, 0, length)
                          : busconf_sentence_capture(bytes, count, standard, fault, place, 0, length);
  expect(status == BUSCONF_TOO_SHORT && *length > 0 && *length <= 160, "the length of a sentence");
  rooms[0] = *length - 1;
  rooms[1] = *length + 9;
  rooms[2] = *length;
  for (n = 0; n < 3; n++) {
    free(place);
    place = (char *)block(rooms[n]);
    status = quads ? busconf_sentence(quads, count, standard, fault, place, rooms[n], &told)
                   : busconf_sentence_capture(bytes, count, standard, fault, place, rooms[n], &told);
    expect(told == *length, "one length");
    expect(status == (n ? BUSCONF_OK : BUSCONF_TOO_SHORT), "a sentence has room, or says so");
    expect(n ? filled(place + told, rooms[n] - told) : filled(place, rooms[n]), "what isn't told stays");
  }
  return place;
}

/* Kinds and places at will: each answers, and none reads past the list. */
static void check_all(const uint8_t *bytes, size_t size, const uint32_t *quads, size_t count) {
  struct busconf_fault fault = {0, 0, 255, 255};
  size_t at, needed;
  unsigned kind;
  char *place = (char *)block(0);
  for (kind = 0; kind < 256; kind++)
    for (at = 0; at < count + 4; at++) {
      uint32_t list, capture;
      fault.kind = (uint8_t)kind;
      fault.at = at < count + 2 ? at : (size_t)0 - (at - count - 1);
      needed = 7;
      list = busconf_sentence(quads, count, standard, &fault, place, 0, &needed);
      expect(list == (kind >= 1 && kind <= 11 ? BUSCONF_TOO_SHORT : BUSCONF_REFUSED), "the kinds of lists");
      expect(list == BUSCONF_TOO_SHORT || needed == 7, "nothing is told of a kind that there isn't");
      capture = busconf_sentence_capture(bytes, size, standard, &fault, place, 0, &needed);
      expect(capture == (kind >= 1 && kind <= 13 ? BUSCONF_TOO_SHORT : BUSCONF_REFUSED), "the kinds of captures");
      expect(capture == BUSCONF_REFUSED || needed <= 160, "no sentence has more than 160 bytes");
    }
  free(place);
}

/* A number that is no standard: nothing is told of any kind. */
static void check_no_standard(const uint8_t *bytes, size_t size, const uint32_t *quads, size_t count) {
  struct busconf_fault fault = {0, 0, 0, 0};
  size_t needed = 7;
  char place[160];
  unsigned kind;
  memset(place, 0x5a, sizeof place);
  for (kind = 0; kind < 15; kind++) {
    uint32_t list, capture;
    fault.kind = (uint8_t)kind;
    list = busconf_sentence(quads, count, standard + 1, &fault, place, sizeof place, &needed);
    expect(list == (kind >= 1 && kind <= 11 ? BUSCONF_NO_STANDARD : BUSCONF_REFUSED), "no standard of a list");
    capture = busconf_sentence_capture(bytes, size, standard + 1, &fault, place, sizeof place, &needed);
    expect(capture == (kind >= 1 && kind <= 13 ? BUSCONF_NO_STANDARD : BUSCONF_REFUSED), "no standard of a capture");
    expect(needed == 7 && filled(place, sizeof place), "nothing is told by no standard");
  }
}

int main(int argc, char **argv) {
  static uint8_t all[1 << 20];
  static struct busconf_node nodes[BUSCONF_MAX_NODES];
  size_t size = fread(all, 1, sizeof all, stdin), count = size / 8, n, length = 0, other = 0;
  uint8_t *bytes = (uint8_t *)block(size);
  uint32_t *quads = (uint32_t *)block(4 * count);
  struct busconf_bus bus;
  struct busconf_fault fault;
  if (argc != 2) return 2;
  standard = (uint32_t)atoi(argv[1]);
  memcpy(bytes, all, size);
  for (n = 0; n < count; n++)
    quads[n] = (uint32_t)bytes[8 * n] << 24 | (uint32_t)bytes[8 * n + 1] << 16 | (uint32_t)bytes[8 * n + 2] << 8
             | bytes[8 * n + 3];
  if (busconf_read_capture(bytes, size, standard, nodes, BUSCONF_MAX_NODES, &bus, &fault) == BUSCONF_REFUSED) {
    char line[128], *text = sentence(bytes, NULL, size, &fault, &length);
    if (busconf_fault_text(&fault, line, sizeof line, &n) != BUSCONF_OK) return 3;
    fwrite(line, 1, n, stdout);
    fwrite(text, 1, length, stdout);
    if (fault.kind <= BUSCONF_FAULT_TOO_MANY) {
      char *of_list = sentence(NULL, quads, count, &fault, &other);
      expect(other == length && memcmp(text, of_list, length) == 0, "a list has its capture's sentence");
      free(of_list);
    }
    free(text);
  }
  if (count < 16) check_all(bytes, size, quads, count);
  check_no_standard(bytes, size, quads, count);
  free(bytes);
  free(quads);
  return bad;
}
