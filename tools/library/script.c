/* `script run`, `advice`, `trace`, `waves` and `capture NAME`: takes a script from standard input and writes what the
 * program writes of it, with the program's status. Each text is written to a place of exactly its size, after one of none
 * and one of one byte less; each place is a block of its own, so that valgrind sees what is written past it. */
#include "busconf.h"

#include <stdio.h>
#include <stdlib.h>
#include <string.h>

typedef enum busconf_status (*script_call)(const char *, size_t, char *, size_t, size_t *,
                                           struct busconf_script_fault *);

/* The name behind `capture`, in a block of exactly its size. */
static const char *name;
static size_t name_length;

static enum busconf_status capture(const char *script, size_t count, char *place, size_t room, size_t *needed,
                                   struct busconf_script_fault *fault) {
  return busconf_capture(script, count, name, name_length, (uint8_t *)place, room, needed, fault);
}

static script_call call_of(const char *form) {
  if (strcmp(form, "advice") == 0) return busconf_advice;
  if (strcmp(form, "trace") == 0) return busconf_trace;
  if (strcmp(form, "waves") == 0) return busconf_waves;
  return strcmp(form, "capture") == 0 ? capture : busconf_run;
}

static int filled(const char *at, size_t count) {
  size_t n;
  for (n = 0; n < count; n++)
    if (at[n] != 0x5a) return 0;
  return 1;
}

static char *block(size_t bytes) {
  char *at = (char *)malloc(bytes ? bytes : 1);
  if (!at) exit(2);
  memset(at, 0x5a, bytes ? bytes : 1);
  return at;
}

/* All of standard input, in a block of exactly its size. */
static char *input(size_t *count) {
  size_t got, room = 1 << 16, n = 0;
  char *at = (char *)malloc(room), *exact;
  if (!at) exit(2);
  while ((got = fread(at + n, 1, room - n, stdin)) > 0) {
    n += got;
    if (n == room) at = (char *)realloc(at, room *= 2);
    if (!at) exit(2);
  }
  exact = block(n);
  memcpy(exact, at, n);
  free(at);
  *count = n;
  return exact;
}

/* The line of a fault, and its sentence where a script is given, each in a place of exactly its size. */
static int put_fault(const struct busconf_script_fault *fault, const char *script, size_t count) {
  size_t length = 0, told = 0;
  char *place;
  if (busconf_script_fault_text(fault, NULL, 0, &length) != BUSCONF_TOO_SHORT || length > 48) return 13;
  place = block(length - 1);
  if (busconf_script_fault_text(fault, place, length - 1, &told) != BUSCONF_TOO_SHORT || told != length) return 14;
  if (!filled(place, length - 1)) return 15;
  free(place);
  place = block(length);
  if (busconf_script_fault_text(fault, place, length, &told) != BUSCONF_OK || told != length) return 16;
  fwrite(place, 1, length, stdout);
  free(place);
  if (!script) return 1;
  if (busconf_script_sentence(script, count, fault, NULL, 0, &length) != BUSCONF_TOO_SHORT) return 17;
  place = block(length);
  if (busconf_script_sentence(script, count, fault, place, length, &told) != BUSCONF_OK || told != length) return 18;
  fwrite(place, 1, length, stdout);
  free(place);
  return 1;
}

/* Nothing is told of a kind that there isn't. */
static int has_no_other_kinds(void) {
  struct busconf_script_fault fault = {1, 0};
  size_t needed = 7;
  unsigned kind;
  for (kind = 0; kind < 256; kind++) {
    enum busconf_status wanted = kind >= 1 && kind <= 17 ? BUSCONF_TOO_SHORT : BUSCONF_REFUSED;
    fault.kind = (uint8_t)kind;
    if (busconf_script_fault_text(&fault, NULL, 0, &needed) != wanted) return 0;
    if (busconf_script_sentence("x", 1, &fault, NULL, 0, &needed) != wanted) return 0;
  }
  return 1;
}

int main(int argc, char **argv) {
  const char *form = argc > 1 ? argv[1] : "run";
  script_call call = call_of(form);
  struct busconf_script_fault fault = {77, 99}, again = {77, 99};
  size_t count, needed = 7, told = 7;
  char *script = input(&count), *none = block(0), *place;
  enum busconf_status status;
  if (argc > 2) {
    name_length = strlen(argv[2]);
    name = (const char *)memcpy(block(name_length), argv[2], name_length);
  }
  status = call(script, count, none, 0, &needed, &fault);
  free(none);
  if (!has_no_other_kinds()) return 19;
  if (status == BUSCONF_REFUSED) {
    int said, explains = strcmp(form, "trace") == 0 || strcmp(form, "waves") == 0;
    if (needed != 7 || fault.kind < BUSCONF_SCRIPT_WORD || fault.kind > BUSCONF_SCRIPT_TOO_MANY_MAPS) return 3;
    said = put_fault(&fault, explains ? script : NULL, count);
    free(script);
    return said;
  }
  if (status == BUSCONF_NO_NAME) return needed == 7 && fault.line == 77 && fault.kind == 99 ? 2 : 20;
  if (fault.line != 77 || fault.kind != 99) return 4;
  if (status != (needed ? BUSCONF_TOO_SHORT : BUSCONF_OK)) return 5;
  if (needed) {
    place = block(needed - 1);
    if (call(script, count, place, needed - 1, &told, &again) != BUSCONF_TOO_SHORT || told != needed) return 6;
    if (!filled(place, needed - 1) || again.kind != 99) return 7;
    free(place);
  }
  place = block(needed + 3);
  if (call(script, count, place, needed + 3, &told, &again) != BUSCONF_OK || told != needed) return 8;
  if (!filled(place + needed, 3)) return 9;
  free(place);
  place = block(needed);
  if (call(script, count, place, needed, &told, &again) != BUSCONF_OK || told != needed) return 10;
  fwrite(place, 1, needed, stdout);
  free(place);
  free(script);

  /* A script of one byte more than there may be isn't looked at. */
  script = block(1048577);
  memset(script, '\n', 1048577);
  told = 5;
  again.kind = 98;
  place = block(1);
  if (call(script, 1048577, place, 1, &told, &again) != BUSCONF_TOO_LONG || told != 5 || again.kind != 98) return 11;
  if (!filled(place, 1)) return 12;
  free(place);
  free(script);
  return 0;
}
