/* `diff STANDARD OLD NEW` takes two captures, from files or where the word is - from standard input, and writes what differs
 * between their buses, as `busview diff` does. The records are written to a place of exactly their size, after one of none
 * and one of one record less; each place is a block of its own, so that valgrind sees what is written past it. */
#include "busconf.h"

#include <stdio.h>
#include <stdlib.h>
#include <string.h>

static uint32_t standard;

static void expect(int holds, const char *what) {
  if (holds) return;
  printf("FAILED: %s\n", what);
  exit(1);
}

static void *block(size_t bytes) {
  void *at = malloc(bytes ? bytes : 1);
  if (!at) exit(2);
  memset(at, 0x5a, bytes ? bytes : 1);
  return at;
}

static int filled(const void *at, size_t count) {
  size_t n;
  for (n = 0; n < count; n++)
    if (((const char *)at)[n] != 0x5a) return 0;
  return 1;
}

/* The first quadlets of a capture's packets, in a block of exactly their size. */
static uint32_t *list_of(const char *name, size_t *count) {
  static uint8_t bytes[1 << 16];
  size_t n;
  uint32_t *quads;
  FILE *from = strcmp(name, "-") ? fopen(name, "rb") : stdin;
  if (!from) exit(2);
  *count = fread(bytes, 1, sizeof bytes, from) / 8;
  if (from != stdin) fclose(from);
  quads = (uint32_t *)block(*count * sizeof *quads);
  for (n = 0; n < *count; n++) {
    const uint8_t *at = bytes + 8 * n;
    quads[n] = (uint32_t)at[0] << 24 | (uint32_t)at[1] << 16 | (uint32_t)at[2] << 8 | at[3];
  }
  return quads;
}

/* The line of a fault behind the name of its file. */
static void put_fault(const char *path, const struct busconf_fault *fault) {
  const char *name = strrchr(path, '/') ? strrchr(path, '/') + 1 : path;
  char line[128];
  size_t length;
  expect(busconf_fault_text(fault, line, sizeof line, &length) == BUSCONF_OK, "the line of a fault");
  printf("%s: %.*s", name, (int)length, line);
}

static void put_place(const char *word, const struct busconf_cable *cable) {
  printf(" %s port %d of node %d on its port %d", word, cable->port, cable->parent, cable->child_port);
}

static int is_there(const struct busconf_cable *cable) {
  if (cable->child != BUSCONF_ID_NONE) return 1;
  expect(cable->parent == BUSCONF_ID_NONE && !cable->port && !cable->child_port && !cable->speed, "no cable");
  return 0;
}

static void put_lone(int id, const char *alone, const char *word, const struct busconf_cable *cable) {
  printf("node %d", id);
  if (is_there(cable)) put_place(word, cable);
  else printf(" %s", alone);
}

static void put_pair(const struct busconf_change *it) {
  printf("node %d", it->old_id);
  if (it->old_id != it->new_id) printf(" now %d", it->new_id);
}

static void put_move(const struct busconf_change *it) {
  int old = is_there(&it->old_cable), now = is_there(&it->new_cable);
  put_pair(it);
  if (old) put_place(now ? "moved from" : "left", &it->old_cable);
  if (now) put_place(old ? "to" : "joined", &it->new_cable);
}

static void put_id(const char *word, int id) {
  if (id == BUSCONF_ID_NONE) printf("%s none", word);
  else printf("%s %d", word, id);
}

static void put_another(const char *word, const struct busconf_change *it) {
  printf("%s", word);
  if (it->old_id == it->new_id) {
    printf(" is another node, again %d", it->old_id);
    return;
  }
  put_id(" old", it->old_id);
  put_id(" new", it->new_id);
}

static void put_change(const struct busconf_change *it) {
  static const char *const values[] = {"link", "gap", "speed", "contender", "power"};
  switch ((enum busconf_change_kind)it->kind) {
  case BUSCONF_CHANGE_WENT: put_lone(it->old_id, "went", "went from", &it->old_cable); break;
  case BUSCONF_CHANGE_CAME: put_lone(it->new_id, "came", "came to", &it->new_cable); break;
  case BUSCONF_CHANGE_MOVED: put_move(it); break;
  case BUSCONF_CHANGE_LINK:
  case BUSCONF_CHANGE_GAP:
  case BUSCONF_CHANGE_SPEED:
  case BUSCONF_CHANGE_CONTENDER:
  case BUSCONF_CHANGE_POWER:
    put_pair(it);
    printf(" %s %d now %d", values[it->kind - BUSCONF_CHANGE_LINK], it->old_value, it->new_value);
    break;
  case BUSCONF_CHANGE_ROOT: put_another("root", it); break;
  case BUSCONF_CHANGE_MANAGER: put_another("irm", it); break;
  }
  printf("\n");
}

/* Of two lists that are refused the old one's fault is told; the new one's is asked for besides. */
static void put_refusals(char **names, uint8_t list, const struct busconf_fault *fault, const uint32_t *quads,
                         size_t count) {
  struct busconf_fault other;
  struct busconf_bus bus;
  expect(list == BUSCONF_LIST_OLD || list == BUSCONF_LIST_NEW, "which list");
  put_fault(names[list == BUSCONF_LIST_NEW], fault);
  if (list == BUSCONF_LIST_OLD && busconf_read(quads, count, standard, NULL, 0, &bus, &other) == BUSCONF_REFUSED)
    put_fault(names[1], &other);
}

int main(int argc, char **argv) {
  struct busconf_fault fault, kept;
  struct busconf_change *place;
  size_t old_count, count, needed = 77, told = 77, n;
  uint8_t list = 99;
  uint32_t *old, *now;
  enum busconf_status status;
  if (argc < 4) return 2;
  standard = (uint32_t)atoi(argv[1]);
  old = list_of(argv[2], &old_count);
  now = list_of(argv[3], &count);
  memset(&fault, 7, sizeof fault);
  kept = fault;
  expect(busconf_diff(old, old_count, now, count, 1996, NULL, 0, &needed, &list, &fault) == BUSCONF_NO_STANDARD
             && needed == 77 && list == 99 && !memcmp(&fault, &kept, sizeof fault), "no standard");
  status = busconf_diff(old, old_count, now, count, standard, NULL, 0, &needed, &list, &fault);
  if (status == BUSCONF_REFUSED) {
    expect(needed == 77, "nothing is told of a list that is refused");
    put_refusals(argv + 2, list, &fault, now, count);
    free(old);
    free(now);
    return 0;
  }
  expect(list == 99 && !memcmp(&fault, &kept, sizeof fault), "no fault");
  expect(status == (needed ? BUSCONF_TOO_SHORT : BUSCONF_OK), "no room");
  if (needed) {
    place = (struct busconf_change *)block((needed - 1) * sizeof *place);
    expect(busconf_diff(old, old_count, now, count, standard, place, needed - 1, &told, &list, &fault) == BUSCONF_TOO_SHORT
               && told == needed && filled(place, (needed - 1) * sizeof *place), "one record less");
    free(place);
  }
  place = (struct busconf_change *)block(needed * sizeof *place);
  expect(busconf_diff(old, old_count, now, count, standard, place, needed, &told, &list, &fault) == BUSCONF_OK
             && told == needed && list == 99, "room for all");
  for (n = 0; n < told; n++) put_change(place + n);
  free(place);
  free(old);
  free(now);
  return 0;
}
