/* `events` takes a script from standard input and writes the line of each event of its trace, put together from the event's
 * record. Each line is looked for as busconf_trace_each hands it and in the whole text. Of a script that is refused it
 * writes the line and the sentence, as `busview trace` does. */
#include "busconf.h"

#include <stdio.h>
#include <stdlib.h>
#include <string.h>

static const char *const states[] = {"R0", "R1", "T0", "T1", "T2", "T3", "S0", "A0"};
static const char *const signals[] = {"BUS_RESET", "IDLE", "TX_PARENT_NOTIFY", "TX_CHILD_NOTIFY", "TX_GRANT", "packet",
                                      "TX_IDENT_DONE"};

static void expect(int holds, const char *what) {
  if (holds) return;
  printf("FAILED: %s\n", what);
  exit(1);
}

static void *block(size_t bytes) {
  void *at = malloc(bytes ? bytes : 1);
  if (!at) exit(2);
  memset(at, 0x5a, bytes ? bytes : 1);
  return at;
}

/* All of standard input, in a block of exactly its size. */
static char *input(size_t *count) {
  static char bytes[1 << 20];
  char *at;
  *count = fread(bytes, 1, sizeof bytes, stdin);
  at = (char *)block(*count);
  memcpy(at, bytes, *count);
  return at;
}

static char *put_choice(char *to, uint32_t number) {
  return to + (number == BUSCONF_NUMBER_NONE ? sprintf(to, " -") : sprintf(to, " %u", number));
}

/* What happens, behind the turn and the name. */
static void put_what(char *to, const struct busconf_event *it) {
  switch ((enum busconf_event_kind)it->kind) {
  case BUSCONF_EVENT_ENTERS: sprintf(to, " enters %s", states[it->value]); break;
  case BUSCONF_EVENT_TIMEOUT: sprintf(to, " configuration timeout"); break;
  case BUSCONF_EVENT_TO_PARENT: sprintf(to, " port %u to its parent", it->port); break;
  case BUSCONF_EVENT_TO_CHILD: sprintf(to, " port %u to a child", it->port); break;
  case BUSCONF_EVENT_COIN:
    to += sprintf(to, " coin");
    if (it->second != BUSCONF_NUMBER_NONE) to = put_choice(to, it->second);
    sprintf(to, " wait %u", it->value);
    break;
  case BUSCONF_EVENT_PHY_ID: sprintf(to, " phy_ID %u", it->value); break;
  case BUSCONF_EVENT_MISSES: sprintf(to, " misses a tick"); break;
  case BUSCONF_EVENT_SENDS:
    to += sprintf(to, " port %u sends %s", it->port, signals[it->value]);
    if (it->value == BUSCONF_SIGNAL_PACKET) sprintf(to, " %08x", it->second);
    break;
  default: expect(0, "no such kind");
  }
}

/* The line of an event whose names are parts of this text. */
static void put_line(char *to, const struct busconf_event *it, const char *text) {
  int length = (int)it->name_length;
  const char *name = text + it->name;
  to += sprintf(to, "turn %u", it->turn);
  if (it->kind == BUSCONF_EVENT_PLUG)
    to += sprintf(to, " plug %.*s %u %.*s %u", length, name, it->port, (int)it->other_length, text + it->other,
                  it->other_port);
  else if (it->kind == BUSCONF_EVENT_PULL) to += sprintf(to, " pull %.*s %u", length, name, it->port);
  else if (it->kind == BUSCONF_EVENT_RESET) to += sprintf(to, " reset %.*s", length, name);
  else if (it->kind == BUSCONF_EVENT_HOLD) to += sprintf(to, " hold %.*s %u %u", length, name, it->port, it->value);
  else if (it->kind == BUSCONF_EVENT_CONFIG)
    to = put_choice(put_choice(to + sprintf(to, " config %.*s", length, name), it->value), it->second);
  else {
    to += sprintf(to, " %.*s", length, name);
    put_what(to, it);
    to += strlen(to);
  }
  sprintf(to, "\n");
}

/* Names may be words of a trace; what stands there is the event all the same. */
static void try_names(void) {
  static const char *const lines[] = {
      "turn 5 plug enters R0\n", "turn 5 reset configuration timeout\n", "turn 5 reset enters\n", "turn 5 reset reset\n",
      "turn 5 plug coin 1 wait 2\n", "turn 5 config phy_ID 3\n", "turn 5 config config - 3\n", "turn 5 hold port 1 2\n",
      "turn 5 hold port 1 to a child\n", "turn 5 pull port 1\n", "turn 5 pull port 1 to its parent\n",
      "turn 4294967295 a port 0 sends packet 00ff1234\n", "turn 5 plug plug 0 plug 1\n", "turn 5 config a 62 63\n",
      "turn 5 misses misses a tick\n", "turn 5 reset misses a tick\n"};
  static const char *const none[] = {
      "", "\n", "turn 5\n", "turn 05 reset a\n", "turn +5 reset a\n", "turn 5 reset A\n", "turn 5 reset a \n",
      "turn 4294967296 reset a\n", "turn 5  reset a\n", "turn 5 a port 0 sends packet 00FF1234\n", "turn 5 reset a\r\n",
      "turn 5 a enters Q2\n", "turn 5 reset abcdefghijklmnopq\n", "Turn 5 reset a\n", "turn 5 reset a",
      "turn 5 a misses a turn\n"};
  char made[160];
  size_t n, next = 7;
  struct busconf_event event;
  for (n = 0; n < sizeof lines / sizeof *lines; n++) {
    size_t length = strlen(lines[n]);
    expect(busconf_trace_event(lines[n], length, 0, &event, &next) == BUSCONF_OK && next == length, lines[n]);
    put_line(made, &event, lines[n]);
    expect(strcmp(made, lines[n]) == 0, made);
  }
  memset(&event, 0x5a, sizeof event);
  next = 7;
  for (n = 0; n < sizeof none / sizeof *none; n++)
    expect(busconf_trace_event(none[n], strlen(none[n]), 0, &event, &next) == BUSCONF_REFUSED && next == 7
               && event.kind == 0x5a, none[n]);
}

struct walk {
  const char *text; /* the whole trace */
  size_t count, at;
  int calls, last;  /* it stops at the last of so many calls, unless that is 0 */
};

static int put_event(void *context, const struct busconf_event *event, const char *line, size_t length) {
  struct walk *walk = (struct walk *)context;
  struct busconf_event found;
  char made[160];
  size_t next = 7;
  walk->calls++;
  put_line(made, event, line);
  expect(strlen(made) == length && memcmp(made, line, length) == 0, "the line of an event");
  expect(walk->at + length <= walk->count && memcmp(walk->text + walk->at, line, length) == 0, "the next line of the trace");
  memset(&found, 0x5a, sizeof found);
  expect(busconf_trace_event(walk->text, walk->count, walk->at, &found, &next) == BUSCONF_OK, "the same in the text");
  expect(next == walk->at + length && found.name == walk->at + event->name && found.kind == event->kind
             && found.value == event->value && found.turn == event->turn, "the same event");
  expect(busconf_trace_event(walk->text, walk->at + length - 1, walk->at, &found, &next) == BUSCONF_REFUSED,
         "a line that is cut off");
  walk->at = next;
  if (!walk->last) printf("%s", made);
  return walk->last && walk->calls == walk->last;
}

static void put_fault(const struct busconf_script_fault *fault, const char *script, size_t count) {
  static char place[1 << 16];
  size_t length;
  expect(busconf_script_fault_text(fault, place, sizeof place, &length) == BUSCONF_OK, "the line of a fault");
  fwrite(place, 1, length, stdout);
  expect(busconf_script_sentence(script, count, fault, place, sizeof place, &length) == BUSCONF_OK, "a sentence");
  fwrite(place, 1, length, stdout);
}

/* Runs the script once more, and stops at the second event. */
static void stop_early(const char *script, size_t count, struct walk walk) {
  struct busconf_script_fault fault = {77, 99};
  walk.at = 0;
  walk.calls = 0;
  walk.last = 2;
  expect(busconf_trace_each(script, count, put_event, &walk, &fault) == BUSCONF_OK && walk.calls == 2 && fault.line == 77,
         "a call that stops");
}

int main(void) {
  struct busconf_script_fault fault = {77, 99};
  struct busconf_event event;
  struct walk walk = {NULL, 0, 0, 0, 0};
  size_t count, needed = 0, next = 7;
  char *script = input(&count), *text;
  enum busconf_status status;
  try_names();
  status = busconf_trace(script, count, NULL, 0, &needed, &fault);
  if (status == BUSCONF_REFUSED) {
    struct busconf_script_fault again = {77, 99};
    expect(busconf_trace_each(script, count, put_event, &walk, &again) == BUSCONF_REFUSED && walk.calls == 0
               && again.line == fault.line && again.kind == fault.kind, "a script that is refused");
    put_fault(&fault, script, count);
    free(script);
    return 1;
  }
  text = (char *)block(needed);
  expect(busconf_trace(script, count, text, needed, &needed, &fault) == BUSCONF_OK, "a trace");
  walk.text = text;
  walk.count = needed;
  expect(busconf_trace_each(script, count, put_event, &walk, &fault) == BUSCONF_OK, "all events");
  expect(walk.at == needed && fault.line == 77, "the end of the trace");
  if (walk.calls >= 2) stop_early(script, count, walk);
  memset(&event, 0x5a, sizeof event);
  expect(busconf_trace_event(text, needed, needed, &event, &next) == BUSCONF_REFUSED && next == 7 && event.kind == 0x5a,
         "the end of a text");
  expect(busconf_trace_event(text, needed, (size_t)-1, &event, &next) == BUSCONF_REFUSED && next == 7, "far behind it");
  free(text);
  free(script);
  return 0;
}
