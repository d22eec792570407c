/* Makes each call of libbusconf that takes a length with null pointers and the length 0, and looks whether it answers as
 * for a pointer to something. It says what fails. */
#include "busconf.h"

#include <stdio.h>
#include <string.h>

static int failed = 0;

static void expect(int holds, const char *what) {
  if (!holds) {
    printf("FAILED null: %s\n", what);
    failed = 1;
  }
}

/* A bus of one node with three ports. */
static const uint32_t one[] = {0x807f8050u};
static const uint8_t one_bytes[] = {0x80, 0x7f, 0x80, 0x50, 0x7f, 0x80, 0x7f, 0xaf};

static void read_nothing(void) {
  struct busconf_reader reader;
  struct busconf_bus bus;
  struct busconf_fault fault;
  memset(&fault, 7, sizeof fault);
  expect(busconf_read(NULL, 0, BUSCONF_IEEE2000, NULL, 0, &bus, &fault) == BUSCONF_REFUSED
             && fault.kind == BUSCONF_FAULT_EMPTY, "an empty list");
  memset(&fault, 7, sizeof fault);
  expect(busconf_read_capture(NULL, 0, BUSCONF_IEEE2000, NULL, 0, &bus, &fault) == BUSCONF_REFUSED
             && fault.kind == BUSCONF_FAULT_EMPTY, "an empty capture");
  expect(busconf_read(one, 1, BUSCONF_IEEE2000, NULL, 0, &bus, &fault) == BUSCONF_TOO_SHORT && bus.nodes == 1,
         "a list, and no room");
  busconf_reader_init(&reader);
  busconf_reader_push(&reader, one[0]);
  expect(busconf_reader_bus(&reader, BUSCONF_IEEE1995, NULL, 0, &bus, &fault) == BUSCONF_TOO_SHORT && bus.nodes == 1,
         "a reader, and no room");
  expect(busconf_read_capture(one_bytes, 8, BUSCONF_IEEE2000, NULL, 0, &bus, &fault) == BUSCONF_TOO_SHORT
             && bus.nodes == 1, "a capture, and no room");
}

static void tell_nothing(void) {
  struct busconf_fault fault;
  struct busconf_plan plan;
  size_t needed = 0;
  uint8_t hops = 200;
  memset(&fault, 0, sizeof fault);
  fault.kind = BUSCONF_FAULT_EMPTY;
  expect(busconf_fault_text(&fault, NULL, 0, &needed) == BUSCONF_TOO_SHORT && needed == 21, "the line of a fault");
  needed = 0;
  expect(busconf_sentence(NULL, 0, BUSCONF_IEEE2000, &fault, NULL, 0, &needed) == BUSCONF_TOO_SHORT && needed > 0,
         "the sentence of an empty list");
  needed = 0;
  expect(busconf_sentence_capture(NULL, 0, BUSCONF_IEEE2000, &fault, NULL, 0, &needed) == BUSCONF_TOO_SHORT
             && needed > 0, "the sentence of an empty capture");
  expect(busconf_hops(NULL, 0, BUSCONF_IEEE2000, &hops, &fault) == BUSCONF_REFUSED && hops == 200, "hops");
  expect(busconf_plan(NULL, 0, BUSCONF_IEEE2000, &plan, &fault) == BUSCONF_REFUSED, "a plan");
}

static void compare_nothing(void) {
  struct busconf_fault fault;
  size_t needed = 7;
  uint8_t list = 9;
  expect(busconf_diff(NULL, 0, NULL, 0, BUSCONF_IEEE2000, NULL, 0, &needed, &list, &fault) == BUSCONF_REFUSED
             && list == BUSCONF_LIST_OLD && fault.kind == BUSCONF_FAULT_EMPTY && needed == 7, "two empty lists");
  expect(busconf_diff(one, 1, NULL, 0, BUSCONF_IEEE2000, NULL, 0, &needed, &list, &fault) == BUSCONF_REFUSED
             && list == BUSCONF_LIST_NEW && fault.kind == BUSCONF_FAULT_EMPTY && needed == 7, "an empty new list");
  expect(busconf_diff(one, 1, one, 1, BUSCONF_IEEE2000, NULL, 0, &needed, &list, &fault) == BUSCONF_OK && needed == 0,
         "no change, and no room");
}

static void map_nothing(void) {
  struct busconf_fault fault;
  size_t needed = 7;
  expect(busconf_topology_map(NULL, 0, BUSCONF_IEEE2000, 1, NULL, 0, &needed, &fault) == BUSCONF_REFUSED && needed == 7,
         "the topology map of nothing");
  expect(busconf_speed_rows(NULL, 0, BUSCONF_IEEE2000, NULL, 0, &needed, &fault) == BUSCONF_REFUSED && needed == 7,
         "the rows of nothing");
  expect(busconf_speed_map(NULL, 0, BUSCONF_IEEE2000, 1, NULL, 0, &needed, &fault) == BUSCONF_REFUSED && needed == 7,
         "the speed map of nothing");
  expect(busconf_topology_map(one, 1, BUSCONF_IEEE2000, 1, NULL, 0, &needed, &fault) == BUSCONF_TOO_SHORT && needed == 4,
         "a topology map, and no room");
  expect(busconf_speed_rows(one, 1, BUSCONF_IEEE2000, NULL, 0, &needed, &fault) == BUSCONF_TOO_SHORT && needed == 64,
         "rows, and no room");
  expect(busconf_speed_map(one, 1, BUSCONF_IEEE2000, 1, NULL, 0, &needed, &fault) == BUSCONF_TOO_SHORT && needed > 64 / 4,
         "a speed map, and no room");
}

static void check_nothing(void) {
  struct busconf_rom_fault fault;
  size_t needed = 7;
  expect(busconf_rom_check(NULL, 0, NULL, 0, &needed, &fault) == BUSCONF_REFUSED && fault.kind == BUSCONF_ROM_EMPTY,
         "an empty ROM");
  needed = 0;
  expect(busconf_rom_fault_text(&fault, NULL, 0, &needed) == BUSCONF_TOO_SHORT && needed == 27,
         "the line of a ROM's fault");
  expect(busconf_crc16(NULL, 0) == busconf_crc16(one, 0), "the CRC of nothing");
}

typedef enum busconf_status (*script_call)(const char *, size_t, char *, size_t, size_t *, struct busconf_script_fault *);

static void run_nothing(script_call call, const char *what) {
  static const char script[] = "node a 3\n";
  struct busconf_script_fault fault;
  size_t needed = 7, other = 7;
  char byte = 0;
  expect(call(NULL, 0, NULL, 0, &needed, &fault) == call("", 0, &byte, 0, &other, &fault) && needed == other, what);
  expect(call(script, sizeof script - 1, NULL, 0, &needed, &fault) == BUSCONF_TOO_SHORT, what);
}

static int count_call(void *context, const struct busconf_event *event, const char *line, size_t length) {
  (void)event;
  (void)line;
  (void)length;
  ++*(int *)context;
  return 0;
}

static void trace_nothing(void) {
  struct busconf_script_fault fault;
  struct busconf_event event;
  size_t next = 7;
  int calls = 0;
  expect(busconf_trace_event(NULL, 0, 0, &event, &next) == BUSCONF_REFUSED && next == 7, "an empty trace");
  expect(busconf_trace_each(NULL, 0, count_call, &calls, &fault) == BUSCONF_OK && calls == 0, "no events");
}

static void say_nothing(void) {
  static const char script[] = "node a 3\n";
  struct busconf_script_fault fault;
  size_t needed = 7;
  expect(busconf_capture(NULL, 0, NULL, 0, NULL, 0, &needed, &fault) == BUSCONF_NO_NAME && needed == 7,
         "a node of no name");
  expect(busconf_capture(NULL, 0, "a", 1, NULL, 0, &needed, &fault) == BUSCONF_REFUSED
             && fault.kind == BUSCONF_SCRIPT_NO_NODE && fault.line == 1, "a node of an empty script");
  expect(busconf_script_fault_text(&fault, NULL, 0, &needed) == BUSCONF_TOO_SHORT && needed == 22,
         "the line of a script's fault");
  expect(busconf_script_sentence(NULL, 0, &fault, NULL, 0, &needed) == BUSCONF_TOO_SHORT && needed > 0,
         "the sentence of a script's fault");
  expect(busconf_capture(script, sizeof script - 1, "a", 1, NULL, 0, &needed, &fault) == BUSCONF_TOO_SHORT && needed == 8,
         "a capture, and no room");
}

int main(void) {
  read_nothing();
  tell_nothing();
  compare_nothing();
  map_nothing();
  check_nothing();
  run_nothing(busconf_run, "a run");
  run_nothing(busconf_advice, "an advice");
  run_nothing(busconf_trace, "a trace");
  run_nothing(busconf_waves, "waves");
  trace_nothing();
  say_nothing();
  if (!failed) printf("null: each call takes null where the length is 0\n");
  return failed;
}
