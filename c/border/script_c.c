/* The calls of the crate script_c that take a length, and busconf_trace_each, which no crate has: the proved code takes no
 * function from C, so the loop that calls back stands here. */
#include "border.h"

#include <stdlib.h>

PROVED(busconf_run);
PROVED(busconf_advice);
PROVED(busconf_trace);
PROVED(busconf_waves);
PROVED(busconf_capture);
PROVED(busconf_script_fault_text);
PROVED(busconf_script_sentence);

enum busconf_status busconf_run(const char *script, size_t count, char *place, size_t room, size_t *needed,
                                struct busconf_script_fault *fault) {
  return proved_busconf_run(FROM(script, count), count, PLACE(place, room), room, needed, fault);
}

enum busconf_status busconf_advice(const char *script, size_t count, char *place, size_t room, size_t *needed,
                                   struct busconf_script_fault *fault) {
  return proved_busconf_advice(FROM(script, count), count, PLACE(place, room), room, needed, fault);
}

enum busconf_status busconf_trace(const char *script, size_t count, char *place, size_t room, size_t *needed,
                                  struct busconf_script_fault *fault) {
  return proved_busconf_trace(FROM(script, count), count, PLACE(place, room), room, needed, fault);
}

enum busconf_status busconf_waves(const char *script, size_t count, char *place, size_t room, size_t *needed,
                                  struct busconf_script_fault *fault) {
  return proved_busconf_waves(FROM(script, count), count, PLACE(place, room), room, needed, fault);
}

enum busconf_status busconf_capture(const char *script, size_t count, const char *name, size_t length, uint8_t *place,
                                    size_t room, size_t *needed, struct busconf_script_fault *fault) {
  return proved_busconf_capture(FROM(script, count), count, FROM(name, length), length, PLACE(place, room), room, needed,
                                fault);
}

enum busconf_status busconf_script_fault_text(const struct busconf_script_fault *fault, char *place, size_t room,
                                              size_t *needed) {
  return proved_busconf_script_fault_text(fault, PLACE(place, room), room, needed);
}

enum busconf_status busconf_script_sentence(const char *script, size_t count, const struct busconf_script_fault *fault,
                                            char *place, size_t room, size_t *needed) {
  return proved_busconf_script_sentence(FROM(script, count), count, fault, PLACE(place, room), room, needed);
}

/* Calls back for each line of a trace. The names of an event are told as parts of its line. */
static enum busconf_status each_line(const char *text, size_t count, busconf_event_call call, void *context) {
  size_t at = 0, length;
  struct busconf_event event;
  while (at < count) {
    if (busconf_trace_event(text + at, count - at, 0, &event, &length) != BUSCONF_OK) return BUSCONF_INCOMPLETE;
    if (call(context, &event, text + at, length) != 0) break;
    at += length;
  }
  return BUSCONF_OK;
}

/* The first run tells how long the trace is, and the second one tells it. */
enum busconf_status busconf_trace_each(const char *script, size_t count, busconf_event_call call, void *context,
                                       struct busconf_script_fault *fault) {
  size_t needed = 0, told = 0;
  char *text;
  enum busconf_status status = busconf_trace(script, count, NULL, 0, &needed, fault);
  if (status != BUSCONF_TOO_SHORT) return status;
  text = (char *)malloc(needed);
  if (!text) return BUSCONF_NO_MEMORY;
  status = busconf_trace(script, count, text, needed, &told, fault);
  if (status == BUSCONF_OK) status = each_line(text, told, call, context);
  free(text);
  return status;
}
