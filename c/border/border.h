/* What stands before the proved calls that take a length: C may pass a null pointer where the length is 0, and the proved
 * calls are made for pointers to something. So where a length is 0 they are given a pointer to `nothing`, which none of
 * them then reads or writes. Nothing here is proved; tools/library/null.c tries each call. */
#include "busconf.h"

static uint64_t nothing;

/* The pointer that a proved call is given for one that has this length. */
#define FROM(at, length) ((length) ? (at) : (const void *)&nothing)
#define PLACE(at, length) ((length) ? (at) : (void *)&nothing)

/* The proved call has the name of the header's behind `proved_`, and its type. */
#define PROVED(call) __typeof__(call) proved_##call
