/* For trace_speed.c: a trace's loop in C, to be timed beside ogr_trace_feed. Both take every state as that does; lengths are not looked
 * at. */
#ifndef TRACE_LOOP_H
#define TRACE_LOOP_H

#include "ogruspinu.h"

typedef struct ogr_trace trace_loop(struct ogr_trace trace, const uint16_t *first, const uint16_t *second, size_t len);

/* The same loop: each sample makes a state of a state, which stays in registers. */
trace_loop trace_by_value;

/* The state is changed where it lies. */
trace_loop trace_in_place;

#endif
