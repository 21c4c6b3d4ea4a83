/* Memory between two stretches that are closed: a call that reads or writes there is stopped by the machine. Each kind of machine has
   its own way to it: closed_pages.c has the pages of an operating system, bare/closed_mpu.c the memory protection of a Cortex-M7, and
   closed_none.c none, where writes into the stretches are found afterwards and reads are not. */
#ifndef CLOSED_H
#define CLOSED_H

#include <stdint.h>

/* The bytes of each stretch, closed or open: whole pages on every machine. */
enum { CLOSED_ROOM = 65536 };

/* What a stretch that can't be closed is filled with. */
enum { CLOSED_FILLING = 0xC5 };

/* Whether the stretches are really closed here. */
extern const int closed_by_machine;

/* CLOSED_ROOM open bytes between two closed stretches of as many; null where there are no more. */
uint8_t *closed_between(void);

/* From now on this is called where the machine stops somebody, with the address that was asked for. 0 where it can't be. */
int closed_watch(void (*stopped)(const void *address));

#endif
