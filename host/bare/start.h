/* What the start of the bare machine offers to the programs on it. */
#ifndef START_H
#define START_H

/* Where it is not null, it is called with the address that was asked for when the memory protection stops somebody. */
extern void (*when_closed)(const void *address);

#endif
