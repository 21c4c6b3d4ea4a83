/* What the start of the bare machine offers besides exit: output. */
#ifndef START_H
#define START_H

void say(const char *text);

#endif
