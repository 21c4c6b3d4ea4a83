/* Which implementation a program calls: the library's, or with -DPLAIN the plain one. */
#ifndef FACE_H
#define FACE_H

#include "plain.h"

#ifdef PLAIN
#define FACE(name) plain_##name
#else
#define FACE(name) pc_##name
#endif

static const char *const class_words[6] = { "value", "invalid", "absent", "error", "reserved", "outside" };

#endif
