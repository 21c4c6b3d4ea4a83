/* The rules once more, in plain C, written from the paper that has them and not from the Rattle source: what the library is
   compared with, for its answers and for its speed. Each function does what its twin in punnetcrest.h does. */
#ifndef PLAIN_H
#define PLAIN_H

#include "punnetcrest.h"

uint32_t plain_book_read(const uint8_t *text, uint64_t text_length, uint32_t book[PC_BOOK_WORDS], uint32_t *line);
uint32_t plain_book_write(const uint32_t book[PC_BOOK_WORDS], uint8_t *text, uint64_t text_length, uint32_t *count);
uint32_t plain_class(uint32_t number, uint32_t raw, uint32_t *class_code, int64_t *thousandths);
uint32_t plain_dash(uint32_t number, uint32_t raw, uint32_t *class_code, double *reading);
uint32_t plain_frame_read(const uint32_t book[PC_BOOK_WORDS], uint32_t identifier, const uint8_t *frame, uint64_t frame_length,
                          uint32_t *raws, uint64_t raws_length, uint8_t *classes, uint64_t classes_length,
                          int64_t *thousandths, uint64_t thousandths_length, uint32_t *count);
uint32_t plain_frame_pack(const uint32_t book[PC_BOOK_WORDS], uint32_t identifier, const uint32_t *values,
                          uint64_t values_length, uint8_t *frame, uint64_t frame_length);
uint32_t plain_spread(const uint32_t book[PC_BOOK_WORDS], uint32_t bus, uint32_t identifier, uint32_t *places,
                      uint64_t places_length, uint32_t *count);
uint32_t plain_fault_sum(const uint32_t *counts, uint64_t counts_length, uint32_t sum[PC_FAULT_WORDS]);
uint32_t plain_power_step(uint32_t *state, const uint32_t seen[PC_POWER_WORDS]);
uint32_t plain_power_step_by(uint32_t *state, const uint32_t seen[PC_POWER_WORDS], uint32_t share);
uint32_t plain_sleep_start(uint32_t *last_wake, uint32_t *asleep, uint32_t now);
uint32_t plain_sleep_watch(uint32_t *last_wake, uint32_t *asleep, uint32_t now, uint32_t wake);

/* Parts that the plain programs use besides. */

/* The frame's readings by a book that has been tested: refusals 21 to 24. */
uint32_t plain_frame_read_tested(const uint32_t book[PC_BOOK_WORDS], uint32_t identifier, const uint8_t *frame,
                                 uint64_t frame_length, uint32_t *raws, uint8_t *classes, int64_t *thousandths, uint64_t room,
                                 uint32_t *count);

/* Whether these routes have a closed chain (10) or two chains that join the same places (11), and the index of the lowest
   route concerned; else 0. */
uint32_t plain_routes_refusal(const uint32_t *from, const uint32_t *to, uint32_t count, uint32_t *lowest);

/* Whether the message and signal tables of the book are those of a taken book; whether its routes are. */
int plain_messages_taken(const uint32_t book[PC_BOOK_WORDS]);
int plain_routes_taken(const uint32_t book[PC_BOOK_WORDS]);

#endif
