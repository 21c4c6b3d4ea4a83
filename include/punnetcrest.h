/* Punnetcrest: route books, frames and monitors of a pack gateway. Link with libpunnetcrest.a (host/build).

   Every call returns a refusal number, 0 where it did what was asked. A refused call leaves everything lent to it as it
   was, with one exception: pc_book_read empties the book and gives the line. A call that is not refused writes what its
   comment says and nothing else.

   The library has no memory of its own, takes none, and does no input or output: any number of threads may call it, each on
   memory that nobody else writes meanwhile. Every pointer points to the stated number of entries, is aligned for them and
   is not null, also where the length is 0. What a call may write overlaps nothing else that it is lent.

   One header for every processor (host/build lists them), all of them little endian. A length has 64 bits on each, whatever
   size_t has there; what a call counts has 32. No call takes or returns a struct. */
#ifndef PUNNETCREST_H
#define PUNNETCREST_H

#include <stdint.h>

#if defined __ARM_BIG_ENDIAN || defined __BIG_ENDIAN__ || defined __big_endian__
#error "There is no Punnetcrest for big-endian processors."
#elif defined __BYTE_ORDER__ && defined __ORDER_LITTLE_ENDIAN__
#if __BYTE_ORDER__ != __ORDER_LITTLE_ENDIAN__
#error "There is no Punnetcrest for big-endian processors."
#endif
#endif

/* The version of the library. CHANGELOG.md says what each version asks of callers. */
#define PC_VERSION "0.5.0"

#ifdef __cplusplus
extern "C" {
#endif

/* What a call refuses. Each call gives the first that applies, in the order its comment has. */
enum pc_refusal {
    PC_DONE = 0,
    PC_TEXT_TOO_LONG = 1,         /* the text has more than 32,768 bytes */
    PC_LINE_FORM = 2,             /* kind, count of fields, form of a number, or no newline at the end */
    PC_OVER_LIMIT = 3,            /* identifier, bus or start over its limit, or a number that is no signal's */
    PC_SIGNAL_WITHOUT_MESSAGE = 4,
    PC_MESSAGE_REPEATED = 5,
    PC_SIGNAL_REPEATED = 6,       /* in its message */
    PC_SIGNAL_MISPLACED = 7,      /* reaches over bit 63, or 503 not at 60, or 504 not at 56 */
    PC_BITS_MEET = 8,             /* with an earlier signal of the message */
    PC_TABLE_FULL = 9,            /* a 65th M, 257th S or 65th R line */
    PC_CLOSED_CHAIN = 10,
    PC_DOUBLE_CHAIN = 11,         /* two different chains join the same two places */
    PC_NOT_A_BOOK = 12,           /* the lent record, in the tables the call uses, is that of no taken book */
    PC_NOT_EIGHT_BYTES = 21,
    PC_UNKNOWN_IDENTIFIER = 22,   /* not in the book */
    PC_CHECKSUM = 23,
    PC_ROOM_FOR_READINGS = 24,    /* room for fewer readings than the message has signals */
    PC_COUNT_OF_VALUES = 25,      /* not the count of the message's signals */
    PC_RAW_TOO_WIDE = 26,
    PC_RAW_NOT_SENT = 27,         /* reserved or outside */
    PC_NOT_27_FAULTS = 31,
    PC_FAULT_TOO_WIDE = 32,
    PC_RELAY_COUNT = 41,          /* neither 1 nor 2 */
    PC_COMMAND_COUNT = 42,        /* 1601 or 1604 over 3 */
    PC_READING_COUNT = 43,        /* current or voltage over 65,535 */
    PC_SHARE_OUT_OF_RANGE = 44,   /* a share under 50 or over 100 */
    PC_CLOCK_WENT_BACK = 51,      /* while awake, the time is 2^31 ms (24 days) or more past the last wake, round the circle */
    PC_PLACE_OVER_LIMIT = 61,     /* bus over 7, or identifier of 2^29 or more */
    PC_ROOM_FOR_SPREAD = 62,      /* room for fewer places than the spread has */
    PC_ROOM_FOR_TEXT = 71,        /* room for fewer bytes than the book's text has */
    PC_NOT_A_POWER_STATE = 91,    /* this header's own: a state that is none of enum pc_power */
    PC_NOT_A_SLEEP_STATE = 92     /* this header's own: asleep is neither 0 nor 1 */
};

/* What a raw count is. A value has a reading, in thousandths of the signal's unit; the others have none. The type is not
   named as the call pc_class is: in C++ the name alone would then mean the call and no longer the type. */
enum pc_class_code { PC_VALUE = 0, PC_INVALID = 1, PC_ABSENT = 2, PC_ERROR = 3, PC_RESERVED = 4, PC_OUTSIDE = 5 };

/* The words of a book. Whoever writes into one need not be careful: each call tests the tables it uses. */
enum {
    PC_BOOK_WORDS = 771,
    PC_BOOK_MESSAGES = 0,         /* how many M */
    PC_BOOK_SIGNALS = 1,          /* how many S */
    PC_BOOK_ROUTES = 2,           /* how many R */
    PC_BOOK_IDENTIFIERS = 3,      /* 64: of each message */
    PC_BOOK_ENDS = 67,            /* 64: of each message, how many signals there are up to its last */
    PC_BOOK_NUMBERS = 131,        /* 256: of each signal */
    PC_BOOK_STARTS = 387,         /* 256: of each signal */
    PC_BOOK_FROM = 643,           /* 64: of each route, its from place */
    PC_BOOK_TO = 707              /* 64: of each route, its to place */
};
enum {
    PC_MOST_MESSAGES = 64,
    PC_MOST_SIGNALS = 256,
    PC_MOST_ROUTES = 64,          /* and places that a frame reaches */
    PC_MOST_READINGS = 64,        /* of one frame: no message has more signals */
    PC_MOST_TEXT = 32768,         /* of a text to read */
    PC_MOST_WRITTEN = 4800,       /* of a text that is written back: 64 x 11 + 256 x 10 + 64 x 24 */
    PC_FRAME_BYTES = 8
};

/* A place is one number: bus x 2^29 + identifier. An identifier is the 29 bits of an extended frame, without the flags that
   a driver puts above them (docs/EMBEDDING.md, Identifiers). */
#ifdef __cplusplus
#define PC_WORD(number) (static_cast<uint32_t>(number))
#else
#define PC_WORD(number) ((uint32_t)(number))
#endif
#define PC_PLACE(bus, identifier) ((PC_WORD(bus) << 29) | PC_WORD(identifier))
#define PC_BUS(place) (PC_WORD(place) >> 29)
#define PC_IDENTIFIER(place) (PC_WORD(place) & 0x1FFFFFFFu)

/* Reads a book's text. Refusals 1 to 11: the book is then empty, every word 0, and *line is the line at fault, 0 for 1.
   Otherwise the book holds the text's tables and *line is 0. Whatever the book and *line held before is lost. */
uint32_t pc_book_read(const uint8_t *text, uint64_t text_length, uint32_t book[PC_BOOK_WORDS], uint32_t *line);

/* Writes a book back as text, at the front of the room: each M line with its S lines, in the book's order, then the R lines
   in theirs; *count is its length in bytes, at most PC_MOST_WRITTEN. The rest of the room stays as it was. The text reads
   back as the same book. Refusals 12, by all tables of the book, and 71. */
uint32_t pc_book_write(const uint32_t book[PC_BOOK_WORDS], uint8_t *text, uint64_t text_length, uint32_t *count);

/* Classes one raw count of the signal with that number: *class_code is one of enum pc_class_code, *thousandths the
   reading of a value and 0 for any other class. Refusals 3 (no such signal), 26. */
uint32_t pc_class(uint32_t number, uint32_t raw, uint32_t *class_code, int64_t *thousandths);

/* The same count for the dash, in double precision: *class_code is that of pc_class, *reading the reading of a value in the
   signal's unit, which is its thousandths divided once by 1000, and 0.0 for any other class. Refusals 3, 26, just where
   pc_class has them. double is the 64 bits of IEEE 754, and rounding is to the nearest, as every processor starts
   (docs/EMBEDDING.md, The dash). */
uint32_t pc_dash(uint32_t number, uint32_t raw, uint32_t *class_code, double *reading);

/* Reads a frame: for each signal of the message, in the book's order, its raw count, its class (enum pc_class_code) and
   its thousandths, 0 where the class is no value. *count is how many there are. Refusals 12, 21, 22, 23, 24, where the room
   is the least of the three lengths; PC_MOST_READINGS is always enough. */
uint32_t pc_frame_read(const uint32_t book[PC_BOOK_WORDS], uint32_t identifier, const uint8_t *frame, uint64_t frame_length,
                       uint32_t *raws, uint64_t raws_length, uint8_t *classes, uint64_t classes_length,
                       int64_t *thousandths, uint64_t thousandths_length, uint32_t *count);

/* Packs a frame from one raw count for each signal of the message, in the book's order. Bits of no signal are 1; 503 is
   filled in, and the value given for it ignored. Refusals 12, 22, 25, 21 (frame_length is not 8), then by the first bad
   value 26 or 27. */
uint32_t pc_frame_pack(const uint32_t book[PC_BOOK_WORDS], uint32_t identifier, const uint32_t *values, uint64_t values_length,
                       uint8_t *frame, uint64_t frame_length);

/* Gives every place that a frame from this place reaches, in the order of the spread; *count is how many, at most
   PC_MOST_ROUTES. Refusals 12, 61, 62. */
uint32_t pc_spread(const uint32_t book[PC_BOOK_WORDS], uint32_t bus, uint32_t identifier, uint32_t *places,
                   uint64_t places_length, uint32_t *count);

/* The fault sum over the raw counts of 1901 to 1927, in this order. Refusals 31, 32. */
enum {
    PC_FAULT_HIGHEST = 0,         /* the highest level */
    PC_FAULT_AT_1 = 1,            /* how many levels stand at 1, at 2, at 3 */
    PC_FAULT_AT_2 = 2,
    PC_FAULT_AT_3 = 3,
    PC_FAULT_SET = 4,             /* how many one-bit faults are set */
    PC_FAULT_EMERGENCY = 5,       /* 1 or 0 */
    PC_FAULT_AGREES = 6,          /* 1 if 1901 is the highest level, else 0 */
    PC_FAULT_WORDS = 7
};
uint32_t pc_fault_sum(const uint32_t *counts, uint64_t counts_length, uint32_t sum[PC_FAULT_WORDS]);

/* The power monitor. Its state is one number, kept by the caller, who sets it to PC_POWER_START at first. An observation
   moves it as QC/T 1201.5-2023, 5.4.2, asks. */
enum pc_power {
    PC_POWER_OFF = 0,
    PC_POWER_RISING = 1,
    PC_POWER_PRECHARGE = 2,
    PC_POWER_BOTH = 3,
    PC_POWER_ON = 4,
    PC_POWER_FALLING = 5,
    PC_POWER_FAULT = 6,
    PC_POWER_START = PC_POWER_OFF /* a new monitor's */
};
enum {                            /* what an observation has, as raw counts: where each of them stands */
    PC_SEEN_MAIN_NEGATIVE = 0,    /* 302: 1 open, 2 closed */
    PC_SEEN_PRECHARGE = 1,        /* 303 */
    PC_SEEN_MAIN_POSITIVE = 2,    /* 301 */
    PC_SEEN_COMMAND = 3,          /* 1601 */
    PC_SEEN_EMERGENCY_OFF = 4,    /* 1604 */
    PC_SEEN_CURRENT = 5,          /* 203 */
    PC_SEEN_INSIDE = 6,           /* 201 */
    PC_SEEN_OUTSIDE = 7,          /* 202 */
    PC_POWER_WORDS = 8
};

/* Precharge is complete where both voltages are valid (not 65,535), the one inside is above 0 and the one outside has at least
   the share of it, in hundredths: 100 x outside >= share x inside. pc_power_step gives no share, and it is then 90. Before
   0.5.0 it was 95: whoever relied on that calls pc_power_step_by with 95, which gives every answer and state as before.
   Refusals 91, 41, 42, 43. */
uint32_t pc_power_step(uint32_t *state, const uint32_t seen[PC_POWER_WORDS]);

/* The same with the share that the caller names, 50 to 100. Refusals 91, 41, 42, 43, 44: 44 too where the observation asks
   nothing of the share. */
uint32_t pc_power_step_by(uint32_t *state, const uint32_t seen[PC_POWER_WORDS], uint32_t share);

/* The sleep watch. Its state is two numbers, kept by the caller. Times are in milliseconds and may run over.
   pc_sleep_start: awake at this time. It refuses nothing. */
uint32_t pc_sleep_start(uint32_t *last_wake, uint32_t *asleep, uint32_t now);

/* pc_sleep_watch: where wake is on (not 0), *asleep becomes 0 and *last_wake this time. Where it is off, *asleep becomes 1
   from 10,000 ms after the last wake on: the last call with wake on, or the start. Once asleep it stays so until wake is
   on. Call it more often than every 24 days. Refusals 92 (*asleep is neither 0 nor 1), 51. */
uint32_t pc_sleep_watch(uint32_t *last_wake, uint32_t *asleep, uint32_t now, uint32_t wake);

#ifdef __cplusplus
}
#endif
#endif
