/* How a gateway's firmware uses Punnetcrest: a receive handler and a main loop. All memory is the firmware's own and fixed.
   Where a real gateway has drivers, this one has a short list of what happens and prints what it would do, which
   host/example.out has as it must be:
   host/build && host/run example */
#include "punnetcrest.h"
#include <inttypes.h>
#include <stdio.h>
#include <string.h>

/* ---- What stands in for the drivers and for flash. */

static const char stored_book[] = "M\t18FF21F3\n"
                                  "S\t203\t0\n"
                                  "S\t204\t16\n"
                                  "M\t18FF22F3\n"
                                  "S\t302\t0\n"
                                  "S\t303\t2\n"
                                  "S\t301\t4\n"
                                  "S\t201\t8\n"
                                  "S\t202\t24\n"
                                  "M\t18FF31D0\n"
                                  "S\t501\t0\n"
                                  "S\t502\t2\n"
                                  "S\t504\t56\n"
                                  "S\t503\t60\n"
                                  "M\t18FF31EF\n"
                                  "S\t501\t0\n"
                                  "S\t502\t2\n"
                                  "S\t504\t56\n"
                                  "S\t503\t60\n"
                                  "R\t0\t18FFFAF3\t1\t18FFFAF3\n"
                                  "R\t0\t18FF21F3\t1\t18FF21F3\n"
                                  "R\t1\t18FF21F3\t2\t18FF21D0\n"
                                  "R\t1\t18FF31D0\t0\t18FF31D0\n"
                                  "R\t0\t18FF31D0\t2\t18FF31EF\n";

/* The identifier that a Linux socket gives and takes (can_id of linux/can.h): flags above the identifier's own bits. */
#define SOCKET_29_BITS 0x80000000u /* CAN_EFF_FLAG: an extended frame; without it the identifier has 11 bits */
#define SOCKET_REMOTE 0x40000000u  /* CAN_RTR_FLAG: asks for a frame, has no data */
#define SOCKET_ERROR 0x20000000u   /* CAN_ERR_FLAG: the driver's own message, was on no bus */
#define SOCKET_IDENTIFIER 0x1FFFFFFFu

/* Every frame of the library is an extended one, so the flag is put back. */
static void send_frame(uint32_t place, const uint8_t *bytes, uint32_t length) {
    printf("send on socket %" PRIu32 ": %08" PRIX32 " ", PC_BUS(place), PC_IDENTIFIER(place) | SOCKET_29_BITS);
    for (uint32_t i = 0; i < length; i++)
        printf("%02X", bytes[i]);
    printf("\n");
}

/* ---- The gateway's state: the book in force, what was last seen, and the two monitors. */

static uint32_t books[2][PC_BOOK_WORDS], *book = books[0], damaged;
static uint32_t seen[PC_POWER_WORDS] = { 1, 1, 1, 0, 0, 20000, 0, 0 }; /* all relays open, 0 A, 0 V */
static uint32_t power = PC_POWER_START, last_wake, asleep;

/* The share of the voltage inside, in hundredths, that precharge has to reach on this truck. pc_power_step gives none: 90. */
enum { SHARE = 95 };

/* Counts a refusal; 12 says that the book's memory was damaged, and the main loop reads the text again. */
static void count_refusal(const char *call, uint32_t refusal) {
    printf("%s refused: %" PRIu32 "\n", call, refusal);
    if (refusal == PC_NOT_A_BOOK)
        damaged = 1;
}

/* Reads the stored text into the other buffer, and puts it in force where it is taken. Before the first, the book in force is
   the empty one (all words 0): every frame is refused with 22 or 21, and none is handed on. */
static uint32_t read_book(void) {
    uint32_t *other = book == books[0] ? books[1] : books[0];
    uint32_t line, refusal = pc_book_read((const uint8_t *)stored_book, strlen(stored_book), other, &line);
    if (refusal) {
        printf("book refused: %" PRIu32 " at line %" PRIu32 "\n", refusal, line);
        return refusal;
    }
    book = other;
    damaged = 0;
    printf("book in force: %" PRIu32 " messages, %" PRIu32 " routes\n", book[PC_BOOK_MESSAGES], book[PC_BOOK_ROUTES]);
    return PC_DONE;
}

/* Keeps the readings that the power monitor asks for. Which reading is which, the book says: its numbers stand in the order
   of the readings. */
static void keep(uint32_t number, uint32_t raw) {
    switch (number) {
    case 201: seen[PC_SEEN_INSIDE] = raw; break;
    case 202: seen[PC_SEEN_OUTSIDE] = raw; break;
    case 203: seen[PC_SEEN_CURRENT] = raw; break;
    case 301: seen[PC_SEEN_MAIN_POSITIVE] = raw; break;
    case 302: seen[PC_SEEN_MAIN_NEGATIVE] = raw; break;
    case 303: seen[PC_SEEN_PRECHARGE] = raw; break;
    }
}

/* The first signal of the message in the book's columns. */
static uint32_t first_of(uint32_t identifier) {
    for (uint32_t m = 0; m < book[PC_BOOK_MESSAGES]; m++)
        if (book[PC_BOOK_IDENTIFIERS + m] == identifier)
            return m == 0 ? 0 : book[PC_BOOK_ENDS + m - 1];
    return 0;
}

/* A frame that came, and the counts that were read of it, none where it was refused. */
struct came {
    uint32_t identifier;
    const uint8_t *bytes;
    uint32_t length;
    uint32_t raws[PC_MOST_READINGS];
    uint32_t count;
    int has_checksum;
};

/* Reads a frame and keeps what it carries. */
static uint32_t read_frame(struct came *frame) {
    uint8_t classes[PC_MOST_READINGS];
    int64_t thousandths[PC_MOST_READINGS];
    uint32_t refusal = pc_frame_read(book, frame->identifier, frame->bytes, frame->length, frame->raws, PC_MOST_READINGS,
                                     classes, PC_MOST_READINGS, thousandths, PC_MOST_READINGS, &frame->count);
    if (refusal)
        return refusal;
    for (uint32_t i = 0; i < frame->count; i++) {
        uint32_t number = book[PC_BOOK_NUMBERS + first_of(frame->identifier) + i];
        keep(number, frame->raws[i]);
        if (number == 503)
            frame->has_checksum = 1;
        if (classes[i] == PC_VALUE)
            printf("%" PRIu32 " reads %lld\n", number, (long long)thousandths[i]);
    }
    return PC_DONE;
}

/* Packs the counts of a frame under another identifier, for which the book has the same S lines. It is 25 too where that
   message has as many signals, but others: they would be sent with counts that are not theirs. */
static uint32_t pack_anew(const struct came *frame, uint32_t identifier, uint8_t *packed) {
    uint32_t refusal = pc_frame_pack(book, identifier, frame->raws, frame->count, packed, PC_FRAME_BYTES);
    const uint32_t *numbers = book + PC_BOOK_NUMBERS;
    for (uint32_t i = 0; refusal == PC_DONE && i < frame->count; i++)
        if (numbers[first_of(identifier) + i] != numbers[first_of(frame->identifier) + i])
            refusal = PC_COUNT_OF_VALUES;
    return refusal;
}

/* Hands a frame on to one place, as it came. The checksum 503 covers the identifier: a frame that carries it and gets another
   identifier is packed anew, and where that is refused, it is counted and not sent there. */
static void hand_on(const struct came *frame, uint32_t place) {
    uint8_t packed[PC_FRAME_BYTES];
    uint32_t refusal;
    if (!frame->has_checksum || PC_IDENTIFIER(place) == frame->identifier) {
        send_frame(place, frame->bytes, frame->length);
        return;
    }
    refusal = pack_anew(frame, PC_IDENTIFIER(place), packed);
    if (refusal)
        count_refusal("pc_frame_pack", refusal);
    else
        send_frame(place, packed, sizeof packed);
}

/* The receive handler. It asks for the spread first, since a frame that can't be read may have routes all the same: a short
   one (21) is counted and handed on as it came, and one without a message in the book (22) is only handed on. Two refusals of
   a reading stop the frame: a wrong checksum (23), and a book that is none (12), by which nothing is handed on. */
static void on_receive(uint32_t bus, uint32_t identifier, const uint8_t *bytes, uint32_t length) {
    struct came frame = { identifier, bytes, length, { 0 }, 0, 0 };
    uint32_t places[PC_MOST_ROUTES], count;
    uint32_t refusal = pc_spread(book, bus, identifier, places, PC_MOST_ROUTES, &count);
    if (refusal) {
        count_refusal("pc_spread", refusal);
        return;
    }
    refusal = read_frame(&frame);
    if (refusal != PC_DONE && refusal != PC_UNKNOWN_IDENTIFIER)
        count_refusal("pc_frame_read", refusal);
    if (refusal == PC_CHECKSUM || refusal == PC_NOT_A_BOOK)
        return;
    for (uint32_t i = 0; i < count; i++)
        hand_on(&frame, places[i]);
}

/* What a socket gives. Only data frames with 29 bits go into the library, and without the flags. */
static void on_socket(uint32_t bus, uint32_t socket_identifier, const uint8_t *bytes, uint32_t length) {
    uint32_t flags = socket_identifier & (SOCKET_29_BITS | SOCKET_REMOTE | SOCKET_ERROR);
    if (flags == SOCKET_29_BITS)
        on_receive(bus, socket_identifier & SOCKET_IDENTIFIER, bytes, length);
    else
        printf("passed by: %08" PRIX32 "\n", socket_identifier);
}

/* Shows the current on the dash, whose driver takes a double: its eight bytes, the lowest first. Where there is no value, it stays blank. */
static void show_current(void) {
    double amperes;
    uint32_t class_code, refusal = pc_dash(203, seen[PC_SEEN_CURRENT], &class_code, &amperes);
    printf("dash: ");
    for (uint32_t i = 0; refusal == PC_DONE && class_code == PC_VALUE && i < sizeof amperes; i++)
        printf("%02X", ((const uint8_t *)&amperes)[i]);
    printf("\n");
}

/* One turn of the main loop: the book, where it was damaged, the power monitor, the sleep watch and the dash. */
static void turn(uint32_t now, uint32_t wake) {
    static const char *const words[] = { "off", "rising", "precharge", "both", "on", "falling", "fault" };
    uint32_t refusal;
    if (damaged)
        read_book();
    refusal = pc_power_step_by(&power, seen, SHARE);
    if (refusal)
        count_refusal("pc_power_step_by", refusal);
    if (refusal == PC_NOT_A_POWER_STATE)
        power = PC_POWER_START;
    refusal = pc_sleep_watch(&last_wake, &asleep, now, wake);
    if (refusal)
        count_refusal("pc_sleep_watch", refusal);
    if (refusal == PC_NOT_A_SLEEP_STATE)
        pc_sleep_start(&last_wake, &asleep, now);
    printf("%" PRIu32 " ms: power %s, %s\n", now, words[power], asleep ? "asleep" : "awake");
    show_current();
}

int main(void) {
    static const uint8_t current[8] = { 0x1F, 0x4E, 0xFA, 0xFF, 0xFF, 0xFF, 0xFF, 0xFF };
    static const uint8_t relays[8] = { 0xD6, 0x70, 0x17, 0x00, 0x00, 0xFF, 0xFF, 0xFF };
    static const uint8_t locked[8] = { 0xF6, 0xFF, 0xFF, 0xFF, 0xFF, 0xFF, 0xFF, 0x65 };
    static const uint8_t spoilt[8] = { 0xF6, 0xFF, 0xFF, 0xFF, 0xFF, 0xFF, 0xFF, 0x75 };
    static const uint8_t no_lock[8] = { 0xF4, 0xFF, 0xFF, 0xFF, 0xFF, 0xFF, 0xFF, 0x56 };
    if (read_book() != PC_DONE)
        return 1;
    pc_sleep_start(&last_wake, &asleep, 0);

    on_socket(0, 0x98FF21F3, current, sizeof current); /* read, and handed on to two places */
    on_socket(0, 0x98FF21F3, current, 5);              /* 21: counted, and handed on as it came */
    on_socket(0, 0x98FFFAF3, current, sizeof current); /* 22: no message, handed on */
    on_socket(1, 0x98FF31D0, locked, sizeof locked);   /* a checksum that is right; packed anew where it is renamed */
    on_socket(1, 0x98FF31D0, spoilt, sizeof spoilt);   /* 23: counted, not handed on */
    on_socket(1, 0x98FF31D0, no_lock, sizeof no_lock); /* 501 is reserved, which is not packed: 27 where it is renamed */
    on_socket(0, 0x00000123, current, sizeof current); /* an identifier of 11 bits */
    on_socket(0, 0xD8FF21F3, current, 0);              /* a remote frame */
    on_socket(0, 0x20000004, current, sizeof current); /* an error frame */
    turn(10, 1);

    seen[PC_SEEN_COMMAND] = 1;
    on_socket(0, 0x98FF22F3, relays, sizeof relays);   /* read, no route */
    turn(20, 0);

    book[PC_BOOK_SIGNALS] = PC_MOST_SIGNALS + 1;       /* 12 from the reading: counted, not handed on */
    on_socket(0, 0x98FF21F3, current, sizeof current);
    turn(30, 0);
    book[PC_BOOK_ROUTES] = PC_MOST_ROUTES + 1;         /* 12 from the spread: the same, and nothing is read */
    on_socket(0, 0x98FF21F3, current, sizeof current);
    turn(10010, 0);
    return 0;
}
