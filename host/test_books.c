/* Book records, and the cases of the spread. */
#include "made_text.h"
#include "test.h"

/* The group's own, which is taken. */
static uint32_t good[PC_BOOK_WORDS];

void make_good_book(void) {
    make_taken_book(good);
}

/* Changes one word of a book, or two: mostly so that it is still almost one that is taken. */
static void damage_book(uint32_t book[PC_BOOK_WORDS]) {
    static const uint16_t columns[10][2] = {
        { PC_BOOK_MESSAGES, 1 }, { PC_BOOK_SIGNALS, 1 }, { PC_BOOK_ROUTES, 1 }, { PC_BOOK_IDENTIFIERS, 64 }, { PC_BOOK_ENDS, 64 },
        { PC_BOOK_NUMBERS, 256 }, { PC_BOOK_STARTS, 256 }, { PC_BOOK_FROM, 64 }, { PC_BOOK_TO, 64 }, { 0, PC_BOOK_WORDS },
    };
    uint32_t column = below(10), first = columns[column][0], size = columns[column][1];
    uint32_t near = column == 3 || column == 4 ? book[0] : column == 5 || column == 6 ? book[1] : column == 7 || column == 8 ? book[2] : size;
    uint32_t at = first + below(once_in(3) || near >= size ? size : near + 1), other = first + below(size), kept;
    switch (below(8)) {
    case 0:
        book[at] += once_in(2) ? 1 : 0xFFFFFFFFu;
        break;
    case 1:
        book[at] = 0;
        break;
    case 2:
        book[at] = any_number();
        break;
    case 3:
        book[at] = book[once_in(2) && at > first ? at - 1 : other];
        break;
    case 4:
        kept = book[at];
        book[at] = book[other];
        book[other] = kept;
        break;
    case 5:
        book[at] = column == 5 ? any_signal(&chance) : column == 6 ? below(66) : below(4);
        break;
    case 6:
        book[at] ^= (uint32_t)1 << below(32);
        break;
    default:
        book[below(3)] = below(66);
        break;
    }
}

/* Puts some routes between few places in the place of the book's own. */
static void tie_routes(uint32_t book[PC_BOOK_WORDS]) {
    int onward = once_in(2);
    memset(book + PC_BOOK_FROM, 0, 2 * PC_MOST_ROUTES * sizeof *book);
    book[PC_BOOK_ROUTES] = 1 + below(7);
    for (uint32_t i = 0; i < book[PC_BOOK_ROUTES]; i++)
        knot_route(&chance, onward, &book[PC_BOOK_FROM + i], &book[PC_BOOK_TO + i]);
}

static const uint32_t most[3] = { PC_MOST_MESSAGES, PC_MOST_SIGNALS, PC_MOST_ROUTES };

void choose_book(uint32_t book[PC_BOOK_WORDS]) {
    uint32_t count = below(3);
    memcpy(book, good, sizeof good);
    if (once_in(24))
        memset(book, 0, sizeof good);
    if (once_in(3)) {
        damage_book(book);
        if (once_in(4))
            damage_book(book);
    } else if (once_in(40)) {
        for (int i = 0; i < PC_BOOK_WORDS; i++)
            book[i] = once_in(2) ? any_number() : 0;
    } else if (once_in(10)) {
        if (once_in(4))
            memset(book, 0, sizeof good);
        book[count] = most[count] + below(2);
    } else if (once_in(8)) {
        tie_routes(book);
    }
}

/* Whether this is the book's only word that is not 0. */
static int alone(const uint32_t book[PC_BOOK_WORDS], uint32_t word) {
    uint32_t others = 0;
    for (uint32_t i = 0; i < PC_BOOK_WORDS; i++)
        others |= i == word ? 0 : book[i];
    return others == 0;
}

void meet_count(enum edges family, const uint32_t book[PC_BOOK_WORDS], uint32_t count, uint32_t refusal) {
    if (book[count] == most[count] && refusal != PC_NOT_A_BOOK)
        meet(family, 3 * count);
    if (book[count] == most[count] + 1)
        meet(family, 3 * count + (alone(book, count) ? 2 : 1));
}

/* Gives the refusal, and how many places there are. */
static uint32_t compare_spread(const uint32_t book[PC_BOOK_WORDS], uint32_t bus, uint32_t identifier, uint32_t room, uint32_t *found) {
    begin_case(SPREAD);
    struct lent *b = lend("book", book, sizeof good), *places = lend("places", 0, 4 * room), *count = lend("count", 0, 4);
    uint32_t library = pc_spread(L(b, uint32_t), bus, identifier, L(places, uint32_t), room, L(count, uint32_t));
    uint32_t plain = plain_spread(P(b, uint32_t), bus, identifier, P(places, uint32_t), room, P(count, uint32_t));
    judge(library, plain, 1);
    *found = *P(count, uint32_t);
    return plain;
}

static void meet_place(uint32_t bus, uint32_t identifier) {
    static const uint32_t buses[4] = { 0, 7, 8, 0xFFFFFFFFu }, identifiers[4] = { 0, 0x1FFFFFFF, 0x20000000, 0xFFFFFFFFu };
    uint32_t bus_at = place_in(buses, 4, bus), identifier_at = place_in(identifiers, 4, identifier);
    if (identifier < 0x20000000 && bus_at < 4)
        meet(SPREAD_PLACES, bus_at);
    if (bus < 8 && identifier_at < 4)
        meet(SPREAD_PLACES, 4 + identifier_at);
}

void try_spread(void) {
    uint32_t book[PC_BOOK_WORDS], found, more;
    choose_book(book);
    uint32_t routes = book[2] <= 64 ? book[2] : 64, column = once_in(3) ? PC_BOOK_TO : PC_BOOK_FROM, place = book[column + below(routes ? routes : 1)];
    uint32_t bus = !once_in(16) ? PC_BUS(place) : once_in(2) ? 7 + below(3) : any_number();
    uint32_t identifier = !once_in(16) ? PC_IDENTIFIER(place) : once_in(2) ? 0x1FFFFFFF + below(2) : any_number();
    uint32_t refusal = compare_spread(book, bus, identifier, below(once_in(3) ? 8 : 70), &found);
    meet_count(BOOK_COUNTS, book, PC_BOOK_ROUTES, refusal);
    if (refusal != PC_NOT_A_BOOK)
        meet_place(bus, identifier);
    if (refusal != PC_DONE)
        return;
    uint32_t room = found == 0 ? below(2) : found - 1 + below(3);
    compare_spread(book, bus, identifier, room, &more);
    meet(SPREAD_ROOMS, found == 0 && room == 0 ? 3 : room + 1 - found);
}
