/* Document 02, R-7, in C or C++: the shortlist of a whole book, held to desk_compare of any two of its raters. Refused, the numbers and the count
 * are as they were. What is lent stands on the heap and is exactly as long as said, so that a tool which watches the heap sees any step beyond.
 * Prints each fact that does not hold. */
#include "desk.h"

#include <stdbool.h>
#include <stdio.h>
#include <stdlib.h>
#include <string.h>

#define HOLDS(fact) holds(fact, #fact, __LINE__)
#define COUNT(array) (sizeof(array) / sizeof *(array))

enum { MOST_BYTES = 7780, KEPT = 0xA5 };

typedef struct Scale { DeskCounts counts; DeskRow rows[DESK_GRADES]; size_t grades; } Scale;
typedef struct Book { uint8_t bytes[MOST_BYTES + 1]; size_t length; uint32_t raters; } Book;

/* Six obligors, three of whom defaulted. Each of the first four is better than those behind it; the next two cross. */
static const Scale perfect = {DESK_BY_OBLIGORS, {{3, 0, 0}, {3, 3, 0}}, 2};
static const Scale fine = {DESK_BY_OBLIGORS, {{2, 0, 0}, {2, 1, 0}, {2, 2, 0}}, 3};
static const Scale coarse = {DESK_BY_OBLIGORS, {{3, 1, 0}, {3, 2, 0}}, 2};
static const Scale no_scale = {DESK_BY_OBLIGORS, {{6, 3, 0}}, 1};
static const Scale worst_apart = {DESK_BY_OBLIGORS, {{5, 2, 0}, {1, 1, 0}}, 2}, best_apart = {DESK_BY_OBLIGORS, {{2, 0, 0}, {4, 3, 0}}, 2};
/* Equal to the fine one: by survivors, with an empty grade, in other words of the same blocks. */
static const Scale fine_by_survivors = {DESK_BY_SURVIVORS, {{2, 0, 0}, {0, 0, 0}, {1, 1, 0}, {0, 2, 0}}, 4};

static const Scale no_defaults = {DESK_BY_OBLIGORS, {{6, 0, 0}}, 1}, no_survivors = {DESK_BY_OBLIGORS, {{3, 3, 0}}, 1};
static const Scale one_more_default = {DESK_BY_OBLIGORS, {{3, 1, 0}, {4, 3, 0}}, 2}, one_more_survivor = {DESK_BY_OBLIGORS, {{7, 3, 0}}, 1};
/* What each refusal of rows is given for, the faults that come later in the order among them. */
static const Scale too_many_defaults = {DESK_BY_OBLIGORS, {{0, 0, 0}, {2, 3, 1000001}}, 2};
static const Scale too_high = {DESK_BY_OBLIGORS, {{0, 0, 7}, {0, 0, 1000001}, {0, 0, 6}}, 3};
static const Scale falling = {DESK_BY_OBLIGORS, {{0, 0, 7}, {0, 0, 6}}, 2};
static const Scale nobody = {DESK_BY_SURVIVORS, {{0, 0, 0}, {0, 0, 0}}, 2};
static const Scale too_large = {DESK_BY_OBLIGORS, {{1000000, 0, 0}, {1, 0, 0}}, 2};

static int failures = 0;

static void holds(bool fact, const char *text, int line)
{
    if (!fact) {
        fprintf(stderr, "shortlist.c:%d: %s\n", line, text);
        failures++;
    }
}

static void put_two(uint8_t *at, size_t number)
{
    at[0] = (uint8_t)(number & 0xFF);
    at[1] = (uint8_t)(number >> 8 & 0xFF);
}

/* The book of these scales, whose rows are not looked at. */
static Book book_of(const Scale *const *scales, uint32_t raters)
{
    Book book;
    memset(&book, 0, sizeof book);
    book.raters = raters;
    book.length = 4 + 2 * raters;
    put_two(book.bytes, raters);
    for (uint32_t i = 0; i < raters; i++) {
        DeskBook one;
        desk_lay_out(&one, scales[i]->counts, scales[i]->rows, scales[i]->grades);
        put_two(book.bytes + 4 + 2 * i, book.length);
        memcpy(book.bytes + book.length, one.bytes + 6, one.length - 6);
        book.length += one.length - 6;
    }
    put_two(book.bytes + 2, book.length);
    return book;
}

static void *lend(size_t size)
{
    void *const lent = malloc(size > 0 ? size : 1);
    if (lent == NULL) {
        perror("shortlist");
        exit(2);
    }
    return memset(lent, KEPT, size);
}

/* How a call ended: its number, what is listed (KEPT in each byte of a number that was not written) and whether all else is as it was. */
typedef struct Ended { uint32_t refusal, numbers[DESK_RATERS]; size_t listed; bool kept; } Ended;

static Ended shortlist(const Book *book, size_t room)
{
    uint8_t *const lent = (uint8_t *)lend(book->length);
    uint32_t *const numbers = (uint32_t *)lend(room * sizeof *numbers);
    size_t *const listed = (size_t *)lend(sizeof *listed);
    const size_t held = room < DESK_RATERS ? room : DESK_RATERS;
    Ended ended;
    memset(&ended, KEPT, sizeof ended);
    memcpy(lent, book->bytes, book->length);
    ended.refusal = desk_shortlist(lent, book->length, numbers, room, listed);
    ended.kept = memcmp(lent, book->bytes, book->length) == 0;
    memcpy(ended.numbers, numbers, held * sizeof *numbers);
    ended.listed = *listed;
    for (size_t at = held * sizeof *numbers; at < room * sizeof *numbers; at++) {
        ended.kept = ended.kept && ((const uint8_t *)numbers)[at] == KEPT;
    }
    free(lent);
    free(numbers);
    free(listed);
    return ended;
}

/* Sees this number given and nothing written. */
static void refused(const Book *book, size_t room, uint32_t number)
{
    Ended ended = shortlist(book, room), untouched;
    memset(&untouched, KEPT, sizeof untouched);
    HOLDS(ended.refusal == number && ended.kept && ended.listed == untouched.listed);
    HOLDS(memcmp(ended.numbers, untouched.numbers, sizeof ended.numbers) == 0);
}

static bool is_better(const Book *book, uint32_t one, uint32_t other)
{
    Desk desk;
    DeskVerdict verdict;
    HOLDS(desk_empty(&desk) == 0 && desk_load(&desk, 1, book->bytes, book->length, one) == 0);
    HOLDS(desk_load(&desk, 2, book->bytes, book->length, other) == 0 && desk_compare(&desk, &verdict) == 0);
    return verdict.kind == DESK_FIRST;
}

/* The shortlist by definition: the raters for which no other rater of the book is better. */
static size_t by_definition(const Book *book, uint32_t *numbers)
{
    size_t listed = 0;
    for (uint32_t rater = 1; rater <= book->raters; rater++) {
        bool beaten = false;
        for (uint32_t other = 1; other <= book->raters; other++) {
            beaten = beaten || is_better(book, other, rater);
        }
        if (!beaten) {
            numbers[listed++] = rater;
        }
    }
    return listed;
}

/* Sees this list, in buffers just long enough and longer, and a shorter one refused. A rater that is listed has its bit set, rater 1 the lowest. */
static void lists(const Scale *const *scales, uint32_t raters, uint32_t expected)
{
    const Book book = book_of(scales, raters);
    const size_t rooms[] = {raters, raters + 1, DESK_RATERS, 3 * DESK_RATERS};
    uint32_t wanted[DESK_RATERS], found = 0;
    memset(wanted, KEPT, sizeof wanted);
    const size_t count = by_definition(&book, wanted);
    for (size_t i = 0; i < count; i++) {
        found |= UINT32_C(1) << (wanted[i] - 1);
    }
    HOLDS(found == expected && count > 0);
    for (size_t i = 0; i < COUNT(rooms); i++) {
        const Ended ended = shortlist(&book, rooms[i]);
        HOLDS(ended.refusal == 0 && ended.kept && ended.listed == count);
        HOLDS(memcmp(ended.numbers, wanted, sizeof wanted) == 0);
    }
    for (size_t room = 0; room < raters; room++) {
        refused(&book, room, DESK_REFUSED_BUFFER);
    }
}

static void worked(void)
{
    const Scale *const one[] = {&no_scale}, *const equal[] = {&fine, &fine_by_survivors, &fine};
    const Scale *const chain[] = {&coarse, &perfect, &no_scale, &fine}, *const crossing[] = {&worst_apart, &best_apart};
    const Scale *const two_best[] = {&coarse, &fine_by_survivors, &worst_apart, &fine, &best_apart};
    const Scale *const equal_and_beaten[] = {&fine, &perfect, &fine_by_survivors};
    const Scale *const by_one_alone[] = {&worst_apart, &no_scale, &best_apart, &coarse}; /* the last is beaten by the third alone */
    const Scale *const by_the_last[] = {&worst_apart, &best_apart, &worst_apart, &fine};
    lists(one, 1, 1);
    lists(equal, 3, 7);
    lists(chain, 4, 2);
    lists(crossing, 2, 3);
    lists(two_best, 5, 2 | 8);
    lists(equal_and_beaten, 3, 2);
    lists(by_one_alone, 4, 1 | 4);
    lists(by_the_last, 4, 8);
}

/* A scale of two grades over as many defaults as survivors: cutoff 1 misses so many defaults and turns away so many survivors. */
static Scale corner(uint32_t total, uint32_t missed, uint32_t away)
{
    Scale scale;
    memset(&scale, 0, sizeof scale);
    scale.counts = DESK_BY_SURVIVORS;
    scale.grades = 2;
    scale.rows[0].count = total - away;
    scale.rows[0].defaults = missed;
    scale.rows[1].count = away;
    scale.rows[1].defaults = total - missed;
    return scale;
}

/* As many raters as a book has: each better than the one before; each crossing all others, since their corners are on one curve; all equal, in the
 * longest book there is. */
static void sixteen_raters(void)
{
    Scale chain[DESK_RATERS], crossing[DESK_RATERS], longest;
    const Scale *chained[DESK_RATERS], *crossed[DESK_RATERS], *same[DESK_RATERS];
    memset(&longest, 0, sizeof longest);
    longest.counts = DESK_BY_OBLIGORS;
    longest.grades = DESK_GRADES;
    for (uint32_t i = 0; i < DESK_GRADES; i++) {
        longest.rows[i].count = DESK_MAX_OBLIGORS / DESK_GRADES;
        longest.rows[i].defaults = i;
    }
    for (uint32_t i = 0; i < DESK_RATERS; i++) {
        chain[i] = corner(40, DESK_RATERS - i, DESK_RATERS - i);
        crossing[i] = corner(17 * 17, (i + 1) * (i + 1), (16 - i) * (16 - i));
        chained[i] = &chain[i];
        crossed[i] = &crossing[i];
        same[i] = &longest;
    }
    lists(chained, DESK_RATERS, 0x8000);
    lists(crossed, DESK_RATERS, 0xFFFF);
    lists(same, DESK_RATERS, 0xFFFF);
    HOLDS(book_of(same, DESK_RATERS).length == MOST_BYTES);
}

/* A fault of the first, the middle or the last of three raters, alone or beside one of another rater that comes later in the order, in buffers that
 * are long enough or not. */
static void of_any(const Scale *faulty, const Scale *other, uint32_t number)
{
    for (size_t at = 0; at < 9; at++) {
        const Scale *scales[] = {&fine, &coarse, &fine};
        scales[at / 3] = other;
        scales[at % 3] = faulty;
        const Book book = book_of(scales, 3);
        refused(&book, 3, number);
        refused(&book, DESK_RATERS, number);
        refused(&book, 0, number);
    }
}

/* 8, 10, 34, 9 and 11 of a rater before those of the next; all of them before 23, 23 before 24, 24 before 25, each over all raters. */
static void faults_of_raters(void)
{
    const struct { const Scale *scale; uint32_t number; } rows[] = {
        {&too_many_defaults, DESK_REFUSED_DEFAULTS}, {&too_high, DESK_REFUSED_ANNOUNCED}, {&falling, DESK_REFUSED_FALLING_RATE},
        {&nobody, DESK_REFUSED_NO_OBLIGORS}, {&too_large, DESK_REFUSED_OBLIGORS}};
    for (size_t i = 0; i < COUNT(rows); i++) {
        of_any(rows[i].scale, &no_defaults, rows[i].number);
        of_any(rows[i].scale, &no_survivors, rows[i].number);
        of_any(rows[i].scale, &one_more_default, rows[i].number);
        for (size_t j = 0; j < COUNT(rows); j++) {
            const Scale *const both[] = {&fine, rows[i].scale, rows[j].scale};
            const Book book = book_of(both, 3);
            refused(&book, 3, rows[i].number);
        }
    }
    of_any(&no_defaults, &no_survivors, DESK_REFUSED_NO_DEFAULTS);
    of_any(&no_defaults, &one_more_default, DESK_REFUSED_NO_DEFAULTS);
    of_any(&no_survivors, &one_more_survivor, DESK_REFUSED_NO_SURVIVORS);
    of_any(&one_more_default, &fine_by_survivors, DESK_REFUSED_UNLIKE);
    of_any(&one_more_survivor, &fine_by_survivors, DESK_REFUSED_UNLIKE);
}

/* A byte of the layout changed, beside rows that would be refused. */
static void changed(size_t at, uint8_t byte, uint32_t number)
{
    const Scale *const scales[] = {&too_many_defaults, &no_defaults, &fine};
    Book book = book_of(scales, 3);
    book.bytes[at] = byte;
    refused(&book, 3, number);
    refused(&book, 0, number);
}

/* The layout of the whole book, as of a load, before any row. The tables start at bytes 10, 38 and 54; the book ends at 94. */
static void layout(void)
{
    const Scale *const scales[] = {&too_many_defaults, &no_defaults, &fine};
    Book book = book_of(scales, 3);
    HOLDS(book.length == 94);
    for (book.length = 0; book.length < 94; book.length++) {
        refused(&book, 3, DESK_REFUSED_LENGTH);
    }
    changed(2, 93, DESK_REFUSED_LENGTH);
    changed(0, 0, DESK_REFUSED_RATERS);
    changed(0, 17, DESK_REFUSED_RATERS);
    changed(8, 53, DESK_REFUSED_TABLE_START);
    changed(54, 0, DESK_REFUSED_GRADES);
    changed(54, 41, DESK_REFUSED_GRADES);
    changed(55, 2, DESK_REFUSED_KIND);
    changed(57, 1, DESK_REFUSED_KIND);
    changed(54, 4, DESK_REFUSED_TABLE_END);
    changed(54, 2, DESK_REFUSED_LEFTOVER);
    for (book.length = 4; book.length < 94; book.length++) {
        book.bytes[2] = (uint8_t)(book.length & 0xFF);
        refused(&book, 3, book.length < 10 ? DESK_REFUSED_RATERS : DESK_REFUSED_TABLE_END);
    }
}

int main(void)
{
    worked();
    sixteen_raters();
    faults_of_raters();
    layout();
    return failures == 0 ? 0 : 1;
}
