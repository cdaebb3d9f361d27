/* Runs a script of calls from standard input on one desk and prints each answer: the program `replay` of this repository,
 * but through the C interface. A script is a list of commands; a command is an operation number and its operands, each
 * 4 bytes wide, little-endian, and behind those of load and shortlist the book. A command that cannot be read ends the
 * program with the line `end`. */
#include "desk.h"

#include <inttypes.h>
#include <stdbool.h>
#include <stdio.h>
#include <stdlib.h>
#include <string.h>

enum { MAX_NUMBERS = 512, MAX_WRITE_LENGTH = 8192, MAX_BOOK_LENGTH = 65535 };

static bool read_number(uint32_t *number)
{
    uint8_t bytes[4];
    if (fread(bytes, 1, sizeof bytes, stdin) != sizeof bytes) {
        return false;
    }
    *number = bytes[0] | (uint32_t)bytes[1] << 8 | (uint32_t)bytes[2] << 16 | (uint32_t)bytes[3] << 24;
    return true;
}

static bool read_length(uint32_t *length, uint32_t limit)
{
    return read_number(length) && *length <= limit;
}

/* Exactly this many bytes, so that a tool which watches the heap sees any step beyond them; one byte in place of none. */
static void *lend(size_t size, int value)
{
    void *lent = malloc(size > 0 ? size : 1);
    if (lent == NULL) {
        perror("replay");
        exit(2);
    }
    return memset(lent, value, size);
}

/* The book of a command, to be freed, which its length precedes; NULL where it cannot be read. */
static uint8_t *read_book(uint32_t *length)
{
    if (!read_length(length, MAX_BOOK_LENGTH)) {
        return NULL;
    }
    uint8_t *book = lend(*length, 0);
    if (fread(book, 1, *length, stdin) == *length) {
        return book;
    }
    free(book);
    return NULL;
}

/* The operation's name, and whether it was accepted. */
static bool say(const char *operation, uint32_t refusal)
{
    if (refusal == 0) {
        printf("%s ok", operation);
    } else {
        printf("%s refused %" PRIu32, operation, refusal);
    }
    return refusal == 0;
}

static void say_numbers(const uint32_t *numbers, uint32_t length)
{
    for (uint32_t i = 0; i < length; i++) {
        printf(" %" PRIu32, numbers[i]);
    }
}

static void say_price(DeskPrice price)
{
    printf(" %" PRIu32 " %" PRIu32, price.u, price.v);
}

static void say_fraction(DeskFraction fraction)
{
    printf(" %" PRId64 " %" PRId64, fraction.numerator, fraction.denominator);
}

/* The 64 bits of a float, as a number. */
static void say_bits(double value)
{
    uint64_t bits;
    memcpy(&bits, &value, sizeof bits);
    printf(" %" PRIu64, bits);
}

/* Each operation reads its operands, calls and says the answer; false where an operand cannot be read. */

static bool load(Desk *desk)
{
    uint32_t place, rater, length;
    uint8_t *book;
    if (!read_number(&place) || !read_number(&rater) || (book = read_book(&length)) == NULL) {
        return false;
    }
    say("load", desk_load(desk, place, book, length, rater));
    free(book);
    return true;
}

static bool clear(Desk *desk)
{
    uint32_t place;
    if (!read_number(&place)) {
        return false;
    }
    say("clear", desk_clear(desk, place));
    return true;
}

static bool pool(Desk *desk)
{
    uint32_t place, length;
    if (!read_number(&place) || !read_length(&length, MAX_NUMBERS)) {
        return false;
    }
    uint32_t *numbers = lend(length * sizeof *numbers, 0xAA);
    say("pool", desk_pool(desk, place, numbers, length));
    say_numbers(numbers, length);
    free(numbers);
    return true;
}

static bool cheapest(Desk *desk)
{
    uint32_t place, u, v;
    if (!read_number(&place) || !read_number(&u) || !read_number(&v)) {
        return false;
    }
    DeskCutoff answer;
    if (say("cheapest", desk_cheapest(desk, place, u, v, &answer))) {
        printf(" %" PRId64 " %" PRId64, answer.cutoff, answer.cost);
    }
    return true;
}

static void say_verdict(const DeskVerdict *verdict)
{
    static const char *const kinds[] = {"equal", "first", "second", "crossing"};
    printf(" %s", kinds[verdict->kind]);
    if (verdict->kind == DESK_SECOND || verdict->kind == DESK_CROSSING) {
        say_price(verdict->first_dearer);
    }
    if (verdict->kind == DESK_FIRST || verdict->kind == DESK_CROSSING) {
        say_price(verdict->second_dearer);
    }
}

static bool compare(Desk *desk)
{
    DeskVerdict answer;
    if (say("compare", desk_compare(desk, &answer))) {
        say_verdict(&answer);
    }
    return true;
}

static bool compare_shares(Desk *desk)
{
    DeskVerdict answer;
    if (say("compare_shares", desk_compare_shares(desk, &answer))) {
        say_verdict(&answer);
    }
    return true;
}

static bool measures(Desk *desk)
{
    uint32_t place;
    if (!read_number(&place)) {
        return false;
    }
    DeskMeasures answer;
    if (say("measures", desk_measures(desk, place, &answer))) {
        printf(" %" PRId64 " %" PRId64, answer.defaults, answer.survivors);
        say_fraction(answer.gini);
        say_fraction(answer.roc);
        say_fraction(answer.cap);
        say_fraction(answer.pietra);
        printf(" %" PRId64, answer.cutoff);
    }
    return true;
}

static bool brier(Desk *desk)
{
    uint32_t place;
    if (!read_number(&place)) {
        return false;
    }
    DeskFraction answer;
    if (say("brier", desk_brier(desk, place, &answer))) {
        say_fraction(answer);
    }
    return true;
}

static bool spread(Desk *desk)
{
    uint32_t place;
    if (!read_number(&place)) {
        return false;
    }
    DeskSpread answer;
    if (say("spread", desk_spread(desk, place, &answer))) {
        say_bits(answer.total);
        say_bits(answer.residual);
    }
    return true;
}

static bool write_book(Desk *desk)
{
    uint32_t length;
    if (!read_length(&length, MAX_WRITE_LENGTH)) {
        return false;
    }
    uint8_t *book = lend(length, 0xAA);
    size_t written;
    if (say("write", desk_write(desk, book, length, &written))) {
        printf(" %zu", written);
    }
    printf("%s", length > 0 ? " " : "");
    for (uint32_t i = 0; i < length; i++) {
        printf("%02x", book[i]);
    }
    free(book);
    return true;
}

static bool shortlist(Desk *desk)
{
    uint32_t room, length;
    uint8_t *book;
    if (!read_length(&room, MAX_NUMBERS) || (book = read_book(&length)) == NULL) {
        return false;
    }
    uint32_t *numbers = lend(room * sizeof *numbers, 0xAA);
    size_t listed;
    if (say("shortlist", desk_shortlist(book, length, numbers, room, &listed))) {
        printf(" %zu", listed);
    }
    say_numbers(numbers, room);
    free(numbers);
    free(book);
    (void)desk; /* plays no part */
    return true;
}

/* One of the four events, by its name. */
static bool event(Desk *desk, const char *name, uint32_t (*call)(Desk *, uint32_t, uint32_t))
{
    uint32_t place, grade;
    if (!read_number(&place) || !read_number(&grade)) {
        return false;
    }
    say(name, call(desk, place, grade));
    return true;
}

static bool survivor_enters(Desk *desk) { return event(desk, "survivor_enters", desk_survivor_enters); }
static bool survivor_leaves(Desk *desk) { return event(desk, "survivor_leaves", desk_survivor_leaves); }
static bool survivor_defaults(Desk *desk) { return event(desk, "survivor_defaults", desk_survivor_defaults); }
static bool defaulted_removed(Desk *desk) { return event(desk, "defaulted_removed", desk_defaulted_removed); }

/* The operations by their numbers, from 1. */
static bool (*const operations[])(Desk *) = {load,      clear,           pool,            cheapest,          compare,
                                             measures,  brier,           spread,          write_book,        compare_shares,
                                             shortlist, survivor_enters, survivor_leaves, survivor_defaults, defaulted_removed};

static bool run_command(Desk *desk)
{
    uint32_t number;
    if (!read_number(&number) || number < 1 || number > sizeof operations / sizeof *operations) {
        return false;
    }
    return operations[number - 1](desk);
}

static bool at_end_of_input(void)
{
    int next = getc(stdin);
    return next == EOF || ungetc(next, stdin) == EOF;
}

int main(void)
{
    Desk desk;
    desk_empty(&desk);
    while (!at_end_of_input()) {
        bool done = run_command(&desk);
        puts(done ? "" : "end");
        if (!done) {
            break;
        }
    }
    return 0;
}
