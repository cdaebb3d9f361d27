/* example [--shares] BOOK BOOK [RATER RATER]: says which of two rating scales over the same obligors is better; with --shares, of two over
 * different books. example --shortlist BOOK: says which raters of a book no other one beats. example --events BOOK RATER [EVENT GRADE] ..:
 * books firms that come and go, EVENT being enters, leaves, defaults or removed, and says the table as it stands then. */
#include "desk.h"
#include <inttypes.h>
#include <stdbool.h>
#include <stdio.h>
#include <stdlib.h>
#include <string.h>

typedef struct Book { uint8_t bytes[65536]; size_t length; } Book; /* room for one byte more than a book can have */

static void accept_or_exit(const char *what, uint32_t refusal)
{
    if (refusal != 0) {
        fprintf(stderr, "%s: refused %" PRIu32 ": %s\n", what, refusal, desk_meaning(refusal));
        exit(1);
    }
}

/* What to look for in a book that is cut wrong: the rater and the byte. */
static void say_cut(uint32_t refusal, DeskWrongCut cut)
{
    if (refusal == DESK_REFUSED_TABLE_START) {
        fprintf(stderr, "; byte %zu: the table of rater %" PRIu32 " is said to start at byte %zu", cut.byte, cut.rater, cut.found);
        fprintf(stderr, "; expected byte %zu, where ", cut.expected);
        if (cut.rater == 1) {
            fputs("the offsets end", stderr);
        } else {
            fprintf(stderr, "the table of rater %" PRIu32 " ends", cut.rater - 1);
        }
    } else if (refusal == DESK_REFUSED_TABLE_END) {
        fprintf(stderr, "; byte %zu: the table of rater %" PRIu32 " starts here and its ", cut.byte, cut.rater);
        fprintf(stderr, "%s at byte %zu; the book ends at byte %zu", cut.expected == cut.byte + 4 ? "header ends" : "rows end", cut.expected,
                cut.found);
        fprintf(stderr, ", bytes missing: %zu", cut.expected - cut.found);
    } else {
        fprintf(stderr, "; byte %zu: the table of rater %" PRIu32 ", the last, ends here", cut.byte, cut.rater);
        fprintf(stderr, "; bytes that follow it: %zu, expected none", cut.found - cut.expected);
    }
}

static void read_book(const char *path, Book *book)
{
    FILE *file = fopen(path, "rb");
    if (file == NULL) {
        perror(path);
        exit(1);
    }
    book->length = fread(book->bytes, 1, sizeof book->bytes, file);
    fclose(file);
}

static void accept_book_or_exit(const char *path, const Book *book, uint32_t refusal)
{
    DeskWrongCut cut;
    if (refusal != 0) {
        fprintf(stderr, "%s: refused %" PRIu32 ": %s", path, refusal, desk_meaning(refusal));
        if (desk_wrong_cut(book->bytes, book->length, &cut) == refusal) {
            say_cut(refusal, cut);
        }
        fputc('\n', stderr);
        exit(1);
    }
}

static void load(Desk *desk, uint32_t place, const char *path, const char *rater)
{
    static Book book;
    unsigned long number = strtoul(rater, NULL, 10);
    read_book(path, &book);
    accept_book_or_exit(path, &book, desk_load(desk, place, book.bytes, book.length, number <= UINT32_MAX ? (uint32_t)number : 0));
}

static void say_costs(const Desk *desk, DeskPrice price)
{
    DeskCutoff first, second;
    accept_or_exit("cheapest", desk_cheapest(desk, 1, price.u, price.v, &first));
    accept_or_exit("cheapest", desk_cheapest(desk, 2, price.u, price.v, &second));
    printf("At %" PRIu32 " for a missed default and %" PRIu32 " for a survivor turned away", price.u, price.v);
    printf(" the first costs %" PRId64 " and the second %" PRId64 ".\n", first.cost, second.cost);
}

/* Prices on shares are for all defaults or survivors of a table, whichever table it is. */
static void say_dearer(const char *dearer, DeskPrice price)
{
    printf("At %" PRIu32 " for all defaults missed and %" PRIu32 " for all survivors turned away", price.u, price.v);
    printf(" the %s costs more.\n", dearer);
}

static void compare(const Desk *desk, bool on_shares)
{
    const char *const verdicts[] = {"The scales cost the same at all prices.", "The first scale is better.",
                                    "The second scale is better.", "Each scale is better at some prices."};
    DeskVerdict verdict;
    accept_or_exit("compare", on_shares ? desk_compare_shares(desk, &verdict) : desk_compare(desk, &verdict));
    puts(verdicts[verdict.kind]);
    const DeskPrice prices[] = {verdict.first_dearer, verdict.second_dearer};
    for (int i = 0; i < 2; i++) {
        if (prices[i].u == 0 && prices[i].v == 0) {
            continue; /* it costs more at no prices */
        }
        if (on_shares) {
            say_dearer(i == 0 ? "first" : "second", prices[i]);
        } else {
            say_costs(desk, prices[i]);
        }
    }
}

static DeskVerdict verdict_on(const Book *book, uint32_t first, uint32_t second)
{
    Desk desk;
    DeskVerdict verdict;
    desk_empty(&desk);
    accept_or_exit("first rater", desk_load(&desk, 1, book->bytes, book->length, first));
    accept_or_exit("second rater", desk_load(&desk, 2, book->bytes, book->length, second));
    accept_or_exit("compare", desk_compare(&desk, &verdict));
    return verdict;
}

/* Of a rater that is not listed: the first listed one that is better, and prices that show it. */
static void say_beaten(const Book *book, uint32_t rater, const uint32_t *numbers, size_t listed)
{
    for (size_t i = 0; i < listed; i++) {
        const DeskVerdict verdict = verdict_on(book, numbers[i], rater);
        if (verdict.kind == DESK_FIRST) {
            const DeskPrice price = verdict.second_dearer;
            printf("Rater %" PRIu32 " is not listed: rater %" PRIu32 " is better. At %" PRIu32 " for a missed default", rater, numbers[i], price.u);
            printf(" and %" PRIu32 " for a survivor turned away rater %" PRIu32 " costs more.\n", price.v, rater);
            return;
        }
    }
}

static void say_shortlist(const char *path)
{
    static Book book;
    uint32_t numbers[DESK_RATERS];
    size_t listed, said = 0;
    read_book(path, &book);
    accept_book_or_exit(path, &book, desk_shortlist(book.bytes, book.length, numbers, DESK_RATERS, &listed));
    for (uint32_t rater = 1; rater <= book.bytes[0]; rater++) { /* an accepted book has 1 to 16 */
        if (said < listed && numbers[said] == rater) {
            printf("Rater %" PRIu32 " is listed.\n", rater);
            said++;
        } else {
            say_beaten(&book, rater, numbers, listed);
        }
    }
}

static void book_event(Desk *desk, const char *event, const char *grade)
{
    static const struct { const char *name; uint32_t (*call)(Desk *, uint32_t, uint32_t); } events[] = {
        {"enters", desk_survivor_enters},
        {"leaves", desk_survivor_leaves},
        {"defaults", desk_survivor_defaults},
        {"removed", desk_defaulted_removed}};
    const unsigned long number = strtoul(grade, NULL, 10);
    for (size_t i = 0; i < sizeof events / sizeof *events; i++) {
        if (strcmp(event, events[i].name) == 0) {
            accept_or_exit(event, events[i].call(desk, 1, number <= UINT32_MAX ? (uint32_t)number : 0));
            return;
        }
    }
    fprintf(stderr, "%s: no event\n", event);
    exit(1);
}

/* The words are a book, a rater, and events with their grades. */
static void say_events(int count, char **words)
{
    Desk desk;
    desk_empty(&desk);
    load(&desk, 1, words[0], words[1]);
    for (int i = 2; i < count; i += 2) {
        book_event(&desk, words[i], words[i + 1]);
    }
    const DeskPlace *const place = &desk.first;
    for (uint32_t i = 0; i < place->grades; i++) {
        const uint32_t *const pooled = &place->pooled[3 * i]; /* of grade i + 1 */
        printf("Grade %" PRIu32 ": obligors %" PRIu32 ", defaults %" PRIu32 "; ", i + 1, place->obligors[i], place->defaults[i]);
        printf("pooled %" PRIu32 " of %" PRIu32 ", band %" PRIu32 ".\n", pooled[0], pooled[1], pooled[2]);
    }
}

int main(int count, char **words)
{
    if (count >= 4 && count % 2 == 0 && strcmp(words[1], "--events") == 0) {
        say_events(count - 2, words + 2);
        return 0;
    }
    if (count == 3 && strcmp(words[1], "--shortlist") == 0) {
        say_shortlist(words[2]);
        return 0;
    }
    const bool on_shares = count > 1 && strcmp(words[1], "--shares") == 0;
    char **const books = words + (on_shares ? 2 : 1), **const raters = books + 2;
    const int given = count - (on_shares ? 2 : 1);
    if (given != 2 && given != 4) {
        fprintf(stderr, "usage: %s [--shares] BOOK BOOK [RATER RATER], --shortlist BOOK, or --events BOOK RATER [EVENT GRADE] ..\n", words[0]);
        return 2;
    }
    Desk desk;
    desk_empty(&desk);
    load(&desk, 1, books[0], given == 4 ? raters[0] : "1");
    load(&desk, 2, books[1], given == 4 ? raters[1] : "1");
    compare(&desk, on_shares);
    return 0;
}
