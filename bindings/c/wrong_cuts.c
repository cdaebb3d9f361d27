/* Where a book is cut wrong: desk_wrong_cut on a book of three tables. Directed cases: 31 and 32 at the first, the middle and the last
 * table, 33, and two at once. Then every value of every byte of its offsets and headers, at every length of the book, against desk_load
 * and against what include/desk.h says of an answer. Prints each case that differs. What is lent stands on the heap and is exactly as
 * long as said, so that a tool which watches the heap sees any step beyond. wrong_cuts [STEP] tries every STEP-th length only. */
#include "desk.h"

#include <inttypes.h>
#include <stdbool.h>
#include <stdio.h>
#include <stdlib.h>
#include <string.h>

enum { RATERS = 3, FIRST = 10, MIDDLE = 38, LAST = 54, LENGTH = 94, MORE = 20, KEPT = 0xA5 };
#define COUNT(array) (sizeof(array) / sizeof *(array))

static int failures = 0;
static size_t answered[4]; /* how often desk_wrong_cut answered 0, 31, 32, 33 */

static void put_two(uint8_t *at, size_t number)
{
    at[0] = (uint8_t)(number & 0xFF);
    at[1] = (uint8_t)(number >> 8 & 0xFF);
}

static size_t two_at(const uint8_t *book, size_t at) { return (size_t)book[at] + 256 * (size_t)book[at + 1]; }

/* Tables of 2, 1 and 3 grades with one obligor each, and zero bytes behind them. */
static void lay_out(uint8_t book[LENGTH + MORE])
{
    const size_t starts[] = {FIRST, MIDDLE, LAST};
    const uint8_t grades[] = {2, 1, 3};
    memset(book, 0, LENGTH + MORE);
    book[0] = RATERS;
    put_two(book + 2, LENGTH);
    for (size_t i = 0; i < RATERS; i++) {
        put_two(book + 4 + 2 * i, starts[i]);
        book[starts[i]] = grades[i];
        for (size_t grade = 0; grade < grades[i]; grade++) {
            book[starts[i] + 4 + 12 * grade] = 1;
        }
    }
}

static bool is_cut(uint32_t number) { return number >= DESK_REFUSED_TABLE_START && number <= DESK_REFUSED_LEFTOVER; }

/* Where the table of a rater ends, the offsets of rater 0. */
static size_t end_of(const uint8_t *book, size_t length, uint32_t rater)
{
    const size_t start = rater > 0 ? two_at(book, 2 + 2 * (size_t)rater) : 0;
    if (rater == 0) {
        return 4 + 2 * two_at(book, 0);
    }
    return start + 4 + (start + 4 <= length ? 12 * (size_t)book[start] : 0);
}

static bool in_place(const uint8_t *book, size_t length, uint32_t rater)
{
    return two_at(book, 2 + 2 * (size_t)rater) == end_of(book, length, rater - 1) && end_of(book, length, rater) <= length;
}

/* Whether an answer is as the header says. */
static bool is_right(const uint8_t *book, size_t length, uint32_t number, DeskWrongCut cut)
{
    const size_t raters = two_at(book, 0), offset = 2 + 2 * (size_t)cut.rater;
    const uint32_t before = number == 33 ? cut.rater : cut.rater - 1;
    bool right = cut.rater >= 1 && cut.rater <= raters;
    for (uint32_t rater = 1; right && rater <= before; rater++) {
        right = in_place(book, length, rater);
    }
    if (!right || number == 33) {
        return right && cut.rater == raters && cut.byte == cut.expected && cut.expected == end_of(book, length, cut.rater)
               && cut.found == length && cut.expected < length;
    }
    if (number == 31) {
        return cut.byte == offset && cut.found == two_at(book, offset) && cut.expected == end_of(book, length, before)
               && cut.found != cut.expected;
    }
    return cut.byte == two_at(book, offset) && cut.byte == end_of(book, length, before) && cut.found == length
           && cut.expected == end_of(book, length, cut.rater) && cut.expected > length;
}

/* One book: the number is the library's, and the answer right or kept. */
static uint32_t try_book(const uint8_t *given, size_t length, DeskWrongCut *cut)
{
    DeskWrongCut kept;
    Desk desk;
    uint8_t *book = malloc(length > 0 ? length : 1);
    if (book == NULL) {
        perror("wrong_cuts");
        exit(2);
    }
    memcpy(book, given, length);
    memset(&kept, KEPT, sizeof kept);
    memset(cut, KEPT, sizeof *cut);
    desk_empty(&desk);
    const uint32_t loaded = desk_load(&desk, 1, book, length, 1), number = desk_wrong_cut(book, length, cut);
    if (number != (is_cut(loaded) ? loaded : 0) || memcmp(book, given, length) != 0
        || (number == 0 ? memcmp(cut, &kept, sizeof kept) != 0 : !is_right(book, length, number, *cut))) {
        failures++;
        fprintf(stderr, "wrong_cuts: %zu bytes: load %" PRIu32 ", cut %" PRIu32 ", rater %" PRIu32 ", byte %zu, expected %zu, found %zu\n",
                length, loaded, number, cut->rater, cut->byte, cut->expected, cut->found);
    }
    answered[number == 0 ? 0 : number - 30]++;
    free(book);
    return number;
}

/* The book with two bytes of its layout changed, and with another length, which it states. */
typedef struct { size_t at, byte, at_2, byte_2, length; uint32_t number; DeskWrongCut cut; } Case;

static const Case cases[] = {
    {0, 3, 0, 3, LENGTH, 0, {0, 0, 0, 0}},
    {4, 11, 4, 11, LENGTH, 31, {1, 4, FIRST, 11}},                 /* 31 at each table, by its offset */
    {6, 37, 6, 37, LENGTH, 31, {2, 6, MIDDLE, 37}},
    {8, 0, 8, 0, LENGTH, 31, {3, 8, LAST, 0}},
    {FIRST, 1, FIRST, 1, LENGTH, 31, {2, 6, 26, MIDDLE}},          /* or by the grades of the one before */
    {MIDDLE, 2, MIDDLE, 2, LENGTH, 31, {3, 8, 66, LAST}},
    {0, 3, 0, 3, FIRST, 32, {1, FIRST, FIRST + 4, FIRST}},         /* 32 in the header of each table */
    {0, 3, 0, 3, MIDDLE + 1, 32, {2, MIDDLE, MIDDLE + 4, MIDDLE + 1}},
    {0, 3, 0, 3, LAST + 3, 32, {3, LAST, LAST + 4, LAST + 3}},
    {0, 3, 0, 3, MIDDLE - 1, 32, {1, FIRST, MIDDLE, MIDDLE - 1}},  /* and in its rows */
    {FIRST, 8, FIRST, 8, LENGTH, 32, {1, FIRST, 110, LENGTH}},
    {MIDDLE, 40, MIDDLE, 40, LENGTH, 32, {2, MIDDLE, 522, LENGTH}},
    {0, 3, 0, 3, LENGTH - 1, 32, {3, LAST, LENGTH, LENGTH - 1}},
    {LAST, 4, LAST, 4, LENGTH, 32, {3, LAST, LENGTH + 12, LENGTH}},
    {0, 3, 0, 3, LENGTH + 1, 33, {3, LENGTH, LENGTH, LENGTH + 1}}, /* 33 */
    {LAST, 1, LAST, 1, LENGTH, 33, {3, 70, 70, LENGTH}},
    {0, 3, 0, 3, LENGTH + MORE, 33, {3, LENGTH, LENGTH, LENGTH + MORE}},
    {4, 11, FIRST, 40, LENGTH, 31, {1, 4, FIRST, 11}},             /* two at once: the first decides */
    {6, 37, FIRST, 40, LENGTH, 32, {1, FIRST, 494, LENGTH}},
    {6, 37, LAST, 40, LENGTH + 1, 31, {2, 6, MIDDLE, 37}},
    {8, 0, MIDDLE, 40, LENGTH + 1, 32, {2, MIDDLE, 522, LENGTH + 1}},
    {8, 0, 8, 0, LENGTH + 1, 31, {3, 8, LAST, 0}},
    {LAST, 5, LAST, 5, LENGTH + 1, 32, {3, LAST, 118, LENGTH + 1}},
    {FIRST, 0, 6, 37, LENGTH, 0, {0, 0, 0, 0}},                    /* behind 6 and 7 */
    {MIDDLE + 1, 2, 8, 0, LENGTH + 1, 0, {0, 0, 0, 0}},
    {4, 11, FIRST, 0, LENGTH, 31, {1, 4, FIRST, 11}},              /* and before them */
    {FIRST + 4, 0, FIRST + 16, 0, LENGTH, 0, {0, 0, 0, 0}},        /* all grades of the table empty: none, and before 9 */
    {FIRST + 4, 0, FIRST + 16, 0, LENGTH + 1, 33, {3, LENGTH, LENGTH, LENGTH + 1}},
    {FIRST + 12, 2, FIRST + 24, 1, LENGTH, 0, {0, 0, 0, 0}},       /* announced rates that fall, 34: none, and before it */
    {FIRST + 12, 2, FIRST + 24, 1, LENGTH + 1, 33, {3, LENGTH, LENGTH, LENGTH + 1}},
    {FIRST + 12, 2, 8, 0, LENGTH, 31, {3, 8, LAST, 0}},
};

static void directed(void)
{
    for (size_t i = 0; i < COUNT(cases); i++) {
        const Case *const one = &cases[i];
        uint8_t book[LENGTH + MORE];
        DeskWrongCut cut;
        lay_out(book);
        book[one->at] = (uint8_t)one->byte;
        book[one->at_2] = (uint8_t)one->byte_2;
        put_two(book + 2, one->length);
        const uint32_t number = try_book(book, one->length, &cut);
        const bool same = cut.rater == one->cut.rater && cut.byte == one->cut.byte && cut.expected == one->cut.expected
                          && cut.found == one->cut.found;
        if (number != one->number || (number != 0 && !same)) {
            failures++;
            fprintf(stderr, "wrong_cuts: case %zu: %" PRIu32 " for %" PRIu32 ", or another answer\n", i, number, one->number);
        }
    }
}

/* Every value of every byte of the number of raters, the offsets and the headers, at every length or every step-th. */
static void sweep(size_t step)
{
    const size_t bytes[] = {0, 1, 4, 5, 6, 7, 8, 9, FIRST, FIRST + 1, FIRST + 2, FIRST + 3, MIDDLE, MIDDLE + 1, MIDDLE + 2, MIDDLE + 3,
                            LAST, LAST + 1, LAST + 2, LAST + 3};
    for (size_t length = 0; length <= LENGTH + MORE; length += step) {
        for (size_t i = 0; i < COUNT(bytes); i++) {
            for (size_t value = 0; value < 256; value++) {
                uint8_t book[LENGTH + MORE];
                DeskWrongCut cut;
                lay_out(book);
                put_two(book + 2, length);
                book[bytes[i]] = (uint8_t)value;
                try_book(book, length, &cut);
            }
        }
    }
}

/* Announced rates that fall are refused with 34, which is no cut. */
static void falling_rates(void)
{
    uint8_t book[LENGTH + MORE];
    Desk desk;
    DeskWrongCut cut;
    lay_out(book);
    book[FIRST + 12] = 1;
    desk_empty(&desk);
    if (desk_load(&desk, 1, book, LENGTH, 1) != DESK_REFUSED_FALLING_RATE || desk_wrong_cut(book, LENGTH, &cut) != 0) {
        failures++;
        fprintf(stderr, "wrong_cuts: falling rates are not refused with 34, or are called a cut\n");
    }
}

int main(int count, char **words)
{
    const size_t step = count > 1 ? (size_t)strtoul(words[1], NULL, 10) : 1;
    directed();
    falling_rates();
    sweep(step > 0 ? step : 1);
    for (size_t i = 0; i < COUNT(answered); i++) {
        if (answered[i] == 0) {
            failures++;
            fprintf(stderr, "wrong_cuts: no book was answered with %zu\n", i == 0 ? 0 : 30 + i);
        }
    }
    return failures > 0;
}
