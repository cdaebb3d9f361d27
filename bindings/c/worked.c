/* The worked tables a to k of document 01, and those of of document 02, through the C interface. Prints each fact that does not
 * hold. */
#include "desk.h"

#include <stdbool.h>
#include <stdio.h>
#include <string.h>

/* A list of rows, each obligors, defaults and announced rate, and its length, as two arguments. */
#define TABLE(...) (const DeskRow[]){__VA_ARGS__}, sizeof((const DeskRow[]){__VA_ARGS__}) / sizeof(DeskRow)
#define TABLE_E TABLE({30, 2, 0}, {18, 4, 0}, {15, 10, 0}, {16, 14, 0}, {21, 20, 0})
#define HOLDS(fact) holds(fact, #fact, __LINE__)

static int failures = 0;

static void holds(bool fact, const char *text, int line)
{
    if (!fact) {
        fprintf(stderr, "worked.c:%d: %s\n", line, text);
        failures++;
    }
}

static uint32_t load(Desk *desk, uint32_t place, const DeskRow *rows, size_t grades)
{
    return desk_load_rows(desk, place, DESK_BY_OBLIGORS, rows, grades);
}

/* A desk with a table in place 1. */
static Desk desk_of(const DeskRow *rows, size_t grades)
{
    Desk desk;
    HOLDS(desk_empty(&desk) == 0);
    HOLDS(load(&desk, 1, rows, grades) == 0);
    return desk;
}

static uint32_t load_alone(const DeskRow *rows, size_t grades)
{
    Desk desk;
    desk_empty(&desk);
    return load(&desk, 2, rows, grades);
}

static bool is(DeskFraction fraction, int64_t numerator, int64_t denominator)
{
    return fraction.numerator == numerator && fraction.denominator == denominator;
}

/* Whether all grades of a table are pooled into one block. */
static bool pools_as_one(Desk desk, uint32_t defaults, uint32_t obligors)
{
    uint32_t numbers[DESK_POOL_NUMBERS];
    bool pooled = desk_pool(&desk, 1, numbers, DESK_POOL_NUMBERS) == 0;
    for (size_t i = 0; i < desk.first.grades; i++) {
        pooled = pooled && numbers[3 * i] == defaults && numbers[3 * i + 1] == obligors;
    }
    return pooled;
}

static int64_t cost(const Desk *desk, uint32_t place, DeskPrice price)
{
    DeskCutoff cheapest = {0, INT64_MAX};
    HOLDS(desk_cheapest(desk, place, price.u, price.v, &cheapest) == 0);
    return cheapest.cost;
}

static DeskVerdict verdict_of(const Desk *desk)
{
    DeskVerdict verdict = {99, {0, 0}, {0, 0}};
    HOLDS(desk_compare(desk, &verdict) == 0);
    return verdict;
}

static const uint8_t book_k[46] = {1, 0, 46, 0, 6, 0, 3, 0, 0, 0,
                                   10, 0, 0, 0, 2, 0, 0, 0, 0xA0, 0x86, 1, 0,
                                   10, 0, 0, 0, 1, 0, 0, 0, 0xF0, 0x49, 2, 0,
                                   20, 0, 0, 0, 4, 0, 0, 0, 0x40, 0x0D, 3, 0};

static void a_book_k(void)
{
    Desk desk;
    desk_empty(&desk);
    DeskBook laid_out;
    HOLDS(desk_book(&laid_out, DESK_BY_OBLIGORS, TABLE({10, 2, 100000}, {10, 1, 150000}, {20, 4, 200000})) == 0);
    HOLDS(laid_out.length == sizeof book_k && memcmp(laid_out.bytes, book_k, sizeof book_k) == 0);
    HOLDS(desk_load(&desk, 1, book_k, 45, 1) == DESK_REFUSED_LENGTH);
    HOLDS(desk_load(&desk, 1, book_k, 46, 1) == 0);
    HOLDS(desk.first.loaded == 1 && desk.second.loaded == 0);
    uint32_t numbers[10] = {[9] = 7};
    HOLDS(desk_pool(&desk, 1, numbers, 8) == DESK_REFUSED_BUFFER);
    HOLDS(desk_pool(&desk, 1, numbers, 10) == 0);
    const uint32_t pooled[10] = {3, 20, 11, 3, 20, 11, 4, 20, 11, 7};
    HOLDS(memcmp(numbers, pooled, sizeof pooled) == 0);
    DeskMeasures measures;
    HOLDS(desk_measures(&desk, 1, &measures) == 0 && is(measures.gini, 10, 231));
    HOLDS(measures.defaults == 7 && measures.survivors == 33);
    DeskFraction brier;
    HOLDS(desk_brier(&desk, 1, &brier) == 0 && is(brier, 5825000000000, 40000000000000));
    DeskSpread spread;
    HOLDS(desk_spread(&desk, 1, &spread) == 0);
    HOLDS(spread.total > 5.77 && spread.total < 5.78 && spread.residual > 5.74 && spread.residual < 5.76);
    uint8_t book[47] = {[46] = 7};
    size_t written = 0;
    HOLDS(desk_write(&desk, book, 47, &written) == 0);
    HOLDS(written == 46 && memcmp(book, book_k, 46) == 0 && book[46] == 7);
    HOLDS(desk_clear(&desk, 1) == 0 && desk_clear(&desk, 1) == DESK_REFUSED_EMPTY);
}

static void b_c_d_pooling(void)
{
    HOLDS(pools_as_one(desk_of(TABLE({10, 2, 0}, {20, 4, 0})), 6, 30));
    HOLDS(pools_as_one(desk_of(TABLE({10, 3, 0}, {10, 4, 0}, {10, 1, 0})), 8, 30));
    HOLDS(pools_as_one(desk_of(TABLE({90, 18, 0}, {10, 1, 0})), 19, 100));
}

static void e_five_grades(void)
{
    Desk desk = desk_of(TABLE_E);
    DeskMeasures measures;
    HOLDS(desk_measures(&desk, 1, &measures) == 0);
    HOLDS(measures.defaults == 50 && measures.survivors == 50);
    HOLDS(is(measures.gini, 2050, 2500) && is(measures.roc, 4550, 5000) && is(measures.cap, 7050, 10000));
    HOLDS(is(measures.pietra, 1800, 2500) && measures.cutoff == 3);
    const uint32_t bands[5] = {10, 12, 13, 14, 14};
    uint32_t numbers[15];
    HOLDS(desk_pool(&desk, 1, numbers, 15) == 0);
    for (size_t i = 0; i < 5; i++) {
        HOLDS(numbers[3 * i + 2] == bands[i]);
    }
}

static void f_reversed(void)
{
    Desk desk = desk_of(TABLE({2, 2, 0}, {2, 0, 0}));
    DeskMeasures measures;
    HOLDS(desk_measures(&desk, 1, &measures) == 0);
    HOLDS(is(measures.gini, -4, 4) && is(measures.pietra, -4, 4) && measures.cutoff == 1);
}

/* Document 02, R-1: equal sizes of opposite sign at cutoffs 1 and 2. */
static void r1_smaller_cutoff(void)
{
    Desk plus = desk_of(TABLE({1, 1, 0}, {2, 0, 0}, {1, 1, 0}));
    Desk minus = desk_of(TABLE({1, 0, 0}, {2, 2, 0}, {1, 0, 0}));
    DeskMeasures measures;
    HOLDS(desk_measures(&plus, 1, &measures) == 0);
    HOLDS(is(measures.gini, 0, 4) && is(measures.pietra, 2, 4) && measures.cutoff == 1);
    HOLDS(desk_measures(&minus, 1, &measures) == 0);
    HOLDS(is(measures.gini, 0, 4) && is(measures.pietra, -2, 4) && measures.cutoff == 1);
}

/* Document 02, R-4: K's rows with empty grades among them. `pooled` is what pool writes for `grades` grades, no number more. */
static void pools_to(const uint32_t *pooled, const DeskRow *rows, size_t grades)
{
    uint32_t numbers[DESK_POOL_NUMBERS], before[DESK_POOL_NUMBERS];
    Desk desk = desk_of(rows, grades), again;
    memset(numbers, 0xA5, sizeof numbers);
    memcpy(before, numbers, sizeof before);
    HOLDS(desk_pool(&desk, 1, numbers, 3 * grades - 1) == DESK_REFUSED_BUFFER);
    HOLDS(memcmp(numbers, before, sizeof before) == 0);
    HOLDS(desk_pool(&desk, 1, numbers, 3 * grades) == 0);
    HOLDS(memcmp(numbers, pooled, 3 * grades * sizeof *numbers) == 0);
    HOLDS(memcmp(numbers + 3 * grades, before, sizeof before - 3 * grades * sizeof *numbers) == 0);
    uint8_t book[DESK_BOOK_BYTES];
    size_t written = 0;
    desk_empty(&again);
    HOLDS(desk_write(&desk, book, sizeof book, &written) == 0 && written == 10 + 12 * grades);
    HOLDS(desk_load(&again, 1, book, written, 1) == 0 && memcmp(&again, &desk, sizeof desk) == 0);
}

#define NUMBERS(...) (const uint32_t[]){__VA_ARGS__}
static void r4_pooling(void)
{
    pools_to(NUMBERS(3, 20, 11, 3, 20, 11, 3, 20, 11, 4, 20, 11), TABLE({0, 0, 0}, {10, 2, 0}, {10, 1, 0}, {20, 4, 0}));
    pools_to(NUMBERS(3, 20, 11, 3, 20, 11, 4, 20, 11, 4, 20, 11), TABLE({10, 2, 0}, {10, 1, 0}, {20, 4, 0}, {0, 0, 0}));
    pools_to(NUMBERS(3, 20, 11, 3, 20, 11, 3, 20, 11, 4, 20, 11), TABLE({10, 2, 0}, {0, 0, 0}, {10, 1, 0}, {20, 4, 0}));
    pools_to(NUMBERS(3, 20, 11, 3, 20, 11, 3, 20, 11, 4, 20, 11), TABLE({10, 2, 0}, {10, 1, 0}, {0, 0, 0}, {20, 4, 0}));
    pools_to(NUMBERS(4, 20, 11, 4, 20, 11, 4, 20, 11, 4, 20, 11), TABLE({0, 0, 0}, {0, 0, 0}, {20, 4, 0}, {0, 0, 0}));
}

/* An empty grade adds nothing to any count, and cutoffs number it. */
static void r4_counts_and_cutoffs(void)
{
    Desk desk = desk_of(TABLE({0, 0, 1}, {10, 2, 100000}, {10, 1, 150000}, {0, 0, 180000}, {20, 4, 200000}, {0, 0, 900000}));
    HOLDS(desk_load(&desk, 2, book_k, sizeof book_k, 1) == 0);
    DeskMeasures measures;
    HOLDS(desk_measures(&desk, 1, &measures) == 0 && is(measures.gini, 10, 231));
    HOLDS(measures.defaults == 7 && measures.survivors == 33);
    DeskFraction brier;
    HOLDS(desk_brier(&desk, 1, &brier) == 0 && is(brier, 5825000000000, 40000000000000));
    DeskSpread with, without;
    HOLDS(desk_spread(&desk, 1, &with) == 0 && desk_spread(&desk, 2, &without) == 0);
    HOLDS(memcmp(&with, &without, sizeof with) == 0);
    HOLDS(verdict_of(&desk).kind == DESK_EQUAL);
    DeskCutoff cheapest;
    desk = desk_of(TABLE({0, 0, 0}, {5, 2, 0}, {0, 0, 0}, {1, 1, 0}, {0, 0, 0}, {0, 0, 0}));
    HOLDS(desk_cheapest(&desk, 1, 1, 3, &cheapest) == 0 && cheapest.cutoff == 3 && cheapest.cost == 2);
    HOLDS(desk_measures(&desk, 1, &measures) == 0 && is(measures.pietra, 3, 9) && measures.cutoff == 3);
}

/* Document 02, R-5: K's announced rates out of step, equal, and of an empty grade. Refused, the desk is as it was. */
static void r5_falling_rates(void)
{
    Desk desk = desk_of(TABLE_E), before = desk;
    DeskBook book, kept;
    memset(&book, 0xA5, sizeof book);
    memcpy(&kept, &book, sizeof book);
    HOLDS(load(&desk, 2, TABLE({10, 2, 150000}, {10, 1, 100000}, {20, 4, 200000})) == DESK_REFUSED_FALLING_RATE);
    HOLDS(load(&desk, 2, TABLE({10, 2, 100000}, {10, 1, 200000}, {20, 4, 150000})) == DESK_REFUSED_FALLING_RATE);
    HOLDS(load(&desk, 2, TABLE({10, 2, 100000}, {0, 0, 99999}, {20, 4, 200000})) == DESK_REFUSED_FALLING_RATE);
    HOLDS(load(&desk, 2, TABLE({10, 2, 100000}, {0, 0, 150000}, {20, 4, 149999})) == DESK_REFUSED_FALLING_RATE);
    HOLDS(load(&desk, 2, TABLE({0, 0, 100000}, {0, 0, 99999})) == DESK_REFUSED_FALLING_RATE);
    HOLDS(desk_book(&book, DESK_BY_SURVIVORS, TABLE({8, 2, 150000}, {9, 1, 100000})) == DESK_REFUSED_FALLING_RATE);
    HOLDS(memcmp(&desk, &before, sizeof desk) == 0 && memcmp(&book, &kept, sizeof book) == 0);
    HOLDS(load_alone(TABLE({10, 2, 100000}, {10, 1, 100000}, {0, 0, 200000}, {20, 4, 200000})) == 0);
    HOLDS(strcmp(desk_meaning(34), "announced rate below that of the row before") == 0);
}

/* Only the rater that is loaded has its rates looked at: of K twice in one book, one or the other with its first two rates swapped. */
static void r5_rates_of_another_rater(void)
{
    Desk desk = desk_of(TABLE({10, 2, 100000}, {10, 1, 150000}, {20, 4, 200000}));
    uint8_t book[DESK_BOOK_BYTES];
    size_t length = 0;
    HOLDS(desk_load(&desk, 2, book_k, sizeof book_k, 1) == 0);
    HOLDS(desk_write(&desk, book, sizeof book, &length) == 0 && length == 88);
    for (uint32_t falls = 1; falls <= 2; falls++) {
        uint8_t swapped[DESK_BOOK_BYTES];
        const size_t rows = falls == 1 ? 12 : 52; /* where they start */
        memcpy(swapped, book, length);
        memcpy(swapped + rows + 8, book + rows + 20, 4);
        memcpy(swapped + rows + 20, book + rows + 8, 4);
        HOLDS(desk_empty(&desk) == 0);
        HOLDS(desk_load(&desk, 1, swapped, length, falls) == DESK_REFUSED_FALLING_RATE && desk.first.loaded == 0);
        HOLDS(desk_load(&desk, 1, swapped, length, 3 - falls) == 0 && desk.first.loaded == 1);
    }
}

static void g_first_and_second(void)
{
    Desk desk = desk_of(TABLE({2, 0, 0}, {2, 1, 0}, {2, 2, 0}));
    HOLDS(load(&desk, 2, TABLE({3, 1, 0}, {3, 2, 0})) == 0);
    DeskVerdict verdict = verdict_of(&desk);
    HOLDS(verdict.kind == DESK_FIRST);
    HOLDS(cost(&desk, 1, verdict.second_dearer) < cost(&desk, 2, verdict.second_dearer));

    desk = desk_of(TABLE({3, 1, 0}, {3, 2, 0}));
    HOLDS(load(&desk, 2, TABLE({2, 0, 0}, {2, 1, 0}, {2, 2, 0})) == 0);
    verdict = verdict_of(&desk);
    HOLDS(verdict.kind == DESK_SECOND);
    HOLDS(cost(&desk, 1, verdict.first_dearer) > cost(&desk, 2, verdict.first_dearer));
}

static void h_crossing(void)
{
    Desk desk = desk_of(TABLE({5, 2, 0}, {1, 1, 0}));
    HOLDS(load(&desk, 2, TABLE({2, 0, 0}, {4, 3, 0})) == 0);
    DeskVerdict verdict = verdict_of(&desk);
    HOLDS(verdict.kind == DESK_CROSSING);
    HOLDS(cost(&desk, 1, verdict.first_dearer) > cost(&desk, 2, verdict.first_dearer));
    HOLDS(cost(&desk, 1, verdict.second_dearer) < cost(&desk, 2, verdict.second_dearer));
    const DeskPrice even = {1, 1}, strict = {1, 3};
    HOLDS(cost(&desk, 1, even) == 2 && cost(&desk, 2, even) == 1);
    HOLDS(cost(&desk, 1, strict) == 2 && cost(&desk, 2, strict) == 3);
}

static void i_equal(void)
{
    Desk desk = desk_of(TABLE_E);
    HOLDS(load(&desk, 2, TABLE_E) == 0);
    HOLDS(verdict_of(&desk).kind == DESK_EQUAL);
}

static void k_limits(void)
{
    HOLDS(load_alone(TABLE({DESK_MAX_OBLIGORS, 1, 0})) == 0);
    HOLDS(load_alone(TABLE({DESK_MAX_OBLIGORS + 1, 1, 0})) == DESK_REFUSED_OBLIGORS);
    HOLDS(load_alone(TABLE({1, 0, 0})) == 0);
    HOLDS(load_alone(TABLE({0, 0, 0})) == DESK_REFUSED_NO_OBLIGORS);
    HOLDS(load_alone(TABLE({0, 0, 0}, {0, 0, 0})) == DESK_REFUSED_NO_OBLIGORS);
    HOLDS(load_alone(TABLE({0, 0, 0}, {1, 0, 0})) == 0 && load_alone(TABLE({1, 0, 0}, {0, 0, 0})) == 0);
    HOLDS(load_alone(TABLE({0, 0, 1000001}, {0, 0, 0})) == DESK_REFUSED_ANNOUNCED);
    HOLDS(load_alone(TABLE({0, 1, 0}, {1, 0, 0})) == DESK_REFUSED_DEFAULTS);
    HOLDS(load_alone(TABLE({0, 0, 0}, {DESK_MAX_OBLIGORS, 1, 0})) == 0);
    HOLDS(load_alone(TABLE({0, 0, 0}, {DESK_MAX_OBLIGORS + 1, 1, 0})) == DESK_REFUSED_OBLIGORS);
    DeskRow rows[DESK_GRADES + 1];
    for (size_t i = 0; i <= DESK_GRADES; i++) {
        rows[i] = (DeskRow){1, 0, 0};
    }
    HOLDS(load_alone(rows, DESK_GRADES) == 0);
    HOLDS(load_alone(rows, DESK_GRADES + 1) == DESK_REFUSED_GRADES);
    Desk desk = desk_of(TABLE({1, 0, 0}));
    DeskCutoff cheapest;
    HOLDS(desk_cheapest(&desk, 1, DESK_MAX_PRICE, DESK_MAX_PRICE, &cheapest) == 0);
    HOLDS(desk_cheapest(&desk, 1, DESK_MAX_PRICE + 1, 0, &cheapest) == DESK_REFUSED_PRICE);
    HOLDS(desk_cheapest(&desk, 1, 0, DESK_MAX_PRICE + 1, &cheapest) == DESK_REFUSED_PRICE);
}

/* The library is the header's, and a desk of zero bytes is an empty one. */
static void version_and_empty_desk(void)
{
    static const Desk zero;
    Desk desk;
    memset(&desk, 0xA5, sizeof desk);
    HOLDS(desk_version() == DESK_VERSION && DESK_MARKER() == DESK_VERSION);
    HOLDS(desk_empty(&desk) == 0 && memcmp(&desk, &zero, sizeof desk) == 0);
    HOLDS(load(&desk, 2, TABLE_E) == 0 && desk_clear(&desk, 2) == 0 && memcmp(&desk, &zero, sizeof desk) == 0);
}

int main(void)
{
    version_and_empty_desk();
    a_book_k();
    b_c_d_pooling();
    e_five_grades();
    f_reversed();
    r1_smaller_cutoff();
    r4_pooling();
    r4_counts_and_cutoffs();
    r5_falling_rates();
    r5_rates_of_another_rater();
    g_first_and_second();
    h_crossing();
    i_equal();
    k_limits();
    return failures == 0 ? 0 : 1;
}
