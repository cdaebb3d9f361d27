/* Document 02, R-6, in C or C++: scales over different books, compared on shares. The prices that a verdict carries are held to what they cost by
 * definition; refused, the desk and the answer are as they were. Prints each fact that does not hold. */
#include "desk.h"

#include <stdbool.h>
#include <stdio.h>
#include <string.h>

#define HOLDS(fact) holds(fact, #fact, __LINE__)

__extension__ typedef unsigned __int128 Wide; /* -Wpedantic knows no such type */
/* A table by obligors. */
typedef struct Scale { DeskRow rows[3]; size_t grades; } Scale;

static const Scale coarse = {{{3, 1, 0}, {3, 2, 0}}, 2}, coarse_twice = {{{6, 2, 0}, {6, 4, 0}}, 2};
static const Scale fine = {{{2, 0, 0}, {2, 1, 0}, {2, 2, 0}}, 3};
static const Scale worst_apart = {{{5, 2, 0}, {1, 1, 0}}, 2}, best_apart = {{{2, 0, 0}, {4, 3, 0}}, 2};
static const Scale best_apart_twice = {{{4, 0, 0}, {8, 6, 0}}, 2};
/* Two that cross, of 50,000 defaults each, 50,000 and 49,999 survivors: as high as break-even prices get. */
static const Scale steep = {{{43100, 100, 0}, {56900, 49900, 0}}, 2}, shallow = {{{69000, 20000, 0}, {30999, 30000, 0}}, 2};
static const Scale apart = {{{50001, 1, 0}, {49999, 49999, 0}}, 2}, together = {{{99999, 49999, 0}, {1, 1, 0}}, 2};
static const Scale most = {{{100000, 1, 0}}, 1}, spread_out = {{{60000, 1, 0}, {0, 0, 0}, {40000, 2, 0}}, 3};
static const Scale larger = {{{100001, 1, 0}}, 1}, one_more = {{{60000, 1, 0}, {0, 0, 0}, {40001, 2, 0}}, 3};
static const Scale largest = {{{1000000, 999999, 0}}, 1}, larger_without_defaults = {{{100001, 0, 0}}, 1};
static const Scale larger_without_survivors = {{{100001, 100001, 0}}, 1};
static const Scale no_defaults = {{{2, 0, 0}}, 1}, no_survivors = {{{2, 2, 0}}, 1};

static int failures = 0;

static void holds(bool fact, const char *text, int line)
{
    if (!fact) {
        fprintf(stderr, "shares.c:%d: %s\n", line, text);
        failures++;
    }
}

/* A desk with these tables; a place without one is empty. */
static Desk desk_with(const Scale *first, const Scale *second)
{
    Desk desk;
    HOLDS(desk_empty(&desk) == 0);
    HOLDS(first == NULL || desk_load_rows(&desk, 1, DESK_BY_OBLIGORS, first->rows, first->grades) == 0);
    HOLDS(second == NULL || desk_load_rows(&desk, 2, DESK_BY_OBLIGORS, second->rows, second->grades) == 0);
    return desk;
}

static Wide defaults_of(const Scale *scale, size_t grades)
{
    Wide sum = 0;
    for (size_t i = 0; i < grades; i++) {
        sum += scale->rows[i].defaults;
    }
    return sum;
}

static Wide survivors_of(const Scale *scale, size_t grades)
{
    Wide sum = 0;
    for (size_t i = 0; i < grades; i++) {
        sum += scale->rows[i].count - scale->rows[i].defaults;
    }
    return sum;
}

/* DS, over which costs are written. */
static Wide whole(const Scale *scale)
{
    return defaults_of(scale, scale->grades) * survivors_of(scale, scale->grades);
}

/* What the cheapest cutoff costs, u(D - y)/D + vx/S, times DS. */
static Wide cost(const Scale *scale, DeskPrice price)
{
    const Wide defaults = defaults_of(scale, scale->grades), survivors = survivors_of(scale, scale->grades);
    Wide least = price.v * whole(scale);
    for (size_t kept = 1; kept <= scale->grades; kept++) {
        const Wide missed = defaults_of(scale, kept), turned_away = survivors - survivors_of(scale, kept);
        const Wide costs = price.u * missed * survivors + price.v * turned_away * defaults;
        least = costs < least ? costs : least;
    }
    return least;
}

/* Whether one costs more than the other at prices that are as high as said at most. */
static bool dearer(const Scale *one, const Scale *other, DeskPrice price)
{
    const bool in_range = price.u <= DESK_MAX_PRICE_ON_SHARES && price.v <= DESK_MAX_PRICE_ON_SHARES;
    return in_range && cost(one, price) * whole(other) > cost(other, price) * whole(one);
}

static bool is_none(DeskPrice price)
{
    return price.u == 0 && price.v == 0;
}

/* The verdict, whose prices show it; the desk and what stands beside the answer are kept. */
static DeskVerdict verdict_of(const Scale *first, const Scale *second)
{
    Desk desk = desk_with(first, second), before = desk; /* not const: whether it is kept is to be seen */
    DeskVerdict answers[3], kept;
    memset(answers, 0xA5, sizeof answers);
    kept = answers[0];
    HOLDS(desk_compare_shares(&desk, &answers[1]) == 0);
    HOLDS(memcmp(&desk, &before, sizeof desk) == 0);
    HOLDS(memcmp(&answers[0], &kept, sizeof kept) == 0 && memcmp(&answers[2], &kept, sizeof kept) == 0);
    const DeskVerdict found = answers[1];
    HOLDS(found.kind <= DESK_CROSSING);
    const bool first_dearer = found.kind == DESK_SECOND || found.kind == DESK_CROSSING;
    const bool second_dearer = found.kind == DESK_FIRST || found.kind == DESK_CROSSING;
    HOLDS(first_dearer ? dearer(first, second, found.first_dearer) : is_none(found.first_dearer));
    HOLDS(second_dearer ? dearer(second, first, found.second_dearer) : is_none(found.second_dearer));
    return found;
}

/* The number that a comparison by counts is refused with; accepted, its verdict is the one on shares. */
static uint32_t by_counts(const Scale *first, const Scale *second)
{
    const Desk desk = desk_with(first, second);
    DeskVerdict verdict;
    const uint32_t refusal = desk_compare(&desk, &verdict);
    HOLDS(refusal != 0 || verdict.kind == verdict_of(first, second).kind);
    return refusal;
}

/* Sees this number given on shares, nothing written and the desk as it was. */
static void refused(const Scale *first, const Scale *second, uint32_t number)
{
    Desk desk = desk_with(first, second), before = desk; /* not const: whether it is kept is to be seen */
    DeskVerdict answer, kept;
    memset(&answer, 0xA5, sizeof answer);
    kept = answer;
    HOLDS(desk_compare_shares(&desk, &answer) == number);
    HOLDS(memcmp(&desk, &before, sizeof desk) == 0 && memcmp(&answer, &kept, sizeof answer) == 0);
}

static void worked(void)
{
    HOLDS(verdict_of(&coarse, &coarse_twice).kind == DESK_EQUAL && by_counts(&coarse, &coarse_twice) == DESK_REFUSED_UNLIKE);
    HOLDS(verdict_of(&fine, &coarse_twice).kind == DESK_FIRST && verdict_of(&coarse_twice, &fine).kind == DESK_SECOND);
    HOLDS(verdict_of(&worst_apart, &best_apart_twice).kind == DESK_CROSSING);
    const DeskPrice even = {1, 1}, strict = {1, 3};
    HOLDS(cost(&worst_apart, strict) == 6 && whole(&worst_apart) == 9); /* two of three defaults missed */
    HOLDS(cost(&best_apart_twice, strict) == 36 && whole(&best_apart_twice) == 36);
    HOLDS(dearer(&best_apart_twice, &worst_apart, strict) && dearer(&worst_apart, &best_apart_twice, even));
}

static void equal_totals(void)
{
    HOLDS(by_counts(&coarse, &coarse) == 0 && by_counts(&fine, &coarse) == 0 && by_counts(&coarse, &fine) == 0);
    HOLDS(by_counts(&worst_apart, &best_apart) == 0 && by_counts(&apart, &together) == 0);
}

/* As unsigned numbers; signed ones would be negative. Which prices show a verdict is the library's choice, and of these tables it takes such high
 * ones: break-even prices as they are, not reduced. */
static void prices_above_2_to_the_31(void)
{
    const DeskVerdict crossing = verdict_of(&steep, &shallow), first = verdict_of(&apart, &together);
    HOLDS(crossing.kind == DESK_CROSSING && crossing.first_dearer.v > INT32_MAX && crossing.second_dearer.u > INT32_MAX);
    HOLDS(first.kind == DESK_FIRST && first.second_dearer.u > INT32_MAX && first.second_dearer.v > INT32_MAX);
    HOLDS(DESK_MAX_PRICE_ON_SHARES == UINT32_C(50000) * 50000 && sizeof DESK_MAX_PRICE_ON_SHARES == sizeof(uint32_t));
    /* they are too high for desk_cheapest */
    const Desk desk = desk_with(&apart, &together);
    DeskCutoff cheapest;
    HOLDS(desk_cheapest(&desk, 1, first.second_dearer.u, 0, &cheapest) == DESK_REFUSED_PRICE);
}

static void limits(void)
{
    HOLDS(most.rows[0].count == DESK_MAX_OBLIGORS_ON_SHARES && larger.rows[0].count == DESK_MAX_OBLIGORS_ON_SHARES + 1);
    HOLDS(verdict_of(&most, &coarse).kind == DESK_SECOND && verdict_of(&coarse, &most).kind == DESK_FIRST);
    HOLDS(verdict_of(&most, &most).kind == DESK_EQUAL && verdict_of(&spread_out, &most).kind == DESK_FIRST);
    const Scale *const too_large[] = {&larger, &one_more, &largest};
    for (size_t i = 0; i < sizeof too_large / sizeof *too_large; i++) {
        refused(too_large[i], &coarse, DESK_REFUSED_LARGE_TABLE);
        refused(&coarse, too_large[i], DESK_REFUSED_LARGE_TABLE);
        refused(too_large[i], too_large[i], DESK_REFUSED_LARGE_TABLE);
        refused(too_large[i], &no_survivors, DESK_REFUSED_NO_SURVIVORS);
        refused(&no_survivors, too_large[i], DESK_REFUSED_NO_SURVIVORS);
        refused(too_large[i], &no_defaults, DESK_REFUSED_NO_DEFAULTS);
        refused(&no_defaults, too_large[i], DESK_REFUSED_NO_DEFAULTS);
        refused(too_large[i], NULL, DESK_REFUSED_EMPTY);
        refused(NULL, too_large[i], DESK_REFUSED_EMPTY);
        const Desk desk = desk_with(too_large[i], too_large[i]);
        DeskVerdict verdict;
        HOLDS(desk_compare(&desk, &verdict) == 0 && verdict.kind == DESK_EQUAL);
    }
    HOLDS(DESK_REFUSED_LARGE_TABLE == 35);
    HOLDS(strcmp(desk_meaning(35), "N above 100,000 (compare on shares; N: obligors of the table)") == 0);
}

/* 22 before 23 before 24 before 35, each for either place. */
static void order(void)
{
    refused(NULL, NULL, DESK_REFUSED_EMPTY);
    refused(NULL, &no_defaults, DESK_REFUSED_EMPTY);
    refused(&no_survivors, NULL, DESK_REFUSED_EMPTY);
    refused(&no_defaults, &coarse, DESK_REFUSED_NO_DEFAULTS);
    refused(&no_survivors, &no_defaults, DESK_REFUSED_NO_DEFAULTS);
    refused(&no_defaults, &no_survivors, DESK_REFUSED_NO_DEFAULTS);
    refused(&coarse, &larger_without_defaults, DESK_REFUSED_NO_DEFAULTS);
    refused(&larger_without_survivors, &larger_without_defaults, DESK_REFUSED_NO_DEFAULTS);
    refused(&no_survivors, &coarse, DESK_REFUSED_NO_SURVIVORS);
    refused(&coarse, &no_survivors, DESK_REFUSED_NO_SURVIVORS);
    refused(&larger_without_survivors, &larger, DESK_REFUSED_NO_SURVIVORS);
}

int main(void)
{
    worked();
    equal_totals();
    prices_above_2_to_the_31();
    limits();
    order();
    return failures == 0 ? 0 : 1;
}
