/* Document 02, R-8, in C or C++: firms that come and go. This file keeps counts of its own, to which it books each event by definition, and pools
 * them by definition: after every call the desk is byte by byte the one that they make, and refused, the one that it was. Prints each fact that
 * does not hold. events [EVENTS] tries so many random events. The desk stands on the heap, with nothing behind it, so that a tool which watches
 * the heap sees any step beyond. */
#include "desk.h"

#include <inttypes.h>
#include <stdbool.h>
#include <stdio.h>
#include <stdlib.h>
#include <string.h>

#define HOLDS(fact) holds(fact, #fact, __LINE__)
#define COUNT(array) (sizeof(array) / sizeof *(array))

enum { MILLION = 1000000, KEPT = 0xA5, NUMBERS = 39 };

typedef enum Event { ENTERS, LEAVES, DEFAULTS, REMOVED, EVENTS } Event;
static uint32_t (*const calls[EVENTS])(Desk *, uint32_t, uint32_t) = {desk_survivor_enters, desk_survivor_leaves, desk_survivor_defaults,
                                                                       desk_defaulted_removed};

/* The counts of a place, by obligors; an empty one has no grade. */
typedef struct Counts { DeskRow rows[DESK_GRADES]; uint32_t grades; } Counts;
/* A desk, and the counts that its places are to hold. */
typedef struct Booked { Desk *desk; Counts places[2]; } Booked;

static const Counts nothing = {{{0, 0, 0}}, 0};
static const Counts mixed = {{{10, 2, 5}, {10, 1, 5}, {0, 0, 700}, {20, 4, 900000}}, 4};

static int failures = 0;
static size_t answered[EVENTS][NUMBERS]; /* how often each event answered each number */

static void holds(bool fact, const char *text, int line)
{
    if (!fact) {
        fprintf(stderr, "events.c:%d: %s\n", line, text);
        failures++;
    }
}

/* The rules, as document 02 has them. */

static uint32_t obligors_of(const Counts *counts)
{
    uint32_t sum = 0;
    for (uint32_t i = 0; i < counts->grades; i++) {
        sum += counts->rows[i].count;
    }
    return sum;
}

/* Of the grade the firms that such an event is about: of an entry, those that are still to come. */
static uint32_t firms_for(Event event, const Counts *counts, const DeskRow *row)
{
    switch (event) {
    case ENTERS: return MILLION - obligors_of(counts);
    case REMOVED: return row->defaults;
    default: return row->count - row->defaults;
    }
}

static uint32_t number_of(const Booked *booked, Event event, uint32_t place, uint32_t grade)
{
    if (place != 1 && place != 2) {
        return DESK_REFUSED_PLACE;
    }
    const Counts *const counts = &booked->places[place - 1];
    if (counts->grades == 0) {
        return DESK_REFUSED_EMPTY;
    }
    if (grade < 1 || grade > counts->grades) {
        return DESK_REFUSED_NO_GRADE;
    }
    if (firms_for(event, counts, &counts->rows[grade - 1]) == 0) {
        return event == ENTERS ? DESK_REFUSED_FULL_TABLE : DESK_REFUSED_NO_FIRM;
    }
    return (event == LEAVES || event == REMOVED) && obligors_of(counts) == 1 ? DESK_REFUSED_NO_FIRM : 0;
}

static void book(Event event, DeskRow *row)
{
    switch (event) {
    case ENTERS: row->count++; break;
    case LEAVES: row->count--; break;
    case DEFAULTS: row->defaults++; break;
    default: row->count--, row->defaults--; break;
    }
}

/* A run of grades: its totals, and its last grade that is occupied, counted from 0. */
typedef struct Block { uint32_t defaults, obligors, last; } Block;

/* The blocks, each with a rate above that of the one before: neighbours whose rates fall or are equal are joined until none are left. */
static void find_blocks(const Counts *counts, Block *blocks)
{
    uint32_t found = 0;
    for (uint32_t i = 0; i < counts->grades; i++) {
        if (counts->rows[i].count > 0) {
            Block next = {counts->rows[i].defaults, counts->rows[i].count, i};
            while (found > 0 && (uint64_t)blocks[found - 1].defaults * next.obligors >= (uint64_t)next.defaults * blocks[found - 1].obligors) {
                found--;
                next.defaults += blocks[found].defaults;
                next.obligors += blocks[found].obligors;
            }
            blocks[found++] = next;
        }
    }
}

static uint32_t band_of(const Block *block)
{
    uint32_t band = 0;
    while (band < 14 && (uint64_t)block->defaults * MILLION > ((uint64_t)100 << band) * block->obligors) {
        band++;
    }
    return band;
}

/* The place that holds these counts. */
static DeskPlace place_of(const Counts *counts)
{
    Block blocks[DESK_GRADES], *block = blocks;
    DeskPlace place;
    memset(&place, 0, sizeof place);
    find_blocks(counts, blocks);
    for (uint32_t i = 0; i < counts->grades; i++) {
        if (counts->rows[i].count > 0 && i > block->last) {
            block++; /* an empty grade stays with the one before, in front of all others with the first block */
        }
        place.obligors[i] = counts->rows[i].count;
        place.defaults[i] = counts->rows[i].defaults;
        place.announced[i] = counts->rows[i].announced;
        place.pooled[3 * i] = block->defaults;
        place.pooled[3 * i + 1] = block->obligors;
        place.pooled[3 * i + 2] = band_of(block);
    }
    place.grades = counts->grades;
    place.loaded = counts->grades > 0;
    return place;
}

/* What is seen of a desk. */

/* Sees each byte of the desk follow from the counts. */
static void see_image(const Booked *booked)
{
    const DeskPlace first = place_of(&booked->places[0]), second = place_of(&booked->places[1]);
    HOLDS(memcmp(&booked->desk->first, &first, sizeof first) == 0);
    HOLDS(memcmp(&booked->desk->second, &second, sizeof second) == 0);
}

/* Sees the desk that a fresh one becomes which loads the counts, and the one that loads the book written of them. */
static void see_fresh(const Booked *booked)
{
    uint8_t bytes[DESK_BOOK_BYTES];
    size_t written = 0;
    Desk of_rows, of_book;
    uint32_t rater = 0;
    const uint32_t refusal = desk_write(booked->desk, bytes, sizeof bytes, &written);
    HOLDS(desk_empty(&of_rows) == 0 && desk_empty(&of_book) == 0);
    for (uint32_t place = 1; place <= 2; place++) {
        const Counts *const counts = &booked->places[place - 1];
        if (counts->grades > 0) {
            HOLDS(desk_load_rows(&of_rows, place, DESK_BY_OBLIGORS, counts->rows, counts->grades) == 0);
            HOLDS(desk_load(&of_book, place, bytes, written, ++rater) == 0);
        }
    }
    HOLDS(refusal == (rater > 0 ? 0 : DESK_REFUSED_EMPTY));
    HOLDS(memcmp(booked->desk, &of_rows, sizeof of_rows) == 0 && memcmp(booked->desk, &of_book, sizeof of_book) == 0);
}

/* Sees the list that a place keeps written by desk_pool, to as many numbers as it has, and zeros behind it. */
static void see_list(const Booked *booked, uint32_t place)
{
    const DeskPlace *const held = place == 1 ? &booked->desk->first : &booked->desk->second;
    const size_t numbers = 3 * booked->places[place - 1].grades;
    uint32_t written[DESK_POOL_NUMBERS + 1], kept;
    memset(written, KEPT, sizeof written);
    memset(&kept, KEPT, sizeof kept);
    HOLDS(desk_pool(booked->desk, place, written, numbers) == (numbers > 0 ? 0 : DESK_REFUSED_EMPTY));
    HOLDS(memcmp(written, held->pooled, numbers * sizeof *written) == 0);
    for (size_t i = numbers; i < DESK_POOL_NUMBERS; i++) {
        HOLDS(held->pooled[i] == 0 && written[i] == kept);
    }
}

static void see(const Booked *booked)
{
    see_image(booked);
    see_fresh(booked);
    see_list(booked, 1);
    see_list(booked, 2);
}

/* Makes the call, and sees its number and all that it leaves. */
static uint32_t happens(Booked *booked, Event event, uint32_t place, uint32_t grade)
{
    const Desk before = *booked->desk;
    const uint32_t expected = number_of(booked, event, place, grade), number = calls[event](booked->desk, place, grade);
    HOLDS(number == expected);
    answered[event][number < NUMBERS ? number : 0]++;
    if (expected == 0) {
        book(event, &booked->places[place - 1].rows[grade - 1]);
        HOLDS(place == 1 ? memcmp(&booked->desk->second, &before.second, sizeof before.second) == 0
                         : memcmp(&booked->desk->first, &before.first, sizeof before.first) == 0);
    } else {
        HOLDS(memcmp(booked->desk, &before, sizeof before) == 0);
    }
    see(booked);
    return number;
}

static void fill(Booked *booked, uint32_t place, const Counts *counts)
{
    booked->places[place - 1] = *counts;
    HOLDS(counts->grades == 0 || desk_load_rows(booked->desk, place, DESK_BY_OBLIGORS, counts->rows, counts->grades) == 0);
}

/* A desk with these counts, to be freed by done. */
static Booked started(const Counts *first, const Counts *second)
{
    Booked booked;
    booked.desk = (Desk *)malloc(sizeof *booked.desk);
    if (booked.desk == NULL) {
        perror("events");
        exit(2);
    }
    memset(booked.desk, KEPT, sizeof *booked.desk);
    HOLDS(desk_empty(booked.desk) == 0);
    fill(&booked, 1, first);
    fill(&booked, 2, second);
    see(&booked);
    return booked;
}

static void done(Booked *booked)
{
    free(booked->desk);
}

/* Directed cases. */

static bool holds_counts(const DeskPlace *place, uint32_t grade, uint32_t obligors, uint32_t defaults)
{
    return place->obligors[grade - 1] == obligors && place->defaults[grade - 1] == defaults;
}

/* Each event in each place, with the numbers of the list where a C caller reads them. */
static void worked(void)
{
    Booked booked = started(&mixed, &mixed);
    const DeskPlace *const first = &booked.desk->first, *const second = &booked.desk->second;
    HOLDS(first->pooled[3 * (1 - 1)] == 3 && first->pooled[3 * (1 - 1) + 1] == 20 && first->pooled[3 * (4 - 1) + 1] == 20);
    HOLDS(happens(&booked, ENTERS, 1, 4) == 0 && holds_counts(first, 4, 21, 4) && holds_counts(second, 4, 20, 4));
    HOLDS(first->pooled[3 * (4 - 1)] == 4 && first->pooled[3 * (4 - 1) + 1] == 21 && first->pooled[3 * (4 - 1) + 2] == 11);
    HOLDS(happens(&booked, DEFAULTS, 1, 2) == 0 && holds_counts(first, 2, 10, 2) && holds_counts(first, 1, 10, 2));
    HOLDS(first->pooled[0] == 8 && first->pooled[1] == 41 && first->pooled[9] == 8 && first->pooled[10] == 41); /* one block of all */
    HOLDS(happens(&booked, LEAVES, 2, 1) == 0 && holds_counts(second, 1, 9, 2) && holds_counts(first, 1, 10, 2));
    HOLDS(happens(&booked, REMOVED, 2, 4) == 0 && holds_counts(second, 4, 19, 3));
    HOLDS(happens(&booked, ENTERS, 2, 3) == 0 && holds_counts(second, 3, 1, 0)); /* it was empty */
    HOLDS(first->announced[3] == 900000 && second->announced[2] == 700 && second->grades == 4 && second->loaded == 1);
    HOLDS(desk_clear(booked.desk, 1) == 0);
    booked.places[0] = nothing;
    see(&booked);
    fill(&booked, 1, &mixed);
    see(&booked);
    done(&booked);
}

static void layout(void)
{
    HOLDS(offsetof(DeskPlace, loaded) == 484 && offsetof(DeskPlace, pooled) == 488 && offsetof(Desk, second) == 968);
    HOLDS(DESK_REFUSED_NO_GRADE == 36 && DESK_REFUSED_NO_FIRM == 37 && DESK_REFUSED_FULL_TABLE == 38);
}

/* 1 before 22 before 36 before 37 and 38, where one input fails several. */
static void order(void)
{
    static const uint32_t no_places[] = {0, 3, 257, UINT32_MAX}, no_grades[] = {0, 5, 40, 41, 257, UINT32_MAX};
    static const Counts full = {{{MILLION, MILLION, 0}, {0, 0, 0}, {0, 0, 0}, {0, 0, 0}}, 4};
    Booked one = started(&full, &nothing), other = started(&nothing, &mixed);
    for (uint32_t i = 0; i < EVENTS; i++) {
        const Event event = (Event)i;
        for (size_t at = 0; at < COUNT(no_places); at++) {
            HOLDS(happens(&one, event, no_places[at], 1) == DESK_REFUSED_PLACE);
            HOLDS(happens(&one, event, no_places[at], 41) == DESK_REFUSED_PLACE);
        }
        for (size_t at = 0; at < COUNT(no_grades); at++) {
            HOLDS(happens(&one, event, 1, no_grades[at]) == DESK_REFUSED_NO_GRADE);
            HOLDS(happens(&other, event, 2, no_grades[at]) == DESK_REFUSED_NO_GRADE);
            HOLDS(happens(&one, event, 2, no_grades[at]) == DESK_REFUSED_EMPTY);
            HOLDS(happens(&other, event, 1, no_grades[at]) == DESK_REFUSED_EMPTY);
        }
        HOLDS(happens(&one, event, 2, 1) == DESK_REFUSED_EMPTY && happens(&other, event, 1, 4) == DESK_REFUSED_EMPTY);
        HOLDS(event == REMOVED || happens(&one, event, 1, 1) == (event == ENTERS ? DESK_REFUSED_FULL_TABLE : DESK_REFUSED_NO_FIRM));
        HOLDS(event == ENTERS || happens(&other, event, 2, 3) == DESK_REFUSED_NO_FIRM); /* nobody is there */
    }
    done(&one);
    done(&other);
}

/* The table's last obligor may default, but neither leave nor be removed; one that enters elsewhere lets it go. */
static void last_obligor(void)
{
    static const Counts alone = {{{0, 0, 3}, {1, 0, 3}, {0, 0, 4}}, 3};
    Booked booked = started(&alone, &mixed);
    HOLDS(happens(&booked, LEAVES, 1, 2) == DESK_REFUSED_NO_FIRM && happens(&booked, REMOVED, 1, 2) == DESK_REFUSED_NO_FIRM);
    HOLDS(happens(&booked, DEFAULTS, 1, 2) == 0 && happens(&booked, DEFAULTS, 1, 2) == DESK_REFUSED_NO_FIRM);
    HOLDS(happens(&booked, REMOVED, 1, 2) == DESK_REFUSED_NO_FIRM && happens(&booked, LEAVES, 1, 2) == DESK_REFUSED_NO_FIRM);
    HOLDS(happens(&booked, ENTERS, 1, 3) == 0 && happens(&booked, LEAVES, 1, 2) == DESK_REFUSED_NO_FIRM);
    HOLDS(happens(&booked, REMOVED, 1, 2) == 0 && happens(&booked, LEAVES, 1, 3) == DESK_REFUSED_NO_FIRM);
    HOLDS(happens(&booked, ENTERS, 1, 1) == 0 && happens(&booked, LEAVES, 1, 3) == 0 && happens(&booked, LEAVES, 1, 1) == DESK_REFUSED_NO_FIRM);
    done(&booked);
}

/* 38 goes by the obligors of the table, in whatever grade they are; all other events are taken. */
static void full_table(void)
{
    static const Counts spread_out = {{{600000, 1, 0}, {0, 0, 0}, {400000, 400000, 0}}, 3}, in_one = {{{MILLION, 7, 0}}, 1};
    Booked booked = started(&spread_out, &in_one);
    for (uint32_t grade = 1; grade <= 3; grade++) {
        HOLDS(happens(&booked, ENTERS, 1, grade) == DESK_REFUSED_FULL_TABLE);
    }
    HOLDS(happens(&booked, ENTERS, 2, 1) == DESK_REFUSED_FULL_TABLE && happens(&booked, DEFAULTS, 2, 1) == 0);
    HOLDS(happens(&booked, DEFAULTS, 1, 1) == 0 && happens(&booked, ENTERS, 1, 2) == DESK_REFUSED_FULL_TABLE);
    HOLDS(happens(&booked, REMOVED, 1, 3) == 0 && happens(&booked, ENTERS, 1, 2) == 0 && happens(&booked, ENTERS, 1, 1) == DESK_REFUSED_FULL_TABLE);
    HOLDS(happens(&booked, LEAVES, 1, 2) == 0 && happens(&booked, ENTERS, 1, 3) == 0 && happens(&booked, ENTERS, 1, 3) == DESK_REFUSED_FULL_TABLE);
    HOLDS(happens(&booked, LEAVES, 2, 1) == 0 && happens(&booked, ENTERS, 2, 1) == 0 && happens(&booked, ENTERS, 2, 1) == DESK_REFUSED_FULL_TABLE);
    done(&booked);
}

/* A grade, the best, a middle or the worst one, empties by both ways and fills again, three times. */
static void empties_and_fills(void)
{
    static const Counts three = {{{3, 1, 10}, {3, 1, 10}, {3, 1, 10}}, 3};
    Booked booked = started(&nothing, &three);
    for (uint32_t round = 0; round < 9; round++) {
        const uint32_t grade = round % 3 + 1;
        HOLDS(happens(&booked, LEAVES, 2, grade) == 0 && happens(&booked, LEAVES, 2, grade) == 0);
        HOLDS(happens(&booked, LEAVES, 2, grade) == DESK_REFUSED_NO_FIRM && happens(&booked, REMOVED, 2, grade) == 0);
        HOLDS(happens(&booked, REMOVED, 2, grade) == DESK_REFUSED_NO_FIRM && holds_counts(&booked.desk->second, grade, 0, 0));
        HOLDS(happens(&booked, ENTERS, 2, grade) == 0 && happens(&booked, DEFAULTS, 2, grade) == 0);
        HOLDS(happens(&booked, ENTERS, 2, grade) == 0 && happens(&booked, ENTERS, 2, grade) == 0);
    }
    HOLDS(memcmp(&booked.places[1], &three, sizeof three) == 0);
    done(&booked);
}

/* Random events. */

static uint64_t below(uint64_t limit) /* always the same ones */
{
    static uint64_t state = 88172645463325252U;
    state ^= state << 13;
    state ^= state >> 7;
    state ^= state << 17;
    return (state >> 16) % limit;
}

/* Of few or many grades and obligors, at either end too. */
static Counts random_counts(void)
{
    static const uint32_t mosts[] = {1, 2, 5, 1000, MILLION, MILLION};
    const uint32_t most = mosts[below(COUNT(mosts))];
    Counts counts = nothing;
    counts.grades = 1 + (uint32_t)below(below(3) == 0 ? DESK_GRADES : 5);
    for (uint32_t i = 0; i < counts.grades; i++) {
        DeskRow *const row = &counts.rows[i];
        row->count = (uint32_t)below(most / counts.grades + 1);
        row->defaults = (uint32_t)below((uint64_t)row->count + 1);
        row->announced = (i > 0 ? row[-1].announced : 0) + (uint32_t)below(MILLION / DESK_GRADES);
    }
    const uint32_t rest = most - obligors_of(&counts);
    counts.rows[below(counts.grades)].count += most == MILLION && below(2) == 0 ? rest : obligors_of(&counts) == 0 ? 1 : 0;
    return counts;
}

static uint32_t random_place(void)
{
    static const uint32_t no_places[] = {0, 3, 258, UINT32_MAX};
    return below(30) == 0 ? no_places[below(COUNT(no_places))] : 1 + (uint32_t)below(2);
}

/* Of the table, mostly; else beside it or far away. */
static uint32_t random_grade(const Counts *counts)
{
    const uint32_t grade = 1 + (uint32_t)below(counts->grades > 0 ? counts->grades : 1);
    const uint32_t no_grades[] = {0, counts->grades + 1, 41, grade + 256, UINT32_MAX};
    return below(12) == 0 ? no_grades[below(COUNT(no_grades))] : grade;
}

/* A place anew now and then: cleared, filled, or both. */
static void refill(Booked *booked)
{
    const uint32_t place = 1 + (uint32_t)below(2);
    const Counts counts = random_counts();
    if (booked->places[place - 1].grades > 0) {
        HOLDS(desk_clear(booked->desk, place) == 0);
        booked->places[place - 1] = nothing;
    }
    if (below(4) != 0) {
        fill(booked, place, &counts);
    }
}

static void random_events(unsigned long events)
{
    Booked booked = started(&nothing, &nothing);
    for (unsigned long i = 0; i < events && failures < 20; i++) {
        const uint32_t place = random_place();
        if (i % 20 == 0) {
            refill(&booked);
        }
        happens(&booked, (Event)below(EVENTS), place, random_grade(&booked.places[place == 2]));
    }
    done(&booked);
}

/* Two scales of the same firms. */

/* Whether the scale in a place costs more than the other's at the prices at which a block of either is worth turning away as little as keeping:
 * between two such prices neither cost bends. Cheapest goes by the counts, the comparisons by the kept lists. */
static uint32_t kind_by_costs(const Booked *booked)
{
    bool first_dearer = false, second_dearer = false;
    for (uint32_t i = 0; i < 2 * DESK_GRADES; i++) {
        const DeskPlace *const place = i < DESK_GRADES ? &booked->desk->first : &booked->desk->second;
        const uint32_t *const block = &place->pooled[3 * (i % DESK_GRADES)];
        DeskCutoff first, second;
        HOLDS(desk_cheapest(booked->desk, 1, block[1] - block[0], block[0], &first) == 0);
        HOLDS(desk_cheapest(booked->desk, 2, block[1] - block[0], block[0], &second) == 0);
        first_dearer = first_dearer || first.cost > second.cost;
        second_dearer = second_dearer || second.cost > first.cost;
    }
    return (first_dearer ? 2U : 0U) + (second_dearer ? 1U : 0U);
}

/* A grade at which such a firm is, or 0. */
static uint32_t grade_for(const Booked *booked, Event event, uint32_t place)
{
    const uint32_t grades = booked->places[place - 1].grades, start = (uint32_t)below(grades);
    for (uint32_t i = 0; i < grades; i++) {
        const uint32_t grade = (start + i) % grades + 1;
        if (number_of(booked, event, place, grade) == 0) {
            return grade;
        }
    }
    return 0;
}

/* Each event in both places, so that they have the same totals, and comparisons after it. */
static void two_scales(unsigned long events)
{
    static const Counts fine = {{{40, 0, 1}, {40, 10, 2}, {0, 0, 3}, {40, 20, 4}, {40, 30, 4}}, 5}, coarse = {{{80, 10, 0}, {80, 50, 0}}, 2};
    Booked booked = started(&fine, &coarse);
    size_t kinds[] = {0, 0, 0, 0};
    for (unsigned long i = 0; i < events && failures < 20; i++) {
        const Event event = (Event)below(EVENTS);
        const uint32_t first = grade_for(&booked, event, 1), second = grade_for(&booked, event, 2);
        if (first != 0 && second != 0) {
            HOLDS(happens(&booked, event, 1, first) == 0 && happens(&booked, event, 2, second) == 0);
        }
        DeskVerdict verdict, on_shares;
        const uint32_t refusal = desk_compare(booked.desk, &verdict);
        HOLDS(desk_compare_shares(booked.desk, &on_shares) == refusal);
        HOLDS(refusal == 0 || refusal == DESK_REFUSED_NO_DEFAULTS || refusal == DESK_REFUSED_NO_SURVIVORS);
        if (refusal == 0) {
            HOLDS(verdict.kind == kind_by_costs(&booked) && on_shares.kind == verdict.kind);
            kinds[verdict.kind & 3]++;
        }
    }
    for (uint32_t kind = DESK_EQUAL; kind <= DESK_CROSSING; kind++) {
        HOLDS(kinds[kind] > 0);
    }
    done(&booked);
}

/* Of so many random events each must have met a fair share of each of its numbers, 37 never an entry and 38 no other. */
static void all_answered(unsigned long events)
{
    static const uint32_t numbers[] = {0, 1, 22, 36, 37, 38};
    for (size_t i = 0; i < EVENTS * COUNT(numbers); i++) {
        const size_t event = i / COUNT(numbers), number = numbers[i % COUNT(numbers)];
        const bool never = number == (event == ENTERS ? DESK_REFUSED_NO_FIRM : DESK_REFUSED_FULL_TABLE);
        if (never ? answered[event][number] > 0 : answered[event][number] < events / 2000) {
            fprintf(stderr, "events: event %zu answered %zu %zu times\n", event, number, answered[event][number]);
            failures++;
        }
    }
}

int main(int count, char **words)
{
    const unsigned long events = count > 1 ? strtoul(words[1], NULL, 10) : 60000;
    worked();
    layout();
    order();
    last_obligor();
    full_table();
    empties_and_fills();
    memset(answered, 0, sizeof answered);
    random_events(events);
    all_answered(events);
    two_scales(events / 4);
    return failures == 0 ? 0 : 1;
}
