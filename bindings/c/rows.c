/* Counts from memory: desk_load_rows and desk_book on directed tables and on random ones, against books that this file lays
 * out by itself, byte by byte, for desk_load, and against the rules as they are written below. Prints each case that differs.
 * rows [CASES] tries so many random tables. What is lent stands on the heap and is exactly as long as said, so that a tool
 * which watches the heap sees any step beyond. */
#include "desk.h"

#include <inttypes.h>
#include <stdbool.h>
#include <stdio.h>
#include <stdlib.h>
#include <string.h>

enum { MILLION = 1000000, KEPT = 0xA5, CASES = 40000, REFUSALS = 35 };
#define LENGTH(array) (sizeof(array) / sizeof *(array))

typedef struct {
    DeskCounts counts;
    DeskRow *rows;
    size_t grades;
} Table;

static int failures = 0;
static size_t answered[REFUSALS]; /* how often desk_load_rows answered each number */
static size_t with_empty_grades;  /* how often it accepted a table with an empty grade */
static size_t with_equal_rates;   /* and one with equal announced rates in neighbouring grades */

static void holds(bool fact, const char *text, uint32_t place, const Table *table)
{
    if (!fact) {
        failures++;
        fprintf(stderr, "rows: %s: place %" PRIu32 ", counts %d, %zu grades", text, place, (int)table->counts, table->grades);
        for (size_t i = 0; i < table->grades && table->grades <= DESK_GRADES; i++) {
            const DeskRow row = table->rows[i];
            fprintf(stderr, " (%" PRIu32 " %" PRIu32 " %" PRIu32 ")", row.count, row.defaults, row.announced);
        }
        fputc('\n', stderr);
    }
}

static void *copy_on_heap(const void *from, size_t size)
{
    void *copy = malloc(size > 0 ? size : 1);
    if (copy == NULL) {
        perror("rows");
        exit(2);
    }
    return size > 0 ? memcpy(copy, from, size) : copy;
}

/* The rules, as documents 01 and 02 have them. */

static bool has_grades(const Table *table) { return table->grades >= 1 && table->grades <= 40; }

static uint64_t obligors_of(const Table *table, size_t grade)
{
    const DeskRow row = table->rows[grade];
    return table->counts == DESK_BY_SURVIVORS ? (uint64_t)row.count + row.defaults : row.count;
}

static uint32_t fault_of_row(const Table *table, size_t grade)
{
    const DeskRow row = table->rows[grade];
    if (row.defaults > obligors_of(table, grade)) {
        return 8;
    }
    if (row.announced > MILLION) {
        return 10;
    }
    return grade > 0 && row.announced < table->rows[grade - 1].announced ? 34 : 0;
}

static uint32_t fault_of_rows(const Table *table)
{
    uint64_t obligors = 0;
    for (size_t i = 0; i < table->grades; i++) {
        const uint32_t number = fault_of_row(table, i);
        if (number != 0) {
            return number;
        }
        obligors += obligors_of(table, i);
    }
    return obligors == 0 ? 9 : obligors > MILLION ? 11 : 0;
}

static uint32_t fault_of_table(const Table *table)
{
    if (!has_grades(table)) {
        return 6;
    }
    return table->counts != DESK_BY_OBLIGORS && table->counts != DESK_BY_SURVIVORS ? 7 : fault_of_rows(table);
}

static uint32_t fault_of_load(const Desk *desk, uint32_t place, const Table *table)
{
    if (place != 1 && place != 2) {
        return 1;
    }
    return (place == 1 ? desk->first.loaded : desk->second.loaded) ? 21 : fault_of_table(table);
}

static bool has_empty_grade(const Table *table)
{
    bool found = false;
    for (size_t i = 0; i < table->grades; i++) {
        found = found || obligors_of(table, i) == 0;
    }
    return found;
}

static bool has_equal_rates(const Table *table)
{
    bool found = false;
    for (size_t i = 1; i < table->grades; i++) {
        found = found || table->rows[i].announced == table->rows[i - 1].announced;
    }
    return found;
}

/* Whether a place holds a table. */
static bool holds_table(const DeskPlace *place, const Table *table)
{
    bool same = place->loaded == 1 && place->grades == table->grades;
    for (size_t i = 0; same && i < table->grades; i++) {
        same = place->obligors[i] == obligors_of(table, i) && place->defaults[i] == table->rows[i].defaults
               && place->announced[i] == table->rows[i].announced;
    }
    return same;
}

/* A book of one table, by this file's own hand. */

static uint8_t *put(uint8_t *at, uint64_t number, int bytes)
{
    for (int i = 0; i < bytes; i++) {
        *at++ = (uint8_t)(number >> 8 * i & 0xFF);
    }
    return at;
}

static size_t put_book(uint8_t *book, const Table *table)
{
    const size_t rows = has_grades(table) ? table->grades : 0, length = 4 + 2 + 4 + 12 * rows;
    uint8_t *at = put(put(put(book, 1, 2), length, 2), 6, 2);
    at = put(at, table->grades > 255 ? 255 : table->grades, 1);
    at = put(at, table->counts == DESK_BY_OBLIGORS ? 0 : table->counts == DESK_BY_SURVIVORS ? 1 : 2, 1);
    at = put(at, 0, 2);
    for (size_t i = 0; i < rows; i++) {
        at = put(put(put(at, table->rows[i].count, 4), table->rows[i].defaults, 4), table->rows[i].announced, 4);
    }
    return length;
}

/* One case through both functions. */

static uint32_t try_load_rows(const Desk *before, uint32_t place, const Table *table)
{
    uint8_t book[1000];
    Desk loaded = *before, *desk = copy_on_heap(before, sizeof *before);
    const uint32_t expected = desk_load(&loaded, place, book, put_book(book, table), 1);
    const uint32_t number = desk_load_rows(desk, place, table->counts, table->rows, table->grades);
    holds(number == expected, "desk_load_rows answers as desk_load", place, table);
    holds(number == fault_of_load(before, place, table), "desk_load_rows answers by the rules", place, table);
    holds(memcmp(desk, &loaded, sizeof loaded) == 0, "desk_load_rows leaves the desk of desk_load", place, table);
    if (number == 0) {
        holds(holds_table(place == 1 ? &desk->first : &desk->second, table), "the place holds the table", place, table);
        with_empty_grades += has_empty_grade(table);
        with_equal_rates += has_equal_rates(table);
    } else {
        holds(memcmp(desk, before, sizeof *before) == 0, "a refusal keeps the desk", place, table);
    }
    answered[number < REFUSALS ? number : 0]++;
    free(desk);
    return number;
}

static uint32_t try_book(const Table *table)
{
    static const Desk empty;
    uint8_t bytes[1000];
    Desk desk = empty;
    DeskBook kept;
    memset(&kept, KEPT, sizeof kept);
    DeskBook *book = copy_on_heap(&kept, sizeof kept);
    const size_t length = put_book(bytes, table);
    const uint32_t number = desk_book(book, table->counts, table->rows, table->grades);
    holds(number == desk_load(&desk, 1, bytes, length, 1), "desk_book answers as desk_load", 1, table);
    holds(number == fault_of_table(table), "desk_book answers by the rules", 1, table);
    if (number == 0) {
        memcpy(kept.bytes, bytes, length);
        kept.length = length;
    }
    holds(memcmp(book->bytes, kept.bytes, sizeof kept.bytes) == 0, "the book's bytes, and those kept", 1, table);
    holds(book->length == kept.length, "the book's length, or the one kept", 1, table);
    free(book);
    return number;
}

/* Tries a table whose rows are exactly the `held` ones given; returns the number of desk_load_rows. */
static uint32_t try_table(const Desk *before, uint32_t place, Table table, size_t held)
{
    DeskRow *const given = table.rows;
    table.rows = given != NULL ? copy_on_heap(given, held * sizeof *given) : NULL;
    const uint32_t number = try_load_rows(before, place, &table);
    const uint32_t of_book = try_book(&table);
    holds(number == 1 || number == 21 || number == of_book, "the two functions agree", place, &table);
    holds(held == 0 || memcmp(table.rows, given, held * sizeof *given) == 0, "the rows are kept", place, &table);
    free(table.rows);
    return number;
}

/* Directed cases. */

/* A desk with a table in the places whose bits are set: 1 for place 1, 2 for place 2. */
static Desk desk_with(unsigned places)
{
    DeskRow row = {7, 3, 500000};
    const Table table = {DESK_BY_OBLIGORS, &row, 1};
    uint8_t book[22];
    const size_t length = put_book(book, &table);
    Desk desk;
    desk_empty(&desk);
    for (unsigned place = 1; place <= 2; place++) {
        if (places & place) {
            holds(desk_load(&desk, place, book, length, 1) == 0, "a desk to start from", place, &table);
        }
    }
    return desk;
}

#define ROWS(...) (DeskRow[]){__VA_ARGS__}, LENGTH(((DeskRow[]){__VA_ARGS__}))
static const DeskCounts by_obligors = DESK_BY_OBLIGORS, by_survivors = DESK_BY_SURVIVORS;

static void expect(uint32_t number, DeskCounts counts, DeskRow *rows, size_t grades)
{
    const Desk empty = desk_with(0);
    const Table table = {counts, rows, grades};
    for (uint32_t place = 1; place <= 2; place++) {
        holds(try_table(&empty, place, table, grades) == number, "the number of a directed case", place, &table);
    }
}

/* Numbers of grades; where they are refused no row is read, so that there need be none. */
static void numbers_of_grades(void)
{
    static DeskRow rows[65541];
    const size_t many[] = {0, 41, 42, 127, 128, 254, 255, 256, 257, 296, 297, 512, 65536, 65537, 65541};
    const size_t huge[] = {(size_t)1 << 31, (size_t)1 << 32, ((size_t)1 << 32) + 1, ((size_t)1 << 32) + 40, SIZE_MAX / 12 + 2, SIZE_MAX / 4,
                           (size_t)1 << 62, ((size_t)1 << 63) + 1, SIZE_MAX - 1, SIZE_MAX};
    const Desk empty = desk_with(0);
    for (size_t i = 0; i < LENGTH(rows); i++) {
        rows[i] = (DeskRow){1, 0, (uint32_t)(i % MILLION)};
    }
    for (size_t grades = 1; grades <= DESK_GRADES; grades++) {
        expect(0, by_obligors, rows, grades);
        expect(0, by_survivors, rows, grades);
    }
    for (size_t i = 0; i < LENGTH(many); i++) {
        expect(6, by_obligors, rows, many[i]);
        expect(6, by_survivors, rows, many[i]);
    }
    for (size_t i = 0; i < LENGTH(huge); i++) {
        const Table table = {by_obligors, rows, huge[i]};
        holds(try_table(&empty, 1, table, 0) == 6, "a huge number of grades", 1, &table);
    }
    expect(6, by_obligors, NULL, 0);
    expect(6, by_survivors, NULL, 0);
}

static void kinds(void)
{
    const int neither[] = {0, 1, 2, 3, 7, 'o' + 1, 's' - 1, 255, 256, 257, 65536, 65537, -1, -255, -256, INT32_MAX};
    for (size_t i = 0; i < LENGTH(neither); i++) {
        expect(7, (DeskCounts)neither[i], ROWS({5, 2, 400000}, {1, 1, MILLION}));
        expect(7, (DeskCounts)neither[i], ROWS({5, 6, 400000}));
        expect(6, (DeskCounts)neither[i], NULL, 0);
    }
    expect(0, by_obligors, ROWS({5, 2, 400000}, {1, 1, MILLION}));
    expect(0, by_survivors, ROWS({2, 0, 0}, {1, 3, 750000}));
}

static void faults_of_rows(void)
{
    expect(8, by_obligors, ROWS({5, 6, 0}));
    expect(0, by_survivors, ROWS({5, 6, 0}));
    expect(8, by_obligors, ROWS({0, 1, 0}));
    expect(0, by_survivors, ROWS({0, 1, 0}));
    expect(8, by_obligors, ROWS({0, UINT32_MAX, 0}));
    expect(9, by_obligors, ROWS({0, 0, 0}));
    expect(9, by_survivors, ROWS({0, 0, 0}));
    expect(9, by_obligors, ROWS({0, 0, 0}, {0, 0, 5}, {0, 0, MILLION}));
    expect(9, by_survivors, ROWS({0, 0, 0}, {0, 0, 5}, {0, 0, MILLION}));
    expect(0, by_obligors, ROWS({1, 0, MILLION}));
    expect(10, by_obligors, ROWS({1, 0, MILLION + 1}));
    expect(10, by_survivors, ROWS({1, 0, UINT32_MAX}));
}

/* Empty grades, everywhere and as many as there may be, beside one that is occupied or none. */
static void empty_grades(void)
{
    DeskRow rows[DESK_GRADES] = {{0, 0, 0}};
    expect(0, by_obligors, ROWS({0, 0, 0}, {10, 2, 0}, {10, 1, 0}, {20, 4, 0}));
    expect(0, by_obligors, ROWS({10, 2, 0}, {0, 0, 0}, {10, 1, 0}, {0, 0, 0}, {20, 4, 0}, {0, 0, 0}));
    expect(0, by_survivors, ROWS({1, 0, 0}, {0, 0, 0}));
    expect(0, by_survivors, ROWS({0, 0, 0}, {0, 1, 0}));
    expect(0, by_obligors, ROWS({0, 0, 0}, {MILLION, 1, 0}, {0, 0, 0}));
    for (size_t grades = 1; grades <= DESK_GRADES; grades++) {
        expect(9, by_obligors, rows, grades);
        expect(9, by_survivors, rows, grades);
        rows[grades - 1] = (DeskRow){1, 0, 0};
        expect(0, by_obligors, rows, grades);
        expect(0, by_obligors, rows, DESK_GRADES);
        rows[grades - 1] = (DeskRow){0, 1, 0};
        expect(8, by_obligors, rows, DESK_GRADES);
        expect(0, by_survivors, rows, DESK_GRADES);
        rows[grades - 1] = (DeskRow){0, 0, MILLION + 1};
        expect(10, by_obligors, rows, DESK_GRADES);
        expect(10, by_survivors, rows, DESK_GRADES);
        rows[grades - 1] = (DeskRow){0, 0, 0};
    }
}

/* Announced rates that fall in one row, the last or another, from the second on; or stay the same. Every third grade is empty. */
static void falling_rates(DeskCounts counts)
{
    for (size_t row = 1; row < DESK_GRADES; row++) {
        for (size_t empty = 0; empty < 3; empty++) {
            DeskRow rows[DESK_GRADES];
            for (size_t i = 0; i < DESK_GRADES; i++) {
                rows[i] = (DeskRow){i % 3 != empty, 0, 100 + 2 * (uint32_t)i};
            }
            rows[row].announced = rows[row - 1].announced;
            expect(0, counts, rows, row + 1);
            expect(0, counts, rows, DESK_GRADES);
            rows[row].announced--;
            expect(34, counts, rows, row + 1);
            expect(34, counts, rows, DESK_GRADES);
        }
    }
    expect(34, counts, ROWS({1, 0, 1}, {1, 0, 0}));
    expect(34, counts, ROWS({1, 0, MILLION}, {1, 0, MILLION - 1}));
    expect(34, counts, ROWS({1, 0, 5}, {0, 0, 9}, {1, 0, 7})); /* above the rate of the next better occupied grade */
    expect(34, counts, ROWS({0, 0, 9}, {1, 0, 7}));
}

/* A rate that falls and another fault: behind 8 and 10 of its row and of those before, and before whatever comes later. */
static void falling_rates_in_order(DeskCounts counts)
{
    expect(counts == by_obligors ? 8 : 34, counts, ROWS({1, 0, 9}, {1, 2, 8}));
    expect(counts == by_obligors ? 8 : 34, counts, ROWS({1, 2, 9}, {1, 0, 8}));
    expect(10, counts, ROWS({1, 0, MILLION + 1}, {1, 0, MILLION}));
    expect(10, counts, ROWS({1, 0, 9}, {1, 0, UINT32_MAX}, {1, 0, 8}));
    expect(34, counts, ROWS({1, 0, 9}, {1, 0, 8}, {1, 2, 8}));
    expect(34, counts, ROWS({1, 0, 9}, {1, 0, 8}, {1, 0, MILLION + 1}));
    expect(34, counts, ROWS({0, 0, 9}, {0, 0, 8}));
    expect(34, counts, ROWS({MILLION + 1, 0, 9}, {1, 0, 8}));
    expect(34, counts, ROWS({UINT32_MAX, 0, 9}, {UINT32_MAX, 0, 8}));
    expect(7, (DeskCounts)9, ROWS({1, 0, 9}, {1, 0, 8}));
}

static void sums(void)
{
    expect(0, by_obligors, ROWS({MILLION, MILLION, 0}));
    expect(11, by_obligors, ROWS({MILLION + 1, 0, 0}));
    expect(0, by_survivors, ROWS({MILLION - 1, 1, 0}));
    expect(11, by_survivors, ROWS({MILLION, 1, 0}));
    expect(11, by_survivors, ROWS({1, MILLION, 0}));
    expect(0, by_obligors, ROWS({400000, 0, 0}, {600000, 1, 0}));
    expect(11, by_obligors, ROWS({400000, 0, 0}, {600001, 1, 0}));
    expect(11, by_obligors, ROWS({UINT32_MAX, UINT32_MAX, 0}));
    expect(11, by_obligors, ROWS({UINT32_MAX, 0, 0}, {1, 0, 0}));                   /* 2^32 */
    expect(11, by_obligors, ROWS({UINT32_MAX, 0, 0}, {2, 0, 0}));                   /* 2^32 + 1 */
    expect(11, by_obligors, ROWS({UINT32_C(1) << 31, 0, 0}, {UINT32_C(1) << 31, 0, 0}));
    expect(11, by_survivors, ROWS({UINT32_MAX, 1, 0}));                             /* 2^32 in one grade */
    expect(11, by_survivors, ROWS({1, UINT32_MAX, 0}));
    expect(11, by_survivors, ROWS({UINT32_MAX, UINT32_MAX, 0}, {UINT32_MAX, UINT32_MAX, 0}));
    expect(11, by_survivors, ROWS({UINT32_MAX, 2, 0}));
}

/* Two faults: which one is answered. */
static void orders(void)
{
    expect(8, by_obligors, ROWS({5, 6, MILLION + 1}));
    expect(8, by_obligors, ROWS({0, 1, MILLION + 1}));
    expect(10, by_obligors, ROWS({0, 0, MILLION + 1}));
    expect(10, by_survivors, ROWS({0, 0, MILLION + 1}));
    expect(10, by_obligors, ROWS({0, 0, 0}, {0, 0, MILLION + 1}));
    expect(8, by_obligors, ROWS({0, 0, 0}, {0, 1, 0}));
    expect(8, by_obligors, ROWS({0, 0, 0}, {5, 6, 0}));
    expect(8, by_obligors, ROWS({5, 6, 0}, {5, 5, MILLION + 1}));
    expect(10, by_obligors, ROWS({5, 5, MILLION + 1}, {5, 6, 0}));
    expect(10, by_obligors, ROWS({5, 5, MILLION + 1}, {0, 0, 0}));
    expect(10, by_obligors, ROWS({MILLION + 1, 0, 0}, {1, 0, MILLION + 1}));
    expect(8, by_obligors, ROWS({MILLION + 1, 0, 0}, {1, 2, 0}));
    expect(11, by_survivors, ROWS({UINT32_MAX, UINT32_MAX, 0}, {0, 0, 0}));
    expect(11, by_obligors, ROWS({0, 0, 0}, {MILLION + 1, 0, 0}));
}

/* Places that are none, and loaded ones, come before any fault of the table. */
static void places(void)
{
    DeskRow rows[] = {{5, 2, 400000}, {5, 6, 400000}}, falls[] = {{5, 2, 400000}, {5, 2, 399999}};
    const Table tables[] = {{by_obligors, rows, 1}, {by_obligors, rows, 2}, {(DeskCounts)9, rows, 1}, {by_obligors, rows, 0},
                            {by_obligors, falls, 2}};
    const uint32_t none[] = {0, 3, 255, 257, 258, UINT32_MAX};
    for (unsigned with = 0; with < 4; with++) {
        const Desk desk = desk_with(with);
        for (size_t i = 0; i < LENGTH(tables); i++) {
            for (size_t j = 0; j < LENGTH(none); j++) {
                holds(try_table(&desk, none[j], tables[i], tables[i].grades) == 1, "no place", none[j], &tables[i]);
            }
            for (uint32_t place = 1; place <= 2; place++) {
                const uint32_t number = with & place ? 21 : fault_of_table(&tables[i]);
                holds(try_table(&desk, place, tables[i], tables[i].grades) == number, "a loaded place", place, &tables[i]);
            }
        }
    }
}

/* Random tables. */

static uint64_t state = 20261116;

static uint64_t random_below(uint64_t bound)
{
    state ^= state << 13;
    state ^= state >> 7;
    state ^= state << 17;
    return (state >> 11) % bound;
}

static bool one_in(uint64_t many) { return random_below(many) == 0; }

static uint32_t random_rate(void)
{
    return one_in(4) ? MILLION * (uint32_t)random_below(2) : (uint32_t)random_below(MILLION + 1);
}

/* Puts the announced rates of rows in order. */
static void sort_rates(DeskRow *rows, size_t grades)
{
    for (size_t i = 1; i < grades; i++) {
        for (size_t j = i; j > 0 && rows[j].announced < rows[j - 1].announced; j--) {
            const uint32_t rate = rows[j].announced;
            rows[j].announced = rows[j - 1].announced;
            rows[j - 1].announced = rate;
        }
    }
}

/* A row with at most this many obligors, 1 at least. */
static DeskRow random_row(DeskCounts counts, uint64_t most)
{
    const uint32_t n = one_in(4) ? (uint32_t)most : 1 + (uint32_t)random_below(most);
    const uint32_t d = one_in(4) ? n * (uint32_t)random_below(2) : (uint32_t)random_below((uint64_t)n + 1);
    return (DeskRow){counts == DESK_BY_SURVIVORS ? n - d : n, d, random_rate()};
}

/* Puts a number from beyond a limit, or from its edge, into one column of a row. */
static void spoil(DeskRow *row)
{
    const uint32_t edges[] = {0, 1, row->count, row->count + 1, row->defaults, MILLION, MILLION + 1, INT32_MAX, UINT32_MAX - 1, UINT32_MAX};
    const uint32_t number = edges[random_below(LENGTH(edges))];
    switch (random_below(4)) {
    case 0: row->count = number; break;
    case 1: row->defaults = number; break;
    case 2: row->announced = number; break;
    default: row->count = row->defaults = 0; break;
    }
}

static void random_case(void)
{
    DeskRow rows[300];
    Table table = {one_in(20) ? (DeskCounts)random_below(600) : one_in(2) ? by_obligors : by_survivors, rows, 1 + random_below(DESK_GRADES)};
    if (one_in(15)) {
        table.grades = one_in(4) ? 0 : random_below(LENGTH(rows) + 1);
    }
    const uint64_t most = one_in(10) ? MILLION : MILLION / (table.grades > 0 ? table.grades : 1);
    for (size_t i = 0; i < table.grades; i++) {
        rows[i] = random_row(table.counts, most > 0 ? most : 1);
    }
    if (!one_in(10)) {
        sort_rates(rows, table.grades);
    }
    for (uint64_t faults = one_in(2) ? random_below(4) : 0; faults > 0 && table.grades > 0; faults--) {
        spoil(&rows[random_below(table.grades)]);
    }
    const uint64_t kept = one_in(8) ? 1 + random_below(3) : 0; /* 0: as they are; 1: all emptied; 2, 3: all but every second or third */
    for (size_t i = 0; i < table.grades && kept > 0; i++) {
        if (kept == 1 || i % kept != 0) {
            rows[i].count = rows[i].defaults = 0;
        }
    }
    const Desk before = desk_with(one_in(3) ? (unsigned)random_below(4) : 0);
    try_table(&before, one_in(20) ? (uint32_t)random_below(600) : 1 + (uint32_t)random_below(2), table, table.grades);
}

/* Of this many random tables each number must have met a fair share. */
static void random_cases(unsigned long cases)
{
    const uint32_t numbers[] = {0, 1, 6, 7, 8, 9, 10, 11, 21, 34};
    memset(answered, 0, sizeof answered);
    with_empty_grades = with_equal_rates = 0;
    for (unsigned long i = 0; i < cases && failures < 20; i++) {
        random_case();
    }
    for (size_t i = 0; i < LENGTH(numbers); i++) {
        if (answered[numbers[i]] < cases / 100) {
            fprintf(stderr, "rows: %zu of %lu random tables answer %" PRIu32 "\n", answered[numbers[i]], cases, numbers[i]);
            failures++;
        }
    }
    if (with_empty_grades < cases / 100 || with_equal_rates < cases / 100) {
        fprintf(stderr, "rows: of %lu random tables %zu are accepted with an empty grade, %zu with equal rates\n", cases,
                with_empty_grades, with_equal_rates);
        failures++;
    }
}

int main(int count, char **words)
{
    numbers_of_grades();
    kinds();
    faults_of_rows();
    empty_grades();
    falling_rates(by_obligors);
    falling_rates(by_survivors);
    falling_rates_in_order(by_obligors);
    falling_rates_in_order(by_survivors);
    sums();
    orders();
    places();
    random_cases(count > 1 ? strtoul(words[1], NULL, 10) : CASES);
    return failures == 0 ? 0 : 1;
}
