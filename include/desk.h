/* Compares credit rating scales: which of two over the same obligors is better, whatever prices are put on the mistakes, which of
 * two over different books, by shares of their own defaults and survivors, and which of all raters of a book no other one beats.
 * C11 or C++11, or later, on x86-64. Link with libdesk_c.a, which `tools/staticlib` writes; where installed, with -ldesk.
 *
 * TERMS. A rating scale sorts its obligors into grades, best first. Of a grade's n obligors d defaulted and s = n - d survived;
 * its announced rate is the default rate that the rater states for it, in ppm (millionths: 0.5% is 5000). A grade table has
 * 1 to 40 grades, d at most n in each, and announced rates of at most 1,000,000, none below that of the grade before; its totals
 * are N, D and S, N at most 1,000,000. A grade with n 0 is empty, and at least one grade is occupied, with n at least 1. Empty
 * grades add nothing to any count, are numbered as grades all the same, have an announced rate as any other, and have no default
 * rate of their own: who divides by n has to look for 0. A desk has two places, 1 and 2, each empty or holding one rater's table:
 * the one that its load and the events since have made.
 * - An event is one firm that comes or goes, or defaults, at a grade of a loaded place: a survivor enters, leaves or defaults, or a
 *   defaulted firm is removed. Grades are counted from 1, the best one.
 * - Cutoff g, 0 to the number of grades, turns away the g worst grades, empty ones among them. At prices u and v it costs u for
 *   each default that it misses (in a grade that it does not turn away) and v for each survivor that it turns away. On shares
 *   it costs u(D - y)/D + vx/S, where it turns away y defaults and x survivors: u is the price of missing all defaults of the
 *   table, v that of turning away all its survivors, so that books of different sizes compare.
 * - Blocks are runs of neighbouring grades, the empty ones left out, rate = block defaults / block obligors, so cut that the rates
 *   are the monotone regression with weights n and strictly rise from block to block: neighbours whose rates fall or are equal
 *   are joined until none are left.
 * - Band b of a block is the smallest b from 0 to 13 with rate at most 100 * 2^b ppm, compared without rounding; 14 if none.
 * - Pairs are one defaulted with one surviving obligor: of C the defaulted one is in the worse grade, of X in the better, of T in
 *   the same. Gini is (C - X) / DS, the ROC area (2C + T) / 2DS, the CAP area (DN + C - X) / 2DN. Pietra is the yS - xD of
 *   largest absolute size over all cutoffs, signed, over DS, y and x as above: how far the ROC curve gets from the diagonal,
 *   negative where that is below it, as on a scale that is upside down; of equal sizes the smallest cutoff decides the sign.
 *   Brier is the sum over the grades of d(1000000 - p)^2 + sp^2, p the announced rate, over N * 10^12. Fractions have just these
 *   numerators and denominators.
 * - A book is the tables of 1 to 16 raters in bytes, every number unsigned with its low byte first: the number R of raters and
 *   the book's length (2 bytes each), R offsets (2 bytes each, where a rater's table starts), then the tables without gaps.
 *   A table is its number of grades (1 byte), its kind (1 byte: what the first column counts, 0 obligors, 1 survivors), two
 *   zero bytes, and for each grade first column, defaults, announced rate (4 bytes each). BOOK.md has one byte by byte.
 *
 * RULES. Every function but desk_version, desk_meaning and desk_wrong_cut returns 0, accepted, or the number of a refusal: the
 * first that applies, in the order given under `Refuses`. Accepted, it has written what stands under `Writes`, and nothing else.
 * Refused, it has written nothing: the desk and every buffer are as they were.
 * All memory is the caller's: no function keeps a pointer, allocates or has state of its own, so calls on different desks may
 * run on different threads, and calls that keep the desk on one and the same. No pointer is null, not even with length 0 (as
 * that of an empty std::vector may be), unless said below; what they lend does not overlap.
 * A desk may be read and copied. It starts empty, by desk_empty or as zero bytes, which are an empty desk (so `static Desk
 * desk;` is one); from then on only desk_load, desk_load_rows, desk_clear and the four events may change it: desk_survivor_enters,
 * desk_survivor_leaves, desk_survivor_defaults and desk_defaulted_removed. */
#ifndef DESK_H
#define DESK_H

#if defined(__cplusplus) ? __cplusplus < 201103L : !defined(__STDC_VERSION__) || __STDC_VERSION__ < 201112L
#error "desk.h needs C11 or C++11, or later: compile with -std=c11 or -std=c++11"
#endif
#ifndef __x86_64__
#error "desk.h is for x86-64, as the library is"
#endif

#include <stddef.h>
#include <stdint.h>
#include <string.h>

/* The version of this header: one more at each landing, and CHANGELOG.md says what callers have to change. A library of another
 * version does not link: the linker reports desk_library_is_version_N as undefined, N being the number below. Then take
 * header and library of one version and compile again. Who loads the library at run time by hand, and so does not link with
 * it, defines DESK_LOADED_BY_HAND before this header and compares desk_version() with DESK_VERSION. */
#define DESK_VERSION 10

#define DESK_GRADES 40                       /* the most grades of a table */
#define DESK_RATERS 16                       /* the most raters of a book, and room for whatever desk_shortlist writes */
#define DESK_MAX_OBLIGORS 1000000            /* the most obligors of a table */
#define DESK_MAX_OBLIGORS_ON_SHARES 100000   /* the most of a table that desk_compare_shares takes */
#define DESK_MAX_PRICE 1000000               /* the highest price that desk_cheapest takes and desk_compare writes */
#define DESK_MAX_PRICE_ON_SHARES 2500000000U /* the highest that desk_compare_shares writes: above INT32_MAX */
#define DESK_POOL_NUMBERS 120                /* room for whatever desk_pool writes: three numbers a grade */
#define DESK_BOOK_BYTES 976                  /* room for whatever desk_write writes */
#define DESK_TABLE_BYTES 490                 /* the most bytes of a book of one table */

/* The refusals: constant, number, meaning. */
#define DESK_REFUSALS(X) \
    X(DESK_REFUSED_PLACE, 1, "place is not 1 or 2") \
    X(DESK_REFUSED_LENGTH, 2, "book under 4 bytes, or its stated length is not the length lent") \
    X(DESK_REFUSED_RATERS, 3, "R outside 1 to 16, or the book ends within the offsets (R: number of raters)") \
    X(DESK_REFUSED_RATER, 4, "rater outside 1 to R (R: number of raters)") \
    X(DESK_REFUSED_GRADES, 6, "grade count outside 1 to 40") \
    X(DESK_REFUSED_KIND, 7, "kind above 1, or the two bytes after it not zero") \
    X(DESK_REFUSED_DEFAULTS, 8, "defaults above obligors (kind 0)") \
    X(DESK_REFUSED_NO_OBLIGORS, 9, "all grades are empty (empty: without obligors)") \
    X(DESK_REFUSED_ANNOUNCED, 10, "announced above 1,000,000") \
    X(DESK_REFUSED_OBLIGORS, 11, "N above 1,000,000 (N: obligors of the table)") \
    X(DESK_REFUSED_PRICE, 12, "a price above 1,000,000") \
    X(DESK_REFUSED_BUFFER, 13, "lent buffer too short") \
    X(DESK_REFUSED_LOADED, 21, "place already loaded") \
    X(DESK_REFUSED_EMPTY, 22, "place empty") \
    X(DESK_REFUSED_NO_DEFAULTS, 23, "no defaults") \
    X(DESK_REFUSED_NO_SURVIVORS, 24, "no survivors") \
    X(DESK_REFUSED_UNLIKE, 25, "D or S differ between the places (D: defaults, S: survivors)") \
    X(DESK_REFUSED_TABLE_START, 31, "a table starts elsewhere than where the last one ended") \
    X(DESK_REFUSED_TABLE_END, 32, "a table runs past the end, in header or rows") \
    X(DESK_REFUSED_LEFTOVER, 33, "bytes after the last table") \
    X(DESK_REFUSED_FALLING_RATE, 34, "announced rate below that of the row before") \
    X(DESK_REFUSED_LARGE_TABLE, 35, "N above 100,000 (compare on shares; N: obligors of the table)") \
    X(DESK_REFUSED_NO_GRADE, 36, "grade outside the table") \
    X(DESK_REFUSED_NO_FIRM, 37, "grade without such a firm, or a leaving or removal of the table's last obligor") \
    X(DESK_REFUSED_FULL_TABLE, 38, "entry beyond 1,000,000 (obligors of the table)")
#define DESK_CONSTANT(constant, number, meaning) constant = number,
enum { DESK_REFUSALS(DESK_CONSTANT) };

/* A table as it stands, and beside its counts its pooled list: what desk_pool writes, of grade i the three numbers from index
 * 3 * (i - 1) on. Load makes the list, each event makes it anew, clear drops it; it may be read here. Entries of the arrays behind
 * those of the grades are 0, so that desks with the same tables are the same bytes; loaded is 1 or 0. */
typedef struct DeskPlace {
    uint32_t obligors[DESK_GRADES], defaults[DESK_GRADES], announced[DESK_GRADES], grades, loaded, pooled[DESK_POOL_NUMBERS];
} DeskPlace;
typedef struct Desk { DeskPlace first, second; } Desk;
typedef struct DeskCutoff { int64_t cutoff, cost; } DeskCutoff;
typedef struct DeskPrice { uint32_t u, v; } DeskPrice;
/* At least as good at all prices: both scales, the first alone, the second alone, neither. */
enum { DESK_EQUAL, DESK_FIRST, DESK_SECOND, DESK_CROSSING };
/* The kind, with prices at which the first costs more and prices at which the second does; 0, 0 where there are none. */
typedef struct DeskVerdict { uint32_t kind; DeskPrice first_dearer, second_dearer; } DeskVerdict;
typedef struct DeskFraction { int64_t numerator, denominator; } DeskFraction; /* not reduced */
/* D, S and the measures; cutoff is the smallest whose yS - xD is of Pietra's absolute size. */
typedef struct DeskMeasures { int64_t defaults, survivors; DeskFraction gini, roc, cap, pietra; int64_t cutoff; } DeskMeasures;
typedef struct DeskSpread { double total, residual; } DeskSpread;
/* A table in memory is an array of rows, best grade first, and what their `count` counts: everybody in the grade, or
 * everybody but the defaulted. Neither is 0 or 1, so that a forgotten one, and a book's kind in its place, are refused. */
#ifdef __cplusplus
enum DeskCounts : uint32_t { DESK_BY_OBLIGORS = 'o', DESK_BY_SURVIVORS = 's' };
#else
typedef enum DeskCounts { DESK_BY_OBLIGORS = 'o', DESK_BY_SURVIVORS = 's' } DeskCounts;
#endif
typedef struct DeskRow { uint32_t count, defaults, announced; } DeskRow;
/* A book of one table: its first `length` bytes. */
typedef struct DeskBook { uint8_t bytes[DESK_TABLE_BYTES]; size_t length; } DeskBook;
/* Where a book is cut wrong: whose table it is, at which byte to look, and the byte that was expected and the one that was found.
 * 31: the offset at `byte` says that the rater's table starts at `found`; it has to start at `expected`, where the last one ended
 *     (of rater 1, where the offsets end).
 * 32: the rater's table starts at `byte` and ends at `expected`; where that is byte + 4, its header does. The book ends at `found`.
 * 33: the table of the last rater ends at `byte`, and so should the book, `expected`; it ends at `found`. found - expected bytes
 *     follow. */
typedef struct DeskWrongCut { uint32_t rater; size_t byte, expected, found; } DeskWrongCut;

/* A result that is not looked at is warned about: a verdict that was refused may read as Equal. */
#define DESK_CHECKED __attribute__((warn_unused_result))
#ifdef __cplusplus
#define DESK_ASSERT static_assert
#else
#define DESK_ASSERT _Static_assert /* not through <assert.h>, which would set the caller's assert anew */
#endif
DESK_ASSERT(sizeof(Desk) == 1936 && sizeof(DeskPlace) == 968 && sizeof(size_t) == 8, "as in the library");
DESK_ASSERT(sizeof(DeskCutoff) == 16 && sizeof(DeskPrice) == 8 && sizeof(DeskVerdict) == 20, "as in the library");
DESK_ASSERT(sizeof(DeskFraction) == 16 && sizeof(DeskMeasures) == 88 && sizeof(DeskSpread) == 16, "as in the library");
DESK_ASSERT(sizeof(DeskRow) == 12 && sizeof(DeskBook) == 504, "as in a book");
DESK_ASSERT(sizeof(DeskWrongCut) == 32, "as on every x86-64");

#ifdef __cplusplus
extern "C" {
#endif
/* The version of the library; equal to DESK_VERSION. */
uint32_t desk_version(void);

/* Empties both places, whatever the desk's bytes are.
 * Writes: the desk, as zero bytes. Refuses nothing. */
uint32_t desk_empty(Desk *desk);

/* Fills an empty place with the table of one rater, 1 to R, of a book. The table's kind says what its first column counts, and
 * a place holds obligors. The dearest mistake there is: survivors taken for obligors leave every figure looking right and can
 * make the losing scale win. After 31, 32 and 33, where a book is cut wrong, desk_wrong_cut says which table to look at, and where.
 * Writes: the place. Keeps: the other place, the book.
 * Refuses: 1, 21, 2, 3, 4; table by table 31 (start), 32 (header), 6, 7, 32 (rows); 33 (bytes left over); of the rater's rows,
 * one by one, 8, 10, 34; 9 (all are empty); 11. */
uint32_t desk_load(Desk *desk, uint32_t place, const uint8_t *book, size_t length, uint32_t rater) DESK_CHECKED;

/* Empties a loaded place.
 * Writes: the place, as zero bytes. Keeps: the other place. Refuses: 1, 22. */
uint32_t desk_clear(Desk *desk, uint32_t place) DESK_CHECKED;

/* The four events. Of the table the counts of the grade change and nothing else: announced rates, the other grades and their number
 * are kept. The pooled list is that of the counts as they are then. */

/* Books a survivor that enters a grade, which may be empty: one obligor more.
 * Writes: the place. Keeps: the other place. Refuses: 1, 22, 36, 38 (N is 1,000,000). */
uint32_t desk_survivor_enters(Desk *desk, uint32_t place, uint32_t grade) DESK_CHECKED;

/* Books a survivor that leaves a grade: one obligor fewer.
 * Writes: the place. Keeps: the other place. Refuses: 1, 22, 36, 37 (no survivor in the grade, or N is 1). */
uint32_t desk_survivor_leaves(Desk *desk, uint32_t place, uint32_t grade) DESK_CHECKED;

/* Books a survivor of a grade that defaults: one default more, and as many obligors.
 * Writes: the place. Keeps: the other place. Refuses: 1, 22, 36, 37 (no survivor in the grade). */
uint32_t desk_survivor_defaults(Desk *desk, uint32_t place, uint32_t grade) DESK_CHECKED;

/* Books a defaulted firm that is removed from a grade: one obligor and one default fewer.
 * Writes: the place. Keeps: the other place. Refuses: 1, 22, 36, 37 (no defaulted firm in the grade, or N is 1). */
uint32_t desk_defaulted_removed(Desk *desk, uint32_t place, uint32_t grade) DESK_CHECKED;

/* The blocks of a table and their bands. An empty grade is in no block: for it the three numbers of the next better occupied grade
 * are repeated, or those of the best occupied grade if none is better. So no grade is given a block without obligors.
 * Writes: three numbers for each grade, best first: defaults of its block, obligors of its block, band of its block.
 * Keeps: further numbers, the desk. Refuses: 1, 22, 13 (length under 3 for each grade, empty ones too). */
uint32_t desk_pool(const Desk *desk, uint32_t place, uint32_t *numbers, size_t length) DESK_CHECKED;

/* The cutoff that costs least at prices u and v; among equals the smallest.
 * Writes: the answer. Keeps: the desk. Refuses: 1, 22, 12. */
uint32_t desk_cheapest(const Desk *desk, uint32_t place, uint32_t u, uint32_t v, DeskCutoff *answer) DESK_CHECKED;

/* Which scale is at least as good: its cheapest cutoff costs no more than the other's, whatever the prices.
 * Writes: the answer. Keeps: the desk. Refuses: 22 (place 1, place 2), 23 (either), 24 (either), 25. */
uint32_t desk_compare(const Desk *desk, DeskVerdict *answer) DESK_CHECKED;

/* The same on shares, for scales over different books: D and S may differ between the places. Where they do not, the kind is that of
 * desk_compare. The prices of the answer are on shares and may be above DESK_MAX_PRICE: they are not for desk_cheapest, whose
 * prices are of single obligors.
 * Writes: the answer. Keeps: the desk. Refuses: 22 (place 1, place 2), 23 (either), 24 (either), 35 (either). */
uint32_t desk_compare_shares(const Desk *desk, DeskVerdict *answer) DESK_CHECKED;

/* D, S, Gini, the areas under the ROC and CAP curves, and Pietra.
 * Writes: the answer. Keeps: the desk. Refuses: 1, 22, 23, 24. */
uint32_t desk_measures(const Desk *desk, uint32_t place, DeskMeasures *answer) DESK_CHECKED;

/* The Brier score of the announced rates: lower is better.
 * Writes: the answer. Keeps: the desk. Refuses: 1, 22. */
uint32_t desk_brier(const Desk *desk, uint32_t place, DeskFraction *answer) DESK_CHECKED;

/* The squared spread of the outcomes, default or not, about the table's rate and about their blocks' rates: total is within
 * 1/2^36 of DS/N, residual within 1/2^29 of the exact sum over the blocks of block defaults times block survivors over block
 * obligors; both in the default rounding mode, to nearest.
 * Writes: the answer. Keeps: the desk. Refuses: 1, 22. */
uint32_t desk_spread(const Desk *desk, uint32_t place, DeskSpread *answer) DESK_CHECKED;

/* The loaded tables, place 1 before place 2, as a book of kind 0.
 * Writes: the book, and its length to *written. Keeps: further bytes, the desk.
 * Refuses: 22 (both places empty), 13 (length under the book's). */
uint32_t desk_write(const Desk *desk, uint8_t *book, size_t length, size_t *written) DESK_CHECKED;

/* The shortlist of a whole book, for which no desk is needed: the raters for which no other rater of the book is better. Better means
 * at least as good, as desk_compare has it, and not the reverse. Of raters that are equal, all are listed or none; every rater that
 * is not listed is beaten by a listed one, and desk_compare of the two has prices that show it; so at least one is listed.
 * Writes: the numbers of these raters, counted from 1, in book order, and how many they are to *listed. Keeps: further numbers, the
 * book.
 * Refuses: 2, 3; table by table 31 (start), 32 (header), 6, 7, 32 (rows); 33 (bytes left over); then rater by rater: of its rows, one
 * by one, 8, 10, 34; 9 (all are empty); 11; then 23 (any rater), 24 (any rater), 25 (any two raters), 13 (room under R, also where
 * fewer are listed). */
uint32_t desk_shortlist(const uint8_t *book, size_t length, uint32_t *numbers, size_t room, size_t *listed) DESK_CHECKED;

/* desk_library_is_version_N, which a library of another version does not have. */
#define DESK_PASTE(name, version) name##version
#define DESK_NAMED(name, version) DESK_PASTE(name, version)
#define DESK_MARKER DESK_NAMED(desk_library_is_version_, DESK_VERSION)
uint32_t DESK_MARKER(void);
#ifdef __cplusplus
}
#endif

/* Every object file whose source includes this header asks for the marker, under --gc-sections too where there is `retain`. */
#ifndef DESK_LOADED_BY_HAND
#if defined(__has_attribute)
#if __has_attribute(retain)
__attribute__((retain))
#endif
#endif
__attribute__((used)) static uint32_t (*const desk_wants_version)(void) = DESK_MARKER;
#endif

/* Lays out rows as a book for desk_load to judge, for the two functions below; who loads the library by hand calls this and then
 * desk_load with rater 1. A number of grades that is refused has no rows, and a kind that is neither becomes 2. x86-64 has the
 * bytes of a row in the book's order. Static in C++ too, as those below: no copy of another version is taken in its place. */
static inline void desk_lay_out(DeskBook *book, DeskCounts counts, const DeskRow *rows, size_t grades)
{
    const size_t held = grades <= DESK_GRADES ? grades : 0;
    memset(book->bytes, 0, 10);
    book->length = 10 + held * sizeof(DeskRow);
    book->bytes[0] = 1;
    book->bytes[2] = book->length & 0xFF;
    book->bytes[3] = book->length >> 8 & 0xFF;
    book->bytes[4] = 6;
    book->bytes[6] = (grades < 255 ? grades : 255) & 0xFF;
    book->bytes[7] = counts == DESK_BY_OBLIGORS ? 0 : counts == DESK_BY_SURVIVORS ? 1 : 2;
    if (held > 0) {
        memcpy(book->bytes + 10, rows, held * sizeof(DeskRow));
    }
}

/* Makes a book of one table from rows: for a file, or to load later as rater 1 with desk_load.
 * rows has `grades` elements; with 0 or more than 40 of them none is read, and rows may be null.
 * Writes: book->length, and as many of book->bytes. Keeps: further bytes, the rows.
 * Refuses as desk_load of that book would: 6, 7 (counts is neither); of the rows, one by one, 8, 10, 34; 9 (all are empty); 11. */
DESK_CHECKED static inline uint32_t desk_book(DeskBook *book, DeskCounts counts, const DeskRow *rows, size_t grades)
{
    Desk desk;
    DeskBook laid_out;
    uint32_t refusal;
    desk_lay_out(&laid_out, counts, rows, grades);
    desk_empty(&desk);
    refusal = desk_load(&desk, 1, laid_out.bytes, laid_out.length, 1);
    if (refusal == 0) {
        memcpy(book->bytes, laid_out.bytes, laid_out.length);
        book->length = laid_out.length;
    }
    return refusal;
}

/* Fills an empty place with a table of rows, as desk_load does with their book.
 * rows has `grades` elements; with 0 or more than 40 of them none is read, and rows may be null.
 * Writes: the place. Keeps: the other place, the rows.
 * Refuses: 1, 21, 6, 7 (counts is neither); of the rows, one by one, 8, 10, 34; 9 (all are empty); 11. */
DESK_CHECKED static inline uint32_t desk_load_rows(Desk *desk, uint32_t place, DeskCounts counts, const DeskRow *rows, size_t grades)
{
    DeskBook laid_out;
    desk_lay_out(&laid_out, counts, rows, grades);
    return desk_load(desk, place, laid_out.bytes, laid_out.length, 1);
}

/* Finds where a book is cut wrong, after desk_load refused a rater of it with 31, 32 or 33: the first table that is not in its
 * place, or what follows the last.
 * Returns the number of the cut: what the library refuses the book with if that is 31, 32 or 33. Otherwise returns 0.
 * Writes: the answer, where it returns a number. Keeps: the answer where it returns 0, the book. Refuses nothing. */
DESK_CHECKED static inline uint32_t desk_wrong_cut(const uint8_t *book, size_t length, DeskWrongCut *answer)
{
    Desk desk;
    uint32_t number, rater;
    size_t end;
    desk_empty(&desk);
    number = desk_load(&desk, 1, book, length, 1);
    if (number != DESK_REFUSED_TABLE_START && number != DESK_REFUSED_TABLE_END && number != DESK_REFUSED_LEFTOVER) {
        return 0;
    }
    end = 4 + 2U * book[0]; /* of 1 to 16 raters, whose offsets are within the book: the library has looked */
    for (rater = 1; rater <= book[0]; rater++) {
        const size_t offset = 2 + 2 * rater, start = book[offset] + 256U * book[offset + 1];
        if (start != end) {
            const DeskWrongCut elsewhere = {rater, offset, end, start};
            *answer = elsewhere;
            return number;
        }
        end = start + 4 + (start + 4 <= length ? 12U * book[start] : 0);
        if (end > length) {
            const DeskWrongCut past_the_end = {rater, start, end, length};
            *answer = past_the_end;
            return number;
        }
    }
    answer->rater = book[0];
    answer->byte = answer->expected = end;
    answer->found = length;
    return number;
}

/* The meaning of a refusal number, in words. */
#define DESK_CASE(constant, number, meaning) case number: return meaning;
static inline const char *desk_meaning(uint32_t number)
{
    switch (number) { DESK_REFUSALS(DESK_CASE) default: return "not a refusal number"; }
}
#endif
