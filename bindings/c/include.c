/* The header in C, before other headers, behind them and twice. With include.cpp this makes one program. */
#include "desk.h"
#ifdef assert
#error "desk.h takes the caller's assert"
#endif
#include <assert.h>
#include <stdint.h>
#include <stdio.h>
#include <string.h>
#include "desk.h"

uint32_t refused_in_c(Desk *desk);
inline uint32_t emptied(Desk *desk);

/* The names are functions' and nothing else: for an inline function that other files see, and for the members of a struct. */
inline uint32_t emptied(Desk *desk) { return desk_empty(desk); }
extern inline uint32_t emptied(Desk *desk);
typedef struct Functions { uint32_t (*desk_empty)(Desk *); } Functions;

/* The number of a load of two rows by obligors, whose lists have commas, and of the same as a book. */
uint32_t refused_in_c(Desk *desk)
{
    const Functions functions = {desk_empty};
    assert(functions.desk_empty(desk) == 0 && emptied(desk) == 0);
    const uint32_t of_rows = desk_load_rows(desk, 1, DESK_BY_OBLIGORS, (const DeskRow[]){{5, 2, 400000}, {1, 1, 1000000}}, 2);
    const uint32_t of_book = desk_load(desk, 1, (const uint8_t[]){1, 0, 10, 0, 6, 0, 0, 0, 0, 0}, 10, 1);
    assert(of_book == DESK_REFUSED_LOADED);
    return of_rows;
}
