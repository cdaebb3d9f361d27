// The header in C++, behind other headers and twice: it compiles, and the functions link under their C names, with those of include.c.
#include <cstdint>
#include <cstring>
#include "desk.h"
#include "desk.h"

extern "C" uint32_t refused_in_c(Desk *desk);

namespace wrapped { // has functions of the same names
using ::desk_empty;
static uint32_t desk_load(Desk &desk, const DeskBook &book) { return ::desk_load(&desk, 2, book.bytes, book.length, 1); }
}

int main()
{
    Desk desk;
    DeskVerdict verdict;
    DeskBook book;
    const DeskRow rows[] = {{2, 0, 0}, {1, 3, 750000}};
    uint32_t (*const function)(Desk *) = desk_empty; // as a pointer
    bool good = function(&desk) == 0 && wrapped::desk_empty(&desk) == 0 && ::desk_empty(&desk) == 0 && desk_compare(&desk, &verdict) == DESK_REFUSED_EMPTY;
    good = good && refused_in_c(&desk) == 0 && desk_book(&book, DESK_BY_OBLIGORS, rows, 2) == DESK_REFUSED_DEFAULTS;
    good = good && desk_book(&book, DESK_BY_SURVIVORS, rows, 2) == 0 && wrapped::desk_load(desk, book) == 0;
    good = good && desk_compare(&desk, &verdict) == 0 && verdict.kind == DESK_CROSSING;
    return good && std::strcmp(desk_meaning(DESK_REFUSED_EMPTY), "place empty") == 0 ? 0 : 1;
}
