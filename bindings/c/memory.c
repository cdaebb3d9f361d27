/* Says which of two rating scales over the same six obligors is better; both tables are given in memory. */
#include "desk.h"
#include <inttypes.h>
#include <stdio.h>
#include <stdlib.h>

static void accept_or_exit(const char *what, uint32_t refusal)
{
    if (refusal != 0) {
        fprintf(stderr, "%s: refused %" PRIu32 ": %s\n", what, refusal, desk_meaning(refusal));
        exit(1);
    }
}

static void say_price(const char *dearer, DeskPrice price)
{
    if (price.u != 0 || price.v != 0) { /* there are prices at which it costs more */
        printf("At %" PRIu32 " for a missed default and %" PRIu32 " for a survivor turned away ", price.u, price.v);
        printf("the %s costs more.\n", dearer);
    }
}

int main(void)
{
    const char *const verdicts[] = {"The scales cost the same at all prices.", "The first scale is better.",
                                    "The second scale is better.", "Each scale is better at some prices."};
    const DeskRow first[] = {{5, 2, 400000}, {1, 1, 1000000}}; /* obligors, defaults, announced rate in ppm; best grade first */
    const DeskRow second[] = {{2, 0, 0}, {1, 3, 750000}};      /* survivors, defaults, announced rate in ppm */
    Desk desk;
    DeskVerdict verdict;
    desk_empty(&desk);
    accept_or_exit("first scale", desk_load_rows(&desk, 1, DESK_BY_OBLIGORS, first, sizeof first / sizeof *first));
    accept_or_exit("second scale", desk_load_rows(&desk, 2, DESK_BY_SURVIVORS, second, sizeof second / sizeof *second));
    accept_or_exit("comparison", desk_compare(&desk, &verdict));
    puts(verdicts[verdict.kind]);
    say_price("first", verdict.first_dearer);
    say_price("second", verdict.second_dearer);
    return 0;
}
