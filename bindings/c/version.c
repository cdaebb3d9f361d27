/* A program in C or C++ that makes one call alone, CALL, or none, 0. It links with a library of the header's version and with no other. */
#include "desk.h"

int main(void)
{
    static Desk desk; /* zero bytes: empty */
    static DeskMeasures measures;
    static DeskWrongCut cut;
    static uint32_t numbers[1];
    static size_t listed;
    static const DeskRow rows[] = {{5, 2, 400000}};
    static const uint8_t bytes[] = {1, 0, 22, 0, 6, 0, 1, 0, 0, 0, 5, 0, 0, 0, 2, 0, 0, 0, 0, 0, 0, 0};
    return (void)desk, (void)measures, (void)cut, (void)numbers, (void)listed, (void)rows, (void)bytes, (CALL) == 0 ? 0 : 1;
}
