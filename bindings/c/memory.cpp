// memory.c in C++11: says which of two rating scales over the same six obligors is better; both tables are given in memory.
#include "desk.h"
#include <exception>
#include <iostream>
#include <stdexcept>
#include <string>
#include <vector>

static void accept_or_throw(const std::string &what, uint32_t refusal)
{
    if (refusal != 0) {
        throw std::runtime_error(what + ": refused " + std::to_string(refusal) + ": " + desk_meaning(refusal));
    }
}

static DeskVerdict compare(const std::vector<DeskRow> &by_obligors, const std::vector<DeskRow> &by_survivors)
{
    Desk desk{}; // zero bytes are an empty desk
    DeskVerdict verdict;
    accept_or_throw("first scale", desk_load_rows(&desk, 1, DESK_BY_OBLIGORS, by_obligors.data(), by_obligors.size()));
    accept_or_throw("second scale", desk_load_rows(&desk, 2, DESK_BY_SURVIVORS, by_survivors.data(), by_survivors.size()));
    accept_or_throw("comparison", desk_compare(&desk, &verdict));
    return verdict;
}

static std::string said(uint32_t kind)
{
    switch (kind) {
    case DESK_EQUAL: return "The scales cost the same at all prices.";
    case DESK_FIRST: return "The first scale is better.";
    case DESK_SECOND: return "The second scale is better.";
    default: return "Each scale is better at some prices.";
    }
}

static void say_price(const std::string &dearer, const DeskPrice &price)
{
    if (price.u != 0 || price.v != 0) { // there are prices at which it costs more
        std::cout << "At " << price.u << " for a missed default and " << price.v << " for a survivor turned away the " << dearer
                  << " costs more.\n";
    }
}

int main()
{
    try {
        // Best grade first: obligors or survivors, defaults, announced rate in ppm.
        const DeskVerdict verdict = compare({{5, 2, 400000}, {1, 1, 1000000}}, {{2, 0, 0}, {1, 3, 750000}});
        std::cout << said(verdict.kind) << '\n';
        say_price("first", verdict.first_dearer);
        say_price("second", verdict.second_dearer);
    } catch (const std::exception &refused) {
        std::cerr << refused.what() << '\n';
        return 1;
    }
    return 0;
}
