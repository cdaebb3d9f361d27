"""Compares credit rating scales: the proved library from Python.

    >>> from desk import Desk, Table, price_ranges
    >>> inhouse = Table(obligors=[5, 1], defaults=[2, 1], announced=[400_000, 1_000_000], name='in-house')
    >>> agency = Table(survivors=[2, 1], defaults=[0, 3], announced=[0, 750_000], name='agency')
    >>> desk = Desk()
    >>> desk.load(1, inhouse)
    >>> desk.load(2, agency)
    >>> print(desk.compare().sentence('in-house', 'agency'))
    in-house and agency cross: neither is better, each costs less than the other at some prices.
    >>> print(desk.measures(1).gini)
    0.333333 (3/9)
    >>> for each in price_ranges(desk):  # of the price ratio u:v, and which scale is cheaper there
    ...     print(each)
    [0:1, 0:1] both
    (0:1, 1:2) first
    [1:2, 1:2] both
    (1:2, 1:0) second
    [1:0, 1:0] both

A table says by name whether its first column counts obligors (the defaulted included) or survivors (the defaulted left out). Columns
may come from any sequence of whole numbers, those of a data frame among them. A desk has two places; each call is accepted, or raises
Refused with its number and changes nothing. Firms that come and go are booked at a grade of a loaded table by `survivor_enters`,
`survivor_leaves`, `survivor_defaults` and `defaulted_removed`. What the calls answer is proved; this module hands it on, and works out price
ranges and costs on shares from it. Scales of books of different sizes are compared by `compare_shares`, with costs by shares of each
book's own defaults and survivors: its prices are of missing all defaults, and of turning away all survivors, of a book. `shortlist` lists
the raters of a book for which no other one is better.
"""
from .answers import Cutoff, Kind, Measures, PooledGrade, Price, Spread, Verdict, WrittenFraction
from .book import read_book, write_book
from .costs import ShareCosts
from .desk import Desk
from .library import LibraryMissing
from .ranges import PriceRange, price_ranges
from .raters import shortlist, shortlist_into
from .refusals import MEANINGS, Refused
from .table import Grade, Table
from .version import VERSION

__all__ = ['Cutoff', 'Desk', 'Grade', 'Kind', 'LibraryMissing', 'MEANINGS', 'Measures', 'PooledGrade', 'Price', 'PriceRange',
           'Refused', 'ShareCosts', 'Spread', 'Table', 'VERSION', 'Verdict', 'WrittenFraction', 'price_ranges', 'read_book', 'shortlist',
           'shortlist_into', 'write_book']
__version__ = str(VERSION)
