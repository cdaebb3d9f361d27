"""The refusals of documents 01 and 02: a call is accepted, or refused with one of these numbers and changes nothing."""
from __future__ import annotations

# What each number means, as docs/REFUSALS.md has it.
MEANINGS = {
    1: 'place is not 1 or 2',
    2: 'book under 4 bytes, or its stated length is not the length lent',
    3: 'R outside 1 to 16, or the book ends within the offsets (R: number of raters)',
    4: 'rater outside 1 to R (R: number of raters)',
    6: 'grade count outside 1 to 40',
    7: 'kind above 1, or the two bytes after it not zero',
    8: 'defaults above obligors (kind 0)',
    9: 'all grades are empty (empty: without obligors)',
    10: 'announced above 1,000,000',
    11: 'N above 1,000,000 (N: obligors of the table)',
    12: 'a price above 1,000,000',
    13: 'lent buffer too short',
    21: 'place already loaded',
    22: 'place empty',
    23: 'no defaults',
    24: 'no survivors',
    25: 'D or S differ between the places (D: defaults, S: survivors)',
    31: 'a table starts elsewhere than where the last one ended',
    32: 'a table runs past the end, in header or rows',
    33: 'bytes after the last table',
    34: 'announced rate below that of the row before',
    35: 'N above 100,000 (compare on shares; N: obligors of the table)',
    36: 'grade outside the table',
    37: "grade without such a firm, or a leaving or removal of the table's last obligor",
    38: 'entry beyond 1,000,000 (obligors of the table)',
}


class Refused(Exception):
    """A call or a table that is refused: its number, the meaning, and where the fault stands if that is known."""

    def __init__(self, number: int, where: str | None = None):
        self.number = number
        self.meaning = MEANINGS[number]
        self.where = where
        super().__init__(f'refused {number}: {self.meaning}' + (f'; {where}' if where else ''))

    def __reduce__(self):
        return type(self), (self.number, self.where)
