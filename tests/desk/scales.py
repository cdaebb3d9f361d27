"""Raters as the tests find them in the example files, and files of raters that they make."""
from __future__ import annotations

from typing import NamedTuple, Sequence

from running import content_of, example
from books import table
from definitions import Grades, grades_of


class Scale(NamedTuple):
    """A rater as the command should read it."""
    name: str
    file: str
    number: int
    counts: str
    rows: Sequence[tuple]
    labels: Sequence[str] = ()

    @property
    def grades(self) -> Grades:
        return grades_of(self.counts, self.rows)


def by(counts: str, grades: Grades) -> list[tuple]:
    """The rows of grades whose first column counts this."""
    return [(n - d if counts == 'survivors' else n, d, announced) for n, d, announced in grades]


def kinds_in(book: bytes) -> list[str]:
    """What the first column of each rater of a sound book counts."""
    return ['survivors' if book[int.from_bytes(book[at:at + 2], 'little') + 1] else 'obligors' for at in range(4, 4 + 2 * book[0], 2)]


def rater_of(path: str, number: int) -> Scale:
    """A rater of a book of several."""
    book = content_of(path)
    counts = kinds_in(book)[number - 1]
    return Scale(f'rater {number}', path, number, counts, by(counts, table(book, number)))


def named_example(name: str, book: str, rater: int, counts: str, labels: str) -> Scale:
    """An example in CSV that has a name and names of grades: the same table as a rater of an example book, by what it counts."""
    rows = by(counts, rater_of(example(book), rater).grades)
    return Scale(name, example(f'{name.lower().replace("-", "")}.csv'), 1, counts, rows, labels.split())


def part_of_agencies(name: str, file: str, rater: int, first: int, labels: str) -> Scale:
    """An example in CSV that has a name and names of grades: the grades of a rater of agencies.book from one on."""
    return Scale(name, example(file), 1, 'obligors', rater_of(example('agencies.book'), rater).grades[first - 1:], labels.split())


INHOUSE = named_example('In-house', 'portfolio.book', 1, 'obligors', 'A1 A2 B1 B2 C1 C2 D1 D2')
AGENCY = named_example('Agency', 'portfolio.book', 3, 'survivors', 'Aa A Baa Ba B Caa')
HARBOUR = named_example('Harbour', 'lenders.book', 1, 'obligors', 'H1 H2 H3 H4 H5 H6')
VALLEY = named_example('Valley', 'lenders.book', 2, 'survivors', 'V1 V2 V3 V4 V5 V6 V7')
FITCH_CCC = part_of_agencies('Fitch from CCC+ down', 'fitch_ccc.csv', 3, 17, 'CCC+ CCC CCC- CC C')
