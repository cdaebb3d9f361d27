"""Reads sheets of changes: firms that come and go, as analysts list them through the week.

A line is an event at a grade: a survivor enters or leaves, a survivor defaults, a defaulted firm is removed. It stands for one firm, or for
so many as `times` says. The header names the columns in any order; further ones are left alone.

    event,grade,times
    enters,A1,5
    defaults,C2,

The cells are read as those of a table are (csv_file.py). What may mean two things is refused, with its line, its column and what to write
instead.
"""
from __future__ import annotations

from typing import Any, Callable, Iterator, NamedTuple

from .csv_cells import PLAIN, NotUnderstood, quoted, whole_number
from .csv_header import Header, header_with, some_of
from .csv_lines import FilledLines, Text
from .csv_problems import Problem, Problems, cited
from .csv_rows import Line, LineReader
from .csv_text import NOT_CELLS, cells_of, is_text
from .files import read_bytes
from .inputs import Rater, see_small
from .outcome import Complaint, NotTaken

EVENTS = ('enters', 'leaves', 'defaults', 'removed')
NUMBER, NAME = 'number', 'name'
COLUMNS = {'event': 'event', 'grade': 'grade', f'grade {NUMBER}': 'grade', f'grade {NAME}': 'grade', 'times': 'times'}
EXAMPLE = 'event,grade,times'
MOST_EVENTS = 1_000_000  # of a sheet: as many as the largest table has obligors


class Change(NamedTuple):
    """A line of a sheet."""
    line: int
    event: str  # one of EVENTS
    grade: int  # counted from 1; it may be outside the table
    times: int


def read_changes(file: str, rater: Rater) -> tuple[list[Change], Problems]:
    """The changes of a rater's table that a file lists, and the problems of the lines that are not taken."""
    content = read_bytes(file)
    if not is_text(content):
        raise NotTaken([Complaint(None, file, f'this is a book, not a sheet of changes. Expected CSV with a header such as {EXAMPLE}')])
    see_small(file, content, 'a list of changes needs. Is it one?')
    reader = SheetReader(rater)
    reader.read(content)
    return reader.changes, reader.problems


class SheetReader(FilledLines):
    """Reads one sheet. A blank line in it means nothing."""

    empty = Problem(None, None, None, f'no change is in it. Expected a header such as {EXAMPLE}')
    leave_out = 'Leave out what is no change'

    def __init__(self, rater: Rater) -> None:
        super().__init__()
        self.rater = rater
        self.changes: list[Change] = []

    def read_filled(self, lines: list[Text]) -> None:
        self.separator = self.separator_for(lines[0])
        if self.separator is None:
            return
        cells = cells_of(lines[0].text, self.separator)
        if cells is None:
            self.refuse(lines[0], NOT_CELLS)
            return
        names = [COLUMNS.get(cell.lower()) for cell in cells]
        header = header_with(lines[0].number, cells, names, self.problems, missing(lines[0].number, cells, names))
        if header is None:
            return
        below, _ = self.lines_below(lines, 1, lambda _: False)
        by = cells[header.columns['grade'] - 1].lower().partition(' ')[2]
        reader = ChangeReader(Grades(self.rater, by), header, below, self.separator, self.problems)
        reader.read()
        self.changes = [] if any(problem.line == header.line for problem in self.problems.all()) else reader.changes


def missing(line: int, cells: list[str], columns: list[str | None]) -> Iterator[Problem]:
    needed = [name for name in ('event', 'grade') if name not in columns]
    if needed:
        names = some_of([cited(cell) for cell in cells])
        yield Problem(line, None, None, f'the header names {names}, and no {" and no ".join(needed)}. Expected a header such as {EXAMPLE}')


class ChangeReader(LineReader):
    """Reads the lines of a sheet into changes."""

    nothing = 'no event and no grade in this line'
    optional = ('times',)
    words = ('event', 'grade')

    def __init__(self, grades: Grades, header: Header, lines: list[Line], separator: str, problems: Problems) -> None:
        super().__init__(header, lines, separator, problems)
        self.readers = {'event': event_in, 'grade': grades.read, 'times': times_in}
        self.changes: list[Change] = []
        self.events = 0

    def reader(self, name: str) -> Callable[[str], Any]:
        return self.readers[name]

    def take(self, line: int, cells: list[str], values: dict[str, Any]) -> None:
        change = Change(line, values['event'], values['grade'], values.get('times', 1))
        before, self.events = self.events, self.events + change.times
        if self.events <= MOST_EVENTS:
            self.changes.append(change)
        elif before <= MOST_EVENTS:  # told once
            self.problems.add(Problem(line, self.header.columns.get('times'), 'times', f'{self.events} events up to here; a sheet has at most '
                                                                                       f'{MOST_EVENTS}'))


def event_in(cell: str) -> str:
    word = cell.lower()
    if word in EVENTS:
        return word
    meant = next((f': write {event}' for event in EVENTS if word[:3] == event[:3]), '')
    raise NotUnderstood(f'{quoted(cell)}; expected an event: {", ".join(EVENTS[:-1])} or {EVENTS[-1]}{meant}')


def times_in(cell: str) -> int:
    """How often, where nothing stands for once."""
    times = whole_number(cell) if cell else 1
    if not times:
        raise NotUnderstood(f'{cited(cell)}; expected 1 or more. Leave the line out if nothing is to be booked')
    return times


class Grades:
    """The grades of a rater's table by number and by name. A grade's name is what is shown beside it; of several further columns also what
    stands in the one called grade, or else in the first. The header of a sheet may say that its grades are numbers or names."""

    def __init__(self, rater: Rater, by: str) -> None:
        self.rater, self.by, self.count = rater, by, len(rater.rows)
        self.named: dict[str, list[int]] = {}
        for number, names in enumerate(self.names(), 1):
            for name in names - {''}:
                self.named.setdefault(name, []).append(number)

    def names(self) -> Iterator[set[str]]:
        further = self.rater.further
        column = next((at for at, name in enumerate(further.names) if name.lower() == 'grade'), 0)
        for label, cells in zip(self.rater.labels, further.cells):
            yield {label, cells[column]}

    def read(self, cell: str) -> int:
        """The number of the grade that a cell says. One outside the table is left to the call that refuses it."""
        named = [] if self.by == NUMBER else self.named.get(cell, [])
        number = int(cell) if PLAIN.fullmatch(cell) and self.by != NAME else None
        if number is not None and (not named or 1 <= number <= self.count):
            if named and named != [number]:
                raise NotUnderstood(f'{cited(cell)} is the number of a grade and the name of {listed(named)}: the header has to say '
                                    f'which of them, grade {NUMBER} or grade {NAME}')
            return number
        if len(named) != 1:
            raise NotUnderstood(self.why_not(cell, named))
        return named[0]

    def why_not(self, cell: str, named: list[int]) -> str:
        if named:
            return f'{cited(cell)} is the name of {listed(named)}: say which by its number'
        if not cell:
            return 'an empty cell; expected a grade by number or name'
        labels = self.rater.labels
        have = ', '.join(f'{number} ({label})' if label else str(number) for number, label in enumerate(labels, 1))
        return f'{cited(cell)} is no grade of {self.rater.name}. It has {have or f"grades 1 to {self.count}, without names"}'


def listed(grades: list[int]) -> str:
    return f'grade{"s" if len(grades) > 1 else ""} {", ".join(map(str, grades))}'
