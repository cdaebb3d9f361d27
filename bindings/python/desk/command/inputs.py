"""The files that a command is asked about: books or CSV, told apart by their content, and the raters in them by name."""
from __future__ import annotations

from typing import NamedTuple, Sequence
import os

from ..book import MAX_RATERS, TableInBook, row_refusals, tables_in
from ..refusals import Refused
from ..table import Row, Table, faults
from .csv_file import Problem, Sheet, is_text, read_csv
from .files import MOST_BYTES, STANDARD_INPUT, read_bytes, see_once
from .layout import LEAST_OF_A_NAME, MOST_OF_A_NAME, shortened, shown
from .outcome import Complaint, NotTaken, Question, WrongUsage


class Further(NamedTuple):
    """The further columns of a table: their names, and their cells, a list for each grade."""
    names: Sequence[str] = ()
    cells: Sequence[Sequence[str]] = ()


class Rater(NamedTuple):
    """One table of a file."""
    file: str
    start: str  # the file, and the line of its header
    number: int  # in the file, from 1
    own_name: str | None  # where the file names it
    name: str  # to be shown
    counts: str  # obligors or survivors
    rows: Sequence[Row]
    further: Further
    complaints: Sequence[Complaint]  # why load would refuse it
    after: str = ''  # what has been booked on it since, in words

    @property
    def labels(self) -> list[str]:
        """What else stands beside each grade; empty where nothing does."""
        labels = [' '.join(cell for cell in cells if cell) for cells in self.further.cells]
        return labels if any(labels) else []

    def table(self) -> Table:
        """The table, if there is no complaint about it."""
        return Table.of_rows(self.counts, self.rows, f'{self.name} after {self.after}' if self.after else self.name)


class Source(NamedTuple):
    """A file with its raters."""
    file: str
    is_book: bool
    raters: Sequence[Rater]
    questions: Sequence[Question]

    def rater(self, word: str) -> Rater:
        """The rater of this number, or of this name where the file names its raters. Digits are always a number."""
        if word.isascii() and word.isdigit() and len(word) < 19:
            number = int(word)
            if not 1 <= number <= len(self.raters):
                raise NotTaken([Complaint(4, self.file, f'rater {number}; this file has {len(self.raters)}')])
            return self.raters[number - 1]
        found = [rater for rater in self.raters if rater.own_name == word]
        if not found:
            raise WrongUsage(f'{word!r} is no rater of {self.file}. It has {self.names()}')
        if len(found) > 1:
            numbers = ', '.join(str(rater.number) for rater in found)
            raise WrongUsage(f'{word!r} is the name of raters {numbers} of {self.file}: say which by its number')
        return found[0]

    def names(self) -> str:
        return ', '.join(f'{rater.number} ({shown(rater.name)})' for rater in self.raters)


def read_source(file: str) -> Source:
    """The raters of a file. What makes the whole file unreadable raises NotTaken; a complaint about one table stays with it."""
    content = read_bytes(file)
    if content and is_text(content):
        return of_csv(file, content)
    if len(content) > MOST_BYTES:
        raise NotTaken([Complaint(2, file, f'over {MOST_BYTES} bytes; a book has at most 65535')])
    try:
        found = tables_in(content)
    except Refused as refused:
        raise NotTaken([Complaint.of(refused, file)]) from None
    raters = [of_book(file, found, number) for number in range(1, len(found) + 1)]
    return named(Source(file, True, raters, []))


def read_all(files: Sequence[str]) -> tuple[list[Source], list[Complaint]]:
    """The files that can be read, and what makes the others unreadable."""
    see_once(files)
    sources, complaints = [], []
    for file in files:
        try:
            sources.append(read_source(file))
        except NotTaken as not_taken:
            complaints += not_taken.refusals
    return sources, complaints


def of_book(file: str, found: list[TableInBook], number: int) -> Rater:
    complaints = [Complaint.of(refused, file) for refused in row_refusals(found, number)]
    table = found[number - 1]
    return Rater(file, file, number, None, '', table.counts, table.rows, Further(), complaints)


def of_csv(file: str, content: bytes) -> Source:
    see_small(file, content, f'{MAX_RATERS} tables need. Is it a table of grades?')
    sheets, problems, notes = read_csv(content)
    if problems:
        raise NotTaken([of_problem(file, problem) for problem in problems])
    raters = [of_sheet(file, sheet, number) for number, sheet in enumerate(sheets, 1)]
    return named(Source(file, False, raters, [Question('reading', f'{file}: {note}') for note in notes]))


def see_small(file: str, content: bytes, than: str) -> None:
    if len(content) > MOST_BYTES:
        raise NotTaken([Complaint(None, file, f'over {MOST_BYTES} bytes, far more than {than}')])


def place(file: str, line: int | None, column: int | None = None) -> str:
    return ', '.join([file] + [f'{what} {at}' for what, at in (('line', line), ('column', column)) if at is not None])


def of_problem(file: str, problem: Problem) -> Complaint:
    name = f' ({problem.name})' if problem.name else ''
    return Complaint(problem.number, place(file, problem.line, problem.column) + name, problem.why)


def of_sheet(file: str, sheet: Sheet, number: int) -> Rater:
    names = (sheet.counts, 'defaults', 'announced')
    complaints = []
    for fault in faults(sheet.counts, sheet.rows):
        name = names[fault.column]
        problem = Problem(sheet.line, None, None, fault.why, fault.number) if fault.grade is None else Problem(
            sheet.lines[fault.grade], sheet.columns[name], name, fault.why, fault.number)
        complaints.append(of_problem(file, problem))
    further = Further(sheet.label_names, sheet.labels)
    return Rater(file, place(file, sheet.line), number, sheet.name, '', sheet.counts, sheet.rows, further, complaints)


def stem(file: str) -> str:
    return 'standard input' if file == STANDARD_INPUT else os.path.splitext(os.path.basename(file))[0]


def named(source: Source) -> Source:
    """The same with each rater's name: its own, else the file's, or its number where the file has several."""
    def name(rater: Rater) -> str:
        return rater.own_name or (stem(source.file) if len(source.raters) == 1 else f'rater {rater.number}')
    return source._replace(raters=[rater._replace(name=name(rater)) for rater in source.raters])


def told_apart(first: Rater, second: Rater) -> list[Rater]:
    """Two raters, with names that differ as they are shown: by what is put behind them where they are the same."""
    raters, names = (first, second), [first.name, second.name]
    for endings in ([' (changed)' if rater.after else '' for rater in raters], [f' of {rater.file}' for rater in raters],
                    [f' (rater {rater.number})' for rater in raters], (' (first)', ' (second)')):
        if shown(names[0]) != shown(names[1]):
            break
        names = [shortened(rater.name, max(MOST_OF_A_NAME - len(ending), LEAST_OF_A_NAME)) + ending
                 for rater, ending in zip(raters, endings)]
    return [rater._replace(name=name) for rater, name in zip(raters, names)]


def too_many(raters: Sequence[Rater]) -> list[Complaint]:
    """What is refused where these are more raters than a book holds."""
    if len(raters) <= MAX_RATERS:
        return []
    return [Complaint(3, raters[MAX_RATERS].start, f'rater {MAX_RATERS + 1} starts here; a book holds at most {MAX_RATERS}')]


def accepted(raters: Sequence[Rater], complaints: Sequence[Complaint] = ()) -> list[Table]:
    """The tables of these raters, if there is neither one of these complaints nor one about a table."""
    found = [*complaints, *(complaint for rater in raters for complaint in rater.complaints)]
    if found:
        raise NotTaken(found)
    return [rater.table() for rater in raters]
