"""`desk pack` and `desk unpack`: CSV files into one book, and a book into CSV."""
from __future__ import annotations

from typing import Any, Sequence
import os
import re

from ..book import encode
from ..table import Table
from . import questions
from .csv_header import NAME_WORDS
from .files import see_apart, write_whole
from .inputs import Rater, Source, accepted, read_all, read_source, too_many
from .layout import counted, plain
from .outcome import Complaint, NotTaken, Outcome, Question
from .show import summary, summary_data

CSV, BOOK = '.csv', '.book'  # how the name of a file ends that is to be one or the other
MARKS = re.compile('[,;\t"=]')


def pack(files: Sequence[str], output: str) -> Outcome:
    """One book of all tables of these CSV files, in this order. What load would refuse of any of them is refused, and nothing written."""
    see_apart(files, output)
    sources, refusals = read_all(files)
    refusals += [Complaint(None, source.file, 'this is a book already, not CSV') for source in sources if source.is_book]
    raters = [rater for source in sources for rater in source.raters]
    tables = accepted(raters, refusals + too_many(raters))
    book = content_of(raters, BOOK)
    write_whole(output, book)
    lines = [f'rater {number}: {summary(*each)}' for number, each in enumerate(zip(raters, tables), 1)]
    text = '\n'.join([f'{plain(output)}: {len(book)} bytes', *lines])
    text = text if os.path.isfile(output) else ''  # where the book went to a pipe, nothing follows it
    data = {'command': 'pack', 'book': output, 'bytes': len(book), 'raters': [summary_data(*each) for each in zip(raters, tables)]}
    return Outcome(text, data, asked_of(sources, tables))


def unpack(file: str, output: str | None) -> Outcome:
    """The tables of a book as CSV, on standard output where no file is named."""
    see_apart([file], output)
    source = read_source(file)
    if not source.is_book:
        raise NotTaken([Complaint(None, file, 'this is CSV already, not a book')])
    tables = accepted(source.raters)
    text = csv_of(source.raters)
    if output is not None:
        write_whole(output, text.encode())
        text = f'{plain(output)}: {counted(len(tables), "table")}' if os.path.isfile(output) else ''
    data = {'command': 'unpack', 'csv': output, 'tables': [table_data(table) for table in tables]}
    return Outcome(text.rstrip('\n'), data, asked_of([source], tables))


def table_data(table: Table) -> dict[str, Any]:
    return {'counts': table.counts, 'rows': [dict(zip(('first', 'defaults', 'announced_ppm'), row)) for row in table.rows]}


def asked_of(sources: Sequence[Source], tables: Sequence[Table]) -> list[Question]:
    return [question for source in sources for question in source.questions] + \
        [question for table in tables for question in questions.of_table(table)]


def csv_of(raters: Sequence[Rater]) -> str:
    """The text of a CSV file that holds these tables, with their names and the further columns before the numbers, where they have any."""
    return '\n\n'.join('\n'.join(lines_of(rater)) for rater in raters) + '\n'


def lines_of(rater: Rater) -> list[str]:
    """The lines of a table in CSV."""
    def line(*cells: object) -> str:
        return ','.join(cell_text(str(cell)) for cell in cells)
    names, cells = rater.further.names, rater.further.cells or [()] * len(rater.rows)
    return ([line(NAME_WORDS[0], rater.own_name)] if rater.own_name else []) + [line(*names, rater.counts, 'defaults', 'announced')] + [
        line(*further, *row) for further, row in zip(cells, rater.rows)]


def cell_text(cell: str) -> str:
    """A cell as it is written: in quotes where it holds what separates cells, or what may be taken for that."""
    return '"' + cell.replace('"', '""') + '"' if MARKS.search(cell) else cell


def content_of(raters: Sequence[Rater], ending: str) -> bytes:
    """A file with these tables, as the ending of its name says."""
    return csv_of(raters).encode() if ending == CSV else encode([(rater.counts, rater.rows) for rater in raters])
