"""Reads grade tables from CSV files as people have them.

A table is a header and a line for each grade, the best grade first. The header names the columns in any order: `obligors` (everybody
in the grade, the defaulted included) or `survivors` (the defaulted left out), `defaults`, and `announced`, the announced rate in ppm.
Any further column is kept for display. A blank line ends a table; the next one starts with a header of its own. A line before the
header may name the table:

    name,In-house 2025
    grade,obligors,defaults,announced
    AAA,120,0,500
    AA,180,1,4000

What can be understood in one way only is taken: commas, semicolons or tabs between the cells, `sep=;`, thousands parted by spaces or
apostrophes, rates in percent. All else is refused, with its line, its column and what to write instead.
"""
from __future__ import annotations

from typing import Iterator, NamedTuple

from .csv_header import EXAMPLE, Header, header_of, is_name_line, names_columns, says, starts_as_name_line, starts_table
from .csv_lines import FilledLines, Text
from .csv_problems import Problem
from .csv_rows import RowReader, Sheet
from .csv_text import NOT_CELLS, SEPARATORS, cells_of, is_text, rough_cells, separator_line

NAME_ALONE = f'a line that names a table, and no header below it. Expected a header such as {EXAMPLE}'
__all__ = ['Problem', 'Reading', 'Sheet', 'is_text', 'read_csv']


class Reading(NamedTuple):
    sheets: list[Sheet]
    problems: list[Problem]  # all of them, in the order of the file; where there are any, there are no sheets
    notes: list[str]  # what was understood and should be said


def read_csv(content: bytes, first_rater: int = 1) -> Reading:
    """The tables of a CSV file. Its first is that of rater `first_rater` in the notes."""
    reader = FileReader(first_rater)
    reader.read(content)
    problems = reader.problems.all()
    return Reading([], problems, []) if problems else Reading(reader.sheets, [], reader.notes)


def blocks_of(lines: list[Text]) -> Iterator[list[Text]]:
    """The lines that follow each other without a blank line."""
    start = 0
    for end in range(1, len(lines) + 1):
        if end == len(lines) or lines[end].number > lines[end - 1].number + 1:
            yield lines[start:end]
            start = end


class FileReader(FilledLines):
    """Reads the tables of one file."""

    empty = Problem(None, None, None, f'no table is in it. Expected a header such as {EXAMPLE}', 3)

    def __init__(self, first_rater: int) -> None:
        super().__init__()
        self.first_rater = first_rater
        self.sheets: list[Sheet] = []
        self.notes: list[str] = []
        self.later = False  # a block stands before this one

    def read_filled(self, lines: list[Text]) -> None:
        for block in blocks_of(lines):
            at = 0
            while at < len(block):
                at = self.read_table(block, at)
            self.later = True

    def read_table(self, block: list[Text], start: int) -> int:
        """Reads the table that starts at an index of a block, and gives the index where the next one starts."""
        at, named = self.pass_name_lines(block, start)
        separator = self.separator_for(block[at]) if at < len(block) else None
        if separator is None:
            return len(block)
        name = self.name_in(named, separator) if named else None
        header = self.header_in(block[at], separator, block[at + 1:at + 2])
        if header is None:
            return len(block)
        self.separator = separator
        lines, end = self.lines_below(block, at + 1, lambda cells: starts_table(cells, header))
        rows = RowReader(name, header, lines, separator, self.problems)
        rows.read()
        note = rows.note(self.first_rater + len(self.sheets))
        self.notes += [note] if note else []
        self.sheets.append(rows.sheet)
        if end < len(block):
            what = 'a name line' if starts_as_name_line(block[end].text, None) else 'a header'
            self.refuse(block[end], f'{what} within a table. Put a blank line before the next table')
        return end

    def pass_name_lines(self, block: list[Text], at: int) -> tuple[int, Text | None]:
        """The index of the header, and the name line before it. Other lines before a header are refused."""
        named = None
        while at < len(block):
            line, following = block[at], block[at + 1].text if at + 1 < len(block) else None
            separates = separator_line(line.text) is not None
            if not separates and not starts_as_name_line(line.text, following):
                return at, named
            if named:
                self.refuse(named, NAME_ALONE)
            if separates:
                self.refuse(line, 'this line sets the separator; it can only be the first line of the file')
            named = None if separates else line
            at += 1
        if named:
            self.refuse(named, NAME_ALONE)
        return at, None

    def name_in(self, line: Text, separator: str) -> str | None:
        cells = cells_of(line.text, separator)
        if cells and is_name_line(cells):
            return cells[1]
        self.refuse(line, f'expected the name of the table in the second cell and nothing else. The cells are separated by '
                          f'{SEPARATORS[separator]}; put a name that holds some in quotes')
        return None

    def header_in(self, line: Text, separator: str, following: list[Text]) -> Header | None:
        cells = cells_of(line.text, separator)
        if cells is None:
            self.refuse(line, NOT_CELLS)
            return None
        hint = ' (A blank line ends a table; the next one needs a header of its own.)' if self.later else ''
        if following and names_columns(rough_cells(following[0].text)) and not names_columns(cells):
            hint = ' (The next line looks like the header. Leave this one out, or write it as name,NAME)'
        elif len(cells) == 1 and says(cells):
            hint = f' (The cells of this file are separated by {SEPARATORS[self.separator]}.)' if self.separator else \
                ' (Cells are separated by commas, semicolons or tabs.)'
        return header_of(line.number, cells, hint, self.problems)
