"""What every CSV file is read by: its lines that are not blank, and what separates their cells."""
from __future__ import annotations

from itertools import islice
from typing import Callable, NamedTuple

from .csv_problems import Problem, Problems, cited
from .csv_rows import Line
from .csv_text import NOT_TEXT, SEPARATORS, cells_of, is_blank, lines_of, separator_line, separators_in

MOST_LINES, MOST_CHARACTERS = 10_000, 100_000  # of a file, of a line; a book has room for 640 grades


class Text(NamedTuple):
    """A line as it stands in the file."""
    number: int
    text: str


class FilledLines:
    """Reads the lines of one file that are not blank."""

    empty = Problem(None, None, None, 'nothing is in it')  # where there is no such line
    leave_out = 'Leave out what is not a table of grades'  # where there is too much

    def __init__(self) -> None:
        self.problems = Problems()
        self.separator: str | None = None  # known from a line such as sep=; or from the first header that is taken

    def read_filled(self, lines: list[Text]) -> None:
        """Reads lines that are neither none nor too many."""
        raise NotImplementedError

    def refuse(self, line: Text, why: str) -> None:
        self.problems.add(Problem(line.number, None, None, why))

    def read(self, content: bytes) -> None:
        lines, whole = lines_of(content)
        if not whole:
            self.refuse(Text(len(lines), ''), NOT_TEXT)
            return
        said = separator_line(lines[0])
        if said in SEPARATORS:
            self.separator = said
        elif said is not None:
            self.refuse(Text(1, lines[0]), f'cells cannot be separated by {cited(said)}. Write sep=, or sep=; or sep= and a tab')
        first = 0 if said is None else 1
        texts = (Text(number, text) for number, text in enumerate(lines[first:], first + 1) if not is_blank(text))
        filled = list(islice(texts, MOST_LINES + 1))
        problem = self.too_large(filled) if filled else self.empty
        if problem:
            self.problems.add(problem)
        else:
            self.read_filled(filled)

    def too_large(self, lines: list[Text]) -> Problem | None:
        """Far more than is needed is refused before it is looked at, so that no file takes long."""
        if len(lines) > MOST_LINES:
            return Problem(lines[MOST_LINES].number, None, None, f'more than {MOST_LINES} lines that are not blank. {self.leave_out}')
        long = next((line.number for line in lines if len(line.text) > MOST_CHARACTERS), None)
        return long and Problem(long, None, None, f'more than {MOST_CHARACTERS} characters in a line. {self.leave_out}')

    def separator_for(self, header: Text) -> str | None:
        found = [self.separator] if self.separator else separators_in(header.text)
        if len(found) > 1:
            self.refuse(header, f'the header has {" and ".join(SEPARATORS[one] for one in found)}, so it is not clear which of them '
                                'separates the cells. Put a cell that holds the others in quotes, or write the separator in the first '
                                'line of the file, such as sep=;')
            return None
        return found[0] if found else ','

    def lines_below(self, block: list[Text], at: int, ends: Callable[[list[str]], bool]) -> tuple[list[Line], int]:
        """The lines from an index of a block up to one whose cells end it, and the index of that one."""
        lines = []
        while at < len(block):
            cells = cells_of(block[at].text, self.separator)
            if cells is not None and ends(cells):
                break
            lines.append(Line(block[at].number, cells))
            at = 1 + (at if cells is not None else self.end_of_cell(block, at))
        return lines, at

    def end_of_cell(self, block: list[Text], at: int) -> int:
        """The index of the line where a quoted cell ends that holds line breaks; `at` itself where its quote has no partner."""
        if block[at].text.count('"') % 2:
            for end in range(at + 1, len(block)):
                _, quote, behind = block[end].text.partition('"')
                if quote:
                    return end if behind.lstrip(' ')[:1] in ('', self.separator) else at
        return at
