"""Why a CSV file is not taken: all its problems, each with its place."""
from __future__ import annotations

from typing import NamedTuple

MOST_KEPT = 200
MOST_SHOWN = 40  # characters of a cell


class Problem(NamedTuple):
    """Why a file is not taken, at one place."""
    line: int | None  # counted from 1
    column: int | None  # counted from 1, as it stands in the file
    name: str | None  # of the column, where it has one: 'obligors', 'survivors', 'defaults', 'announced'
    why: str
    number: int | None = None  # the refusal number, where load refuses such a book too, or the call that books a change


class Problems:
    """The problems of a file in its order. Those beyond the first 200 are counted alone."""

    def __init__(self) -> None:
        self._kept: list[Problem] = []
        self._more = 0

    def add(self, problem: Problem) -> None:
        if len(self._kept) < MOST_KEPT:
            self._kept.append(problem)
        else:
            self._more += 1

    def any_before(self, line: int) -> bool:
        return any(problem.line is not None and problem.line < line for problem in self._kept)

    def by_line(self) -> list[Problem]:
        """All of them in the order of their lines, where they were not found in it; what has no line stands last."""
        return sorted(self.all(), key=lambda problem: (problem.line is None, problem.line))

    def all(self) -> list[Problem]:
        if not self._more:
            return self._kept
        return self._kept + [Problem(None, None, None, f'problems beyond these {MOST_KEPT}: {self._more}')]


def cited(cell: str) -> str:
    return repr(cell if len(cell) <= MOST_SHOWN else cell[:MOST_SHOWN] + '...')
