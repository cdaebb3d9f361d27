"""Sheets of changes for the tests: their text, and what R-8 makes of a table by them, by definition (definitions.py)."""
from __future__ import annotations

from typing import NamedTuple, Sequence
import random

from definitions import EVENTS, Grades, after_event, event_fault

CALLS = dict(zip(('enters', 'leaves', 'defaults', 'removed'), EVENTS))
HEADER = 'event,grade,times\n'


class Change(NamedTuple):
    """A line of a sheet."""
    event: str
    grade: int
    times: int = 1


class Fault(NamedTuple):
    """A line that is refused, and the firm, counted from 1, at which it is."""
    line: int
    number: int
    firm: int


def sheet_text(changes: Sequence[Change], names: Sequence[str] = ()) -> str:
    """The plainest sheet of these changes, with a header, the grades by number or, where they have names, by name."""
    def grade(change: Change) -> str:
        return names[change.grade - 1] if names and 1 <= change.grade <= len(names) else str(change.grade)
    return HEADER + ''.join(f'{change.event},{grade(change)},{change.times}\n' for change in changes)


def tried(grades: Grades, change: Change) -> tuple[Grades, tuple[int, int] | None]:
    """The grades after a change; or, where it is refused, the number and the firm, and the grades up to there."""
    for firm in range(1, change.times + 1):
        number = event_fault(CALLS[change.event], grades, change.grade)
        if number:
            return grades, (number, firm)
        grades = after_event(CALLS[change.event], grades, change.grade)
    return grades, None


def after(grades: Grades, changes: Sequence[Change]) -> tuple[Grades, list[Fault]]:
    """The grades after the changes of a sheet whose header is line 1, and the lines that are refused, each as if those before it that are
    refused were not there."""
    faults = []
    for line, change in enumerate(changes, 2):
        then, refused = tried(grades, change)
        if refused:
            faults.append(Fault(line, *refused))
        else:
            grades = then
    return list(grades), faults


def random_change(source: random.Random, grades: int) -> Change:
    """A change whose grade is now and then outside the table."""
    grade = source.choice((0, grades + 1, 99)) if source.random() < 0.02 else source.randint(1, grades)
    return Change(source.choice(tuple(CALLS)), grade, source.choice((1, 1, 1, 2, 3, source.randint(1, 30))))


def random_sheet(source: random.Random, grades: Grades) -> list[Change]:
    """Changes all of which are accepted."""
    found: list[Change] = []
    for _ in range(source.choice((0, 1, 3, 10, 40))):
        change = random_change(source, len(grades))
        then, refused = tried(grades, change)
        if not refused:
            grades = then
            found.append(change)
    return found
