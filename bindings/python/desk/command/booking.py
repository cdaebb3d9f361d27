"""Books the changes of a sheet on a rater's table, through the library's four calls: all of them, or none."""
from __future__ import annotations

from typing import Any, Iterator, NamedTuple, Sequence

from ..desk import Desk
from ..refusals import Refused
from ..table import COUNTS, Table
from .changes import EVENTS, Change, read_changes
from .csv_problems import Problem
from .inputs import Rater, accepted, of_problem
from .layout import counted, ordinal
from .outcome import NotTaken
from .show import ShownGrade, shown_grades

CALLS = dict(zip(EVENTS, (Desk.survivor_enters, Desk.survivor_leaves, Desk.survivor_defaults, Desk.defaulted_removed)))
LEFT_OUT = '. The refused lines before it are left out'


class State(NamedTuple):
    """A rater with its table as it stands in place 1 of a desk."""
    rater: Rater
    desk: Desk

    @property
    def table(self) -> Table:
        return self.rater.table()

    def grades(self) -> Iterator[ShownGrade]:
        return shown_grades(self.rater, self.table, self.desk.pool(1), False)


class Booked(NamedTuple):
    """A rater before and after the changes of a sheet."""
    file: str  # the sheet
    changes: Sequence[Change]
    before: State
    after: State

    def data(self) -> dict[str, Any]:
        return {'file': self.file, 'events': [change._asdict() for change in self.changes]}


def booked(rater: Rater, file: str, library: str) -> Booked:
    """The rater after the changes of a file. Where a line is refused, all that are refused are told, each as if those before it were not there."""
    table, = accepted([rater])
    before = Desk(library)
    before.load(1, table)
    changes, problems = read_changes(file, rater)
    after = before
    for change in changes:
        tried = after.copy()
        problem = first_refusal(tried, change, rater)
        if problem is None:
            after = tried
        else:
            problems.add(problem._replace(why=problem.why + (LEFT_OUT if problems.any_before(change.line) else '')))
    if problems.all():
        raise NotTaken([of_problem(file, problem) for problem in problems.by_line()])
    events = counted(sum(change.times for change in changes), 'event')
    changed = rater._replace(rows=rows_by(rater.counts, after.table(1)), after=f'{events} of {file}')
    return Booked(file, changes, State(rater, before), State(changed, after))


def first_refusal(desk: Desk, change: Change, rater: Rater) -> Problem | None:
    """Books a change, one firm after the other, up to the first that is refused; and why that one is."""
    for firm in range(1, change.times + 1):
        try:
            CALLS[change.event](desk, 1, change.grade)
        except Refused as refused:
            label = ''.join(rater.labels[change.grade - 1:change.grade]) if change.grade else ''
            which = f' (the {ordinal(firm)} of {change.times})' if change.times > 1 else ''
            why = f'{change.event}{" " if label else ""}{label}{which}: {refused.where}'
            return Problem(change.line, None, None, why, refused.number)
    return None


def rows_by(counts: str, table: Table) -> list[tuple[int, int, int]]:
    """The rows of a table with a first column that counts this."""
    return [(grade.survivors if counts == COUNTS[1] else grade.obligors, grade.defaults, grade.announced) for grade in table.grades]
