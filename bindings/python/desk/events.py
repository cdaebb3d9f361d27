"""The four events, by which firms come and go, and why a table does not take one, in words."""
from __future__ import annotations

from .refusals import Refused
from .table import Table, readable

# By the names of the calls: the firm that a grade has to have for it, and nothing for an entry.
EVENTS = {'survivor_enters': None, 'survivor_leaves': 'survivor', 'survivor_defaults': 'survivor', 'defaulted_removed': 'defaulted firm'}


def event_refusal(number: int, event: str, table: Table, grade: int) -> Refused:
    """36, 37 or 38, with what the table has that is refused."""
    if number == 36:
        return Refused(36, f'grade {readable(grade)}; this table has grades 1 to {len(table.grades)}')
    if number == 38:
        return Refused(38, f'this table has {table.obligors} obligors')
    held = table.grades[grade - 1]
    if held.defaults if event == 'defaulted_removed' else held.survivors:
        return Refused(number, f'grade {grade} has the one obligor of this table')
    return Refused(number, f'grade {grade} has no {EVENTS[event]}: {held.obligors} obligors, {held.defaults} defaults')
