"""`desk update`: a rater's table after the changes of a sheet, what they change, and a file that holds it."""
from __future__ import annotations

from fractions import Fraction
from typing import Any, Sequence
import os

from ..table import Table
from . import questions
from .booking import Booked, booked
from .changes import EVENTS, Change
from .convert import BOOK, CSV, content_of
from .files import see_apart, see_once, write_whole
from .inputs import Rater, Source, accepted, read_source, too_many
from .layout import columns, counted, percent, plain
from .outcome import Outcome, WrongUsage
from .show import ABOUT_BANDS, GRADE_HEADING, GRADE_SIDES, NO_RATES, empty_grades, summary, summary_data

ENDINGS = f'{CSV} or {BOOK}'
ABOUT_ARROWS = 'What has moved stands as before -> after.'
NOT_WRITTEN = f'Nothing is written: -o names a file for that, which ends in {ENDINGS}.'


def update(words: Sequence[str], output: str | None, library: str) -> Outcome:
    """What the changes of a sheet make of a rater, by `FILE [RATER] CHANGES`: shown, and written to a file with the other tables as they are."""
    if not 2 <= len(words) <= 3:
        raise WrongUsage(f'update takes FILE [RATER] CHANGES.csv, not {counted(len(words), "word")}')
    file, *named, sheet = words
    see_once([file, sheet])
    see_apart([file, sheet], output)
    ending = '' if output is None else ending_of(output)
    source = read_source(file)
    rater = chosen(source, named)
    accepted([rater] if output is None else source.raters, too_many(source.raters) if ending == BOOK else [])
    found = booked(rater, sheet, library)
    raters = [found.after.rater if each is rater else each for each in source.raters]
    if output is not None:
        write_whole(output, content_of(raters, ending))
    text = '\n'.join([*page(found), NOT_WRITTEN if output is None else written(output, rater, raters)])
    text = text if output is None or os.path.isfile(output) else ''  # where the tables went to a pipe, nothing follows them
    return Outcome(text, data_of(found, output), [*source.questions, *questions.of_table(found.after.table)])


def ending_of(output: str) -> str:
    """How the name of a file ends, which says what it is to hold."""
    ending = os.path.splitext(output)[1].lower()
    if ending not in (CSV, BOOK):
        raise WrongUsage(f'{output} is to be CSV or a book, and its name says neither: it has to end in {ENDINGS}')
    return ending


def chosen(source: Source, named: Sequence[str]) -> Rater:
    """The rater that is named, or the only one."""
    if named:
        return source.rater(named[0])
    if len(source.raters) > 1:
        raise WrongUsage(f'{source.file} has {counted(len(source.raters), "rater")}: {source.names()}. Name the one that changes behind the file, '
                         f'as in: desk update {source.file} 1 CHANGES.csv')
    return source.raters[0]


# As text and as data

def page(found: Booked) -> list[str]:
    """What was and what is, grade by grade."""
    before, after = (list(state.grades()) for state in (found.before, found.after))
    rows = [moved(was.cells(), now.cells()) for was, now in zip(before, after)]
    tables = [state.table for state in (found.before, found.after)]
    about_empty = [f'{NO_RATES}.'] if any(map(empty_grades, tables)) else []
    return [summary(found.before.rater, tables[0]), summary(found.after.rater, tables[1]), events_in(found.changes), '',
            *columns([GRADE_HEADING, *rows, moved(*map(totals, tables))], GRADE_SIDES), ABOUT_ARROWS, ABOUT_BANDS, *about_empty, '']


def events_in(changes: Sequence[Change]) -> str:
    """How many events of each kind."""
    counts = {event: sum(change.times for change in changes if change.event == event) for event in EVENTS}
    return f'Events: {", ".join(f"{event} {count}" for event, count in counts.items())}.'


def moved(before: Sequence[str], after: Sequence[str]) -> list[str]:
    return [now if was == now else f'{was} -> {now}' for was, now in zip(before, after)]


def totals(table: Table) -> tuple[str, ...]:
    """The cells of all grades together."""
    rate = percent(Fraction(table.defaults, table.obligors))
    return ('all', '', str(table.obligors), str(table.survivors), str(table.defaults), rate, '', '', '')


def written(output: str, rater: Rater, raters: Sequence[Rater]) -> str:
    others = f', of which rater {rater.number} has changed' if len(raters) > 1 else ''
    return f'{plain(output)}: {counted(len(raters), "table")}{others}'


def data_of(found: Booked, output: str | None) -> dict[str, Any]:
    before, after = found.before, found.after
    grades = [{'before': was.data(), 'after': now.data()} for was, now in zip(before.grades(), after.grades())]
    return {'command': 'update', 'before': summary_data(before.rater, before.table), 'after': summary_data(after.rater, after.table),
            'changes': found.data(), 'grades': grades, 'written': output}
