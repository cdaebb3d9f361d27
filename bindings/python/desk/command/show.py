"""`desk show`: a rater's grades with their counts, rates and bands, and its measures; or all raters of a file at a glance."""
from __future__ import annotations

from fractions import Fraction
from itertools import groupby
from typing import Any, Iterator, NamedTuple, Sequence

from ..answers import Measures, PooledGrade, WrittenFraction, decimal
from ..desk import Desk
from ..refusals import Refused
from ..table import Grade, Table
from . import questions
from .inputs import Rater, Source, accepted, read_source
from .layout import NONE, columns, counted, percent, plain, shown
from .outcome import Complaint, Outcome, Question, WrongUsage

PPM = 1_000_000
CURVES = (('Gini', 'gini'), ('ROC area', 'roc'), ('CAP area', 'cap'), ('Pietra', 'pietra'))
LINE_HEADING = ('grades', 'obligors', 'survivors', 'defaults', 'rate', 'blocks', *(label for label, _ in CURVES), 'Brier')
GRADE_HEADING, GRADE_SIDES = ('grade', '', 'obligors', 'survivors', 'defaults', 'observed', 'pooled', 'announced', 'band'), 'r rrrrrrr'
ABOUT_BANDS = ('Occupied grades with one pooled rate form a block. Band b has the pooled rates of at most 100 times 2^b ppm (0.01% times 2^b) '
               'that no lower band has;\nband 14 has those above 81.92%.')
NO_RATES = 'An empty grade, with no obligors, has no observed and no pooled rate (-)'
ABOUT_EMPTY = f'{NO_RATES}; --repeated shows what pool repeats for it.'
ABOUT_MEASURES = 'Higher is better; of Brier, which scores the announced rates, lower.'
ABOUT_SIGN = 'A negative Pietra: where the ROC curve is farthest from the diagonal, it is below it. Elsewhere it may be above.'


class Measured(NamedTuple):
    """The Brier score of a table, and its measures or the refusal of these."""
    brier: WrittenFraction
    measures: Measures | None
    refusals: Sequence[Complaint]
    questions: Sequence[Question]

    def data(self) -> dict[str, Any]:
        found: dict[str, Any] = {'brier': fraction_data(self.brier)}
        for _, name in CURVES:
            found[name] = self.measures and fraction_data(getattr(self.measures, name))
        found['pietra_cutoff'] = self.measures and self.measures.cutoff
        return found


def measured(desk: Desk, place: int, table: Table) -> Measured:
    brier = desk.brier(place)
    try:
        measures = desk.measures(place)
    except Refused as refused:
        return Measured(brier, None, [Complaint.of(refused, f'the measures of {table.name}')], [])
    return Measured(brier, measures, [], list(questions.of_measures(table, measures)))


def fraction_data(value: WrittenFraction) -> dict[str, Any]:
    return {'numerator': value.written[0], 'denominator': value.written[1], 'decimal': decimal(value, 6)}


def measures_table(measures: Sequence[Measured], names: Sequence[str]) -> list[str]:
    """A column of measures for each table."""
    def cells(name: str) -> list[str]:
        return [str(getattr(each.measures, name)) if each.measures else f'refused {each.refusals[0].number}' for each in measures]
    rows = [(label, *cells(name)) for label, name in CURVES]
    rows += [('  at cutoff', *cells('cutoff')), ('Brier', *(str(each.brier) for each in measures))]
    return columns([('', *names), *rows]) + [ABOUT_MEASURES, *about_sign([each.data() for each in measures])]


def about_sign(measures: Sequence[dict[str, Any] | None]) -> list[str]:
    """What to say below the data of measures, some of which may be refused: a line where a Pietra is negative."""
    return [ABOUT_SIGN] if any(each and each['pietra'] and each['pietra']['numerator'] < 0 for each in measures) else []


# One rater

def summary(rater: Rater, table: Table) -> str:
    """A rater in a line: where it stands, and its totals."""
    after = f', after {plain(rater.after)}' if rater.after else ''
    return (f'{shown(rater.name)} (rater {rater.number} of {plain(rater.file)}, by {rater.counts}{after}): '
            f'{counted(len(table.grades), "grade")}{of_them_empty(table)}, '
            f'{table.obligors} obligors = {table.survivors} survivors + {table.defaults} defaults')


def empty_grades(table: Table) -> int:
    return sum(not grade.obligors for grade in table.grades)


def of_them_empty(table: Table) -> str:
    """What follows the number of grades, where some are empty."""
    return f' ({empty_grades(table)} empty)' if empty_grades(table) else ''


def summary_data(rater: Rater, table: Table) -> dict[str, Any]:
    return {'name': rater.name, 'file': rater.file, 'rater': rater.number, 'counts': rater.counts, 'grades': len(table.grades),
            'empty_grades': empty_grades(table), 'obligors': table.obligors, 'survivors': table.survivors, 'defaults': table.defaults}


def show(file: str, word: str | None, repeated: bool, library: str) -> Outcome:
    """One rater in full, or all raters of a file that has several. What pool repeats for empty grades is shown where it is asked for."""
    source = read_source(file)
    if word is None and len(source.raters) > 1:
        if repeated:
            raise WrongUsage(f'--repeated is about the grades of one rater, and {source.file} has {source.names()}. Name one of them '
                             f'behind the file, as in: desk show {source.file} 1 --repeated')
        return glance(source, library)
    return in_full(source, source.raters[0] if word is None else source.rater(word), repeated, library)


class ShownGrade(NamedTuple):
    """A grade with the block that is shown for it: its own, or the one that is repeated for it, or none."""
    number: int
    label: str
    grade: Grade
    block: PooledGrade | None
    repeats: int | None  # the grade whose block is repeated

    def cells(self) -> tuple[str, ...]:
        grade, block = self.grade, self.block
        return (str(self.number), shown(self.label), str(grade.obligors), str(grade.survivors), str(grade.defaults), percent(grade.rate),
                percent(block and block.rate), percent(Fraction(grade.announced, PPM)), str(block.band) if block else NONE)

    def data(self) -> dict[str, Any]:
        defaults, obligors, band = self.block or (None, None, None)
        return {'grade': self.number, 'label': self.label, 'obligors': self.grade.obligors, 'survivors': self.grade.survivors,
                'defaults': self.grade.defaults, 'announced_ppm': self.grade.announced, 'block_defaults': defaults,
                'block_obligors': obligors, 'band': band, 'repeats': self.repeats}


def shown_grades(rater: Rater, table: Table, pooled: Sequence[PooledGrade], repeated: bool) -> Iterator[ShownGrade]:
    """The grades of a table. An empty one has no block, unless what is repeated for it is asked for."""
    labels = rater.labels or [''] * len(table.grades)
    for number, (label, grade, block, repeats) in enumerate(zip(labels, table.grades, pooled, table.repeats), 1):
        known = repeated or repeats is None
        yield ShownGrade(number, label, grade, block if known else None, repeats if known else None)


def about_empty(table: Table, repeated: bool) -> list[str]:
    """What to say below the grades of a table where some are empty: of each run of them what it repeats, or how to see that."""
    if not repeated:
        return [ABOUT_EMPTY] if empty_grades(table) else []
    said = []
    for source, run in groupby(enumerate(table.repeats, 1), lambda each: each[1]):
        first, *others = (number for number, _ in run)
        if source is not None:
            which = 'the next better occupied one' if source < first else 'the best occupied one, since none is better'
            grades = f'Grades {first} {"and" if len(others) == 1 else "to"} {others[-1]} are' if others else f'Grade {first} is'
            said.append(f'{grades} empty: pool repeats for {"them" if others else "it"} the numbers of grade {source}, {which}.')
    return said


def in_full(source: Source, rater: Rater, repeated: bool, library: str) -> Outcome:
    table, = accepted([rater])
    desk = Desk(library)
    desk.load(1, table)
    found, spread = measured(desk, 1, table), desk.spread(1)
    grades = list(shown_grades(rater, table, desk.pool(1), repeated))
    text = '\n'.join([summary(rater, table), '', *columns([GRADE_HEADING, *(grade.cells() for grade in grades)], GRADE_SIDES), ABOUT_BANDS,
                      *about_empty(table, repeated), *measures_table([found], ['']),
                      f'Spread: {spread.total} in all, {spread.residual} within the blocks.'])
    data = {'command': 'show', 'rater': summary_data(rater, table), 'grades': [grade.data() for grade in grades], 'measures': found.data(),
            'spread': {'total': spread.total, 'residual': spread.residual}}
    return Outcome(text, data, [*source.questions, *questions.of_table(table), *found.questions], found.refusals)


# All raters

def glance(source: Source, library: str) -> Outcome:
    """A line for each rater. One that load refuses has the number in its line, and the complaints follow."""
    rows, data, asked, refusals = [('rater', 'name', *LINE_HEADING)], [], list(source.questions), []
    for rater in source.raters:
        row, found, questions_of_it, complaints = line_of(rater, library)
        rows.append((str(rater.number), shown(rater.name), *row))
        data.append(found)
        asked += questions_of_it
        refusals += complaints
    text = '\n'.join([f'{plain(source.file)}: {counted(len(source.raters), "rater")}', '', *columns(rows, 'r rrrrrrrrrrr'),
                      *about_sign([found['measures'] for found in data])])
    return Outcome(text, {'command': 'show', 'file': source.file, 'raters': data}, asked, refusals)


def line_of(rater: Rater, library: str) -> tuple[list[str], dict[str, Any], Sequence[Question], Sequence[Complaint]]:
    """A rater's cells below LINE_HEADING and its data, what should be asked, and what was refused."""
    data: dict[str, Any] = {'number': rater.number, 'name': rater.name, 'rater': None, 'blocks': None, 'measures': None}
    if rater.complaints:
        return [f'refused {rater.complaints[0].number}'] + [''] * (len(LINE_HEADING) - 1), data, [], rater.complaints
    table = rater.table()
    desk = Desk(library)
    desk.load(1, table)
    found, blocks = measured(desk, 1, table), blocks_in(desk)
    curves = [decimal(getattr(found.measures, name), 6) if found.measures else f'refused {found.refusals[0].number}' for _, name in CURVES]
    row = [f'{len(table.grades)}{of_them_empty(table)}', str(table.obligors), str(table.survivors), str(table.defaults),
           percent(Fraction(table.defaults, table.obligors)), str(blocks), *curves, decimal(found.brier, 6)]
    data.update(rater=summary_data(rater, table), blocks=blocks, measures=found.data())
    return row, data, [*questions.of_table(table), *found.questions], found.refusals


def blocks_in(desk: Desk) -> int:
    """How many blocks the table in place 1 pools to: their rates strictly rise, so they differ. An empty grade repeats one of them."""
    return len({block.rate for block in desk.pool(1)})
