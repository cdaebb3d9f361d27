"""Tests `desk update`: every figure by definition, every refused line, sheets in any dress, and what is written.

    python3 tests/desk/test_command_update.py      # from anywhere
"""
from __future__ import annotations

from fractions import Fraction
import os
import random
import re
import resource
import sys
import unittest

sys.dont_write_bytecode = True
sys.path.insert(0, os.path.dirname(os.path.abspath(__file__)))
from running import Case, ask, book_of, content_of, csv_text, example, run  # noqa: E402
from csv_dress import damaged  # noqa: E402
from definitions import decimal, totals  # noqa: E402
from expected import grades_data, rater_data  # noqa: E402
from scales import AGENCY, INHOUSE, Scale, by, rater_of  # noqa: E402
from sheets import CALLS, HEADER, Change, Fault, after, random_change, random_sheet, sheet_text  # noqa: E402
from shapes import Shapes  # noqa: E402
from test_command_damaged import rows_of  # noqa: E402
import printed  # noqa: E402
from desk.refusals import MEANINGS  # noqa: E402

MONDAY = example('monday/inhouse.csv')
ROWS = [(120, 2, 1000), (0, 0, 5000), (60, 9, 90000), (3, 3, 900000)]
REFUSED = re.compile(r'desk: refused (\d+): (.*?); (.*), line (\d+): (\w+)(?: [^:(]*?)?(?: \(the (\d+)(?:st|nd|rd|th) of (\d+)\))?: (.*)')
LEFT_OUT = '. The refused lines before it are left out'


def changes_in(path: str, names: list[str]) -> list[Change]:
    """The changes of an example, whose lines are plain."""
    lines = [line.split(',') for line in content_of(path).decode().splitlines()[1:]]
    return [Change(event, names.index(grade) + 1, int(times)) for event, grade, times in lines]


def percent(numerator: int, denominator: int) -> str:
    return f'{decimal(100 * Fraction(numerator, denominator), 4)}%' if denominator else '-'


def cells_of(grade: dict) -> list[str]:
    """The cells of a grade as they are printed, without its label."""
    block = [percent(grade['block_defaults'], grade['block_obligors']), str(grade['band'])] if grade['obligors'] else ['-', '-']
    return [str(grade['grade']), str(grade['obligors']), str(grade['survivors']), str(grade['defaults']),
            percent(grade['defaults'], grade['obligors']), block[0], percent(grade['announced_ppm'], 1_000_000), block[1]]


def totals_of(scale: Scale) -> list[str]:
    n, d, s = totals(scale.grades)
    return ['all', str(n), str(s), str(d), percent(d, n)]


def arrows(before: list[str], now: list[str]) -> list[str]:
    return [new if old == new else f'{old} -> {new}' for old, new in zip(before, now)]


class Updating(Case):
    def updated(self, scale: Scale, changes: list[Change], sheet: str, *words: str) -> Scale:
        """The rater after the changes, which a sheet lists, seen to be what is answered, as JSON and as text."""
        grades, faults = after(scale.grades, changes)
        self.assertEqual(faults, [])
        now = scale._replace(rows=by(scale.counts, grades))
        asked = ('update', scale.file, *words, sheet)
        data, text = self.answered(*asked, '--json').data(), self.answered(*asked)
        Shapes().check(data)
        both = [{'before': old, 'after': new} for old, new in zip(grades_data(scale, False), grades_data(now, False))]
        self.assertEqual({**data, 'questions': []}, {
            'command': 'update', 'before': rater_data(scale), 'after': rater_data(now), 'grades': both, 'written': None, 'refusals': [],
            'changes': {'file': sheet, 'events': data['changes']['events']}, 'questions': []})
        self.assertEqual([Change(each['event'], each['grade'], each['times']) for each in data['changes']['events']], changes)
        self.see_text(text.out, scale, now, data)
        return now

    def see_text(self, text: str, scale: Scale, now: Scale, data: dict) -> None:
        (first, second, kinds), table, last = printed.sections(text)
        events = sum(each['times'] for each in data['changes']['events'])
        counts = [sum(each['times'] for each in data['changes']['events'] if each['event'] == kind) for kind in CALLS]
        self.assertEqual(kinds, 'Events: enters {}, leaves {}, defaults {}, removed {}.'.format(*counts))
        booked = f', after {events} event{"" if events == 1 else "s"} of {data["changes"]["file"]})'
        self.assertIn(booked, second)
        self.assertEqual((printed.summary(first), printed.summary(second.replace(booked, ')', 1))), (data['before'], data['after']))
        self.assertEqual(printed.cells(table[0]), ['grade', 'obligors', 'survivors', 'defaults', 'observed', 'pooled', 'announced', 'band'])
        for line, grade in zip(table[1:], data['grades']):
            number, *cells = printed.cells(line)
            label = [cells.pop(0)] if grade['after']['label'] else []
            self.assertEqual(label, [grade['after']['label']] * len(label))
            self.assertEqual([number, *cells], arrows(cells_of(grade['before']), cells_of(grade['after'])))
        self.assertEqual(printed.cells(table[len(now.rows) + 1]), arrows(totals_of(scale), totals_of(now)))
        empty = any(n == 0 for each in (scale, now) for n, _, _ in each.grades)
        self.assertEqual(table[-1].startswith('An empty grade, '), empty)
        self.assertNotIn('--repeated', text)
        self.assertEqual(last, ['Nothing is written: -o names a file for that, which ends in .csv or .book.'])

    def table(self, rows: list[tuple], counts: str = 'obligors', name: str = 'a.book') -> Scale:
        """A rater alone in a book of its own."""
        return Scale('a', self.put(name, book_of([(counts, rows)])), 1, counts, rows)

    def faults(self, first: int, *words: str) -> list[Fault]:
        """The lines whose events are refused, the first with this number, seen to be told in full and alone."""
        found = []
        for line in self.refused(first, 'update', *words):
            number, meaning, _, at, _, firm, times, why = REFUSED.fullmatch(line).groups()
            self.assertEqual((meaning, why.endswith(LEFT_OUT)), (MEANINGS[int(number)], bool(found)))
            self.assertEqual(times is None, firm is None)
            found.append(Fault(int(at), int(number), int(firm or 1)))
        return found


class Events(Updating):
    def test_the_example(self) -> None:
        self.updated(INHOUSE, changes_in(MONDAY, INHOUSE.labels), MONDAY)
        agency = example('monday/agency.csv')
        self.updated(AGENCY, changes_in(agency, AGENCY.labels), agency)

    def test_the_example_by_number_is_the_same(self) -> None:
        named, numbered = (self.answered('update', INHOUSE.file, example(f'monday/{name}.csv'), '--json').data() for name in ('inhouse', 'numbers'))
        self.assertEqual(numbered['changes'].pop('file'), example('monday/numbers.csv'))
        self.assertEqual(named['changes'].pop('file'), MONDAY)
        self.assertEqual(named, numbered)

    def test_each_event_alone_in_each_grade(self) -> None:
        for counts in ('obligors', 'survivors'):
            scale = self.table([(n if counts == 'obligors' else n - d, d, p) for n, d, p in ROWS], counts)
            for grade in range(1, 5):
                for event in ('enters', 'leaves', 'defaults', 'removed'):
                    sheet = self.put('s.csv', sheet_text([Change(event, grade)]))
                    faults = after(scale.grades, [Change(event, grade)])[1]
                    if faults:
                        self.assertEqual(self.faults(37, scale.file, sheet), faults)
                    else:
                        self.updated(scale, [Change(event, grade)], sheet)

    def test_no_event_is_a_quiet_week(self) -> None:
        self.updated(self.table(ROWS), [], self.put('s.csv', HEADER))

    def test_a_grade_that_empties_and_fills_again(self) -> None:
        changes = [Change('removed', 4, 3), Change('leaves', 1, 118), Change('removed', 1, 2), Change('enters', 4, 2), Change('enters', 2, 7),
                   Change('defaults', 2, 7)]
        self.updated(self.table(ROWS), changes, self.put('s.csv', sheet_text(changes)))

    def test_the_last_obligor_may_default_and_neither_leave_nor_be_removed(self) -> None:
        alone = self.table([(0, 0, 0), (1, 0, 5)])
        self.updated(alone, [Change('defaults', 2)], self.put('s.csv', sheet_text([Change('defaults', 2)])))
        self.assertEqual(self.faults(37, alone.file, self.put('s.csv', HEADER + 'leaves,2\n')), [Fault(2, 37, 1)])
        sheet = self.put('s.csv', HEADER + 'defaults,2\nremoved,2\n')
        self.assertEqual(self.faults(37, alone.file, sheet), [Fault(3, 37, 1)])
        self.updated(alone, [Change('enters', 1), Change('leaves', 2)], self.put('s.csv', HEADER + 'enters,1\nleaves,2\n'))

    def test_the_table_is_full_at_a_million_however_large_the_grade(self) -> None:
        full = self.table([(999_998, 5, 0), (1, 0, 5)])
        self.updated(full, [Change('enters', 2)], self.put('s.csv', HEADER + 'enters,2\n'))
        self.assertEqual(self.faults(38, full.file, self.put('s.csv', HEADER + 'enters,2,4\nleaves,1\nenters,2,3\n')),
                         [Fault(2, 38, 2), Fault(4, 38, 3)])

    def test_at_random(self) -> None:
        source = random.Random(8)
        for _ in range(150):
            scale = self.table(rows_of(source), source.choice(('obligors', 'survivors')))
            changes = random_sheet(source, scale.grades)
            self.updated(scale, changes, self.put('s.csv', sheet_text(changes)))

    def test_refused_lines_at_random(self) -> None:
        source, seen = random.Random(88), set()
        for _ in range(400):
            rows = [(source.randint(0, 6), 0, 0) for _ in range(source.randint(1, 5))] + [(source.choice((1, 4, 999_970)), 0, 0)]
            scale = self.table([(n, source.randint(0, n), p) for n, _, p in rows])
            changes = [random_change(source, len(rows)) for _ in range(source.randint(1, 12))]
            faults, sheet = after(scale.grades, changes)[1], self.put('s.csv', sheet_text(changes))
            if faults:
                self.assertEqual(self.faults(faults[0].number, scale.file, sheet), faults)
            else:
                self.updated(scale, changes, sheet)
            seen |= {(fault.number, changes[fault.line - 2].event, fault.firm > 1) for fault in faults}
        self.assertEqual(len(seen), 4 + 3 * 2 + 2)


class Refused(Updating):
    def test_every_refused_line_with_what_the_grade_has(self) -> None:
        text = HEADER + 'leaves,D2,12\nleaves,D2,10\nleaves,D2\nremoved,A1\nenters,9\nenters,0,3\n'
        lines = self.refused(37, 'update', INHOUSE.file, self.put('s.csv', text))
        where = f'{self.path("s.csv")}, line '
        self.assertEqual([line.partition(where)[2] for line in lines], [
            '2: leaves D2 (the 11th of 12): grade 8 has no survivor: 20 obligors, 20 defaults',
            f'4: leaves D2: grade 8 has no survivor: 20 obligors, 20 defaults{LEFT_OUT}',
            f'5: removed A1: grade 1 has no defaulted firm: 120 obligors, 0 defaults{LEFT_OUT}',
            f'6: enters: grade 9; this table has grades 1 to 8{LEFT_OUT}',
            f'7: enters (the 1st of 3): grade 0; this table has grades 1 to 8{LEFT_OUT}'])

    def test_of_a_refused_line_nothing_is_booked(self) -> None:
        """The ten firms before the one that is refused are there for the next line."""
        text = HEADER + 'leaves,D2,11\nleaves,D2,10\n'
        line, = self.refused(37, 'update', INHOUSE.file, self.put('s.csv', text))
        self.assertIn('line 2: ', line)

    def test_lines_that_are_not_understood_stand_among_them(self) -> None:
        text = HEADER + 'removed,A1\nexits,A1\nremoved,A1\nenters,A1,x\n'
        lines = self.refused(37, 'update', INHOUSE.file, self.put('s.csv', text))
        self.assertEqual([re.search(r', line (\d+)', line)[1] for line in lines], ['2', '3', '4', '5'])
        self.assertEqual([line.endswith(LEFT_OUT) for line in lines], [False, False, True, False])

    def test_more_than_two_hundred_are_counted(self) -> None:
        lines = self.refused(37, 'update', INHOUSE.file, self.put('s.csv', HEADER + 'removed,A1\n' * 250))
        self.assertEqual((len(lines), lines[-1]), (201, f'desk: refused: {self.path("s.csv")}: problems beyond these 200: 50'))

    def test_as_json(self) -> None:
        data = ask('update', INHOUSE.file, self.put('s.csv', HEADER + 'removed,A1\nenters,A1,0\n'), '--json').data()
        Shapes().check(data)
        self.assertEqual(data.keys(), {'command', 'refusals', 'questions'})
        self.assertEqual([each['number'] for each in data['refusals']], [37, None])

    def test_a_table_that_load_refuses(self) -> None:
        book, sheet = example('refusals.book'), self.put('s.csv', HEADER + 'enters,1\n')
        for rater, number in ((5, 9), (6, 8), (7, 10), (8, 11), (9, 34)):
            self.refused(number, 'update', book, str(rater), sheet)
        self.answered('update', book, '1', sheet)
        self.assertEqual(len(self.refused(9, 'update', book, '1', sheet, '-o', self.path('out.csv'))), 5)
        self.assertEqual(self.names(), ['s.csv'])

    def test_more_events_than_any_table_takes(self) -> None:
        scale = self.table([(1, 0, 0)])
        line, = self.refused(None, 'update', scale.file, self.put('s.csv', HEADER + 'enters,1,1\nenters,1,1000000\nenters,1,1\n'))
        self.assertIn('line 3, column 3 (times): 1000001 events up to here; a sheet has at most 1000000', line)
        self.refused(None, 'update', scale.file, self.put('s.csv', f'{HEADER}enters,1,{"9" * 18}\n'))

    def test_a_million_of_them(self) -> None:
        scale = self.table([(1, 0, 0)])
        self.assertEqual(self.faults(38, scale.file, self.put('s.csv', HEADER + 'enters,1,1000000\n')), [Fault(2, 38, 1_000_000)])


class Sheets(Updating):
    """The sheet's own reader."""
    CHANGES = [Change('enters', 1, 2), Change('defaults', 3), Change('removed', 8, 3)]

    def taken(self, content: str | bytes, changes: list[Change] | None = None) -> None:
        self.updated(INHOUSE, self.CHANGES if changes is None else changes, self.put('s.csv', content))

    def not_taken(self, text: str | bytes, *parts: str) -> None:
        """That a sheet is refused in one line without a number, with these words."""
        line, = self.refused(None, 'update', INHOUSE.file, self.put('s.csv', text))
        for part in (self.path('s.csv'), *parts):
            self.assertIn(part, line)

    def test_dress(self) -> None:
        rows = [('event', 'grade', 'times'), ('enters', 'A1', '2'), ('Defaults', 'B1', ''), ('REMOVED', '8', '3')]
        for separator in ',;\t':
            text = '\n'.join(separator.join(row) for row in rows)
            for each in (text, text + '\n', text.replace('\n', '\r\n'), text.replace('\n', '\r'), text.replace('\n', '\n\n'),
                         '\n\n' + text, f'sep={separator}\n{text}', text.replace('A1', '"A1"'), text.replace('A1', '  A1 '),
                         text.replace('event', ' Event'), text.replace('grade', 'GRADE NUMBER').replace('A1', '1').replace('B1', '3'),
                         text + f'\n{separator}{separator}\n'):
                self.taken(each)
                self.taken('\ufeff' + each)
                self.taken(('\ufeff' + each).encode('utf-16-le'))
                self.taken(('\ufeff' + each).encode('utf-16-be'))

    def test_columns_in_any_order_with_others_between_them(self) -> None:
        self.taken('remark,times,date,grade,event,x\n"new, both",2,3 May,A1,enters,\nbad,,,B1,defaults\nsold,3,,D2,removed,\n')
        self.taken('grade,event\nA1,enters\nA1,enters\nB1,defaults\nD2,removed\nD2,removed\nD2,removed',
                   [Change('enters', 1)] * 2 + [Change('defaults', 3)] + [Change('removed', 8)] * 3)
        self.taken('event,grade,times\nenters,A1,2\ndefaults,B1\nremoved,D2,3\n')

    def test_times(self) -> None:
        for cell, times in (('07', 7), ('', 1), ('1', 1), ('"1"', 1)):
            self.taken(f'{HEADER}enters,A1,{cell}\n', [Change('enters', 1, times)])
        for cell in ("1 000", "1'000", '1\u00a0000'):
            self.taken(f'{HEADER}enters,A1,{cell}\n', [Change('enters', 1, 1000)])
        where = 'line 2, column 3 (times)'
        for cell, words in (('0', "'0'; expected 1 or more"), ('00', 'expected 1 or more'), ('-1', "'-1'; expected a whole number"),
                            ('1.5', 'not a decimal'), ('2.0', 'write 2'), ('"1,000"', 'write 1000'), ('x', "'x'"), ('1e3', 'write it in full'),
                            ('+2', 'write 2'), ('\u0663', 'write 3'), ('10%', 'not a share'), ('=1+1', 'formula'), ('9' * 19, 'at most 18')):
            self.not_taken(f'{HEADER}enters,A1,{cell}\n', where, words)
        self.not_taken(f'{HEADER}enters,A1,1,000\n', where, 'write 1000')
        self.taken('event,grade,times,remark\nenters,1,234,5\nenters,1\n', [Change('enters', 1, 234), Change('enters', 1)])  # no grade is 1,234
        self.not_taken('event,grade,times,remark\nenters,A1,1,000\nenters,A1\n', where, "'1,000' may be one number or two cells")

    def test_events(self) -> None:
        for cell, words in (('', 'an empty cell'), ('exits', "'exits'; expected an event: enters, leaves, defaults or removed"),
                            ('default', 'write defaults'), ('leave', 'write leaves'), ('Entered', 'write enters'), ('remove', 'write removed'),
                            ('survivor_enters', 'expected an event'), ('enters leaves', 'write enters'), ('event', 'expected an event')):
            self.not_taken(f'{HEADER}{cell},A1,1\n', 'line 2, column 1 (event)', words)

    def test_grades(self) -> None:
        for cell, words in (('', 'an empty cell; expected a grade by number or name'), ('a1', "'a1' is no grade of In-house. It has 1 (A1), 2 (A2)"),
                            ('E1', '7 (D1), 8 (D2)'), *((word, 'is no grade of In-house') for word in ('1.0', '-1', 'A1 A2', '\u0661'))):
            self.not_taken(f'{HEADER}enters,{cell},1\n', 'line 2, column 2 (grade)', words)
        for cell in ('9', '0', '00', '9' * 18):
            self.refused(36, 'update', INHOUSE.file, self.put('s.csv', f'{HEADER}enters,{cell},1\n'))
        self.not_taken(f'{HEADER}enters,{"9" * 19},1\n', 'is no grade')
        self.not_taken('event,grade name\nenters,1\n', "'1' is no grade")
        self.not_taken('event,grade number\nenters,A1\n', "'A1' is no grade")

    def test_headers(self) -> None:
        for header, words in (('grade,times', "names 'grade', 'times', and no event. Expected a header such as event,grade,times"),
                              ('event,times', 'and no grade'), ('obligors,defaults,announced', 'and no event and no grade'),
                              ('event,grade,grade number', 'the header names grade in column 2 already'),
                              ('event,event,grade', 'the header names event in column 1 already'),
                              ('event,grade,times,times', 'the header names times in column 3 already'),
                              ('event;grade,times', 'commas and semicolons'), ('event,grade,"times', 'not a line of CSV cells'),
                              (','.join(['event', 'grade', *map(str, range(99))]), 'at most 100')):
            self.not_taken(f'{header}\nenters,A1,1\n', 'line 1', words)
        self.not_taken('event,grade,\nenters,A1,1\nremoved,A1\n', 'line 1, column 3: the header has no name for this column')
        self.not_taken('sep=x\nevent,grade\n', 'line 1', 'cells cannot be separated by')

    def test_lines(self) -> None:
        self.not_taken(f'{HEADER}enters\n', 'line 2, column 2 (grade): cells: 1; expected 3 (event, grade, times)')
        self.not_taken(f'{HEADER}enters;A1;1\n', 'The cells of this file are separated by commas')
        self.not_taken(f'{HEADER}enters,A1,1,more\n', 'line 2, column 4: cells: 4; expected 3 (event, grade, times)')
        self.not_taken('event,grade,remark\n,,nothing\n', 'line 2: no event and no grade in this line')
        self.not_taken(f'{HEADER}enters,"A1,1\n', 'line 2: not a line of CSV cells')
        self.not_taken(f'{HEADER}enters,"A\n1",1\n', 'line 2: not a line of CSV cells')

    def test_what_is_no_sheet(self) -> None:
        for content in (b'', b'\n', b'\xef\xbb\xbf', b' , \n'):
            self.not_taken(content, 'no change is in it. Expected a header such as event,grade,times')
        self.not_taken(content_of(example('k.book')), 'this is a book, not a sheet of changes')
        self.not_taken(content_of(example('agency.csv')), 'line 1', 'and no event')
        self.not_taken(b'event,grade\n\xff\n', 'line 2: this is not UTF-8 text')
        self.not_taken(HEADER + 'enters,A1\n' * 10_000, 'line 10001: more than 10000 lines', 'Leave out what is no change')
        self.not_taken(HEADER + 'x' * 100_001, 'more than 100000 characters')
        self.not_taken('\n' * ((1 << 20) + 1), 'over 1048576 bytes, far more than a list of changes needs')

    def test_all_problems_at_once(self) -> None:
        lines = self.refused(None, 'update', INHOUSE.file, self.put('s.csv', f'{HEADER}exits,E1,0\nenters\n,A1\nenters,A1\n'))
        self.assertEqual([re.search(r'line (\d+), column (\d)', line).groups() for line in lines],
                         [('2', '1'), ('2', '2'), ('2', '3'), ('3', '2'), ('4', '1')])

    def test_damaged_ones(self) -> None:
        """Each is taken or refused in words, and then the output is as it was."""
        source, seen = random.Random(5), set()
        for _ in range(1500):
            sheet, out = self.put('s.csv', damaged(source, content_of(MONDAY))), self.put('out.csv', 'as it was')
            ran = ask('update', INHOUSE.file, sheet, '-o', out)
            self.assertIn(ran.status, (0, 1))
            self.assertEqual(ran.status == 0, self.got('out.csv') != b'as it was')
            if ran.status:
                self.assertEqual((ran.out, ran.err.startswith('desk: refused')), ('', True))
            else:
                self.answered('show', out)
            seen.add(ran.status)
        self.assertEqual(seen, {0, 1})


class Names(Updating):
    """Grades by name."""

    def grade_of(self, cell: str, table: str, header: str = 'event,grade') -> int:
        data = self.answered('update', self.put('t.csv', table), self.put('s.csv', f'{header}\nenters,{cell}\n'), '--json').data()
        return data['changes']['events'][0]['grade']

    def not_found(self, cell: str, table: str, *words: str) -> None:
        line, = self.refused(None, 'update', self.put('t.csv', table), self.put('s.csv', f'event,grade\nenters,{cell}\n'))
        for part in ('line 2, column 2 (grade)', *words):
            self.assertIn(part, line)

    def labelled(self, *labels: str, header: str = 'grade') -> str:
        return f'{header},obligors,defaults,announced\n' + ''.join(f'{label},9,1,5\n' for label in labels)

    def test_of_one_further_column(self) -> None:
        for header in ('grade', 'rating', 'Note'):
            self.assertEqual(self.grade_of('B', self.labelled('A', 'B', header=header)), 2)
        self.assertEqual(self.grade_of('"B, good"', self.labelled('A', '"B, good"')), 2)
        self.assertEqual(self.grade_of('B+', self.labelled('B', 'B+', 'B-')), 2)

    def test_of_several_further_columns(self) -> None:
        table = self.labelled('North,A', 'North,B', 'South,C', header='region,grade')
        self.assertEqual([self.grade_of(cell, table) for cell in ('B', 'South C', 'North A')], [2, 3, 1])
        self.not_found('South', table, 'is no grade')
        table = self.labelled('A,North', 'B,North', 'A,South', header='class,region')
        self.assertEqual(self.grade_of('B', table), 2)
        self.not_found('A', table, "'A' is the name of grades 1, 3: say which by its number")
        self.assertEqual(self.grade_of('A South', table), 3)

    def test_names_that_are_numbers(self) -> None:
        self.assertEqual(self.grade_of('2', self.labelled('1', '2', '3')), 2)
        self.assertEqual(self.grade_of('20', self.labelled('10', '20', '30')), 2)
        table = self.labelled('0', '1', '2')
        self.not_found('1', table, "'1' is the number of a grade and the name of grade 2", 'grade number or grade name')
        self.assertEqual([self.grade_of('1', table, f'event,{header}') for header in ('grade number', 'Grade name')], [1, 2])
        self.assertEqual(self.grade_of('0', table), 1)
        self.assertEqual(self.grade_of('3', table), 3)
        self.not_found('1', self.labelled('1', '1', 'x'), 'is the number of a grade and the name of grades 1, 2')

    def test_grades_without_a_name(self) -> None:
        self.not_found('x', self.labelled('A', '', 'C'), 'It has 1 (A), 2, 3 (C)')
        self.not_found('x', csv_text([('obligors', ROWS)]), 'It has grades 1 to 4, without names')
        self.assertEqual(self.grade_of('2', self.labelled('A', '', 'C')), 2)


class Written(Updating):
    def test_csv_with_its_names_and_further_columns(self) -> None:
        text = ('name,"In, house"\nannounced %,remark,DEFAULTS,grade,survivors\n0.05%,"a ""b"", c",0,A;1,120\n0.4,,1,A2,179\n\n'
                'obligors,defaults,announced\n5,1,7\n')
        out = self.path('out.csv')
        ran = self.answered('update', self.put('t.csv', text), '1', self.put('s.csv', HEADER + 'enters,A2,2\ndefaults,A;1\n'), '-o', out)
        self.assertEqual(self.got('out.csv').decode(), 'name,"In, house"\nremark,grade,survivors,defaults,announced\n'
                         '"a ""b"", c","A;1",119,1,500\n,A2,181,1,4000\n\nobligors,defaults,announced\n5,1,7\n')
        self.assertEqual(ran.out.splitlines()[-1], f'{out}: 2 tables, of which rater 1 has changed')
        data = self.answered('show', out, '1', '--json').data()
        self.assertEqual((data['rater']['name'], [grade['label'] for grade in data['grades']]), ('In, house', ['a "b", c A;1', 'A2']))

    def test_week_after_week(self) -> None:
        """What is written takes the next sheet by the same names."""
        changes, grades, file = changes_in(MONDAY, INHOUSE.labels), INHOUSE.grades, INHOUSE.file
        for week, lines in enumerate((7, 3, 2)):
            sheet = self.put('s.csv', sheet_text(changes[:lines], INHOUSE.labels))
            grades, faults = after(grades, changes[:lines])
            self.assertEqual(faults, [])
            out = self.path(f'{week}.csv')
            self.answered('update', file, sheet, '-o', out)
            file, data = out, self.answered('show', out, '--json').data()
            self.assertEqual((data['rater']['name'], [each['label'] for each in data['grades']]), ('In-house', list(INHOUSE.labels)))
            self.assertEqual([(each['obligors'], each['defaults'], each['announced_ppm']) for each in data['grades']], grades)

    def test_a_book_keeps_its_other_raters(self) -> None:
        book, sheet = example('portfolio.book'), example('monday/numbers.csv')
        tables = [rater_of(book, number) for number in range(1, 5)]
        for number in (1, 4):
            changes = changes_in(sheet, [str(each) for each in range(1, 9)])
            expected = [(each.counts, list(each.rows)) for each in tables]
            expected[number - 1] = (tables[number - 1].counts, by(tables[number - 1].counts, after(tables[number - 1].grades, changes)[0]))
            ran = self.answered('update', book, str(number), sheet, '-o', self.path('out.book'))
            self.assertEqual(self.got('out.book'), book_of(expected))
            self.assertEqual(ran.out.splitlines()[-1], f'{self.path("out.book")}: 4 tables, of which rater {number} has changed')
            self.answered('update', book, str(number), sheet, '-o', self.path('out.csv'))
            self.assertEqual(self.got('out.csv').decode(), csv_text(expected))

    def test_csv_to_a_book_and_the_name_that_says_so(self) -> None:
        for name in ('out.book', 'OUT.BOOK'):
            data = self.answered('update', INHOUSE.file, MONDAY, '-o', self.path(name), '--json').data()
            self.assertEqual(data['written'], self.path(name))
            grades = after(INHOUSE.grades, changes_in(MONDAY, INHOUSE.labels))[0]
            self.assertEqual(self.got(name), book_of([('obligors', grades)]))
        self.answered('update', INHOUSE.file, MONDAY, '-o', self.path('out.CSV'))
        self.assertTrue(self.got('out.CSV').startswith(b'name,In-house\n'))
        for name in ('out', 'out.txt', 'csv', '.csv', 'out.csv.', '-'):
            self.assertIn('it has to end in .csv or .book', self.wrong('update', INHOUSE.file, MONDAY, '-o', self.path(name)))
        self.assertEqual(self.names(), ['OUT.BOOK', 'out.CSV', 'out.book'])

    def test_more_raters_than_a_book_holds(self) -> None:
        many, sheet = self.put('many.csv', csv_text([('obligors', [(9, 1, 0)])] * 17)), self.put('s.csv', HEADER + 'enters,1\n')
        self.refused(3, 'update', many, '17', sheet, '-o', self.path('out.book'))
        self.answered('update', many, '17', sheet, '-o', self.path('out.csv'))
        self.assertEqual(self.got('out.csv').decode(), csv_text([('obligors', [(9, 1, 0)])] * 16 + [('obligors', [(10, 1, 0)])]))
        self.assertEqual(self.names(), ['many.csv', 'out.csv', 's.csv'])

    def test_by_the_raters_name(self) -> None:
        words = (example('committee.csv'), 'In-house', example('monday/numbers.csv'), '-o', self.path('out.csv'))
        data = self.answered('update', *words, '--json').data()
        self.assertEqual((data['after']['rater'], data['after']['name']), (4, 'In-house'))
        names = re.findall(rb'(?m)^name,(.*)$', self.got('out.csv'))
        self.assertEqual(names, re.findall(rb'(?m)^name,(.*)$', content_of(example('committee.csv'))))

    def test_nothing_without_an_output(self) -> None:
        folder = os.getcwd()
        self.addCleanup(os.chdir, folder)
        os.chdir(self.folder)
        self.answered('update', INHOUSE.file, MONDAY)
        self.assertEqual(self.names(), [])

    def test_a_refusal_leaves_the_output(self) -> None:
        out = self.put('out.csv', 'as it was')
        self.refused(37, 'update', INHOUSE.file, example('monday/slips.csv'), '-o', out)
        self.assertEqual((self.got('out.csv'), self.names()), (b'as it was', ['out.csv']))

    def test_what_is_read_is_not_written_over(self) -> None:
        table, sheet = self.put('t.csv', content_of(INHOUSE.file)), self.put('s.csv', content_of(MONDAY))
        os.symlink('t.csv', self.path('link.csv'))
        for out in (table, sheet, self.path('link.csv')):
            self.assertIn('is to be read and written', self.wrong('update', table, sheet, '-o', out))
        self.assertEqual((self.got('t.csv'), self.got('s.csv')), (content_of(INHOUSE.file), content_of(MONDAY)))

    def test_a_disk_that_is_full(self) -> None:
        out = self.put('out.csv', 'as it was')
        ran = run('update', INHOUSE.file, MONDAY, '-o', out, preexec_fn=lambda: resource.setrlimit(resource.RLIMIT_FSIZE, (10, 10)))
        self.assertEqual((ran.status != 0, self.got('out.csv'), self.names()), (True, b'as it was', ['out.csv']))
        self.assertIn('No such file', self.wrong('update', INHOUSE.file, MONDAY, '-o', self.path('none/out.csv')))


class Usage(Updating):
    def test_words(self) -> None:
        for words in ((INHOUSE.file,), (INHOUSE.file, '1', MONDAY, MONDAY)):
            self.assertIn('update takes FILE [RATER] CHANGES.csv, not', self.wrong('update', *words))
        self.wrong('update')
        self.assertIn('portfolio.book has 4 raters: 1 (rater 1)', self.wrong('update', example('portfolio.book'), example('monday/numbers.csv')))
        self.refused(4, 'update', example('portfolio.book'), '5', example('monday/numbers.csv'))
        self.assertIn("'X' is no rater", self.wrong('update', INHOUSE.file, 'X', MONDAY))
        self.assertIn('No such file', self.wrong('update', INHOUSE.file, self.path('none.csv')))
        self.assertIn('No such file', self.wrong('update', self.path('none.csv'), MONDAY))

    def test_standard_input(self) -> None:
        expected = self.answered('update', INHOUSE.file, MONDAY, '--json').data()
        found = self.answered('update', INHOUSE.file, '-', '--json', stdin=content_of(MONDAY)).data()
        self.assertEqual({**found, 'changes': {**found['changes'], 'file': MONDAY}}, expected)
        found = self.answered('update', '-', MONDAY, '--json', stdin=content_of(INHOUSE.file)).data()
        self.assertEqual(found['grades'], expected['grades'])
        self.assertIn('standard input is named twice', self.wrong('update', '-', '-'))

    def test_what_is_asked_back(self) -> None:
        percent_table = 'obligors,defaults,announced\n10,1,10%\n10,3,30%\n'
        data = self.answered('update', self.put('t.csv', percent_table), self.put('s.csv', HEADER + 'enters,1\n'), '--json').data()
        self.assertEqual([question['about'] for question in data['questions']], ['reading'])
        scale, sheet = self.table([(60, 1, 20000), (40, 3, 80000), (99, 4, 90000)]), self.put('s.csv', HEADER + 'enters,3\n')
        asked = self.answered('update', scale.file, sheet, '--json').data()['questions']  # of the table as it then is
        self.assertEqual([(each['about'], 'a after 1 event of ' in each['text']) for each in asked], [('total', True)])

    def test_as_a_process(self) -> None:
        self.assertEqual(run('update', INHOUSE.file, MONDAY), self.answered('update', INHOUSE.file, MONDAY))
        ran = run('update', INHOUSE.file, example('monday/slips.csv'), '-o', self.path('out.csv'))
        self.assertEqual((ran.status, ran.out, len(ran.err.splitlines()), self.names()), (1, '', 3, []))


if __name__ == '__main__':
    unittest.main()
