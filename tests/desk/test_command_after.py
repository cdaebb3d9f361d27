"""Tests `desk compare --after`: the comparison of the tables as sheets of changes leave them, and what it was before, by definition.

    python3 tests/desk/test_command_after.py      # from anywhere
"""
from __future__ import annotations

from collections import Counter
from typing import Sequence
import os
import random
import sys
import unittest

sys.dont_write_bytecode = True
sys.path.insert(0, os.path.dirname(os.path.abspath(__file__)))
from running import Case, ask, book_of, content_of, example, run  # noqa: E402
from common import in_order  # noqa: E402
from definitions import totals  # noqa: E402
from expected import compare_data, ranges_data, verdict_of  # noqa: E402
from scales import AGENCY, INHOUSE, Scale, by  # noqa: E402
from sheets import HEADER, Change, after, random_sheet, sheet_text  # noqa: E402
from shapes import Shapes  # noqa: E402
from test_command_compare import ON_SHARES, SENTENCES  # noqa: E402
from test_command_update import changes_in  # noqa: E402
from test_ranges import pair  # noqa: E402
import printed  # noqa: E402

MONDAY = [example('monday/inhouse.csv'), example('monday/agency.csv')]


class Side(tuple):
    """A rater, its sheet, if it has one, and the changes of that."""
    def __new__(cls, scale: Scale, sheet: str | None = None, changes: Sequence[Change] = ()) -> Side:
        return super().__new__(cls, (scale, sheet, list(changes)))

    def now(self) -> Scale:
        scale, _, changes = self
        grades, faults = after(scale.grades, changes)
        if faults:
            raise AssertionError(f'{changes} are not all accepted')
        return scale._replace(rows=by(scale.counts, grades))

    def words(self) -> list[str]:
        return [self[0].file, *(['--after', self[1]] if self[1] else [])]

    def data(self) -> dict | None:
        events = [{'line': line, **change._asdict()} for line, change in enumerate(self[2], 2)]
        return {'file': self[1], 'events': events} if self[1] else None


class Comparing(Case):
    def compared(self, first: Side, second: Side, *options: str) -> dict:
        """What is answered of two sides, of which at least one has a sheet, seen to be what the definitions say."""
        shares, words = '--shares' in options, ['compare', *first.words(), *second.words(), *options]
        data, text = self.answered(*words, '--json').data(), self.answered(*words).out
        Shapes().check(data)
        scales = [first.now(), second.now()]
        separating = [(costs['u'], costs['v']) for costs in data['separating']]
        expected = compare_data(*scales, [], separating, shares)
        expected.update(changes={'first': first.data(), 'second': second.data()}, before=self.before(first[0], second[0], shares))
        sentence = self.sentence(expected['verdict'], scales, shares)
        self.assertEqual(data, {**expected, 'sentence': sentence, 'refusals': [], 'questions': data['questions']})
        self.see_text(text, data, (first, second))
        return data

    def sentence(self, verdict: str, scales: Sequence[Scale], shares: bool) -> str:
        return SENTENCES[verdict].format(scales[0].name, scales[1].name) + (ON_SHARES if shares else '')

    def before(self, first: Scale, second: Scale, shares: bool) -> dict:
        ranges = ranges_data(first, second, shares)
        return {'verdict': verdict_of(ranges), 'sentence': self.sentence(verdict_of(ranges), (first, second), shares), 'ranges': ranges}

    def see_text(self, text: str, data: dict, sides: Sequence[Side]) -> None:
        """The page has both verdicts and both lists of ranges, and says what is after a sheet."""
        head, verdicts, *parts = printed.sections(text)
        for line, side, key in zip(head, sides, ('first', 'second')):
            events = sum(change.times for change in side[2])
            booked = f', after {events} event{"" if events == 1 else "s"} of {side[1]})' if side[1] else ')'
            self.assertIn(booked, line)
            self.assertEqual(printed.summary(line.replace(booked, ')', 1)), data[key])
        self.assertEqual(verdicts, [f'Before the changes: {data["before"]["sentence"]}', f'After the changes: {data["sentence"]}'])
        tables = {printed.cells(part[0])[0]: [printed.cells(line) for line in part[1:]] for part in parts}
        names = [data['first']['name'], data['second']['name']]
        for heading, found in (('price ratio u:v before', data['before']), ('price ratio u:v', data)):
            ranges = [{**printed.price_range(words), 'cheaper': printed.who(cheaper, names)} for words, cheaper in tables.get(heading, [])]
            self.assertEqual(ranges, [] if found['verdict'] == 'equal' else [
                each for each in found['ranges'] if each['from'] != each['to'] or each['from']['u'] * each['from']['v']])


class Examples(Comparing):
    def sides(self) -> list[Side]:
        return [Side(scale, sheet, changes_in(sheet, scale.labels)) for scale, sheet in zip((INHOUSE, AGENCY), MONDAY)]

    def test_a_verdict_that_changes(self) -> None:
        first, second = self.sides()
        data = self.compared(first, second)
        self.assertEqual((data['before']['verdict'], data['verdict']), ('crossing', 'first'))
        data = self.compared(second, first)
        self.assertEqual((data['before']['verdict'], data['verdict']), ('crossing', 'second'))

    def test_one_side_on_shares(self) -> None:
        first, second = self.sides()
        self.compared(first, Side(AGENCY), '--shares')
        self.compared(Side(INHOUSE), second, '--shares')
        self.compared(first, second, '--shares')

    def test_a_list_that_keeps_the_totals_needs_no_other(self) -> None:
        """Firms that are rated anew leave one grade and enter another."""
        changes = [Change('leaves', 8, 6), Change('enters', 5, 6)]
        self.compared(Side(INHOUSE, self.put('s.csv', sheet_text(changes)), changes), Side(AGENCY))

    def test_a_scale_against_itself_after_a_week(self) -> None:
        first, _ = self.sides()
        changed = Side(INHOUSE._replace(name='In-house (changed)'), *first[1:])
        data = self.compared(Side(INHOUSE), changed, '--shares')
        self.assertEqual((data['before']['verdict'], data['verdict']), ('equal', 'second'))
        self.compared(changed, Side(INHOUSE), '--shares')

    def test_as_of_the_file_that_update_writes(self) -> None:
        """The same answer, but for the files and what was before."""
        files = []
        for scale, sheet in zip((INHOUSE, AGENCY), MONDAY):
            files.append(self.path(os.path.basename(scale.file)))
            self.answered('update', scale.file, sheet, '-o', files[-1])
        written = self.answered('compare', *files, '--prices', '50:1', '--json').data()
        words = (INHOUSE.file, '--after', MONDAY[0], AGENCY.file, '--after', MONDAY[1], '--prices', '50:1')
        found = self.answered('compare', *words, '--json').data()
        for each, file in zip(('first', 'second'), (INHOUSE.file, AGENCY.file)):
            written[each]['file'] = file
        self.assertEqual({**found, 'changes': None, 'before': None}, {**written, 'changes': None, 'before': None})

    def test_as_a_process(self) -> None:
        words = ('compare', INHOUSE.file, '--after', MONDAY[0], AGENCY.file, '--after', MONDAY[1])
        self.assertEqual(run(*words), self.answered(*words))


class AtRandom(Comparing):
    def side(self, source: random.Random, scale: list, name: str) -> Side:
        rows = in_order([(n, d, source.randint(0, 1_000_000)) for n, d in scale])
        counts = source.choice(('obligors', 'survivors'))
        rater = Scale(name, self.put(f'{name}.book', book_of([(counts, by(counts, rows))])), 1, counts, by(counts, rows))
        changes = random_sheet(source, rater.grades)
        return Side(rater, self.put(f'{name}.sheet', sheet_text(changes)), changes)

    def sides(self, source: random.Random) -> list[Side]:
        """Two raters of the same obligors, each with a sheet."""
        scales = pair(source, (source.randint(3, 30), source.randint(30, 200)), 6)
        return [self.side(source, scale, name) for scale, name in zip(scales, 'ab')]

    def test_on_shares_of_any_two_tables(self) -> None:
        source, seen = random.Random(3), Counter()
        while sum(seen.values()) < 60:
            first, second = self.sides(source)
            if all(min(totals(scale.grades)[1:]) for side in (first, second) for scale in (side[0], side.now())):
                data = self.compared(first, second, '--shares')
                seen[data['before']['verdict'] != data['verdict']] += 1
        self.assertGreater(min(seen.values()), 5)
        self.assertEqual(len(seen), 2)

    def test_by_counts_where_firms_are_rated_anew(self) -> None:
        """Survivors that change their grade leave the totals."""
        source, count = random.Random(4), 0
        while count < 60:
            first, second = self.sides(source)
            changes = [Change(event, source.randint(1, len(first[0].rows)), 2) for event in ('enters', 'leaves')]
            if after(first[0].grades, changes)[1]:
                continue
            self.compared(Side(first[0], self.put('a.sheet', sheet_text(changes)), changes), Side(second[0]))
            count += 1


class Refused(Comparing):
    def test_a_list_that_is_refused_with_all_its_lines(self) -> None:
        slips = example('monday/slips.csv')
        lines = self.refused(37, 'compare', INHOUSE.file, '--after', slips, AGENCY.file)
        self.assertEqual(lines, self.refused(37, 'update', INHOUSE.file, slips))
        self.assertEqual(len(lines), 3)
        both = self.refused(37, 'compare', INHOUSE.file, '--after', slips, INHOUSE.file, '--after', self.put('s.csv', HEADER + 'enters,9\n'))
        self.assertEqual((both[:3], both[3].split(':')[1]), (lines, ' refused 36'))
        data = ask('compare', INHOUSE.file, '--after', slips, AGENCY.file, '--json').data()
        Shapes().check(data)
        self.assertEqual((data.keys(), len(data['refusals'])), ({'command', 'refusals', 'questions'}, 3))

    def test_totals_that_differ_after_it(self) -> None:
        line, = self.refused(25, 'compare', INHOUSE.file, '--after', MONDAY[0], AGENCY.file)
        self.assertIn(f'In-house after 24 events of {MONDAY[0]} has 89 defaults and 907 survivors, Agency has 80 defaults and 920 survivors. '
                      'With --shares', line)

    def test_totals_that_differed_before_it(self) -> None:
        tables = {'a': [(4, 0, 0), (4, 2, 5)], 'b': [(8, 1, 0)]}
        first, second = (self.put(f'{name}.book', book_of([('obligors', rows)])) for name, rows in tables.items())
        sheet = self.put('s.csv', HEADER + 'defaults,1\n')
        data = self.answered('compare', first, second, '--after', sheet, '--json').data()
        self.assertEqual((data['verdict'], data['before']['verdict'], data['before']['ranges']), ('first', None, []))
        said = 'refused 25: D or S differ between the places (D: defaults, S: survivors); a against b: a has 2 defaults and 6 survivors, b has 1 '
        self.assertTrue(data['before']['sentence'].startswith(said), data['before']['sentence'])
        text = self.answered('compare', first, second, '--after', sheet).out
        self.assertIn(f'\nBefore the changes: {said}', text)
        self.assertNotIn('cheaper before', text)
        Shapes().check(data)

    def test_no_defaults_after_it(self) -> None:
        file = self.put('a.book', book_of([('obligors', [(4, 1, 0)])]))
        sheet = self.put('s.csv', HEADER + 'removed,1\n')
        self.refused(23, 'compare', file, file, '--after', sheet, '--shares')
        self.refused(24, 'compare', file, '--after', self.put('t.csv', HEADER + 'defaults,1,3\n'), file, '--shares')

    def test_too_large_for_shares_after_it(self) -> None:
        file = self.put('a.book', book_of([('obligors', [(99_999, 1, 0), (1, 0, 0)])]))
        line, = self.refused(35, 'compare', file, file, '--after', self.put('s.csv', HEADER + 'enters,2\n'), '--shares')
        self.assertIn('has 100001 obligors', line)

    def test_a_table_that_load_refuses_comes_first(self) -> None:
        self.refused(9, 'compare', example('refusals.book'), '1', '5', '--after', example('monday/slips.csv'))

    def test_files_that_are_not_there_or_no_sheets(self) -> None:
        self.assertIn('No such file', self.wrong('compare', INHOUSE.file, '--after', self.path('none'), AGENCY.file))
        self.refused(None, 'compare', INHOUSE.file, '--after', example('k.book'), AGENCY.file)
        self.refused(None, 'compare', INHOUSE.file, '--after', AGENCY.file, AGENCY.file)


class Words(Case):
    """Which rater a sheet is about."""

    def setUp(self) -> None:
        super().setUp()
        rows = [[(9, 2, 0), (3, 1, 5)], [(8, 2, 0), (4, 1, 5)], [(7, 1, 0), (5, 2, 5)]]
        self.book = self.put('a.book', book_of([('obligors', each) for each in rows]))
        self.one, self.two = (self.put(name, book_of([('obligors', each)])) for name, each in zip(('1.book', '2.book'), rows))
        self.sheet, self.other = self.put('s.csv', HEADER + 'enters,1\nleaves,2\n'), self.put('t.csv', HEADER + 'enters,2\nleaves,1\n')

    def changed(self, *words: str) -> tuple:
        """The sheets of the first and of the second rater."""
        changes = self.answered('compare', *words, '--json').data()['changes']
        return tuple(each and os.path.basename(each['file']) for each in changes.values())

    def test_behind_a_file(self) -> None:
        one, two, s, t = self.one, self.two, self.sheet, self.other
        self.assertEqual(self.changed(one, '--after', s, two), ('s.csv', None))
        self.assertEqual(self.changed(one, two, '--after', s), (None, 's.csv'))
        self.assertEqual(self.changed(one, '--after', s, two, '--after', t), ('s.csv', 't.csv'))
        self.assertEqual(self.changed(one, '--after', s, two, '--after', s), ('s.csv', 's.csv'))
        self.assertEqual(self.changed(one, two), (None, None))
        self.assertEqual(self.changed(self.book, '--after', s, self.book, '1', '2'), ('s.csv', None))
        self.assertEqual(self.changed(self.book, self.book, '--after', s, '1', '2'), (None, 's.csv'))

    def test_behind_a_rater(self) -> None:
        book, s, t = self.book, self.sheet, self.other
        self.assertEqual(self.changed(book, '1', '--after', s, '2'), ('s.csv', None))
        self.assertEqual(self.changed(book, '1', '2', '--after', s), (None, 's.csv'))
        self.assertEqual(self.changed(book, '1', '--after', s, '2', '--after', t), ('s.csv', 't.csv'))
        self.assertEqual(self.changed(book, book, '1', '--after', s, '2'), ('s.csv', None))
        self.assertEqual(self.changed(book, book, '1', '2', '--after', s), (None, 's.csv'))

    def test_among_other_options(self) -> None:
        one, two, s = self.one, self.two, self.sheet
        for words in ((one, f'--after={s}', two), (one, '--aft', s, two), ('--shares', one, '--after', s, two), (one, '--after', s, two, '--shares'),
                      ('--prices', '1:2', one, '--after', s, two, '--prices', '3:4')):
            self.assertEqual(self.changed(*words), ('s.csv', None), words)
        for options in (('--shares',), ('--prices', '1:2'), ('--pr', '1:2'), ('--prices=1:2', '--shares'), ('--json',)):
            self.assertEqual(self.changed(one, two, *options, '--after', s), (None, 's.csv'), options)
        with_dashes = self.answered('compare', one, '--after', s, '--', two)
        self.assertEqual(with_dashes, self.answered('compare', one, '--after', s, two))

    def test_where_it_is_about_no_rater_or_about_one_twice(self) -> None:
        one, two, book, s = self.one, self.two, self.book, self.sheet
        for words in (('--after', s, one, two), (book, '--after', s, '1', '2'), (book, '--after', s), ('--shares', '--after', s, one, two)):
            self.assertIn('--after stands behind the file that it changes', self.wrong('compare', *words))
        self.assertIn('--after changes the first rater twice', self.wrong('compare', one, '--after', s, '--after', s, two))
        self.assertIn('--after changes the second rater twice', self.wrong('compare', book, book, '--after', s, '1', '2', '--after', s))
        for words in ((one, two, '--after'), (one, '--after', '--shares', two), (one, two, '--after', '--json')):
            self.assertIn('argument --after: expected one argument', self.wrong('compare', *words))
        self.assertIn('not 0 words', self.wrong('compare', '--after', s))
        self.assertIn('not 5 words', self.wrong('compare', one, '--after', s, two, '1', '2', '3'))

    def test_standard_input_once(self) -> None:
        text = content_of(self.sheet)
        found = self.answered('compare', self.one, '--after', '-', self.two, '--json', stdin=text).data()
        self.assertEqual(found['changes']['first']['file'], '-')
        self.assertIn('named twice', self.wrong('compare', self.one, '--after', '-', '-'))
        self.assertIn('named twice', self.wrong('compare', self.one, '--after', '-', self.two, '--after', '-'))

    def test_other_commands_have_no_such_option(self) -> None:
        self.assertIn('unrecognized arguments: --after', self.wrong('show', self.one, '--after', self.sheet))


if __name__ == '__main__':
    unittest.main()
