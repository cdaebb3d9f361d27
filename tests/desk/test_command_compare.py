"""Tests `desk compare`: every figure that it prints is computed again from the tables, by document 01's definitions.

    python3 tests/desk/test_command_compare.py      # from anywhere
"""
from __future__ import annotations

from collections import Counter
from math import gcd
import os
import random
import sys
import unittest

sys.dont_write_bytecode = True
sys.path.insert(0, os.path.dirname(os.path.abspath(__file__)))
from running import EXAMPLES, Case, book_of, content_of, csv_text, example, run  # noqa: E402
from common import in_order  # noqa: E402
from books import described  # noqa: E402
from definitions import totals  # noqa: E402
from expected import about_costs, about_measures, compare_data  # noqa: E402
from scales import AGENCY, INHOUSE, Scale, by, rater_of  # noqa: E402
from test_ranges import pair  # noqa: E402
import printed  # noqa: E402

SENTENCES = {'equal': '{} and {} are equal: both cost the same at all prices.',
             'first': '{} is better than {}: it costs more at no prices, and less at some.',
             'second': '{1} is better than {0}: it costs more at no prices, and less at some.',
             'crossing': '{} and {} cross: neither is better, each costs less than the other at some prices.'}
ON_SHARES = " Costs go by shares of each book's own defaults and survivors."


class Comparing(Case):
    def compared(self, first: Scale, second: Scale, *words: str) -> dict:
        """What is answered as JSON, seen to be what the definitions say and what is printed as text."""
        data, text, shares = self.answered('compare', *words, '--json').data(), self.answered('compare', *words), '--shares' in words
        prices = [tuple(map(int, word.split(':'))) for option, word in zip(words, words[1:]) if option == '--prices']
        separating = [(costs['u'], costs['v']) for costs in data['separating']]
        expected = compare_data(first, second, prices, separating, shares)
        sentence = SENTENCES[expected['verdict']].format(first.name, second.name) + (ON_SHARES if shares else '')
        self.assertEqual(data, {**expected, 'sentence': sentence, 'refusals': [], 'questions': data['questions']})
        self.see_separating(data)
        self.see_text(first, second, printed.compared(text.out), data)
        return data

    def see_separating(self, data: dict) -> None:
        """One reduced price for each scale that is ever dearer; where the first is stands first."""
        dearer = {'equal': [], 'first': ['first'], 'second': ['second'], 'crossing': ['second', 'first']}[data['verdict']]
        self.assertEqual([costs['cheaper'] for costs in data['separating']], dearer)
        for costs in data['separating']:
            self.assertEqual(gcd(costs['u'], costs['v']), 1)

    def see_text(self, first: Scale, second: Scale, text: dict, data: dict) -> None:
        """The text says the same: of the ranges all but the two ends, where every scale costs nothing, and none of equal scales."""
        for key in ('first', 'second', 'sentence', 'measures'):
            self.assertEqual(text[key], data[key])
        ranges = [each for each in data['ranges'] if each['from'] != each['to'] or each['from']['u'] * each['from']['v']]
        self.assertEqual(text['ranges'], [] if data['verdict'] == 'equal' else ranges)
        self.assertEqual(text['headings'], [first.name, second.name])
        self.assertEqual(text['about_costs'], about_costs(first, second, data['shares']))
        self.assertEqual(text['about'], about_measures(*data['measures'].values()))
        costs = data['separating'] + data['prices']
        for found in costs:
            for key, scale in (('first', first), ('second', second)):
                away = found[key]['cutoff']
                found[key]['label'] = scale.labels[len(scale.rows) - away] if scale.labels and away else None
        self.assertEqual(text['costs'], costs)


class Examples(Comparing):
    def of_book(self, name: str, a: int, b: int, *prices: str) -> str:
        path = example(name)
        words = [word for price in prices for word in ('--prices', price)]
        return self.compared(rater_of(path, a), rater_of(path, b), path, str(a), str(b), *words)['verdict']

    def test_all_four_verdicts_on_books(self) -> None:
        self.assertEqual(self.of_book('portfolio.book', 1, 2), 'first')
        self.assertEqual(self.of_book('portfolio.book', 2, 1, '1:1'), 'second')
        self.assertEqual(self.of_book('portfolio.book', 1, 3, '50:1', '20:1', '1:0', '0:1', '0:0'), 'crossing')
        self.assertEqual(self.of_book('portfolio.book', 1, 4, '1000000:999999'), 'equal')
        self.assertEqual(self.of_book('g.book', 1, 2), 'first')
        self.assertEqual(self.of_book('h.book', 1, 2, '1:1', '1:3'), 'crossing')

    def test_all_four_verdicts_on_csv(self) -> None:
        data = self.compared(INHOUSE, AGENCY, INHOUSE.file, AGENCY.file, '--prices', '50:1', '--prices', '20:1')
        self.assertEqual(data['verdict'], 'crossing')
        for name, verdict in (('portfolio', 'first'), ('g', 'first'), ('h', 'crossing')):
            path = example(f'{name}.csv')
            first, second = (rater_of(example(f'{name}.book'), number)._replace(file=path) for number in (1, 2))
            self.assertEqual(self.compared(first, second, path, '1', '2')['verdict'], verdict)
            self.assertEqual(self.compared(second, first, path, '2', '1')['verdict'], {'first': 'second'}.get(verdict, verdict))
        names = [scale._replace(name=f'{scale.name} ({place})') for scale, place in ((INHOUSE, 'first'), (INHOUSE, 'second'))]
        self.assertEqual(self.compared(*names, INHOUSE.file, INHOUSE.file)['verdict'], 'equal')

    def test_worked_prices_of_table_h(self) -> None:
        """u 1, v 1 cost 2 and 1; u 1, v 3 cost 2 and 3."""
        data = self.answered('compare', example('h.csv'), '--prices', '1:1', '--prices', '1:3', '--json').data()
        self.assertEqual([(each['first']['cost'], each['second']['cost']) for each in data['prices']], [(2, 1), (2, 3)])

    def test_a_price_that_is_given_is_not_reduced(self) -> None:
        text = self.answered('compare', INHOUSE.file, AGENCY.file, '--prices', '100:2').out
        self.assertEqual(printed.compared(text)['costs'][-1]['u'], 100)

    def test_no_question_about_a_shipped_example(self) -> None:
        for name in ('g', 'h'):
            self.assertEqual(self.answered('compare', example(f'{name}.book')).err, '')
        self.assertEqual(self.answered('compare', INHOUSE.file, AGENCY.file).err, '')
        for a, b in ((1, 2), (1, 3), (1, 4)):
            self.assertEqual(self.answered('compare', example('portfolio.csv'), str(a), str(b)).err, '')

    def test_as_a_process(self) -> None:
        path = example('h.book')
        self.assertEqual(run('compare', path), self.answered('compare', path))


class Refused(Case):
    """Two raters that cannot be compared, and prices that are too high."""
    BOOK = example('refusals.book')

    def test_no_defaults_no_survivors_other_totals(self) -> None:
        tables = described(os.path.join(EXAMPLES, 'books.txt'))['refusals.book'].tables
        for number, refusal in ((2, 23), (3, 24), (4, 25)):
            line, = self.refused(refusal, 'compare', self.BOOK, '1', str(number))
            for rater in (1, number):
                _, defaults, survivors = totals(tables[rater - 1][1])
                self.assertIn(f'rater {rater} has {defaults} defaults and {survivors} survivors', line)

    def test_a_table_that_load_refuses(self) -> None:
        for number, refusal in ((5, 9), (6, 8), (7, 10), (8, 11), (9, 34)):
            self.refused(refusal, 'compare', self.BOOK, '1', str(number))
            self.refused(refusal, 'compare', self.BOOK, str(number), '1')
        self.assertEqual(len(self.refused(9, 'compare', self.BOOK, '5', '6')), 2)

    def test_prices_above_the_limit(self) -> None:
        path = example('h.book')
        self.answered('compare', path, '--prices', '1000000:1000000')
        for prices in ('1000001:1', '1:1000001', '9999999999999999999:1'):
            line, = self.refused(12, 'compare', path, '--prices', '1:1', '--prices', prices)
            self.assertIn(prices, line)

    def test_nothing_is_answered(self) -> None:
        self.assertEqual(run('compare', self.BOOK, '1', '4').out, '')


class WhichRaters(Case):
    ROWS = [[(4, 0, 100000), (4, 2, 500000)], [(2, 0, 100000), (6, 2, 300000)], [(8, 2, 250000)]]

    def sheet(self, *names: str) -> str:
        """A CSV file with tables of these names; an empty one names none."""
        texts = [(f'name,{name}\n' if name else '') + csv_text([('obligors', rows)]) for name, rows in zip(names, self.ROWS)]
        return '\n'.join(texts)

    def raters(self, *words: str) -> list[tuple]:
        """The file, the number and the name of both raters that words choose; of standard input where that is the first word."""
        stdin = content_of(example('h.book')) if words[0] == '-' else b''
        data = self.answered('compare', *words, '--json', stdin=stdin).data()
        return [(os.path.basename(data[key]['file']), data[key]['rater'], data[key]['name']) for key in ('first', 'second')]

    def test_by_number(self) -> None:
        path = self.put('a.csv', self.sheet('', '', ''))
        self.assertEqual(self.raters(path, '3', '1'), [('a.csv', 3, 'rater 3'), ('a.csv', 1, 'rater 1')])
        self.assertEqual(self.raters(path, '02', '2'), [('a.csv', 2, 'rater 2 (first)'), ('a.csv', 2, 'rater 2 (second)')])

    def test_by_name(self) -> None:
        path = self.put('a.csv', self.sheet('In-house', 'Agency', ''))
        self.assertEqual(self.raters(path, 'Agency', 'In-house'), [('a.csv', 2, 'Agency'), ('a.csv', 1, 'In-house')])
        self.assertEqual(self.raters(path, '1', 'Agency'), [('a.csv', 1, 'In-house'), ('a.csv', 2, 'Agency')])
        self.assertEqual(self.raters(path, path, 'Agency', '3'), [('a.csv', 2, 'Agency'), ('a.csv', 3, 'rater 3')])

    def test_by_count_of_files(self) -> None:
        two, one = self.put('two.csv', self.sheet('', 'B')), self.put('one.book', book_of([('obligors', self.ROWS[0])]))
        self.assertEqual(self.raters(two), [('two.csv', 1, 'rater 1'), ('two.csv', 2, 'B')])
        self.assertEqual(self.raters(one, one), [('one.book', 1, 'one (first)'), ('one.book', 1, 'one (second)')])
        self.assertEqual(self.raters(two, one, 'B', '1'), [('two.csv', 2, 'B'), ('one.book', 1, 'one')])
        self.assertEqual(self.raters('-'), [('-', 1, 'rater 1'), ('-', 2, 'rater 2')])

    def test_a_number_for_a_name(self) -> None:
        """Digits are a number, whatever the raters are called."""
        path = self.put('a.csv', self.sheet('2', '1'))
        self.assertEqual(self.raters(path), [('a.csv', 1, '2'), ('a.csv', 2, '1')])
        self.assertEqual(self.raters(path, '1', '2'), [('a.csv', 1, '2'), ('a.csv', 2, '1')])

    def test_names_that_are_equal_are_told_apart(self) -> None:
        same = self.put('a.csv', self.sheet('X', 'X'))
        self.assertEqual(self.raters(same), [('a.csv', 1, 'X (rater 1)'), ('a.csv', 2, 'X (rater 2)')])
        for folder in ('this', 'that'):
            os.mkdir(self.path(folder))
        here, there = (self.put(os.path.join(folder, 'b.csv'), self.sheet('')) for folder in ('this', 'that'))
        self.addCleanup(os.chdir, os.getcwd())
        os.chdir(self.folder)
        self.assertEqual([name for _, _, name in self.raters('this/b.csv', 'that/b.csv')], ['b of this/b.csv', 'b of that/b.csv'])
        (_, _, first), (_, _, second) = self.raters(here, there)
        self.assertNotEqual(first, second)

    def test_names_are_told_apart_as_they_are_shown(self) -> None:
        """Long names are cut; what tells them apart is not."""
        for names in (('a' * 50, 'a' * 50), ('b' * 45 + 'x', 'b' * 45 + 'y')):
            folders = ['long' * 12 + ending for ending in 'cd']
            for folder in folders:
                os.makedirs(self.path(folder), exist_ok=True)
            files = [self.put(os.path.join(folder, 'x.csv'), self.sheet(name)) for folder, name in zip(folders, names)]
            for words in (files, [self.put('both.csv', self.sheet(*names))], files[:1] * 2):
                headings = printed.compared(self.answered('compare', *words).out)['headings']
                self.assertEqual(len(set(headings)), 2, headings)
                self.assertLessEqual(max(map(len, headings)), 40)

    def test_wrong_choices_say_what_there_is(self) -> None:
        three, one = self.put('three.csv', self.sheet('A', '', 'C')), self.put('one.csv', self.sheet('', ''))
        self.assertIn('has 3 raters: 1 (A), 2 (rater 2), 3 (C)', self.wrong('compare', three))
        self.assertIn('has 3 raters: 1 (A), 2 (rater 2), 3 (C)', self.wrong('compare', three, one))
        self.assertIn('1 (A), 2 (rater 2), 3 (C)', self.wrong('compare', three, 'B', 'A'))
        self.assertIn("'rater 2' is no rater of", self.wrong('compare', three, 'rater 2', 'A'))
        self.assertIn('1 (A), 2 (rater 2), 3 (C)', self.wrong('compare', three, '1', '-1'.replace('-', '\u2212')))
        self.assertIn('1 (A), 2 (rater 2), 3 (C)', self.wrong('compare', three, '1', ''))
        self.assertIn('FILE [FILE] [A B]', self.wrong('compare', three, one, '1', '2', '3'))
        self.assertIn('none.csv: No such file', self.wrong('compare', three, self.path('none.csv')))
        for word in ('0', '4', '17', '999999999999999999'):
            line, = self.refused(4, 'compare', three, '1', word)
            self.assertIn(f'rater {word}; this file has 3', line)

    def test_a_file_with_one_rater_needs_another(self) -> None:
        said = self.wrong('compare', example('k.book'))
        self.assertIn('has 1 rater: 1 (k)', said)
        self.assertIn('FILE', said)

    def test_a_name_of_two_raters(self) -> None:
        path = self.put('a.csv', self.sheet('X', 'Y', 'X'))
        self.assertIn("'X' is the name of raters 1, 3", self.wrong('compare', path, 'X', 'Y'))
        self.assertEqual(self.raters(path, '1', 'Y')[0], ('a.csv', 1, 'X'))

    def test_prices_that_are_none(self) -> None:
        for word in ('50', '50:', ':1', '50:1:1', '-1:1', '1.5:1', '50/1', 'a:b', '1' * 20 + ':1', '\u0663:1', ''):
            self.assertIn('two whole numbers such as 50:1', self.wrong('compare', example('h.book'), f'--prices={word}'), word)

    def test_standard_input_twice(self) -> None:
        self.assertIn('standard input', self.wrong('compare', '-', '-', stdin=content_of(example('k.book'))))


class AtRandom(Comparing):
    def scale(self, source: random.Random, scale: list, number: int) -> Scale:
        counts = source.choice(('obligors', 'survivors'))
        rows = by(counts, in_order([(n, d, source.randint(0, 1_000_000)) for n, d in scale]))
        return Scale(f'rater {number}', self.path('two.book'), number, counts, rows)

    def test_two_hundred_pairs(self) -> None:
        source, verdicts = random.Random(1), Counter()
        for _ in range(200):
            sizes = source.choice(((9, 9), (30, 300), (20_000, 480_000)))
            scales = pair(source, tuple(source.randint(1, most) for most in sizes), source.choice((2, 4, 12)))
            first, second = (self.scale(source, scale, number) for number, scale in enumerate(scales, 1))
            path = self.put('two.book', book_of([(each.counts, each.rows) for each in (first, second)]))
            prices = [f'--prices={source.randint(0, most)}:{source.randint(0, most)}' for most in (3, 1_000_000)]
            words = [word for price in prices for word in price.split('=')]
            verdicts[self.compared(first, second, path, *words)['verdict']] += 1
        self.assertTrue(all(verdicts[verdict] >= 15 for verdict in SENTENCES), verdicts)


if __name__ == '__main__':
    unittest.main()
