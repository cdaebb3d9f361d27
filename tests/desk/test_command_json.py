"""Tests the command's JSON: every answer of every command has exactly the form that docs/COMMAND.md states, and every part of it is met.

    python3 tests/desk/test_command_json.py      # from anywhere
"""
from __future__ import annotations

import copy
import json
import os
import sys
import unittest
import unittest.mock

sys.dont_write_bytecode = True
sys.path.insert(0, os.path.dirname(os.path.abspath(__file__)))
from running import Case, Ran, ask, book_of, content_of, example, examples, run  # noqa: E402
from converting import OBLIGORS  # noqa: E402
from shapes import Misfit, Shapes, kinds_of_questions, PAGE, shapes_of  # noqa: E402
from desk.command import main  # noqa: E402

REPORTS = ('1 3 20 11\ngini -10 231', '1 0 1 0\ngini refused 23', 'refused 2')
NAMES = ('two words', 'tab\tand\nline', '\x00\x1b[31m\x7f', '\U0001f600\U0001f468\u200d\U0001f469', '\u202eright to left', 'quote " and \\',
         "it's, a; name")


class Answers(Case):
    """Every command in every way that gives another form."""

    def answers(self) -> list[Ran]:
        upside_down = self.put('upside_down.csv', OBLIGORS + '10,2,10%\n10,1,20%\n')
        wrong_column = self.put('wrong.book', book_of([('obligors', [(5, 1, 2)]), ('obligors', [(6, 1, 166667)])]))
        total = self.put('total.csv', OBLIGORS + '60,1,20000\n40,3,80000\n100,4,90000\n')
        none = self.put('none.csv', 'nothing,at,all\n')
        books, output = [example(name) for name in examples('.book')], self.path('out')
        asked = [('compare', example('portfolio.book'), '1', str(b), '--prices', '50:1') for b in (2, 3, 4)]
        asked += [('compare', example('portfolio.book'), '2', '1'), ('compare', example('inhouse.csv'), example('agency.csv')),
                  ('compare', example('refusals.book'), '1', '4'), ('compare', upside_down, upside_down), ('compare', wrong_column),
                  ('compare', none, none), ('compare', example('lenders.book'), '1', '2', '--shares', '--prices', '7:8'),
                  ('compare', example('lenders.book'), '3', '2', '--shares'), ('compare', wrong_column, '--shares')]
        asked += [('shortlist', example('committee.csv')), ('shortlist', example('committee.book')), ('shortlist', example('k.book')),
                  ('shortlist', example('lenders.book')), ('shortlist', wrong_column), ('shortlist', upside_down, none)]
        asked += [('show', book) for book in books] + [('show', example('refusals.book'), str(number)) for number in (1, 2, 3, 5)]
        asked += [('show', example('agencies.book'), '1'), ('show', example('agencies.book'), '1', '--repeated'),
                  ('show', upside_down), ('show', total), ('show', example('inhouse.csv')), ('show', none), ('unpack', example('k.book')),
                  ('unpack', example('refusals.book')), ('unpack', example('portfolio.book'), '-o', output),
                  ('pack', upside_down, '-o', output), ('pack', none, '-o', output), ('show', example('swapped.csv')), ('refusals',),
                  ('refusals', '9')]
        return [ask(*words, '--json') for words in asked + self.of_changes()] + self.of_products()

    def of_changes(self) -> list[tuple]:
        inhouse, agency, slips = (example(f'monday/{name}.csv') for name in ('inhouse', 'agency', 'slips'))
        tables, sheets = [example('inhouse.csv'), example('agency.csv')], [inhouse, agency]
        other = self.put('other.book', book_of([('obligors', [(1000, 79, 80000)])]))
        default = self.put('default.csv', 'event,grade\ndefaults,1\n')
        return [('update', tables[0], inhouse), ('update', tables[1], agency, '-o', self.path('out.csv')), ('update', tables[0], slips),
                ('compare', tables[0], '--after', sheets[0], tables[1], '--after', sheets[1]), ('compare', tables[0], '--after', slips, tables[1]),
                ('compare', tables[0], other, '--after', default)]

    def of_products(self) -> list[Ran]:
        """Answers that come from what is built: of a stand-in for the printing program, and its name."""
        answers = []
        for prints in REPORTS:
            program = self.put('report', f'#!/bin/sh\ncat >/dev/null\nprintf "%s\\n" "{prints}"\n')
            os.chmod(program, 0o755)
            with unittest.mock.patch.multiple(main, printing_program=lambda: program, shared_library=lambda: 'libdesk.so'):
                answers += [ask('report', example('k.book'), '--json'), ask('build', '--json')]
        return answers

    def test_every_answer_has_its_form_and_every_form_is_met(self) -> None:
        shapes, questions = Shapes(), set()
        for ran in self.answers():
            shapes.check(ran.data())
            questions |= {question['about'] for question in ran.data()['questions']}
            self.assertTrue(ran.out.isascii())
            self.assertEqual(ran.status, 1 if ran.data()['refusals'] else 0)
        self.assertEqual(shapes.unmet(), set())
        self.assertEqual(questions, kinds_of_questions(PAGE))

    def test_a_form_that_is_not_so_is_found(self) -> None:
        """What the test itself has to see: a key too many or too few, a value of another type, one that is not listed."""
        sound = self.answered('compare', example('h.book'), '--json').data()
        Shapes().check(sound)
        shared = self.answered('compare', example('h.book'), '--shares', '--json').data()
        Shapes().check(shared)
        for change in (lambda each: each.pop('ranges'), lambda each: each.update(more=1), lambda each: each['first'].update(rater='1'),
                       lambda each: each['first'].update(grades=True), lambda each: each.update(verdict='better'),
                       lambda each: each['measures']['first'].update(brier=None), lambda each: each['ranges'].append(None),
                       lambda each: each['ranges'][0].update(includes_to=1), lambda each: each['measures']['first']['roc'].pop('decimal')):
            changed = copy.deepcopy(sound)
            change(changed)
            with self.assertRaises(Misfit):
                Shapes().check(changed)
        for cost in ('1.0', 1.0, None, True, {**shared['separating'][0]['first']['cost'], 'numerator': None}, {}):
            changed = copy.deepcopy(shared)
            changed['separating'][0]['first']['cost'] = cost
            with self.assertRaises(Misfit):
                Shapes().check(changed)

    def test_the_page_has_the_shapes_that_it_names(self) -> None:
        shapes = shapes_of(PAGE)
        self.assertGreater(len(shapes), 20)
        for keys in shapes.values():
            self.assertTrue(keys)


class Names(Case):
    """Names of files, tables and grades with anything in them."""

    def test_they_come_back_as_they_are(self) -> None:
        for name in NAMES:
            cell = '"' + name.replace('"', '""').replace('\n', ' ').replace('\x00', '') + '"'
            kept = cell[1:-1].replace('""', '"')
            text = f'name,{cell}\ngrade,obligors,defaults,announced\n{cell},5,1,200000\n'
            file = self.put(name.replace('\x00', '') + '.csv', text)
            ran = ask('show', file, '--json')
            self.assertTrue(ran.out.isascii())
            data = ran.data()
            self.assertEqual((data['rater']['name'], data['rater']['file'], data['grades'][0]['label']), (kept, file, kept))
            Shapes().check(data)
            text = ask('show', file).out
            self.assertFalse([each for each in text if not each.isprintable() and each != '\n'], name)

    def test_a_name_that_is_no_text(self) -> None:
        path = os.path.join(os.fsencode(self.folder), b'\xff\xfe.book')
        with open(path, 'wb') as file:
            file.write(content_of(example('k.book')))
        ran = run('show', path, '--json')
        self.assertTrue(ran.out.isascii())
        self.assertEqual(os.fsencode(json.loads(ran.out)['rater']['file']), path)

    def test_of_what_is_refused(self) -> None:
        data = ask('show', self.put('a\nb.csv', 'a\x1b,"b,\n'), '--json').data()
        Shapes().check(data)
        self.assertIn(self.path('a\nb.csv'), data['refusals'][0]['where'])


class Output(Case):
    def test_one_object_on_a_line_of_its_own(self) -> None:
        ran = run('compare', example('h.book'), '--json')
        self.assertEqual((ran.status, ran.err), (0, ''))
        self.assertTrue(ran.out.startswith('{\n') and ran.out.endswith('\n}\n'))

    def test_refusals_are_on_both_streams_and_questions_in_the_object_alone(self) -> None:
        ran = ask('show', example('refusals.book'), '--json')
        self.assertEqual(len(ran.err.splitlines()), len(ran.data()['refusals']))
        asked = ask('show', self.put('a.csv', OBLIGORS + '10,2,10%\n10,1,20%\n'), '--json')
        self.assertEqual((len(asked.data()['questions']), asked.err), (2, ''))

    def test_wrong_usage_has_no_object(self) -> None:
        for words in (('show',), ('show', example('none.book')), ('compare', example('k.book'))):
            self.assertEqual(ask(*words, '--json')[:2], (2, ''))


if __name__ == '__main__':
    unittest.main()
