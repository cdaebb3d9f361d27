"""Tests the reader of CSV files: every rule both ways, the examples, random files in a lawful dress, and 20,000 damaged ones.

    python3 tests/desk/test_csv_file.py      # from anywhere
"""
import csv
import os
import random
import re
import sys
import unittest

sys.dont_write_bytecode = True
HERE = os.path.dirname(os.path.abspath(__file__))
TOP = os.path.join(HERE, '..', '..')
EXAMPLES = os.path.join(TOP, 'examples')
sys.path[:0] = [os.path.join(TOP, 'bindings', 'python'), HERE, os.path.join(TOP, 'tests')]

import books  # noqa: E402
from csv_dress import Dress, damaged  # noqa: E402
from desk.command.csv_file import Problem, Sheet, is_text, read_csv  # noqa: E402

OBLIGORS = 'obligors,defaults,announced\n'
SURVIVORS = 'survivors,defaults,announced\n'
SEMICOLONS = 'obligors;defaults;announced\n'
GRADED = 'grade,obligors,defaults,announced\n'
NOTED = 'obligors,defaults,announced,note\n'
BOOK_K = bytes.fromhex('01002e00060003000000' '0a00000002000000a0860100' '0a00000001000000f0490200' '1400000004000000400d0300')
WHY_IT_MATTERS = ('A column of survivors taken for obligors changes the default rates', 'can make the losing scale win',
                  'every figure still looks right')
EXPECTED = 'expected a whole number in plain decimal digits'


def read(content):
    return read_csv(content if isinstance(content, bytes) else content.encode())


def plain(sheets):
    """A file with the numbers of these sheets in their plainest form."""
    tables = [[(sheet.counts, 'defaults', 'announced'), *sheet.rows] for sheet in sheets]
    return '\n'.join(''.join(','.join(map(str, row)) + '\n' for row in table) for table in tables)


def file_bytes(*parts):
    with open(os.path.join(*parts), 'rb') as file:
        return file.read()


class Case(unittest.TestCase):
    def taken(self, content):
        """The sheets of a file that is read without problems."""
        sheets, problems, _ = read(content)
        self.assertEqual(problems, [], content[:200])
        return sheets

    def rows(self, content):
        """The rows of the one table of a file."""
        sheet, = self.taken(content)
        return sheet.rows

    def refused(self, content, *places):
        """That a file has these problems and no other: of each the line, the column, the name and words of why."""
        reading = read(content)
        self.assertEqual([problem[:3] for problem in reading.problems], [place[:3] for place in places], reading.problems)
        self.assertEqual((reading.sheets, reading.notes), ([], []))
        for problem, place in zip(reading.problems, places):
            for words in place[3:]:
                self.assertIn(words, problem.why)


class Examples(Case):
    def names(self):
        """Those that have a book of their name."""
        files = os.listdir(EXAMPLES)
        names = sorted(name[:-4] for name in files if name.endswith('.csv') and f'{name[:-4]}.book' in files)
        self.assertGreaterEqual(len(names), 6)
        return names

    def test_two_raters_of_the_portfolio_with_the_names_of_their_grades(self):
        """inhouse.csv counts as the portfolio's rater 1 does, agency.csv has its rater 3 by survivors."""
        portfolio = self.taken(file_bytes(EXAMPLES, 'portfolio.csv'))
        inhouse, = self.taken(file_bytes(EXAMPLES, 'inhouse.csv'))
        agency, = self.taken(file_bytes(EXAMPLES, 'agency.csv'))
        self.assertEqual((inhouse.name, inhouse.counts, inhouse.rows), ('In-house', 'obligors', portfolio[0].rows))
        self.assertEqual((agency.name, agency.counts), ('Agency', 'survivors'))
        self.assertEqual([(s + d, d, p) for s, d, p in agency.rows], portfolio[2].rows)

    def test_they_hold_the_tables_of_their_books(self):
        for name in self.names():
            tables = [(books.KINDS[sheet.counts], sheet.rows) for sheet in self.taken(file_bytes(EXAMPLES, f'{name}.csv'))]
            self.assertEqual(books.encoded(tables), file_bytes(EXAMPLES, f'{name}.book'), name)

    def test_they_can_be_written_again(self):
        """But for the names of raters."""
        for name in self.names():
            content = file_bytes(EXAMPLES, f'{name}.csv')
            self.assertEqual(plain(self.taken(content)).encode(), re.sub(b'(?m)^name,.*\n', b'', content), name)

    def test_the_names_of_a_committee(self):
        sheets = self.taken(file_bytes(EXAMPLES, 'committee.csv'))
        self.assertEqual([sheet.name for sheet in sheets], ['Branch', 'Agency', 'Counter', 'In-house', 'Bureau', 'Vendor'])
        for at, file in ((1, 'agency.csv'), (3, 'inhouse.csv')):
            same, = self.taken(file_bytes(EXAMPLES, file))
            self.assertEqual((same.name, same.counts, same.rows), (sheets[at].name, sheets[at].counts, sheets[at].rows))

    def test_books_are_told_from_texts(self):
        for name in os.listdir(EXAMPLES):
            if name.endswith(('.csv', '.book')):
                self.assertEqual(is_text(file_bytes(EXAMPLES, name)), name.endswith('.csv'), name)


class Text(Case):
    def test_encodings(self):
        text = 'grade;obligors;defaults;announced\r\nÄÄ–;10;2;30\r\n'
        for content in (text.encode(), b'\xef\xbb\xbf' + text.encode(), b'\xff\xfe' + text.encode('utf-16-le'),
                        b'\xfe\xff' + text.encode('utf-16-be'), b'\xff\xfe' + text.replace(';', '\t').encode('utf-16-le')):
            sheet, = self.taken(content)
            self.assertEqual((sheet.rows, sheet.labels), ([(10, 2, 30)], [['ÄÄ–']]))

    def test_not_text(self):
        def not_text(content, line):
            self.refused(content, (line, None, None, 'this is not UTF-8 text. Save the sheet as CSV (UTF-8)'))
        not_text(OBLIGORS.encode() + b'1,0,0\n1\xa0000,0,0\n1,0,x\n', 3)
        not_text(OBLIGORS.encode() + b'1,0,0\r1,0,0\r\n1\xa0000,0,0\n', 4)
        not_text('grade,obligors\n'.encode() + 'Größe,1\n'.encode('latin-1'), 2)
        not_text(OBLIGORS.encode() + b'1,0,\xed\xa0\x80\n', 2)
        not_text(OBLIGORS.encode('utf-16-le'), 1)
        not_text(b'\xff\xfe' + (OBLIGORS + '1,0,0').encode('utf-16-le') + b'\0', 2)
        not_text(b'\xff\xfe' + (OBLIGORS + '1,0,').encode('utf-16-le') + b'\x00\xd8\n\0', 2)
        not_text(b'\xff\xfe\0\0' + OBLIGORS.encode('utf-32-le'), 1)
        not_text(BOOK_K, 1)
        not_text(OBLIGORS + '1,0,0\n\0,0,0\n', 3)
        not_text(OBLIGORS.encode() + b'1,\0,0\n\xff,0,0\n', 2)

    def test_line_ends(self):
        for end in ('\n', '\r\n', '\r'):
            text = OBLIGORS + '1,0,0\n2,x,0\n\n' + SURVIVORS + '3,0,y\n'
            self.refused(text.replace('\n', end), (3, 2, 'defaults'), (6, 3, 'announced'))
            self.assertEqual(self.rows((OBLIGORS + '1,2,3').replace('\n', end)), [(1, 2, 3)])
        self.refused(OBLIGORS + '1,0,0\r1,0,0\r\n1,0\n', (4, 3, 'announced', 'cells: 2'))
        self.assertEqual(self.rows(NOTED + '1,2,3,\u2028\x0b\x0c\x85\x1c\n'), [(1, 2, 3)])

    def test_what_is_text(self):
        for content in (b'', b'a', OBLIGORS.encode(), b'\xff\xfea\0', b'\xfe\xff\0a', b'\xef\xbb\xbf', b'\xff'):
            self.assertTrue(is_text(content), content)
        for content in (BOOK_K, b'\0', b'\1\0\4\0', OBLIGORS.encode() + b'\0', OBLIGORS.encode('utf-16-le')):
            self.assertFalse(is_text(content), content)


class Layout(Case):
    """How tables stand in a file."""

    def test_several_tables(self):
        first, second, third = OBLIGORS + '5,2,1\n', SURVIVORS + '5,2,1\n', OBLIGORS + '6,0,7\n8,1,9\n'
        columns = {'obligors': 1, 'defaults': 2, 'announced': 3}
        self.assertEqual(self.taken(f'{first}\n{second}\n{third}'), [
            Sheet(None, 'obligors', 1, columns, [(5, 2, 1)], [2], [], [[]]),
            Sheet(None, 'survivors', 4, {'survivors': 1, 'defaults': 2, 'announced': 3}, [(5, 2, 1)], [5], [], [[]]),
            Sheet(None, 'obligors', 7, columns, [(6, 0, 7), (8, 1, 9)], [8, 9], [], [[], []])])

    def test_habits_of_spreadsheets(self):
        for text in (
                'survivors,defaults,announced\n10,2,30\n7,0,40', 'survivors,defaults,announced\r\n10,2,30\r\n7,0,40\r\n',
                '\ufeffsurvivors,defaults,announced\n10,2,30\n7,0,40\n', 'SURVIVORS, Defaults , announced\t\n 10 ,2\t, 30\n7,0,40\n',
                '"survivors","defaults", "announced"\n"10","2"," 30 "\n7,0,40\n', 'survivors;defaults;announced\n10;2;30\n7;0;40\n',
                '\ufeff"Survivors";"Defaults";"Announced"\r\n10;2;30\r\n7;0;40\r\n;;\r\n', '\n,,\n' + SURVIVORS + '10,2,30\n7,0,40\n,,\n\n',
                SURVIVORS + '010,002,0000030\n7,0,40\n', 'survivors\tdefaults\tannounced\n10\t2\t30\n7\t0\t40\n',
                'survivors,defaults,announced,,\n10,2,30,,\n7,0,40,,\n', SURVIVORS + '10,2,30,\n7,0,40,,, \n'):
            with self.subTest(text):
                sheet, = self.taken(text)
                self.assertEqual((sheet.counts, sheet.rows, sheet.label_names, sheet.labels),
                                 ('survivors', [(10, 2, 30), (7, 0, 40)], [], [[], []]))

    def test_an_empty_spreadsheet_row_ends_a_table(self):
        for blank in ('\n', ',,\n', ' , ,\n', '"","",""\n', '\n\n,,,,\n', ';;\n', '\t\n'):
            sheets = self.taken(OBLIGORS + '1,0,0\n' + blank + SURVIVORS + '1,0,0\n')
            self.assertEqual([(sheet.counts, sheet.rows) for sheet in sheets], [('obligors', [(1, 0, 0)]), ('survivors', [(1, 0, 0)])])

    def test_a_later_table_needs_a_header(self):
        self.refused(OBLIGORS + '1,0,0\n\n2,0,0\n3,0,0\n', (4, None, None, "the header names '2', '0', '0', neither obligors nor survivors",
                                                           'A blank line ends a table', *WHY_IT_MATTERS))

    def test_a_header_or_a_name_needs_a_blank_line(self):
        self.refused(OBLIGORS + '1,0,0\n' + SURVIVORS + '1,0,x\n' + GRADED + '1,0,0\n',
                     (3, None, None, 'a header within a table. Put a blank line before the next table'), (4, 3, 'announced'),
                     (5, None, None, 'a header within a table'), (6, 4, 'announced', 'cells: 3; expected 4'))
        self.refused(OBLIGORS + '1,0,0\nName,Second\n' + SURVIVORS + '1,0,0\n', (3, None, None, 'a name line within a table'))
        self.refused(OBLIGORS + '1,0,0\nn,Defaults,announced (%)\n1,0,x\n', (3, None, None, 'a header within a table'),
                     (3, None, None, *WHY_IT_MATTERS))

    def test_a_label_may_be_the_name_of_a_column(self):
        sheet, = self.taken('a,b,c,survivors,defaults,announced\nname,defaults,announced,5,0,0\nobligors,survivors,,6,0,0\n')
        self.assertEqual(sheet.rows, [(5, 0, 0), (6, 0, 0)])

    def test_nothing_in_it(self):
        for content in ('', '\n\n', '\ufeff', ',,\r\n', 'sep=;\n\n', b'\xff\xfe'):
            self.refused(content, (None, None, None, 'no table is in it. Expected a header such as obligors,defaults,announced'))
            self.assertEqual(read(content).problems[0].number, 3)
        self.assertEqual(read('x').problems[0].number, None)

    def test_a_header_alone(self):
        first, second = self.taken(OBLIGORS + '\n' + SURVIVORS)
        self.assertEqual((first.rows, first.line, second.rows, second.line), ([], 1, [], 3))

    def test_lines_of_cells(self):
        expected = 'expected 3 (obligors, defaults, announced)'
        for row, column, name, words in (
                ('1,2', 3, 'announced', 'cells: 2'), ('1', 2, 'defaults', 'cells: 1'), ('n/a', 2, 'defaults', 'cells: 1'),
                ('1,0,0,0', 4, None, 'Put a cell that holds commas in quotes'), ('1,0,0,,5', 5, None, 'cells: 5'),
                ('1;0;0', 2, 'defaults', 'The cells of this file are separated by commas'), ('# 1,0,0,0', 4, None, 'cells: 4')):
            self.refused(OBLIGORS + '1,0,0\n' + row + '\n1,0,0\n', (3, column, name, 'cells: ', expected, words))
        self.refused(GRADED + 'A,1\n', (2, 3, 'defaults', "cells: 2; expected 4 ('grade', obligors, defaults, announced)"))
        self.refused(OBLIGORS + '# 1,0,0\n', (2, 1, 'obligors', "'# 1'"))
        self.refused('# a comment\n' + OBLIGORS + '1,0,0\n', (1, None, None, *WHY_IT_MATTERS))

    def test_quotes_without_a_partner(self):
        def not_cells(row, *others):
            self.refused(OBLIGORS + '1,0,0\n' + row + '\n1,0,x\n', (3, None, None, 'not a line of CSV cells'),
                         *others, (row.count('\n') + 4, 3, 'announced'))
        for row in ('"1,0,0', '"1"1,0,0', '1,0,"0', '"', '"""', '1,0,"0\n"', '1,0,"0\nand\nmore"', '1,0,0,"a\nb",c'):
            not_cells(row)
        not_cells('"1,0,0\n"1,0,0', (4, None, None, 'not a line of CSV cells'))
        not_cells('"1,0,0\ny,0,0', (4, 1, 'obligors'))
        not_cells('"1,0,0\ny,0,"0"', (4, 1, 'obligors'))
        self.refused('"obligors,defaults,announced\nx,y,z\n', (1, None, None, 'not a line of CSV cells'))


class Separators(Case):
    def test_a_line_that_sets_it(self):
        for line, separator in (('sep=;', ';'), ('sep=,', ','), ('sep=\t', '\t'), ('sep=\\t', '\t'), ('SEP=;', ';'), ('"sep=;"', ';'),
                                ('sep=; ', ';'), ('\ufeffsep=;', ';')):
            with self.subTest(line):
                sheet, = self.taken(f'{line}\n{separator.join(("obligors", "defaults", "announced"))}\n{separator.join("123")}\n')
                self.assertEqual((sheet.rows, sheet.line), ([(1, 2, 3)], 2))
        self.assertEqual(self.taken('sep=;\nobligors;defaults;announced;a, b\n1;2;3;c,\td\n')[0].labels, [['c,\td']])
        self.assertEqual(self.rows('sep=,\nobligors,defaults,announced,a;b\n1,2,3,c\n'), [(1, 2, 3)])

    def test_a_line_that_does_not(self):
        for line in ('sep=|', 'sep=', 'sep=;;', 'sep=;,', 'sep= ', "sep=';'"):
            self.refused(f'{line}\n{SEMICOLONS}1;2;x\n', (1, None, None, 'Write sep=, or sep=; or sep= and a tab'), (3, 3, 'announced'))
        only_first = 'can only be the first line of the file'
        self.refused(f'\nsep=;\n{SEMICOLONS}1;2;x\n', (2, None, None, only_first), (4, 3, 'announced'))
        self.refused(OBLIGORS + '1,2,3\n\nsep=;\n', (4, None, None, only_first))

    def test_found_from_the_first_header(self):
        self.assertEqual(self.taken('obligors;defaults;announced;"a, b\tc"\n1;2;3;d,e\n')[0].label_names, ['a, b\tc'])
        self.assertEqual(self.taken('name,A; B\nobligors,defaults,announced\n1,2,3\n')[0].name, 'A; B')
        self.assertEqual(self.taken('name;"A, B"\nobligors;defaults;announced\n1;2;3\n')[0].name, 'A, B')
        self.assertEqual(self.taken('"name"\t"A"\n"obligors"\t"defaults"\tannounced\n1\t2\t3\n')[0].name, 'A')

    def test_not_clear(self):
        for header, words in (('obligors;defaults,announced', 'commas and semicolons'),
                              ('obligors;defaults;announced;a, b', 'commas and semicolons'),
                              ('obligors,defaults,announced,a\tb', 'commas and tabs'),
                              ('a\tobligors;defaults,b', 'commas and semicolons and tabs')):
            words = f'the header has {words}, so it is not clear which of them separates the cells'
            self.refused(f'{header}\n1;0;0\n\n{SEMICOLONS}1;0;x\n', (1, None, None, words, 'sep=;', 'quotes'), (5, 3, 'announced'))

    def test_a_title_does_not_set_it(self):
        self.refused(f'Grades, 2025\n\n{SEMICOLONS}1;0;x\n', (1, None, None, *WHY_IT_MATTERS), (4, 3, 'announced'))

    def test_it_holds_for_the_whole_file(self):
        hint = 'The cells of this file are separated by '
        self.refused(f'{OBLIGORS}1,0,0\n\n{SEMICOLONS}1;0;0\n', (4, 1, None, *WHY_IT_MATTERS, f'{hint}commas'))
        self.refused(f'sep=;\n{OBLIGORS}1,0,0\n', (2, 1, None, *WHY_IT_MATTERS, f'{hint}semicolons'))
        hint = 'Cells are separated by commas, semicolons or tabs'
        self.refused('obligors|defaults|announced\n1|0|0\n', (1, 1, None, *WHY_IT_MATTERS, hint))


class Header(Case):
    def test_any_order_and_further_columns(self):
        sheet, = self.taken('Grade, Announced,DEFAULTS,note,survivors \nA,30,2,"x, y",10\nB,40,0,,7\nC,50,1,z,8,,\n')
        self.assertEqual(sheet, Sheet(None, 'survivors', 1, {'survivors': 5, 'defaults': 3, 'announced': 2},
                                      [(10, 2, 30), (7, 0, 40), (8, 1, 50)], [2, 3, 4],
                                      ['Grade', 'note'], [['A', 'x, y'], ['B', ''], ['C', 'z']]))
        self.assertEqual(list(sheet.columns), ['survivors', 'defaults', 'announced'])
        self.assertEqual(self.taken(NOTED + '1,2,3\n')[0].labels, [['']])

    def test_one_that_says_neither(self):
        for name in ('n', 'firms', 'defaulted', '10', '', 'total'):
            words = f'the header names {name!r}, defaults, announced, neither obligors nor survivors'
            self.refused(f'{name},defaults,announced\n10,2,x\n', (1, None, None, words, *WHY_IT_MATTERS))
        for name in ('obligor', 'Survivor', 'obligors (n)', 'no. of obligors', '\ufeffobligors', 'obligors\u00a0'):
            self.refused(f'grade,{name},defaults,announced\nA,10,2,x\n', (1, 2, None, f'{name!r}', *WHY_IT_MATTERS))
        self.refused('grade,n,d,rate\nA,1,2,3\n', (1, None, None, *WHY_IT_MATTERS))

    def test_a_title_before_it(self):
        hint = 'The next line looks like the header. Leave this one out, or write it as name,NAME'
        self.refused(f'Grades 2025\n{OBLIGORS}1,0,x\n', (1, None, None, "'Grades 2025'", *WHY_IT_MATTERS, hint))
        self.refused(f'{OBLIGORS}1,0,0\n\nGrades;2025\n{OBLIGORS}1,0,x\n', (4, None, None, "'Grades;2025'", *WHY_IT_MATTERS, hint))

    def test_one_that_says_both(self):
        both = 'the header says both obligors and survivors'
        for header in ('obligors,survivors,defaults,announced', 'obligors/survivors,defaults,announced',
                       'Obligors,defaults,announced,SURVIVORS', 'grade,survivors,defaults,announced,of all obligors',
                       'survivors (not obligors),defaults,announced,obligors'):
            self.refused(f'{header}\n10,2,x\n', (1, None, None, both, 'Keep one of the two', *WHY_IT_MATTERS))
        self.refused('n,obligors,survivors\n1,2,3\n', (1, None, None, both), (1, None, 'defaults'), (1, None, 'announced'))

    def test_why_it_matters(self):
        """At prices 3 and 2 the first rater costs 5 and the second 6. Survivors taken for obligors say 3 and 2."""
        first, second = '4,1,200000\n1,1,500000\n', '2,0,0\n3,2,400000\n'

        def cheapest(sheet):
            rows = [(defaults, count if sheet.counts == 'survivors' else count - defaults) for count, defaults, _ in sheet.rows]
            return min(3 * sum(d for d, _ in rows[:kept]) + 2 * sum(s for _, s in rows[kept:]) for kept in range(len(rows) + 1))
        for header, costs in ((SURVIVORS, [5, 6]), (OBLIGORS, [3, 2])):
            self.assertEqual(list(map(cheapest, self.taken(f'{header}{first}\n{header}{second}'))), costs)

    def test_a_column_that_is_missing(self):
        self.refused('obligors,announced\n1,x\n', (1, None, 'defaults', 'the header names no column defaults'))
        self.refused('survivors,defaults,rate\n1,0,x\n', (1, None, 'announced', 'the header names no column announced', 'announced (%)'))
        self.refused('survivors\n1\n', (1, None, 'defaults'), (1, None, 'announced'))
        self.refused('obligors,default,announced (bp)\n1,0,x\n', (1, 2, 'defaults', "'default' is not understood"),
                     (1, 3, 'announced', "'announced (bp)' is not understood"))
        self.refused('n,d,announced\n1,0,x\n', (1, None, None, *WHY_IT_MATTERS), (1, None, 'defaults'))

    def test_a_column_that_is_named_twice(self):
        self.refused('obligors,defaults,announced,Defaults,obligors,defaults\n1,0,0,x,1\n', (1, 4, 'defaults', 'in column 2 already'),
                     (1, 5, 'obligors', 'in column 1 already'))
        self.refused('obligors,defaults,announced (ppm),announced (%)\n1,0,0,x\n', (1, 4, 'announced', 'in column 3 already'))
        self.assertEqual(self.taken('a,a,obligors,defaults,announced\nx,y,1,2,3\n')[0].labels, [['x', 'y']])

    def test_columns_without_a_name(self):
        self.assertEqual(self.rows(',obligors,,defaults,announced,,\n,1,,2,3,,\n,4,,5,6\n,7,,8,9,,,,\n'), [(1, 2, 3), (4, 5, 6), (7, 8, 9)])
        self.refused(',obligors,defaults,,announced\nA,1,2,,x\nB,1,2,y,3\nC,1,2,z,3\n',
                     (1, 1, None, "line 2 has 'A' in it. Name this column"), (1, 4, None, "line 3 has 'y' in it. Name this column"),
                     (2, 5, 'announced'))

    def test_a_later_header_is_read_like_the_first(self):
        self.refused(OBLIGORS + '1,0,x\n\nfirms,defaults,announced\n1,0,0\n\nsurvivors,announced\n', (2, 3, 'announced'),
                     (4, None, None, *WHY_IT_MATTERS), (7, None, 'defaults'))

    def test_how_many_columns(self):
        labels = [str(number) for number in range(97)]
        sheet, = self.taken(f'obligors,defaults,announced,{",".join(labels)},,,\n1,2,3,a\n')
        self.assertEqual((sheet.label_names, sheet.labels), (labels, [['a'] + [''] * 96]))
        text = f'obligors,defaults,announced,more,{",".join(labels)}\n1,2,x\n'
        self.refused(text, (1, None, None, 'columns in the header: 101; at most 100'))


class Names(Case):
    def test_names(self):
        for line, name in (('name,In-house 2025', 'In-house 2025'), ('Rater, A ,,', 'A'), ('NAME,"A, B"', 'A, B'),
                           ('name,obligors', 'obligors'), ('rater,7', '7')):
            sheet, = self.taken(f'\n{line}\n{OBLIGORS}1,2,3\n')
            self.assertEqual((sheet.name, sheet.line, sheet.lines), (name, 3, [4]))
        sheets = self.taken(f'name,A\n{OBLIGORS}1,2,3\n\n{OBLIGORS}1,2,3\n\nname,C\n{SURVIVORS}1,2,3\n')
        self.assertEqual([sheet.name for sheet in sheets], ['A', None, 'C'])

    def test_a_header_may_start_with_the_same_word(self):
        self.assertEqual(self.taken('name,obligors,defaults,announced\nA,1,2,3\n')[0].labels, [['A']])
        self.refused('Rater,n,d,announced\nA,1,2,3\n', (1, None, None, *WHY_IT_MATTERS), (1, None, 'defaults'))
        self.refused('name,n,d,rate\nA,1,2,3\n', (1, None, None, *WHY_IT_MATTERS))

    def test_names_without_a_header(self):
        alone = 'a line that names a table, and no header below it'
        self.refused('name,A\n', (1, None, None, alone))
        self.refused('name,A\n\n' + OBLIGORS + '1,2,x\n', (1, None, None, alone), (4, 3, 'announced'))
        self.refused('name,A\nname,B\n' + OBLIGORS + '1,2,3\n', (1, None, None, alone))
        self.refused(OBLIGORS + '1,2,3\n\nrater,"A, B"', (4, None, None, alone))
        self.refused('name,A\n1,2,3\n', (2, None, None, *WHY_IT_MATTERS))
        self.refused('name,A\nsep=,\n' + OBLIGORS + '1,2,3\n', (1, None, None, alone), (2, None, None, 'only be the first line'))

    def test_lines_that_are_no_names(self):
        words = 'expected the name of the table in the second cell and nothing else', 'separated by commas'
        for line in ('name', 'name,', 'name,,A', 'name,A, B', 'name,A,,B', 'name;A', 'name,"A'):
            self.refused(f'{line}\n{OBLIGORS}1,2,x\n', (1, None, None, *words), (3, 3, 'announced'))


class Cells(Case):
    TAKEN = {
        '0': 0, '7': 7, '007': 7, '0' * 18: 0, '9' * 18: 10 ** 18 - 1, '1 000': 1000, '1\u00a0000': 1000, '12\u202f345': 12345,
        '123\u2009456': 123456, "1'000": 1000, '1\u2019000\u2019000': 10 ** 6, '1,234,567': 1234567, '1.234.567': 1234567,
        '123 456 789 012 345 678': 123456789012345678, '123,456,789,012,345,678': 123456789012345678, '100,200,300,400': 100200300400}
    REFUSED = {
        '1.000': 'write 1000, or 1 if that is meant', '1,000': 'write 1000, or 1 if that is meant',
        '12.500': 'write 12500 if that is meant, and no decimals', '1.5': 'not a decimal', '0,5': 'not a decimal', '.5': 'not a decimal',
        '12.0': 'write 12', '12,': 'write 12', '1234.000': 'write 1234', '1e3': 'write it in full (1000,',
        '1.23E+05': 'write it in full (123000,', '1e-3': 'write it in full', '5E99': 'write it in full', '-3': '0 or more',
        '\u22123': '0 or more', '+3': 'write 3', '-': 'write 0 if it means none', '\u2013': 'write 0 if it means none',
        '': 'write 0 if that is meant', ' ': 'write 0 if that is meant', '=1+1': 'write what the formula gives',
        '#REF!': 'the spreadsheet had an error', '#N/A': 'the spreadsheet had an error', '٣': 'write 3', '３４': 'write 34',
        '1\u00a0': 'write 1, without the spaces', '\u00a01': 'write 1, without the spaces', '1_000': 'without separators',
        '12 34': 'without separators', "1 234'567": 'without separators', '1,234.567': 'without separators',
        '12,34,567': 'without separators', '0 500': 'without separators', '1  000': 'without separators', '1 0000': 'without separators',
        '1,234,5678': 'without separators', '1 234 567 890 123 456 789': 'without separators', '0x10': 'at most 18', '²': 'at most 18',
        'n/a': 'at most 18', '1' * 19: 'at most 18', 'x' * 1000: 'at most 18', '1\u3000000': 'at most 18', '\uff0d3': 'at most 18',
        '1\u200b': 'at most 18'}

    def in_each_column(self, cell):
        for column, name in enumerate(('survivors', 'defaults', 'announced'), 1):
            cells = ['1', '0', '0']
            cells[column - 1] = f'"{cell}"'
            yield column, name, SURVIVORS + '1,0,0\n' + ','.join(cells) + '\n1,0,0\n'

    def test_taken(self):
        for cell, number in self.TAKEN.items():
            for column, _, text in self.in_each_column(cell):
                self.assertEqual(self.rows(text)[1][column - 1], number, cell)
            if ',' not in cell:
                self.assertEqual(self.rows(OBLIGORS + f'{cell},0,0\n'), [(number, 0, 0)])
            self.assertEqual(self.rows(SEMICOLONS + f'0;{cell};0\n'), [(0, number, 0)])

    def test_refused(self):
        for cell, instead in self.REFUSED.items():
            shown = repr(cell if len(cell) <= 40 else cell[:40] + '...') if cell.strip(' ') else 'an empty cell'
            for column, name, text in self.in_each_column(cell):
                with self.subTest(cell=cell, column=column):
                    self.refused(text, (3, column, name, f'{shown}; {EXPECTED}', instead))
            self.refused(SEMICOLONS + f'10;{cell};0\n', (2, 2, 'defaults', shown, instead))

    def test_a_share_is_no_count(self):
        for cell, words in (('12%', 'share'), ('0.5 %', 'share'), ('5‰', 'share'), ('%5', 'share'), ('=A1%', 'formula')):
            self.refused(SEMICOLONS + f'10;{cell};0\n{cell};0;0\n', (2, 2, 'defaults', repr(cell), words),
                         (3, 1, 'obligors', repr(cell), words))

    def test_a_line_without_numbers(self):
        none = 'no numbers in this line. Fill them in, or leave the line out'
        self.refused(GRADED + 'A,1,0,0\nSpeculative,,,\nB,1,,0\n', (3, None, None, none), (4, 3, 'defaults', 'an empty cell'))


class CommasInNumbers(Case):
    """A comma within a number, without quotes in a file that is separated by commas."""

    def test_a_cell_too_many(self):
        looks = 'It looks as if '
        self.refused(OBLIGORS + '1,000,2,0\n', (2, 1, 'obligors', 'cells: 4; expected 3', f"{looks}'1,000' is one number: write 1000"))
        self.refused(GRADED + 'A,10,2,1,500\n', (2, 4, 'announced', f"{looks}'1,500' is one number: write 1500"))
        self.refused(OBLIGORS + '10,1,234,567,8\n', (2, 2, 'defaults', f"{looks}'1,234' is one number: write 1234"))
        self.refused(OBLIGORS + '10,2,0,5%\n', (2, 3, 'announced', f"{looks}'0,5%' is one number: write 0.5%"))
        self.refused('obligors,defaults,announced (%)\n10,2,0,5\n', (2, 3, 'announced', f"{looks}'0,5' is one number: write 0.5"))
        self.refused(OBLIGORS + '10,2,1,125\u00a0%\n10,2,33,3351\u00a0%\n', (2, 4, None, 'in quotes'),
                     (3, 3, 'announced', f"{looks}'33,3351\\xa0%' is one number: write 33.3351%"))
        self.refused(OBLIGORS + '10,2,0,x\n', (2, 4, None, 'Put a cell that holds commas in quotes'))
        self.refused(SEMICOLONS + '1;000;2;0\n', (2, 4, None, 'Put a cell that holds semicolons in quotes'))

    def test_a_row_in_two_ways(self):
        doubt = 'may be one number or two cells: write '
        for rows in ('900,3,600,\n1,000,2,500,\n', '900,3,600\n1,000,2,500\n', '900,3,600,x\n1,000,2,500,\n'):
            self.refused(NOTED + rows, (3, 1, 'obligors', f"'1,000' {doubt}1000"))
        self.refused('obligors,defaults,announced,\n900,3,600,\n1,000,2,500\n', (3, 1, 'obligors', f"'1,000' {doubt}1000"))
        self.refused(NOTED + '900,3,600\n12,5,1,500\n', (3, 3, 'announced', f"'1,500' {doubt}1500"))
        self.refused('obligors,defaults,announced %,note\n90,3,6\n12,5,0,5\n', (3, 3, 'announced', f"'0,5' {doubt}0.5"))

    def test_a_row_in_one_way(self):
        for text in (NOTED + '900,3,600,1\n120,5,500,2\n', NOTED + '900,3,600\n120,5,500,x\n', OBLIGORS + '900,3,600,\n120,5,500,,\n',
                     'note,obligors,defaults,announced,\n7,900,3,600,\n7,120,5,500\n',
                     'obligors;defaults;announced;rank\n900;3;600;\n120;5;500;2;;\n'):
            self.assertEqual(self.rows(text), [(900, 3, 600), (120, 5, 500)])


class Announced(Case):
    """Rates in ppm, percent and per mille."""

    def table(self, cells, header='announced'):
        return f'obligors;defaults;{header}\n' + ''.join(f'9;1;{cell}\n' for cell in cells)

    def rates(self, *cells, header='announced'):
        return [announced for _, _, announced in self.rows(self.table(cells, header))]

    def refused_rates(self, cells, *places, header='announced'):
        self.refused(self.table(cells, header), *((line, 3, 'announced', *words) for line, *words in places))

    def test_percent(self):
        self.assertEqual(self.rates('0.5%', '0.5 %', '0,5%', '0,5\u00a0%', '12\u202f%', '0%', '100%'),
                         [5000, 5000, 5000, 5000, 120000, 0, 1000000])
        self.assertEqual(self.rates('0.0001%', '0,125%', '0.125%', '1.25%', '1,2500%', '007.5%'), [1, 1250, 1250, 12500, 12500, 75000])
        self.assertEqual(self.rates('5‰', '0.5 ‰', '0,125‰', '12,5‰'), [5000, 500, 125, 12500])

    def test_percent_by_the_header(self):
        for header in ('announced %', 'announced (%)', 'Announced Percent'):
            self.assertEqual(self.rates('0.5', '0,5', '12', '0.5%', '3 %', header=header), [5000, 5000, 120000, 5000, 30000])
        for header in ('announced ppm', 'announced (ppm)', 'ANNOUNCED [PPM]', 'announced'):
            self.assertEqual(self.rates('5000', '1 000', header=header), [5000, 1000])

    def test_other_units_of_the_header(self):
        for header in ('announced (bp)', 'announced ‰', 'announced rate', 'announced in %', 'announced(%)', 'announced  %'):
            self.refused(self.table(['1'], header), (1, 3, 'announced', 'the header names no column announced', 'is not understood'))
        self.refused_rates(['0.5%', '5000', '5‰'], (2, 'in ppm: write 5000'), (4, 'in ppm: write 5000'), header='announced (ppm)')
        self.refused_rates(['0.5', '5‰', '5000'], (3, 'in percent: write 0.5%'), header='announced (%)')

    def test_it_says_so(self):
        def notes(*cells, header='announced'):
            return read(self.table(cells, header)).notes
        self.assertEqual(notes('0%', '0.5%'), ['rates of rater 1 are read as percent: 0.5% is 5000 ppm'])
        self.assertEqual(notes('0,5 %', '7%'), ['rates of rater 1 are read as percent: 0,5 % is 5000 ppm'])
        self.assertEqual(notes('0', '0.5', header='announced %'), ['rates of rater 1 are read as percent: 0.5% is 5000 ppm'])
        self.assertEqual(notes('0‰'), ['rates of rater 1 are read as per mille: 0‰ is 0 ppm'])
        self.assertEqual((notes('5000'), notes(header='announced %')), ([], []))
        both = self.table(['5']) + '\n' + self.table(['5%'])
        self.assertEqual(read(both).notes, ['rates of rater 2 are read as percent: 5% is 50000 ppm'])
        self.assertEqual(read_csv(both.encode(), 4).notes, ['rates of rater 5 are read as percent: 5% is 50000 ppm'])

    def test_not_whole_ppm(self):
        self.refused_rates(['0.00001%', '1%', '0.50000%', '0.0005‰', '1.23456%'], (2, '0.00001% is not a whole number of ppm'),
                           (4, 'more than 4 places behind the point: write 0.5%'),
                           (5, "'0.0005‰'; the rates of this column are in percent"),
                           (6, '1.23456% is not a whole number of ppm: at most 4 places'))
        self.refused_rates(['0.0005‰', '0.5000‰'], (2, '0.0005‰ is not a whole number of ppm: at most 3'), (3, 'write 0.5‰'))
        self.refused_rates(['0.00001'], (2, '0.00001% is not a whole number of ppm'), header='announced %')

    def test_percent_that_may_be_misread(self):
        self.refused_rates(['1,250%', '1.125%', '12.000%', '1%'], (2, 'the comma may part thousands. If this is 12500 ppm, write 1.25%'),
                           (3, 'the point may part thousands. If this is 11250 ppm, write 1.1250%'), (4, 'write 12%'))
        self.refused_rates(['1.125‰', '1.250‰'], (2, 'If this is 1125 ppm, write all rates of the column in percent or ppm'),
                           (3, 'write 1.25‰'))
        self.refused_rates(['1.000', '0.125'], (2, 'If this is 10000 ppm, write 1%'), header='announced %')
        self.assertEqual(self.rates('1.25%', '1.1250%', '12%'), [12500, 11250, 120000])

    def test_what_is_no_percent(self):
        expected = 'expected a number of percent such as 0.5%'
        for cell in ('1,000.5%', '.5%', '5.%', '-1%', '+1%', '1e1%', '%', ' %', '0.5  %', '0.5%%', '<1%', '1 000%', '٣%', '1' * 19 + '%'):
            self.refused_rates(['1%', cell], (3, expected))
        for cell in ('%5', '0.5%x', '=A1%', '<1%'):
            self.refused_rates(['5', cell], (3, f'{cell!r}; {expected}'))
        self.refused_rates(['5', '0.5％'], (3, "'0.5％'"))
        self.refused_rates(['', 'n/a', '1%'], (2, f'an empty cell; {expected}'), (3, f"'n/a'; {expected}"))

    def test_a_mixture(self):
        mixed = "has no percent sign, and other cells of this column have one: write "
        self.refused_rates(['0.5%', '0.5', '5000', '2 500', '1%', '0,5', '1.250'], (3, f"'0.5' {mixed}0.5% if it is percent (5000 ppm)"),
                           (4, f"'5000' {mixed}5000% if it is percent (50000000 ppm) or 0.5% if it is ppm"),
                           (5, f'{mixed}0.25% if it is ppm'), (7, f'{mixed}0,5% if it is percent (5000 ppm)'), (8, 'may part thousands'))
        self.refused_rates(['5000', '0.5%'], (2, mixed))
        self.refused_rates(['0', '5‰', '5'], (2, 'has no per mille sign', 'write 0‰ if it is per mille (0 ppm)'),
                           (4, 'write 5‰ if it is per mille (5000 ppm) or 0.005‰ if it is ppm'))
        self.refused_rates(['5%', '5‰', '12.5‰'], (3, 'the rates of this column are in percent: write 0.5%'), (4, 'write 1.25%'))

    def test_the_advice_can_be_followed(self):
        source, followed = random.Random(4), 0
        for _ in range(1000):
            whole, behind, mark = source.randint(0, 30), source.randint(0, 99999), source.choice(',.')
            cell = source.choice((f'{whole}', f'{whole}{mark}{behind}', f'{whole}{mark}{behind}%', f'{whole}{mark}{behind}‰', f'{behind}0'))
            for cells in (['1', cell], ['1%', cell], ['1‰', cell]):
                for problem in read(self.table(cells)).problems:
                    for advice in re.findall('(?:write|or) ([0-9]+(?:[,.][0-9]+)?[%‰]?)', problem.why):
                        others = [advice if line == problem.line else other for line, other in enumerate(cells, 2)]
                        self.assertNotIn(problem.line, [left.line for left in read(self.table(others)).problems], (problem, others))
                        followed += 1
        self.assertGreater(followed, 1000)

    def test_each_table_has_its_own_unit(self):
        first, second = self.taken(self.table(['5000']) + '\n' + self.table(['0.5%']))
        self.assertEqual(first.rows, second.rows)

    def test_a_line_that_does_not_fit_says_nothing_of_the_unit(self):
        self.refused(OBLIGORS + '9,1,5\n9,1,5%,x\n', (3, 4, None, 'cells: 4'))

    def test_decimals_without_a_sign(self):
        rates = 'Rates are in ppm (millionths): as a share of 1 this would be '
        self.refused_rates(['0.005', '0,5', '12.5', '.5', '1.000', '12.0', '0.0000001', '5000 ppm', '5E-03'],
                           (2, f'{rates}5000 ppm, as percent 50 ppm'), (3, f'{rates}500000 ppm, as percent 5000 ppm'),
                           (4, f'{rates}12500000 ppm, as percent 125000 ppm'), (5, f'{rates}500000 ppm, as percent 5000 ppm'),
                           (6, 'write 1000, or 1 if that is meant', f'{rates}1000000 ppm, as percent 10000 ppm'), (7, 'write 12', rates),
                           (8, f'{rates}0.1 ppm, as percent 0.001 ppm'), (9, 'write the number alone, 5000'), (10, 'write it in full'))


class AllAtOnce(Case):
    def test_in_the_order_of_the_file(self):
        self.refused('announced,,obligors,defaults\nx,a,y,z\n1,,2\n"\n\nfirms,defaults,announced\nx,y,z\n\n'
                     'survivors,defaults,announced\n1,2,-\n1,2,3,4\nname,A\n',
                     (1, 2, None), (2, 1, 'announced'), (2, 3, 'obligors'), (2, 4, 'defaults'), (3, 4, 'defaults'), (4, None, None),
                     (6, None, None), (10, 3, 'announced'), (11, 4, None), (12, None, None, 'a name line within a table'),
                     (12, None, None, 'no header below it'))

    def test_the_rows_of_a_refused_header_are_passed_over(self):
        self.refused('n,defaults,announced\nx,y,z\n' + OBLIGORS + 'x,y,z\n\n' + OBLIGORS + 'x,0,0\n', (1, None, None), (7, 1, 'obligors'))

    def test_at_most_200(self):
        problems = read(OBLIGORS + 'x,0,0\n' * 200).problems
        self.assertEqual([problem.line for problem in problems], list(range(2, 202)))
        for more in (1, 57, 9000):
            problems = read(OBLIGORS + 'x,0,0\n' * (200 + more)).problems
            self.assertEqual([problem.line for problem in problems], list(range(2, 202)) + [None])
            self.assertEqual(problems[-1], Problem(None, None, None, f'problems beyond these 200: {more}'))


class Large(Case):
    """Files that are far too large. None of them takes long."""
    SIZE = 1 << 20

    def test_how_many_lines(self):
        for start in ('', 'sep=,\n'):
            text = start + OBLIGORS + '1,0,0\n' * 9999
            self.assertEqual(len(self.rows(text + '\n' * 20000)), 9999)
            line = text.count('\n') + 3
            self.refused(f'{text}\n\n1,0,0\n\nx\n', (line, None, None, 'more than 10000 lines that are not blank'))

    def test_how_long_a_line(self):
        row = '1,2,3,' + 'a' * (100_000 - 6)
        self.assertEqual(self.rows(f'{NOTED}{row}\n' + ',' * self.SIZE), [(1, 2, 3)])
        self.refused(f'{NOTED}1,2,x,a\n{row}a\n', (3, None, None, 'more than 100000 characters in a line'))

    def test_a_limit_that_another_program_sets(self):
        self.addCleanup(csv.field_size_limit, csv.field_size_limit(10))
        self.refused(NOTED + '1,2,3,"a long, long label"\n1,2,x\n', (2, None, None, 'not a line of CSV cells'), (3, 3, 'announced'))

    def test_shapes(self):
        wide, labelled = OBLIGORS[:-1] + ',' * 90000, OBLIGORS[:-1] + ',a' * 97
        shapes = [('', '\n'), ('', '\r\n'), ('', ','), ('', '"'), ('"', '""'), ('', 'a'), ('', '1'), ('', ' '), ('', 'x\n\n'),
                  ('', OBLIGORS), ('', OBLIGORS + '\n'), ('', 'name,a\n'), ('', 'obligors,'), ('name', ',"'), ('sep=', ';'),
                  (OBLIGORS[:-1], ',a'), (OBLIGORS, '1,0,0\n'), (OBLIGORS, '"1,0,0\n'), (OBLIGORS, '1,'), (OBLIGORS, 'x,y,z\n'),
                  (OBLIGORS + '"', '1,0,0\n'), (OBLIGORS, f'1,2,0.{"0" * 200}1%\n'), (OBLIGORS, f'{"1 " * 100}{"," * 100}\n'),
                  (f'{wide}\n', f'1,0,0{"," * 200}\n'), (f'{wide}a\n', f'1,000,0,5{" " * 200}\n'),
                  (f'{labelled}\n', f'1,0,0{" " * 100}\n')]
        for head, unit in shapes:
            content = (head + unit * (self.SIZE // len(unit)))[:self.SIZE]
            reading = read(content)
            self.assertEqual(bool(reading.sheets), not reading.problems, content[:50])
        self.assertTrue(read(bytes(self.SIZE)).problems)


class AtRandom(Case):
    """From fixed seeds."""

    def test_files_in_lawful_dress(self):
        source = random.Random(1)
        for _ in range(3000):
            dress = Dress(source)
            content = dress.content()
            reading = read_csv(content)
            self.assertEqual(reading.problems, [], content)
            self.assertEqual(reading.sheets, dress.sheets, content)
            self.assertEqual(len(reading.notes), dress.percents, content)
            self.assertTrue(is_text(content))

    def test_20000_damaged_files_are_read_or_refused(self):
        source, seen = random.Random(2), [0, 0]
        for _ in range(20000):
            content = damaged(source, Dress(source, small=True).content())
            reading = read_csv(content)
            self.sound(reading, content)
            seen[bool(reading.problems)] += 1
            self.assertIn(is_text(content), (True, False))
        self.assertGreater(min(seen), 1000)

    def test_random_bytes(self):
        source = random.Random(3)
        for _ in range(3000):
            some = source.choice((range(256), b'01,;"\n%.\t ', b'\xff\xfe\0\n1,'))
            content = bytes(source.choices(some, k=source.randint(0, 60)))
            for start in (b'', OBLIGORS.encode(), b'\xff\xfe' + OBLIGORS.encode('utf-16-le')):
                self.sound(read_csv(start + content), start + content)

    def sound(self, reading, content):
        """That a file is read, or refused with problems that can be shown, in the order of the file."""
        self.assertEqual(bool(reading.sheets), not reading.problems, content)
        for problem in reading.problems:
            self.assertTrue(problem.why.isprintable() and len(problem.why) < 1200, content)
            self.assertIn(problem.name, (None, 'obligors', 'survivors', 'defaults', 'announced'), content)
            self.assertTrue(all(place is None or 1 <= place <= len(content) + 1 for place in problem[:2]), content)
            self.assertEqual(problem.number, 3 if problem.why.startswith('no table') else None, content)
        lines = [problem.line for problem in reading.problems if problem.line]
        self.assertEqual(lines, sorted(lines), content)
        for sheet in reading.sheets:
            self.assertEqual(list(sheet.columns), [sheet.counts, 'defaults', 'announced'], content)
            self.assertIn(sheet.counts, ('obligors', 'survivors'))
            self.assertTrue(all(type(number) is int and number >= 0 for row in sheet.rows for number in row), content)
            self.assertEqual([len(row) for row in sheet.rows], [3] * len(sheet.lines), content)
            self.assertEqual([len(row) for row in sheet.labels], [len(sheet.label_names)] * len(sheet.lines), content)
        if reading.sheets and all(number < 10 ** 18 for sheet in reading.sheets for row in sheet.rows for number in row):
            self.assertEqual([(sheet.counts, sheet.rows) for sheet in self.taken(plain(reading.sheets))],
                             [(sheet.counts, sheet.rows) for sheet in reading.sheets], content)


if __name__ == '__main__':
    unittest.main()
