"""Runs every command line of README.md, docs/ and examples/README.md in a copy of the repository, and holds what is shown to what it
prints; and holds README's lists of crates and of definitions to those that are there.

In these pages a line of an indented block that begins with a dollar sign is a command line; the lines behind it, up to the next one, to
Python or to the block's end, are what it prints on standard output; where they say that something is refused, its status is 1, and what
it prints on standard error follows. Lines that begin with >>> are Python. Command lines within a sentence are run too.

    python3 tests/desk/test_documents.py      # from anywhere
"""
from __future__ import annotations

from typing import Iterator
import doctest
import glob
import itertools
import os
import re
import subprocess
import sys
import tempfile
import unittest

sys.dont_write_bytecode = True
from common import TOP, copy_repository, read  # noqa: E402

PAGES = ['README.md', 'examples/README.md',
         *sorted(f'docs/{name}' for name in os.listdir(os.path.join(TOP, 'docs')) if name.endswith('.md'))]
NOT_RUN = {'.ci/run': 'it is what runs this test', 'rt ci': '.ci/run runs it'}
PROGRAMS = re.compile(r'(\./|\.ci/|bench/|target/|tests/|tools/|rt |cc |gcc |cargo |python3? |desk )')
IN_A_SENTENCE = re.compile(r'(?:`|system\(")((?:\./desk|\.ci/\w+|bench/\w+|target/[\w/]+|rt|cc|cargo|python3) [^`"]*)[`"]')
MENTIONED = re.compile(r'[A-Z]{3,}|\.\.|^\./desk (compare|shortlist|show|update|pack|unpack|report)$')  # no command line, but the name of one
REFUSED = re.compile('^desk: refused ', re.M)
BYTES = re.compile(r'^\| (\d+) \| `([0-9a-f ]+)` \| (\d+) \|', re.M)
CRATES = re.compile(r'^\| `(\w+)` \| \S', re.M)
DEFINED, INSIDE = re.compile(r'`crates/(\w+)/specs/`|`([A-Z]\w+)`'), '-- Serves contracts of functions inside the library only'
CITED = re.compile(r'\bRattle\.(\w+)\.specs\.(?!declared\b|contracts\b)(\w+)')


def page(name: str) -> str:
    return read(*name.split('/')).decode()


def blocks(text: str) -> Iterator[list[str]]:
    """The indented blocks of a page, without their indent."""
    for block in re.findall(r'(?:(?<=\n\n)|\A)(?:    .*\n|\n(?=    ))+', text):
        yield [line[4:] for line in block.split('\n')]


def command_lines(text: str) -> Iterator[tuple[str, str | None]]:
    """The command lines of a page in their order, each with what it prints where that is shown."""
    for lines in blocks(text):
        at = [number for number, line in enumerate(lines) if line.startswith('$ ')]
        for start, end in zip(at, at[1:] + [len(lines)]):
            shown = '\n'.join(itertools.takewhile(lambda line: not line.startswith('>>> '), lines[start + 1:end])).strip('\n')
            yield lines[start][2:], f'{shown}\n' if shown else None


def sentences(text: str) -> list[str]:
    """The command lines within sentences that name everything they need."""
    return [words for words in IN_A_SENTENCE.findall(text) if not MENTIONED.search(words) and words not in NOT_RUN]


class Pages(unittest.TestCase):
    def setUp(self) -> None:
        folder = tempfile.TemporaryDirectory()
        self.addCleanup(folder.cleanup)
        self.top = folder.name
        copy_repository(self.top, 'staticlib', 'desk', 'bench')

    def run_line(self, line: str, status: int = 0) -> str:
        """What a command line prints, as a shell at the top of the repository runs it, and where it refuses something, what it says."""
        ended = subprocess.run(['/bin/sh', '-c', line], cwd=self.top, stdin=subprocess.DEVNULL, stdout=subprocess.PIPE,
                               stderr=subprocess.PIPE, text=True, check=False)
        self.assertEqual(ended.returncode, status, f'{line}\n{ended.stdout}{ended.stderr}')
        return ended.stdout + ended.stderr if status else ended.stdout

    def test_every_command_line_runs_and_prints_what_is_shown(self) -> None:
        count = 0
        for name in PAGES:
            for line, shown in command_lines(page(name)):
                if line in NOT_RUN:
                    continue
                with self.subTest(f'{name}: {line}'):
                    printed = self.run_line(line, 1 if REFUSED.search(shown or '') else 0)
                    self.assertEqual(printed if shown is None else shown, printed)
                    count += 1
        self.assertGreater(count, 12)

    def test_command_lines_within_sentences(self) -> None:
        found = {line for name in PAGES for line in sentences(page(name))}
        self.assertLessEqual({'./desk build', './desk show examples/k.book --json', '.ci/script show'}, found)
        for line in sorted(found):
            with self.subTest(line):
                self.run_line(line)


class Forms(unittest.TestCase):
    def test_no_command_line_escapes(self) -> None:
        """A line of a block that looks like a command has its dollar sign."""
        for name in PAGES:
            for line in (line for lines in blocks(page(name)) for line in lines):
                self.assertFalse(PROGRAMS.match(line), f'{name}: {line}')

    def test_python_runs_and_prints_what_is_shown(self) -> None:
        count = 0
        for name in PAGES:
            examples = doctest.DocTestParser().get_doctest(page(name), {}, name, name, 0)
            said: list[str] = []
            doctest.DocTestRunner(verbose=False).run(examples, out=said.append)
            self.assertEqual(said, [])
            count += len(examples.examples)
        self.assertGreater(count, 5)

    def test_book_k_byte_by_byte(self) -> None:
        """The table of docs/BOOK.md is the whole of examples/k.book, each number as its bytes read."""
        book, end = read('examples', 'k.book'), 0
        for byte, digits, number in BYTES.findall(page('docs/BOOK.md')):
            found = bytes.fromhex(digits)
            self.assertEqual((int(byte), int.from_bytes(found, 'little')), (end, int(number)))
            self.assertEqual(book[end:end + len(found)], found)
            end += len(found)
        self.assertEqual(end, len(book))


class Crates(unittest.TestCase):
    """What README.md says of the crates."""

    def test_those_of_crates_txt_each_behind_what_it_needs(self) -> None:
        needs = {}
        for line in read('crates.txt').decode().splitlines():
            name, found, others = line.partition(':')
            if found and not line.startswith('#'):
                needs[name.split()[0]] = set(others.split())
        listed = CRATES.findall(page('README.md').partition('\n## The crates, lowest first\n')[2])
        self.assertEqual((len(listed), set(listed)), (len(needs), needs.keys()))
        for at, name in enumerate(listed):
            self.assertLessEqual(needs[name] & needs.keys(), set(listed[:at]), name)

    def test_definitions_are_named_in_an_order_to_read_them_in(self) -> None:
        """Every file of definitions that has to be believed is named once, behind those that it cites."""
        texts = {}
        for path in glob.glob(os.path.join(TOP, 'crates', '*', 'specs', '*.antt')):
            crate, _, file = os.path.relpath(path, os.path.join(TOP, 'crates')).split(os.sep)
            texts[crate, file[:-len('.antt')]] = read('crates', crate, 'specs', file).decode()
        needed = {each for each, text in texts.items() if not text.startswith(INSIDE) and each[1] != 'Lib' and each[0] != 'answers'}
        named, crate = [], ''
        for folder, file in DEFINED.findall(page('README.md').partition('\n## What to read\n')[2].partition('\nThen the entry')[0].partition('\n1. ')[2]):
            crate = folder or crate
            named += [(crate, file)] if file else []
        self.assertEqual(sorted(named), sorted(needed))
        for at, each in enumerate(named):
            self.assertFalse(set(CITED.findall(texts[each])) & set(named[at + 1:]), f'{each} cites what is named behind it')


if __name__ == '__main__':
    unittest.main()
