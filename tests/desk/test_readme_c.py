"""Tests the C program that README.md shows: it is bindings/c/memory.c, whole, and under 40 lines. test_documents.py compiles and runs it.

    python3 tests/desk/test_readme_c.py     # from anywhere
"""
from __future__ import annotations

import re
import sys
import unittest

sys.dont_write_bytecode = True
from common import read  # noqa: E402

PROGRAM = read('bindings', 'c', 'memory.c').decode()
SECTION, = re.findall(r'^## From C\n(.*?)^## ', read('README.md').decode(), re.M | re.S)


class Program(unittest.TestCase):
    def test_the_page_shows_the_file(self) -> None:
        shown = [block for block in re.findall(r'\n\n((?:    .*\n|\n(?=    ))+)', SECTION) if '#include' in block]
        self.assertEqual([re.sub(r'^    ', '', block, flags=re.M) for block in shown], [PROGRAM])

    def test_it_is_under_40_lines(self) -> None:
        self.assertLess(len(PROGRAM.splitlines()), 40)

    def test_its_commands_compile_and_run_it(self) -> None:
        for program in ('memory', 'example'):
            self.assertRegex(SECTION, rf'\n    \$ cc .*-Iinclude bindings/c/{program}\.c .*-o target/{program}\n    \$ target/{program}\b')


if __name__ == '__main__':
    unittest.main()
