"""Tests which library and which printing program the command uses, and when they are built, with stand-ins for the build.

    python3 tests/desk/test_command_products.py      # from anywhere
"""
from __future__ import annotations

from typing import Callable, NoReturn
import contextlib
import os
import signal
import sys
import unittest
import unittest.mock

sys.dont_write_bytecode = True
sys.path.insert(0, os.path.dirname(os.path.abspath(__file__)))
from running import LIBRARY, TOP, Case, ask, example  # noqa: E402
from desk import library  # noqa: E402
from desk.command import build, main  # noqa: E402


class Products(Case):
    def setUp(self) -> None:
        super().setUp()
        self.asked = []  # what was to be built, and where
        self.patched = contextlib.ExitStack()
        self.addCleanup(self.patched.close)
        self.patched.enter_context(unittest.mock.patch.dict(os.environ))
        del os.environ['DESK_LIBRARY']

    def stand_in(self, name: str, path: str) -> None:
        """Has a product stand at a path."""
        def product(top: str) -> str:
            self.asked.append((name, top))
            return path
        self.patched.enter_context(unittest.mock.patch.object(build, name, product))

    def failing(self, name: str, why: Callable[[str], NoReturn]) -> None:
        self.patched.enter_context(unittest.mock.patch.object(build, name, why))

    def test_the_library_of_the_sources_is_built_first(self) -> None:
        self.stand_in('shared_library', LIBRARY)
        for words in (('compare', example('h.book')), ('show', example('k.book'))):
            self.answered(*words)
            self.assertEqual(self.asked.pop(), ('shared_library', TOP))

    def test_what_needs_no_library_builds_none(self) -> None:
        self.stand_in('shared_library', LIBRARY)
        for words in (('unpack', example('k.book')), ('pack', example('k.csv'), '-o', self.path('k.book')), ('refusals',), ('--help',)):
            self.answered(*words)
        self.wrong('compare')
        self.assertEqual(self.asked, [])

    def test_a_library_that_is_named_is_used_as_it_is(self) -> None:
        self.stand_in('shared_library', LIBRARY)
        os.environ['DESK_LIBRARY'] = LIBRARY
        self.answered('compare', example('h.book'))
        os.environ['DESK_LIBRARY'] = self.path('none.so')
        self.assertIn(self.path('none.so'), self.wrong('compare', example('h.book')))
        self.assertEqual(self.asked, [])

    def test_build(self) -> None:
        self.stand_in('shared_library', 'the library')
        self.stand_in('printing_program', 'the program')
        self.assertEqual(self.answered('build').out, 'the library\nthe program\n')
        self.assertEqual(self.asked, [('shared_library', TOP), ('printing_program', TOP)])

    def test_what_cannot_be_built_is_said(self) -> None:
        def fails(_: str) -> NoReturn:
            raise build.NotBuilt('the library is not built: there is no rt on the PATH')
        self.failing('shared_library', fails)
        self.failing('printing_program', fails)
        for words in (('compare', example('h.book')), ('show', example('k.book')), ('report', example('k.book')), ('build',)):
            self.assertEqual(ask(*words), (2, '', 'desk: the library is not built: there is no rt on the PATH\n'))

    def test_without_the_sources(self) -> None:
        self.patched.enter_context(unittest.mock.patch.object(library, 'repository', lambda: None))
        self.assertIn('the printing program is built from the sources', self.wrong('report', example('k.book')))
        self.assertIn('libdesk.so cannot be used', self.wrong('compare', example('h.book')))

    def test_an_interrupt_ends_a_build_in_order(self) -> None:
        """The build sees it as an exception, and the command ends by the signal."""
        tidied = self.path('tidied')

        def interrupted(_: str) -> str:
            try:
                signal.raise_signal(signal.SIGINT)
                return LIBRARY
            finally:
                self.put('tidied', '')
        self.failing('shared_library', interrupted)
        child = os.fork()
        if not child:
            try:
                main.main(['show', example('k.book')])
            finally:
                os._exit(99)
        _, status = os.waitpid(child, 0)
        self.assertTrue(os.WIFSIGNALED(status) and os.WTERMSIG(status) == signal.SIGINT, status)
        self.assertTrue(os.path.exists(tidied))

    def test_after_a_build_an_interrupt_ends_the_command_at_once(self) -> None:
        self.stand_in('shared_library', LIBRARY)
        before = signal.getsignal(signal.SIGINT)
        self.addCleanup(signal.signal, signal.SIGINT, before)
        main.shared_library()
        self.assertEqual(signal.getsignal(signal.SIGINT), signal.SIG_DFL)


if __name__ == '__main__':
    unittest.main()
