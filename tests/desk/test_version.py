"""Tests that there is one version, and that a library of another one is noticed, in words.

    python3 tests/desk/test_version.py      # from anywhere
"""
from __future__ import annotations

import os
import re
import shutil
import subprocess
import sys
import tempfile
import unittest

sys.dont_write_bytecode = True
from common import TOP, copy_repository, read  # noqa: E402
from running import Ran, ask, environment, run  # noqa: E402
import desk  # noqa: E402
from desk import Desk, LibraryMissing, library  # noqa: E402

NUMBER = int(read('VERSION'))
NEXT = str(NUMBER + 1)
LOCKED = 'name = "desk"\nversion = "%d.0.0"'
# Where the number stands, and how.
PLACES = [('include/desk.h', 'DESK_VERSION %d\n'), ('crates/desk_c/specs/Version.antt', 'version = %d\n'),
          ('crates/desk_c/src/lib.rt', 'VERSION: u32 = %d;'), ('crates/desk_c/src/lib.rt', 'is_version_%d('),
          ('crates/desk_abi/src/lib.rt', 'is_version_%d('),
          ('crates/desk_c/must-fail/slips_3.edit', 'is_version_%d\n'), ('docs/CLAIMS.md', 'is_version_%d`'),
          ('bindings/rust/Cargo.toml', '"%d.0.0"'), ('bindings/rust/Cargo.lock', LOCKED), ('bindings/rust-tests/Cargo.lock', LOCKED),
          ('bench/Cargo.lock', LOCKED), ('bindings/python/desk/version.py', 'VERSION = %d\n'), ('CHANGELOG.md', '\n## %d\n'),
          ('docs/LANDINGS.md', '\n## Version %d: ')]


class Module(unittest.TestCase):
    def test_all_have_the_number(self) -> None:
        self.assertEqual((desk.VERSION, desk.__version__), (NUMBER, str(NUMBER)))
        self.assertEqual(library.load(library.default_path()).desk_version(), NUMBER)
        self.assertEqual(ask('--version'), Ran(0, f'desk {NUMBER}\n', ''))

    @unittest.skipUnless(shutil.which('cc'), 'there is no C compiler here')
    def test_other_libraries_are_not_used(self) -> None:
        for source, said in ((f'unsigned desk_version(void) {{ return {NEXT}; }}',
                              f'is version {NEXT} of the library, and this module is made for version {NUMBER}'),
                             ('unsigned desk_empty(void) { return 0; }', 'desk_version')):
            with tempfile.TemporaryDirectory() as folder:
                path = os.path.join(folder, 'other.so')
                subprocess.run(['cc', '-shared', '-fPIC', '-x', 'c', '-', '-o', path], input=source.encode(), check=True)
                with self.assertRaisesRegex(LibraryMissing, re.escape(said)) as raised:
                    Desk(path)
                self.assertIn(path, str(raised.exception))
                ran = run('compare', os.path.join(TOP, 'examples', 'g.csv'), env=environment(DESK_LIBRARY=path))
                self.assertEqual((ran.status, ran.out), (2, ''))
                self.assertIn(said, ran.err)


class Source(unittest.TestCase):
    def setUp(self) -> None:
        folder = tempfile.TemporaryDirectory()
        self.addCleanup(folder.cleanup)
        self.top = folder.name
        copy_repository(self.top)

    def check(self, *words: str) -> tuple[int, str]:
        ended = subprocess.run([os.path.join(self.top, '.ci', 'version'), *words], stdout=subprocess.PIPE, text=True, check=False)
        return ended.returncode, ended.stdout

    def change(self, name: str, old: str, new: str) -> None:
        path = os.path.join(self.top, name)
        with open(path, encoding='utf-8') as file:
            text = file.read()
        self.assertIn(old, text)
        with open(path, 'w', encoding='utf-8') as file:
            file.write(text.replace(old, new))

    def test_each_place_is_held_to_the_source(self) -> None:
        self.assertEqual(self.check(), (0, ''))
        for name, old in PLACES:
            with self.subTest(name):
                self.change(name, old % NUMBER, old % (NUMBER + 1))
                status, said = self.check()
                self.assertEqual(status, 1)
                self.assertIn(name, said)
                self.change(name, old % (NUMBER + 1), old % NUMBER)
        self.assertEqual(self.check(), (0, ''))

    def test_the_next_number_is_written_everywhere(self) -> None:
        self.change('VERSION', str(NUMBER), NEXT)
        self.assertEqual(self.check()[1].count('\n'), len(PLACES))
        status, said = self.check('write')
        self.assertEqual((status, re.findall(r'entry of (\S+) is', said), said.count('\n')), (1, ['CHANGELOG.md', 'docs/LANDINGS.md'], 2))
        self.change('CHANGELOG.md', f'\n## {NUMBER}\n', f'\n## {NEXT}\n\n## {NUMBER}\n')
        with open(os.path.join(self.top, 'docs', 'LANDINGS.md'), 'a', encoding='utf-8') as file:
            file.write(f'\n## Version {NEXT}: a landing\n')
        self.assertEqual(self.check(), (0, ''))

    def test_what_is_no_number(self) -> None:
        for text in ('', '0\n', '01\n', '1.0\n', 'one\n', '1\n2\n'):
            with open(os.path.join(self.top, 'VERSION'), 'w', encoding='utf-8') as file:
                file.write(text)
            self.assertEqual(self.check()[0], 2)
        self.assertEqual(self.check('wrong')[0], 2)


if __name__ == '__main__':
    unittest.main()
