"""Tests ./install --check: it passes on a sound install, says what it passes over, and notices what is broken.

    python3 tests/install/test_check.py      # from anywhere; with everything built, as .ci/install does
"""
from __future__ import annotations

import os
import re
import shutil
import sys
import unittest

sys.dont_write_bytecode = True
from common import INSTALL, LIBRARY, PYTHON, TOP, VERSION, Case, found, standing  # noqa: E402
from installing.destination import Destination  # noqa: E402
from installing.putting import Entry  # noqa: E402

ALL = ('installed files, as they were put', 'C, by pkg-config, shared', 'C, by pkg-config, static', 'C++, by pkg-config, shared',
       'C++, by pkg-config, static', 'C and C++, by CMake, shared and static', 'Rust, by cargo', 'Python, by import desk',
       'command, desk compare')
EQUAL = '''\
unsigned desk_empty(void *desk) { return desk == 0; }
unsigned desk_load(void *desk) { return desk == 0; }
unsigned desk_compare(void *desk, int *verdict) { return *verdict = desk == 0; }
unsigned desk_library_is_version_%d(void) { return %d; }
'''
LITTLE = ('env', 'sh', 'as', 'ld')  # what a compiler and the launcher need


class Check(Case):
    def setUp(self) -> None:
        super().setUp()
        self.prefix = self.path('pre fix')
        self.done(INSTALL, self.prefix)

    def only(self, *tools: str) -> str:
        """A PATH with python3 and these tools alone."""
        for name in (*LITTLE, *tools):
            os.symlink(shutil.which(name, path='/usr/bin:/bin'), self.path('.tools', name))
        return self.path('.tools')

    def outcome(self, **variables: str) -> tuple[int, dict[str, str]]:
        """The status, and for each line what is said of what was tried."""
        ended = self.ran(INSTALL, '--check', self.prefix, **variables)
        self.assertEqual(ended.stderr, '')
        return ended.returncode, dict(re.findall(r'^([CRPic+][^:\n]*): (ok|FAILED|passed over.*)', ended.stdout, re.M))

    @unittest.skipUnless(len(found('cc', 'c++', 'pkg-config', 'cmake', 'cargo')) == 5, 'not every tool is here')
    def test_everything(self) -> None:
        before = standing(self.prefix)
        self.assertEqual(self.outcome(), (0, {name: 'ok' for name in ALL}))
        self.assertEqual(standing(self.prefix), before)

    def test_below_destdir(self) -> None:
        self.done(INSTALL, self.path('system'), DESTDIR=self.path('stage'))
        ended = self.ran(INSTALL, '--check', self.path('system'), DESTDIR=self.path('stage'), PATH=self.only('cc'))
        self.assertEqual((ended.returncode, ended.stdout.count(': ok\n')), (0, 5), ended.stdout)

    def test_what_is_not_here_is_passed_over(self) -> None:
        status, said = self.outcome(PATH=self.only('cc'))
        self.assertEqual((status, [name for name in said if said[name] == 'ok']),
                         (0, [ALL[0], 'C, by folder, shared', 'C, by folder, static', *ALL[-2:]]))
        for name, tool in (('C and C++, by pkg-config', 'pkg-config'), ('C++, by folder, shared', 'C++ compiler'),
                           ('C, by CMake, shared and static', 'cmake'), ('Rust, by cargo', 'cargo')):
            self.assertEqual(said[name], f'passed over, there is no {tool} here')

    def test_a_c_compiler_must_be_there(self) -> None:
        self.assertIn('there is no C compiler here', self.fails(1, INSTALL, '--check', self.prefix, PATH=self.only()))
        self.assertIn('there is no C compiler here', self.fails(1, INSTALL, '--check', self.prefix, CC='none-such'))

    def test_an_old_cargo_is_passed_over(self) -> None:
        path = self.only('cc')
        with open(self.put('.tools/cargo', '#!/bin/sh\necho "cargo 1.63.0"\n'), encoding='utf-8') as file:
            os.chmod(file.name, 0o755)
        status, said = self.outcome(PATH=path)
        self.assertEqual(status, 0)
        self.assertRegex(said['Rust, by cargo'], r'^passed over, the crate needs Rust 1\.\d+ or later, and cargo is 1\.63 here$')

    def test_what_leads_elsewhere_does_not(self) -> None:
        """Neither the sources nor another library of the environment is used."""
        self.put('else/desk.h', '#error of another desk\n')
        self.put('else/desk/__init__.py', 'raise ImportError')
        other = dict.fromkeys(('CPATH', 'C_INCLUDE_PATH', 'LIBRARY_PATH', 'PYTHONPATH', 'DESK_LIBRARY', 'DESK_LIB_DIR', 'LD_LIBRARY_PATH'),
                              self.path('else'))
        self.assertEqual(self.outcome(PATH=self.only('cc'), **other)[0], 0)

    def test_what_is_broken_is_noticed(self) -> None:
        path = self.only('cc')
        for broken, names in ((f'lib/{LIBRARY}', {'C, by folder, shared', *ALL[-2:]}), ('lib/libdesk.a', {'C, by folder, static'}),
                              ('include/desk.h', {'C, by folder, shared', 'C, by folder, static'}),
                              (f'{PYTHON}/desk/__init__.py', set(ALL[-2:])), ('bin/desk', {ALL[-1]}), ('share/doc/desk/BOOK.md', set())):
            place = os.path.join(self.prefix, broken)
            os.rename(place, self.path('away'))
            self.put(f'pre fix/{broken}', 'broken')
            status, said = self.outcome(PATH=path)
            self.assertEqual((status, {name for name in said if said[name] == 'FAILED'}), (1, names | {ALL[0]}))
            os.rename(self.path('away'), place)
        self.assertEqual(self.outcome(PATH=path)[0], 0)

    def test_a_library_that_answers_wrongly_is_noticed(self) -> None:
        """A stand-in for the library that calls all scales equal."""
        if not found('gcc'):
            self.skipTest('there is no gcc here')
        self.put('equal.c', EQUAL % (VERSION, VERSION))
        self.done('gcc', '-shared', '-fPIC', '-o', os.path.join(self.prefix, 'lib', LIBRARY), 'equal.c', f'-Wl,-soname,{LIBRARY}')
        said = self.outcome(PATH=self.only('cc'))[1]
        self.assertEqual((said['C, by folder, shared'], said['C, by folder, static']), ('FAILED', 'ok'))

    def test_another_version_or_half_an_install(self) -> None:
        Destination(self.path('other'), '').put(VERSION + 1, [Entry('include/desk.h', b'')])
        self.assertIn(f'has desk {VERSION + 1}, and this is desk {VERSION}', self.fails(1, INSTALL, '--check', self.path('other')))
        manifest = os.path.join(self.prefix, 'share', 'desk', 'installed.txt')
        with open(manifest, encoding='utf-8') as file:
            text = file.read()
        self.put('pre fix/share/desk/installed.txt', text.replace(f'desk {VERSION}\n', f'desk {VERSION} unfinished\n', 1))
        self.assertIn('an install has broken off', self.fails(1, INSTALL, '--check', self.prefix))


if __name__ == '__main__':
    unittest.main()
