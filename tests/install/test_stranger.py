"""A stranger's path: desk is installed in an empty folder, and programs that know nothing of the sources use it there, by pkg-config, CMake
and cargo, from Python and by the command; compilers, sanitizers and valgrind have nothing to say; versions that do not fit are noticed.

    python3 tests/install/test_stranger.py      # from anywhere; with everything built, as .ci/install does
"""
from __future__ import annotations

import os
import re
import shutil
import subprocess
import sys
import unittest

sys.dont_write_bytecode = True
from common import INSTALL, LIBRARY, PYTHON, VERSION, Case, content_of, found, needs, new_folder, paths_of, standing, stranger  # noqa: E402

STRICT = ('-O2', '-Wall', '-Wextra', '-Wpedantic', '-Wconversion', '-Werror')
PRINTED = '''\
Each scale is better at some prices.
At 3 for a missed default and 2 for a survivor turned away the first costs more.
At 1 for a missed default and 3 for a survivor turned away the second costs more.
'''
SENTENCE = ('the first and the second cross: neither is better, each costs less than the other at some prices. '
            'At 3:2 the first costs more. At 1:3 the second costs more.\n')
SOURCES = {False: ('-std=c11', 'memory.c'), True: ('-std=c++11', 'memory.cpp')}  # by whether it is C++
CMAKE = '''\
cmake_minimum_required(VERSION 3.10)
project(scales LANGUAGES C CXX)
find_package(desk %d REQUIRED)
add_executable(shared memory.c)
target_link_libraries(shared PRIVATE desk::desk)
add_executable(static memory.cpp)
target_link_libraries(static PRIVATE desk::static)
add_library(plugin MODULE memory.c)
target_link_libraries(plugin PRIVATE desk::static)
'''
NO_LANGUAGE = 'cmake_minimum_required(VERSION 3.10)\nproject(scales LANGUAGES NONE)\n'
CARGO = '''\
[package]
name = "scales"
version = "0.1.0"
edition = "2021"

[dependencies]
desk = { path = "%s/share/desk/rust" }
'''
RUST = '''\
use desk::{Desk, Place, Table};

fn main() {
    let mut desk = Desk::empty();
    desk.load_table(Place::First, &Table::by_obligors().grade(5, 2, 400_000).grade(1, 1, 1_000_000)).unwrap();
    desk.load_table(Place::Second, &Table::by_survivors().grade(2, 0, 0).grade(1, 3, 750_000)).unwrap();
    println!("{}", desk.compare().unwrap());
    assert_eq!(desk::shortlist(&desk.write().unwrap()).unwrap(), [1, 2]);
}
'''
IN_PYTHON = '''\
from desk import Desk, Table
import desk.library
assert desk.library.default_path().startswith(%r), desk.library.default_path()
two = Desk()
two.load(1, Table(obligors=[5, 1], defaults=[2, 1], announced=[400_000, 1_000_000]))
two.load(2, Table(survivors=[2, 1], defaults=[0, 3], announced=[0, 750_000]))
print(two.compare())
assert desk.shortlist(two.write()) == [1, 2]
'''


class Stranger(Case):
    """One install for all tests, staged and moved to its place."""

    @classmethod
    def setUpClass(cls) -> None:
        cls.all = new_folder()
        cls.addClassCleanup(shutil.rmtree, cls.all)
        cls.prefix = os.path.join(cls.all, 'pre fix')
        system, stage = (os.path.join(cls.all, name) for name in ('system', 'stage'))
        subprocess.run([INSTALL, system], env={**stranger(cls.all), 'DESTDIR': stage}, check=True, stdout=subprocess.DEVNULL,
                       stdin=subprocess.DEVNULL, cwd=cls.all)
        os.rename(stage + system, cls.prefix)

    def setUp(self) -> None:
        super().setUp()
        self.environment.update(paths_of(self.prefix))
        self.loading = {'LD_LIBRARY_PATH': self.installed('lib')}
        for name in ('memory.c', 'memory.cpp'):
            shutil.copy(self.installed('share', 'doc', 'desk', name), self.folder)

    def installed(self, *names: str) -> str:
        return os.path.join(self.prefix, *names)

    def libraries_of(self, program: str) -> list[str]:
        return re.findall(r'NEEDED.*\[(libdesk.*)\]', self.done('readelf', '-d', program))

    def by_pkg_config(self, words: str, asked: str = '--cflags --libs') -> subprocess.CompletedProcess:
        """A line of the shell with what pkg-config answers behind it; that PREFIX has a space takes an eval."""
        return self.ran('sh', '-c', f'eval "{words} $(pkg-config {asked} desk)"')

    def build(self, compiler: str, *more: str, archive: bool = False) -> str:
        """Compiles with every warning an error; neither the compiler nor the linker says a word."""
        words = ' '.join([compiler, *STRICT, *SOURCES[compiler[-2:] == '++'], *more, '-o', 'program'])
        asked = '--cflags desk) $(pkg-config --variable=archive' if archive else '--cflags --libs'
        ended = self.by_pkg_config(words, asked)
        self.assertEqual((ended.returncode, ended.stdout, ended.stderr), (0, '', ''))
        return './program'


class Programs(Stranger):
    @needs('gcc', 'g++', 'pkg-config', 'readelf')
    def test_shared_and_static_without_a_warning(self) -> None:
        for compiler in found('gcc', 'g++', 'clang', 'clang++'):
            program = self.build(compiler)
            self.assertEqual(self.done(program, **self.loading), PRINTED)
            self.assertEqual(self.libraries_of(program), [LIBRARY])
            program = self.build(compiler, archive=True)
            self.assertEqual(self.done(program), PRINTED)
            self.assertEqual(self.libraries_of(program), [])

    @needs('gcc', 'pkg-config')
    def test_the_example_on_a_book(self) -> None:
        shutil.copy(self.installed('share', 'doc', 'desk', 'example.c'), self.folder)
        ended = self.by_pkg_config(' '.join(['gcc', *STRICT, '-std=c11', 'example.c', '-o', 'program']))
        self.assertEqual((ended.returncode, ended.stderr), (0, ''))
        said = self.done('./program', '--shortlist', self.installed('share', 'doc', 'desk', 'examples', 'committee.book'), **self.loading)
        self.assertEqual(re.findall(r'^Rater (\d) is listed\.$', said, re.M), ['2', '4', '5'])

    @needs('gcc', 'pkg-config')
    def test_what_pkg_config_says(self) -> None:
        self.assertEqual(self.done('pkg-config', '--modversion', 'desk'), f'{VERSION}\n')
        self.assertEqual(self.done('pkg-config', '--libs', 'desk'), self.done('pkg-config', '--static', '--libs', 'desk'))
        self.assertEqual(self.ran('pkg-config', '--exists', f'desk = {VERSION + 1}').returncode, 1)
        self.done('pkg-config', '--validate', 'desk')

    @needs('gcc', 'g++')
    def test_under_the_sanitizers(self) -> None:
        for compiler, archive in (('gcc', False), ('g++', True), ('clang', True), ('clang++', False)):
            if found(compiler):
                program = self.build(compiler, '-g', '-fsanitize=address,undefined', '-fno-sanitize-recover=all', archive=archive)
                self.assertEqual(self.done(program, **self.loading), PRINTED)

    @needs('gcc', 'valgrind')
    def test_under_valgrind(self) -> None:
        for archive in (False, True):
            program = self.build('gcc', '-g', archive=archive)
            self.assertEqual(self.done('valgrind', '-q', '--leak-check=full', '--error-exitcode=1', program, **self.loading), PRINTED)

    @needs('cmake', 'gcc', 'g++', 'readelf')
    def test_by_cmake(self) -> None:
        self.put('CMakeLists.txt', CMAKE % VERSION)
        self.done('cmake', '-S.', '-Bbuild')
        self.done('cmake', '--build', 'build')
        for name, libraries in (('shared', [LIBRARY]), ('static', [])):
            self.assertEqual(self.done(f'build/{name}'), PRINTED)
            self.assertEqual(self.libraries_of(f'build/{name}'), libraries)
        self.assertNotIn(' desk_', self.done('nm', '-D', '--defined-only', 'build/libplugin.so'))

    @needs('cargo')
    def test_by_cargo(self) -> None:
        self.put('Cargo.toml', CARGO % self.prefix)
        self.put('src/main.rs', RUST)
        before = standing(self.prefix)
        self.assertEqual(self.done('cargo', 'run', '--quiet', '--offline'), SENTENCE)
        self.assertEqual(standing(self.prefix), before)

    def test_from_python(self) -> None:
        self.assertEqual(self.done('python3', '-B', '-c', IN_PYTHON % self.prefix), SENTENCE)
        self.assertEqual(self.done('python3', '-B', '-c', 'import desk; print(desk.__version__)').strip(), str(VERSION))


class Command(Stranger):
    def ask(self, *words: str) -> str:
        return self.done(self.installed('bin', 'desk'), *words)

    def test_from_any_folder_and_through_a_link(self) -> None:
        examples = self.installed('share', 'doc', 'desk', 'examples')
        answer = self.ask('compare', f'{examples}/inhouse.csv', f'{examples}/agency.csv')
        self.assertIn('In-house and Agency cross: neither is better', answer)
        os.symlink(self.installed('bin', 'desk'), self.path('link'))
        self.assertEqual(self.done('./link', 'compare', f'{examples}/inhouse.csv', f'{examples}/agency.csv'), answer)

    def test_every_other_command(self) -> None:
        book = self.installed('share', 'doc', 'desk', 'examples', 'k.book')
        self.assertTrue(self.ask('report', book).endswith('gini 10 231\n'))
        self.assertIn('10/231', self.ask('show', book))
        self.assertIn('; on the shortlist: 2 (Agency), 4 (In-house), 5 (Bureau)\n', self.ask('shortlist', book.replace('k.book', 'committee.csv')))
        self.ask('unpack', book, '-o', 'k.csv')
        self.ask('pack', 'k.csv', '-o', 'k.book')
        self.assertEqual(content_of(self.path('k.book')), content_of(book))
        self.assertEqual(self.ask('build').splitlines(), [self.installed(PYTHON, 'desk', name) for name in ('libdesk.so', 'report')])

    def test_what_is_missing_is_told(self) -> None:
        shutil.copytree(self.prefix, self.path('copy'), symlinks=True)
        command, book = self.path('copy', 'bin', 'desk'), self.installed('share', 'doc', 'desk', 'examples', 'k.book')
        os.remove(self.path('copy', PYTHON, 'desk', 'report'))
        self.assertIn('they are not here', self.fails(2, command, 'report', book))
        os.remove(self.path('copy', 'lib', LIBRARY))
        for words in (('show', book), ('build',)):
            self.assertIn('desk: ', self.fails(2, command, *words))
        shutil.copy(self.installed('bin', 'desk'), self.path('copied'))
        self.assertIn('link to it', self.fails(2, './copied', 'show', book))


class Versions(Stranger):
    """A header, a library and a program of different versions."""

    def header_of(self, version: int) -> None:
        """Makes the header of another version in the folder `other`."""
        with open(self.installed('include', 'desk.h'), encoding='utf-8') as file:
            text, count = re.subn(r'(?m)^#define DESK_VERSION \d+$', f'#define DESK_VERSION {version}', file.read())
        self.assertEqual(count, 1)
        self.put('other/desk.h', text)

    def library_of(self, version: int) -> None:
        """Makes the shared library of another version in the folder `lib`."""
        self.put('map', f'DESK_{version} {{ global: desk_*; local: *; }};\n')
        os.mkdir(self.path('lib'))
        self.done('gcc', '-shared', '-nostdlib', '-o', f'lib/libdesk.so.{version}', f'-Wl,-soname,libdesk.so.{version}',
                  '-Wl,--version-script=map', '-Wl,--whole-archive', self.installed('lib', 'libdesk.a'), '-Wl,--no-whole-archive', '-lc')

    @needs('gcc', 'g++')
    def test_a_header_of_another_version_does_not_link(self) -> None:
        for compiler in found('gcc', 'g++', 'clang'):
            for version in (VERSION + 1, VERSION + 17):
                self.header_of(version)
                for library in ([f'-L{self.installed("lib")}', '-ldesk'], [self.installed('lib', 'libdesk.a')]):
                    ended = self.ran(compiler, '-Iother', *SOURCES[compiler == 'g++'], '-o', 'program', *library)
                    self.assertNotEqual(ended.returncode, 0)
                    self.assertIn(f'desk_library_is_version_{version}', ended.stderr)

    @needs('gcc')
    def test_a_program_is_told_by_the_loader(self) -> None:
        program = self.build('gcc')
        if self.ran(program).returncode == 0:
            self.skipTest(f'a {LIBRARY} is installed here where the loader looks by itself')
        self.library_of(VERSION + 1)
        alone = {'LD_LIBRARY_PATH': self.path('lib')}
        self.assertRegex(self.fails(127, program, **alone), f'{LIBRARY}: cannot open shared object file')
        os.symlink(f'libdesk.so.{VERSION + 1}', self.path('lib', LIBRARY))  # who helps himself so is told too
        self.assertRegex(self.fails(1, program, **alone), f"version .DESK_{VERSION}' not found")

    @needs('cmake')
    def test_cmake_takes_the_same_version_alone(self) -> None:
        for asked, taken in ((f'{VERSION}', True), ('', True), (f'{VERSION} EXACT', True), (f'{VERSION}.0', True),
                             (f'{VERSION + 1}', False), (f'{VERSION}.1', False), ('0', False)):
            self.put('CMakeLists.txt', f'{NO_LANGUAGE}find_package(desk {asked} REQUIRED)\nfind_package(desk REQUIRED)\n'
                                       'message(STATUS "found ${desk_VERSION}")\n')
            ended = self.ran('cmake', '-S.', f'-Bbuild {asked}')
            self.assertEqual((ended.returncode == 0, f'found {VERSION}' in ended.stdout), (taken, taken), f'{asked} {ended.stderr}')
            if not taken:
                self.assertIn(f'version: {VERSION}', ended.stderr)

    @needs('cmake')
    def test_cmake_notices_what_is_missing(self) -> None:
        shutil.copytree(self.prefix, self.path('copy'), symlinks=True)
        os.remove(self.path('copy', 'lib', 'libdesk.a'))
        self.put('CMakeLists.txt', f'{NO_LANGUAGE}find_package(desk REQUIRED)\n')
        said = self.fails(1, 'cmake', '-S.', '-Bbuild', CMAKE_PREFIX_PATH=self.path('copy'))
        self.assertIn('libdesk.a', said)

    @needs('nm', 'readelf')
    def test_the_library_exports_the_header(self) -> None:
        with open(self.installed('include', 'desk.h'), encoding='utf-8') as file:
            declared = set(re.findall(r'^uint32_t (desk_\w+)\(', file.read(), re.M))
        lines = self.done('nm', '-D', '--defined-only', self.installed('lib', LIBRARY)).splitlines()
        exported = {line.split()[-1] for line in lines}
        self.assertEqual({name for name in exported if not name.endswith(f'@@DESK_{VERSION}')}, {f'DESK_{VERSION}'} & exported)
        self.assertLessEqual(declared - {'desk_library_is_version_'}, {name.split('@')[0] for name in exported})
        self.assertIn(f'soname: [{LIBRARY}]', self.done('readelf', '-d', self.installed('lib', LIBRARY)))


if __name__ == '__main__':
    unittest.main()
