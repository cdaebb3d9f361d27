"""`./install --check`: compiles and runs small programs against what is installed, in a folder of their own.

All of them compare the same two tables, given in memory or as CSV, and must find that the scales cross.
"""
from __future__ import annotations

from typing import Callable, Iterator, NamedTuple
import json
import os
import re
import shlex
import shutil
import tempfile

from desk.version import VERSION

from .manifest import Manifest
from .destination import Destination
from .trial import Failed, Surroundings
from .words import NotDone, listed

PROGRAMS = os.path.join(os.path.dirname(os.path.abspath(__file__)), 'check')
STRICT = ('-Wall', '-Wextra', '-Wpedantic', '-Werror')
IN_C = '''\
Each scale is better at some prices.
At 3 for a missed default and 2 for a survivor turned away the first costs more.
At 1 for a missed default and 3 for a survivor turned away the second costs more.
'''
CROSS = 'the first and the second cross: neither is better, each costs less than the other at some prices.'
ELSEWHERE = f'{CROSS} At 3:2 the first costs more. At 1:3 the second costs more.\n'
FIRST = 'name,the first\nobligors,defaults,announced\n5,2,400000\n1,1,1000000\n'
SECOND = 'name,the second\nsurvivors,defaults,announced\n2,0,0\n1,3,750000\n'


class Trial(NamedTuple):
    """Something to try, and how; `lacks` says in words why it is passed over."""
    name: str
    run: Callable[[], None]
    lacks: str = ''


class Check:
    """The trials of what is installed in a destination."""

    def __init__(self, destination: Destination, manifest: Manifest, folder: str) -> None:
        self.destination, self.manifest = destination, manifest
        packages = [path[:-len('/desk/__init__.py')] for path in manifest.marks if path.endswith('/site-packages/desk/__init__.py')]
        if len(packages) != 1:
            raise NotDone(f'{destination.folder} has no Python module desk, or more than one; install again')
        self.at = Surroundings(destination.folder, os.path.join(destination.folder, packages[0]), folder)

    def trials(self) -> Iterator[Trial]:
        yield Trial('installed files, as they were put', self.files)
        by, lacks = self.way()
        if lacks:
            yield Trial('C and C++, by pkg-config', self.files, lacks)
        for language, variable, source in (('C', 'CC', 'memory.c'), ('C++', 'CXX', 'memory.cpp')):
            no = '' if self.at.compilers[variable] else f'there is no {language} compiler here'
            yield Trial(f'{language}, by {by}, shared', lambda source=source, variable=variable: self.shared(variable, source), no)
            yield Trial(f'{language}, by {by}, static', lambda source=source, variable=variable: self.static(variable, source), no)
        yield Trial('C and C++, by CMake, shared and static' if self.at.compilers['CXX'] else 'C, by CMake, shared and static',
                    self.cmake, self.no_tool('cmake') or self.backslash())
        yield Trial('Rust, by cargo', self.rust, self.no_tool('cargo') or self.old_cargo())
        yield Trial('Python, by import desk', self.python)
        yield Trial('command, desk compare', self.command)

    def no_tool(self, name: str) -> str:
        return '' if self.at.tools[name] else f'there is no {name} here'

    def backslash(self) -> str:
        return 'it does not read a PREFIX with a backslash in it' if '\\' in self.at.prefix else ''

    def files(self) -> None:
        """Every file and link is there, with its content."""
        with self.destination.tree() as tree:
            wrong = [path for path in self.manifest.marks if not self.manifest.lists(path, tree.mark(path))]
        if wrong:
            raise Failed(f'missing or changed since:{listed(wrong)}')

    # C and C++

    def way(self) -> tuple[str, str]:
        """How the compilers are told where things are, and why not by pkg-config."""
        lacks = self.no_tool('pkg-config')
        if re.search(r'["\'\\]', self.at.prefix):
            lacks = 'it does not read a PREFIX with a quote or a backslash in it'
        return ('folder' if lacks else 'pkg-config'), lacks

    def flags(self, *asked: str) -> list[str]:
        """What pkg-config answers, as a shell would take it."""
        if not self.way()[1]:
            return shlex.split(self.at.run(['pkg-config', *asked, f'desk = {VERSION}']))
        folders = {'--cflags': [f'-I{self.at.installed("include")}'], '--libs': [f'-L{self.at.installed("lib")}', '-ldesk'],
                   '--variable=archive': [self.at.installed('lib/libdesk.a')]}
        return [word for each in asked for word in folders[each]]

    def compile(self, variable: str, source: str, *words: str) -> str:
        """Compiles an installed example; the path of the program."""
        program, standard = self.at.path('program'), {'CC': '-std=c11', 'CXX': '-std=c++11'}[variable]
        self.at.run([*self.at.compilers[variable], standard, *STRICT, self.example(source), '-o', program, *words])
        return program

    def example(self, name: str) -> str:
        """A copy of an installed example."""
        return shutil.copy(self.at.installed(f'share/doc/desk/{name}'), self.at.folder)

    def shared(self, variable: str, source: str) -> None:
        expect(IN_C, self.at.run([self.compile(variable, source, *self.flags('--cflags', '--libs'))]))

    def static(self, variable: str, source: str) -> None:
        program = self.compile(variable, source, *self.flags('--cflags'), *self.flags('--variable=archive'))
        expect(IN_C, self.at.run([program], self.at.without_loader()))

    def cmake(self) -> None:
        project = self.at.path('cmake')
        shutil.copytree(os.path.join(PROGRAMS, 'cmake'), project)
        languages = 'C;CXX' if self.at.compilers['CXX'] else 'C'
        for name in ('memory.c', 'memory.cpp'):
            shutil.move(self.example(name), os.path.join(project, name))
        self.at.run(['cmake', f'-S{project}', f'-B{project}/build', f'-Dlanguages={languages}', f'-Dversion={VERSION}'])
        self.at.run(['cmake', '--build', f'{project}/build'])
        for language in languages.split(';'):
            for library in ('desk', 'static'):
                expect(IN_C, self.at.run([f'{project}/build/{language}_{library}'], self.at.without_loader()))

    # Rust, Python, the command

    def old_cargo(self) -> str:
        """Why cargo is too old for the crate, if it is."""
        with open(self.at.installed('share/desk/rust/Cargo.toml'), encoding='utf-8') as file:
            needed = re.search(r'^rust-version = "(\d+)\.(\d+)', file.read(), re.M)
        found = re.match(r'cargo (\d+)\.(\d+)', self.at.run(['cargo', '--version']))
        if needed and found and tuple(map(int, found.groups())) < tuple(map(int, needed.groups())):
            return f'the crate needs Rust {needed[1]}.{needed[2]} or later, and cargo is {found[1]}.{found[2]} here'
        return ''

    def rust(self) -> None:
        project = self.at.path('rust')
        shutil.copytree(os.path.join(PROGRAMS, 'rust'), project)
        crate = json.dumps(self.at.installed('share/desk/rust'), ensure_ascii=False)  # as TOML writes a text too
        with open(os.path.join(project, 'Cargo.toml'), 'a', encoding='utf-8', errors='surrogateescape') as file:
            file.write(f'\n[dependencies]\ndesk = {{ version = "{VERSION}", path = {crate} }}\n')
        expect(ELSEWHERE, self.at.run(['cargo', 'run', '--quiet', '--offline', f'--manifest-path={file.name}',
                                       f'--target-dir={project}/target'], self.at.without_loader()))

    def python(self) -> None:
        expect(ELSEWHERE, self.at.run(['python3', os.path.join(PROGRAMS, 'memory.py')], self.at.without_loader()))

    def command(self) -> None:
        for name, text in (('first.csv', FIRST), ('second.csv', SECOND)):
            with open(self.at.path(name), 'w', encoding='utf-8') as file:
                file.write(text)
        words = [self.at.installed('bin/desk'), 'compare', 'first.csv', 'second.csv', '--json']
        expect(CROSS, json.loads(self.at.run(words, self.at.without_loader()))['sentence'])


def expect(wanted: str, got: str) -> None:
    if got != wanted:
        raise Failed(f'it was to answer\n{wanted}\nand answers\n{got}'.rstrip())


def tried(trial: Trial) -> bool:
    """Tries and says in a line what came of it; whether nothing failed."""
    if trial.lacks:
        print(f'{trial.name}: passed over, {trial.lacks}')
        return True
    try:
        trial.run()
    except (Failed, OSError) as why:
        print(f'{trial.name}: FAILED: {why}', flush=True)
        return False
    print(f'{trial.name}: ok', flush=True)
    return True


def check(destination: Destination) -> bool:
    """Tries everything; whether nothing failed."""
    manifest = destination.manifest()
    if not manifest.finished:
        raise NotDone(f'an install has broken off in {destination.folder}: repeat it, or uninstall')
    if manifest.version != VERSION:
        raise NotDone(f'{destination.folder} has desk {manifest.version}, and this is desk {VERSION}: install it, or check with the other')
    with tempfile.TemporaryDirectory() as folder:
        trials = Check(destination, manifest, os.path.realpath(folder))
        if not trials.at.compilers['CC']:
            raise NotDone('there is no C compiler here: neither cc, gcc nor clang is on the PATH, nor what CC names')
        trials.at.put_python()
        return all([tried(trial) for trial in trials.trials()])
