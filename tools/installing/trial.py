"""The surroundings in which what is installed is tried: a folder, the tools that are here, and no way to the sources."""
from __future__ import annotations

from typing import Sequence
import os
import shlex
import shutil
import subprocess
import sys

ELSEWHERE = ('CPATH', 'C_INCLUDE_PATH', 'CPLUS_INCLUDE_PATH', 'LIBRARY_PATH', 'PKG_CONFIG_LIBDIR', 'PKG_CONFIG_SYSROOT_DIR', 'PYTHONHOME',
             'CARGO_TARGET_DIR', 'CARGO_BUILD_TARGET_DIR', 'CARGO_BUILD_TARGET', 'DESK_LIBRARY', 'DESK_LIB_DIR')  # could lead there
COMPILERS = {'CC': ('cc', 'gcc', 'clang'), 'CXX': ('c++', 'g++', 'clang++')}


class Failed(Exception):
    """Says what was to happen and did not."""


class Surroundings:
    """What is installed in `prefix`, with the Python module in the folder `packages`, tried in `folder`."""

    def __init__(self, prefix: str, packages: str, folder: str) -> None:
        self.prefix, self.packages, self.folder = prefix, packages, folder
        self.tools = {name: shutil.which(name) for name in ('pkg-config', 'cmake', 'cargo')}
        self.compilers = {variable: compiler(variable) for variable in COMPILERS}
        self.environment = self.without_loader()
        self.environment['LD_LIBRARY_PATH'] = before(self.installed('lib'), 'LD_LIBRARY_PATH')

    def installed(self, path: str) -> str:
        return os.path.join(self.prefix, path)

    def path(self, name: str) -> str:
        return os.path.join(self.folder, name)

    def without_loader(self) -> dict[str, str]:
        """The environment as an install asks for it, save that the loader is not told where the shared library is."""
        kept = {name: value for name, value in os.environ.items() if name not in ELSEWHERE}
        return {**kept, 'PKG_CONFIG_PATH': before(self.installed('lib/pkgconfig'), 'PKG_CONFIG_PATH'),
                'CMAKE_PREFIX_PATH': before(self.prefix, 'CMAKE_PREFIX_PATH'), 'PYTHONPATH': self.packages,
                'PYTHONDONTWRITEBYTECODE': '1', 'PATH': before(self.path('bin'), 'PATH')}

    def put_python(self) -> None:
        """Has python3 be this Python, which leaves nothing behind in the folders of the modules."""
        os.mkdir(self.path('bin'))
        with open(self.path('bin/python3'), 'w', encoding='utf-8', errors='surrogateescape') as file:
            file.write(f'#!/bin/sh\nexec {shlex.quote(sys.executable)} -B "$@"\n')
        os.chmod(file.name, 0o755)

    def run(self, words: Sequence[str], environment: dict[str, str] | None = None) -> str:
        """What a program prints that must end well."""
        ended = subprocess.run(words, cwd=self.folder, env=environment or self.environment, stdin=subprocess.DEVNULL,
                               stdout=subprocess.PIPE, stderr=subprocess.PIPE, check=False)
        out, err = (stream.decode('utf-8', 'surrogateescape') for stream in (ended.stdout, ended.stderr))
        if ended.returncode:
            shown = ' '.join(map(shlex.quote, words))
            raise Failed(f'{shown} ended with status {ended.returncode}:\n{out}{err}'.rstrip())
        return out


def before(folder: str, variable: str) -> str:
    """A folder, and behind it those that a variable already names."""
    there = os.environ.get(variable)
    return f'{folder}{os.pathsep}{there}' if there else folder


def compiler(variable: str) -> list[str]:
    """The words that call a compiler: those of the variable, else one of the usual names; none where there is none."""
    named = shlex.split(os.environ.get(variable, ''))
    for words in [named] if named else [[name] for name in COMPILERS[variable]]:
        if shutil.which(words[0]):
            return words
    return []
