"""What the tests of ./install share: folders with a space in their names, a stranger's environment, and what stands in a folder."""
from __future__ import annotations

from typing import Dict, Sequence, Tuple
import os
import shutil
import stat
import subprocess
import sys
import tempfile
import unittest

TOP = os.path.realpath(os.path.join(os.path.dirname(os.path.abspath(__file__)), '..', '..'))
sys.path[:0] = [os.path.join(TOP, 'bindings', 'python'), os.path.join(TOP, 'tools')]
from desk.version import VERSION  # noqa: E402

INSTALL = os.path.join(TOP, 'install')
PYTHON = f'lib/python{sys.version_info[0]}.{sys.version_info[1]}/site-packages'
LIBRARY = f'libdesk.so.{VERSION}'
Standing = Dict[str, Tuple[int, bytes]]  # by path: the kind and mode, and the content or where a link leads


def standing(folder: str) -> Standing:
    """All that stands in a folder."""
    found = {}
    for above, folders, names in os.walk(folder):
        for name in folders + names:
            path = os.path.join(above, name)
            mode = os.lstat(path).st_mode
            content = os.fsencode(os.readlink(path)) if stat.S_ISLNK(mode) else content_of(path) if stat.S_ISREG(mode) else b''
            found[os.path.relpath(path, folder)] = mode, content
    return found


def content_of(path: str) -> bytes:
    with open(path, 'rb') as file:
        return file.read()


class Case(unittest.TestCase):
    """A test with a folder of its own outside the repository, in which the commands run that it gives."""

    def setUp(self) -> None:
        self.folder = new_folder()
        self.addCleanup(shutil.rmtree, self.folder)
        self.environment = stranger(self.folder)

    def path(self, *names: str) -> str:
        return os.path.join(self.folder, *names)

    def put(self, name: str, content: str | bytes) -> str:
        os.makedirs(os.path.dirname(self.path(name)), exist_ok=True)
        with open(self.path(name), 'wb') as file:
            file.write(content.encode() if isinstance(content, str) else content)
        return file.name

    def ran(self, *words: str, **variables: str) -> subprocess.CompletedProcess:
        return subprocess.run(words, cwd=self.folder, env={**self.environment, **variables}, stdin=subprocess.DEVNULL,
                              stdout=subprocess.PIPE, stderr=subprocess.PIPE, check=False, timeout=120, text=True,
                              errors='surrogateescape')

    def done(self, *words: str, **variables: str) -> str:
        """What a command prints that ends well and complains of nothing."""
        ended = self.ran(*words, **variables)
        self.assertEqual((ended.returncode, ended.stderr), (0, ''), f'{words}\n{ended.stdout}')
        return ended.stdout

    def fails(self, status: int, *words: str, **variables: str) -> str:
        """What a command says on standard error that ends with a status; never a traceback."""
        ended = self.ran(*words, **variables)
        self.assertEqual(ended.returncode, status, f'{words}\n{ended.stdout}{ended.stderr}')
        self.assertNotIn('Traceback', ended.stderr)
        return ended.stderr


def new_folder() -> str:
    return os.path.realpath(tempfile.mkdtemp(prefix='a stranger '))


def stranger(folder: str) -> dict[str, str]:
    """The environment of somebody who has the usual tools, this Python, and nothing of the project: no `rt` among others."""
    programs = os.path.join(folder, '.tools')
    os.mkdir(programs)
    os.symlink(sys.executable, os.path.join(programs, 'python3'))
    cargo = shutil.which('cargo')
    where = [programs, *([os.path.dirname(cargo)] if cargo else []), '/usr/bin', '/bin']
    homes = {name: os.environ[name] for name in ('CARGO_HOME', 'RUSTUP_HOME', 'RUSTUP_TOOLCHAIN') if name in os.environ}
    return {'PATH': os.pathsep.join(where), 'HOME': os.environ.get('HOME', folder), **homes}


def paths_of(prefix: str) -> dict[str, str]:
    """The variables that an install asks to be set, without that of the loader."""
    return {'PKG_CONFIG_PATH': os.path.join(prefix, 'lib', 'pkgconfig'), 'CMAKE_PREFIX_PATH': prefix,
            'PYTHONPATH': os.path.join(prefix, PYTHON)}


def needs(*programs: str):
    """Passes a test over where a program is not here."""
    missing = [program for program in programs if not shutil.which(program)]
    return unittest.skipIf(missing, f'there is no {" and no ".join(missing)} here')


def found(*programs: str) -> Sequence[str]:
    return [program for program in programs if shutil.which(program)]
