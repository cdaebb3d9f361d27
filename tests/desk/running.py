"""Runs the command: `ask` within this process, for thousands of questions, `run` in a process of its own, as a shell does.

Whatever is asked, no answer may hold a traceback or call itself a fault of the command: both see to that.
"""
from __future__ import annotations

from typing import IO, NamedTuple
import io
import json
import os
import signal
import subprocess
import sys
import tempfile
import unittest
import unittest.mock

from common import TOP  # noqa: E402
from books import KINDS, encoded  # noqa: E402
from desk import library  # noqa: E402
from desk.command.main import main  # noqa: E402

EXAMPLES = os.path.join(TOP, 'examples')
LAUNCHER = os.path.join(TOP, 'desk')
COMMAND = [sys.executable, '-B', '-I', '-S', LAUNCHER]  # as the first line of the launcher has it
LIBRARY = library.default_path()
os.environ.update(DESK_LIBRARY=LIBRARY, COLUMNS='80')  # for all that is asked here; the lines of a help are as long on any terminal
FAULTS = ('Traceback', 'fault of desk itself')


class Ran(NamedTuple):
    """What a command ended in."""
    status: int
    out: str
    err: str

    def data(self) -> dict:
        return json.loads(self.out)


def sound(ran: Ran) -> Ran:
    for fault in FAULTS:
        if fault in ran.out or fault in ran.err:
            raise AssertionError(f'a fault of the command: {ran.out[-500:]} {ran.err[-2000:]}')
    return ran


def ask(*words: str, stdin: bytes = b'') -> Ran:
    """Answers a command line in this process, with streams of its own."""
    out, err = (io.TextIOWrapper(io.BytesIO(), 'utf-8', newline='\n') for _ in range(2))
    before = signal.getsignal(signal.SIGINT)
    try:
        with unittest.mock.patch.multiple(sys, stdout=out, stderr=err, stdin=io.TextIOWrapper(io.BytesIO(stdin))):
            status = main(list(words))
            for stream in (out, err):
                stream.flush()
    finally:
        signal.signal(signal.SIGINT, before)
    return sound(Ran(status, *(stream.buffer.getvalue().decode() for stream in (out, err))))


def environment(**changes: str) -> dict[str, str]:
    return {**os.environ, **changes}


def run(*words: str | bytes, stdin: bytes | int | IO = b'', **options: object) -> Ran:
    """Answers a command line in a process, whose status is negative where a signal ended it. Standard input is a content or a file."""
    options = {'stdout': subprocess.PIPE, 'stderr': subprocess.PIPE, 'env': environment(), 'check': False, 'timeout': 120, **options}
    options['input' if isinstance(stdin, bytes) else 'stdin'] = stdin
    ended = subprocess.run([*COMMAND, *words], **options)
    return sound(Ran(ended.returncode, *((stream or b'').decode('utf-8', 'surrogateescape') for stream in (ended.stdout, ended.stderr))))


def shell(script: str, *words: str | bytes, **options: object) -> Ran:
    """Runs a line of the shell in which "$@" is the command line, for streams that are closed, full or lead elsewhere."""
    options = {'stdin': subprocess.DEVNULL, 'env': environment(), 'check': False, 'timeout': 120, **options}
    ended = subprocess.run(['sh', '-c', script, 'sh', *COMMAND, *words], stdout=subprocess.PIPE, stderr=subprocess.PIPE, **options)
    return sound(Ran(ended.returncode, *(stream.decode('utf-8', 'surrogateescape') for stream in (ended.stdout, ended.stderr))))


def example(name: str) -> str:
    return os.path.join(EXAMPLES, name)


def examples(ending: str) -> list[str]:
    return sorted(name for name in os.listdir(EXAMPLES) if name.endswith(ending))


def content_of(path: str) -> bytes:
    with open(path, 'rb') as file:
        return file.read()


def csv_text(tables: list, separator: str = ',', end: str = '\n') -> str:
    """The plainest CSV of tables: what the first column counts, and the rows."""
    lines = []
    for counts, rows in tables:
        lines += ['', separator.join((counts, 'defaults', 'announced'))] + [separator.join(map(str, row)) for row in rows]
    return end.join(lines[1:]) + end


def book_of(tables: list) -> bytes:
    """The book of the same tables, by the tests' own writer."""
    return encoded([(KINDS[counts], rows) for counts, rows in tables])


class Case(unittest.TestCase):
    """A test with a folder of its own."""

    def setUp(self) -> None:
        folder = tempfile.TemporaryDirectory()
        self.addCleanup(folder.cleanup)
        self.folder = os.path.realpath(folder.name)

    def path(self, name: str) -> str:
        return os.path.join(self.folder, name)

    def put(self, name: str, content: bytes | str) -> str:
        with open(self.path(name), 'wb') as file:
            file.write(content.encode() if isinstance(content, str) else content)
        return self.path(name)

    def got(self, name: str) -> bytes:
        return content_of(self.path(name))

    def names(self) -> list[str]:
        return sorted(os.listdir(self.folder))

    def answered(self, *words: str, stdin: bytes = b'') -> Ran:
        """What a command answers that refuses nothing."""
        ran = ask(*words, stdin=stdin)
        self.assertEqual(ran.status, 0, ran.err)
        return ran

    def refused(self, number: int | None, *words: str, stdin: bytes = b'') -> list[str]:
        """The lines about what is refused, of which the first has this number."""
        ran = ask(*words, stdin=stdin)
        opening = 'desk: refused: ' if number is None else f'desk: refused {number}: '
        self.assertEqual((ran.status, ran.err[:len(opening)]), (1, opening), ran.err)
        return [line for line in ran.err.splitlines() if line.startswith('desk: refused')]

    def wrong(self, *words: str, stdin: bytes = b'') -> str:
        """What is said of a command line that asks nothing that could be answered."""
        ran = ask(*words, stdin=stdin)
        self.assertEqual((ran.status, ran.out), (2, ''), ran.err)
        return ran.err
