"""Runs the Rattle toolchain, `rt`, and the linker of its kit, and says on standard error how far they are."""
from __future__ import annotations

import contextlib
import fcntl
import os
import re
import shutil
import signal
import subprocess
import sys
import time
from typing import BinaryIO, Iterable, Iterator

CRATE = re.compile(r'crate (\w+): modules ')
PROVED = re.compile(r'logic=proved ')  # of the crate that was named last
REFUSED = re.compile(r'fn (\S+): no proof')
CALLED = 'libdesk_c.a'  # what C callers call the archive, whichever crate it is made of
EXPORTS = 'DESK_%d { global: desk_*; local: *; };\n'  # what a program linked with asks the loader for by name


class Failed(Exception):
    """Says in words what the toolchain could not do."""


def say(text: str) -> None:
    """Writes a line to standard error. Where that fails the work goes on, and no buffer is left that would fail again in the end."""
    if sys.stderr is not None:
        with contextlib.suppress(OSError, ValueError):
            os.write(sys.stderr.fileno(), os.fsencode(f'desk: {text}\n'))


@contextlib.contextmanager
def locked(path: str) -> Iterator[int]:
    """The lock of a file, as a descriptor. It holds until every process that has the descriptor has closed it or ended."""
    with open(path, 'ab') as file:
        try:
            fcntl.flock(file, fcntl.LOCK_EX | fcntl.LOCK_NB)
        except BlockingIOError:
            say('another use proves and builds at this moment; waiting for it')
            fcntl.flock(file, fcntl.LOCK_EX)
        yield file.fileno()


class Progress:
    """Says once of each crate that it is proved, and keeps the first function of which rt says that it is not. Of a crate that rt finds
    unchanged it says nothing: it counts as proved once a crate above it is, at the latest the one that is made, `top`."""

    def __init__(self, crates: Iterable[str]) -> None:
        self.crates, self.proved, self.refusal = set(crates), set(), ''
        self.top = self.named = ''
        self.start = self.since = time.monotonic()

    def seconds(self) -> int:
        return round(time.monotonic() - self.start)

    def read(self, line: str) -> None:
        found, refused = CRATE.match(line), REFUSED.match(line)
        if found:
            self.named = found[1]
        elif PROVED.match(line):
            self.add(self.named)
        elif refused and not self.refusal:
            self.refusal = f'{refused[1]} is not proved'

    def add(self, crate: str) -> None:
        if crate in self.crates - self.proved:
            took, self.since = round(time.monotonic() - self.since), time.monotonic()
            self.proved |= self.crates if crate == self.top else {crate}
            say(f'{len(self.proved)} of {len(self.crates)} crates proved ({crate}, {took} s; {self.seconds()} s in all)')


class Toolchain:
    """The toolchain at work on one repository. All that it prints goes to a log."""

    def __init__(self, top: str, crates: Iterable[str], lock: int, log: BinaryIO) -> None:
        found = shutil.which('rt')
        if not found:
            raise Failed('that needs the Rattle toolchain, and there is no rt on the PATH')
        self.rt = os.path.abspath(found)
        self.top, self.lock, self.log, self.progress = top, lock, log, Progress(crates)

    def staticlib(self, crate: str) -> str:
        """Proves a crate and those below it, and returns the path of its archive, under the name that C callers know."""
        made = self.prove('lib', crate, f'lib{crate}.a')
        archive = os.path.join(self.top, 'target', 'staticlib', CALLED)
        os.makedirs(os.path.dirname(archive), exist_ok=True)
        self.copy(made, archive)
        return archive

    def program(self, crate: str) -> str:
        """Proves a crate and those below it, and returns the path of its program, which rt runs once, on no input."""
        return self.prove('run', crate, crate)

    def copy(self, made: str, to: str) -> None:
        """Copies what rt has made."""
        shutil.copy(made, to)

    def link(self, archive: str, version: int, to: str) -> None:
        """Makes a shared library of an archive, with the functions desk_* alone to call from outside. It needs no C compiler."""
        tools = os.path.join(self.kit(), 'toolchain')
        linker, libc = os.path.join(tools, 'bin', 'ld.lld'), os.path.join(tools, 'lib', 'libc.so.6')
        for path in (linker, libc):
            if not os.path.isfile(path):
                raise Failed(f'the toolchain has no {path} to link with')
        exports = f'{to}.exports'
        try:
            with open(exports, 'w', encoding='ascii') as file:
                file.write(EXPORTS % version)
            checks = [word for check in ('defs', 'text', 'relro', 'now', 'noexecstack') for word in ('-z', check)]
            status = self.run([linker, '-shared', '-soname', f'libdesk.so.{version}', f'--version-script={exports}', *checks, '-o', to,
                               '--whole-archive', archive, '--no-whole-archive', libc])
        finally:
            with contextlib.suppress(FileNotFoundError):
                os.remove(exports)
        if status:
            raise Failed(f'the linker ended with status {status}. All that it said is in {self.log.name}')

    def kit(self) -> str:
        """The folder of the kit: that of the guide that rt names."""
        said = subprocess.run([self.rt, 'doc'], stdin=subprocess.DEVNULL, stdout=subprocess.PIPE, stderr=self.log, check=False).stdout
        return os.path.dirname(os.fsdecode(said.strip()))

    def prove(self, command: str, crate: str, name: str) -> str:
        """Has rt make the file of this name in a crate's folder out/, and returns its path."""
        folder = os.path.join(self.top, 'crates', crate)
        self.progress.top = crate
        status = self.run([self.rt, command], folder)
        if status:
            ended = f'{crate} is not proved' if status in (1, 3) else f'rt {command} ended with status {status}'
            raise Failed(f'{self.progress.refusal or ended}. All that rt said is in {self.log.name}')
        self.progress.add(crate)
        made = os.path.join(folder, 'out', name)
        if not os.path.isfile(made):
            raise Failed(f'rt calls {crate} proved, but there is no {made}. Remove the folder {os.path.dirname(made)} and try again')
        return made

    def run(self, words: list[str], folder: str | None = None) -> int:
        """Runs a program, at the top or in a folder, and returns its status. It has the lock too, which so holds as long as it runs, whatever
        ends this process. It has a group of its own, so that an interrupt ends all of it: what a shell runs in the background ignores Ctrl-C."""
        with subprocess.Popen(words, cwd=folder or self.top, stdin=subprocess.DEVNULL, stdout=subprocess.PIPE, stderr=subprocess.STDOUT,
                              pass_fds=(self.lock,), start_new_session=True) as process:
            try:
                for line in process.stdout:
                    self.log.write(line)
                    self.progress.read(line.decode('utf-8', 'replace'))
                return process.wait()
            except BaseException:
                with contextlib.suppress(ProcessLookupError):
                    os.killpg(process.pid, signal.SIGKILL)
                raise
