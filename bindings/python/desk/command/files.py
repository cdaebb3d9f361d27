"""Files as the command reads and writes them. What goes wrong is told with the file's name as it was given."""
from __future__ import annotations

from contextlib import contextmanager
from typing import Iterator, Sequence
import os
import shutil
import signal
import sys

from .outcome import WrongUsage

MOST_BYTES = 1 << 20  # far more than 16 tables of 40 grades need in CSV; a book has at most 65,535
STANDARD_INPUT = '-'


@contextmanager
def about(file: str) -> Iterator[None]:
    """Whatever fails is about this file, also where the system does not say so or names another."""
    try:
        yield
    except OSError as error:
        raise OSError(error.errno, error.strerror or str(error), file) from None


def read_bytes(file: str) -> bytes:
    """The content of a file, of which no more is read than a book or a CSV file can have and a byte."""
    if file != STANDARD_INPUT:
        with about(file), open(file, 'rb') as stream:
            return stream.read(MOST_BYTES + 1)
    if sys.stdin is None:
        raise WrongUsage('there is no standard input to read')
    with about('standard input'):
        return sys.stdin.buffer.read(MOST_BYTES + 1)


def see_once(files: Sequence[str]) -> None:
    if files.count(STANDARD_INPUT) > 1:
        raise WrongUsage('standard input is named twice, and can be read once')


def see_apart(inputs: Sequence[str], output: str | None) -> None:
    """That what is read is not written over."""
    if output is None or not os.path.exists(output):
        return
    for file in inputs:
        if file != STANDARD_INPUT and os.path.exists(file) and os.path.samefile(output, file):
            raise WrongUsage(f'{output} is to be read and written')


def write_whole(file: str, content: bytes) -> None:
    """Puts a file in place whole, or leaves what stood there. A device or pipe has nothing to be replaced and is written to."""
    with about(file):
        if os.path.exists(file) and not os.path.isfile(file):
            with open(file, 'wb') as device:
                device.write(content)
        else:
            with undisturbed():
                replace(os.path.realpath(file), content)


@contextmanager
def undisturbed() -> Iterator[None]:
    """What would end the process does so afterwards."""
    before = signal.pthread_sigmask(signal.SIG_BLOCK, {signal.SIGINT, signal.SIGTERM, signal.SIGHUP})
    try:
        yield
    finally:
        signal.pthread_sigmask(signal.SIG_SETMASK, before)


def replace(target: str, content: bytes) -> None:
    part = os.path.join(os.path.dirname(target), f'desk.{os.getpid()}.part')
    try:
        with open(part, 'xb') as stream:
            stream.write(content)
        if os.path.exists(target):
            shutil.copymode(target, part)
        os.replace(part, target)
    except FileExistsError:  # a part that is not this one's
        raise
    except OSError:
        if os.path.exists(part):
            os.remove(part)
        raise
