"""Proves and builds what the command runs and what is installed, once: the shared library, document 01's printing program, the archive.

A product stands in TOP/target/desk, and beside it the stamp of the sources that it was made of. While that is the stamp of the present
sources nothing is proved, built or waited for, and no toolchain is needed. A lock keeps two builds apart. The stamp is written last, so
that a build that breaks off, however it does, leaves no product that counts.
"""
from __future__ import annotations

import os

from desk.command.sources import Sources
from desk.version import VERSION

TYPE_CHECKING = False  # as typing has it, which need not be loaded for a later use
if TYPE_CHECKING:
    from desk.command.toolchain import Toolchain


class NotBuilt(Exception):
    """Says in words why there is no library or program."""


class Product:
    """A file of target/desk that is made of a crate and of those that it stands on."""

    name = crate = called = ''

    def __init__(self, top: str) -> None:
        self.top = os.path.abspath(top)
        self.sources = Sources(self.top, self.crate)
        self.folder = os.path.join(self.top, 'target', 'desk')
        self.path = os.path.join(self.folder, self.name)
        self.stamp_path = f'{self.path}.stamp'

    def make(self, toolchain: Toolchain, to: str) -> None:
        """Proves the crates and writes the product to a path."""
        raise NotImplementedError

    def built(self) -> str:
        """The path of the product, which is made first where the sources have changed."""
        try:
            if not self.is_of(self.sources.stamp()):
                self.build()
        except OSError as error:
            raise NotBuilt(f'{self.called} is not built: {error.filename or self.folder}: {error.strerror or error}') from error
        return self.path

    def is_of(self, stamp: str) -> bool:
        """Whether the product is there, and made of the sources with this stamp."""
        try:
            with open(self.stamp_path, 'rb') as file:
                return file.read() == stamp.encode() and os.path.isfile(self.path)
        except FileNotFoundError:
            return False

    def build(self) -> None:
        """Makes the product, unless another use has by the time that this one has the lock; again where the sources change meanwhile."""
        from desk.command.toolchain import Failed, locked  # not at the top: a later use does without
        os.makedirs(self.folder, exist_ok=True)
        with locked(os.path.join(self.folder, 'lock')) as lock:
            stamp = self.sources.stamp()
            while not self.is_of(stamp):
                try:
                    self.renew(stamp, lock)
                except Failed as failed:
                    raise NotBuilt(f'{self.called} is not built: {failed}') from failed
                stamp = self.sources.stamp()

    def renew(self, stamp: str, lock: int) -> None:
        """Makes the product of the sources with this stamp, and keeps it if they still have it in the end."""
        from desk.command.toolchain import Toolchain, say
        new, first = f'{self.path}.new', not os.path.exists(self.path)
        try:
            with open(f'{self.path}.log', 'wb', buffering=0) as log:
                toolchain = Toolchain(self.top, self.sources.crates(), lock, log)
                why = 'this is the first use' if first else 'the sources have changed'
                say(f'{why}: {self.called} is proved and built, which takes some minutes, once')
                self.make(toolchain, new)
            if self.sources.stamp() == stamp:
                self.put(new, stamp)
                say(f'{self.called} is built ({toolchain.progress.seconds()} s)')
            else:
                say('the sources have changed meanwhile; once more')
        finally:
            remove(new)

    def put(self, new: str, stamp: str) -> None:
        """Puts the product in its place. The old stamp goes first, so that none ever stands beside a product of other sources."""
        with open(new, 'rb') as file:
            os.fsync(file.fileno())
        remove(self.stamp_path)
        os.replace(new, self.path)
        with open(f'{self.stamp_path}.new', 'wb') as file:
            file.write(stamp.encode())
        os.replace(file.name, self.stamp_path)


class SharedLibrary(Product):
    """What it is linked of is kept as the archive of the same sources, so that one build does for both."""

    name, crate, called = 'libdesk.so', 'desk_abi', 'the library'

    def make(self, toolchain: Toolchain, to: str) -> None:
        archive = toolchain.staticlib(self.crate)
        toolchain.link(archive, VERSION, to)
        toolchain.copy(archive, f'{to}.archive')

    def renew(self, stamp: str, lock: int) -> None:
        try:
            super().renew(stamp, lock)
        finally:
            remove(f'{self.path}.new.archive')

    def put(self, new: str, stamp: str) -> None:
        super().put(new, stamp)
        Archive(self.top).put(f'{new}.archive', stamp)


class Archive(Product):
    name, crate, called = 'libdesk.a', 'desk_abi', 'the archive'

    def make(self, toolchain: Toolchain, to: str) -> None:
        toolchain.copy(toolchain.staticlib(self.crate), to)


class PrintingProgram(Product):
    name, crate, called = 'report', 'report', 'the printing program'

    def make(self, toolchain: Toolchain, to: str) -> None:
        toolchain.copy(toolchain.program(self.crate), to)


def remove(path: str) -> None:
    """Removes a file that need not be there."""
    try:
        os.remove(path)
    except FileNotFoundError:
        pass


def shared_library(top: str) -> str:
    """The path of the shared library of the repository at `top`, proved and built if its sources have changed since it was."""
    return SharedLibrary(top).built()


def printing_program(top: str) -> str:
    """The same for document 01's printing program."""
    return PrintingProgram(top).built()


def archive(top: str) -> str:
    """The same for the archive that C and Rust programs link."""
    return Archive(top).built()
