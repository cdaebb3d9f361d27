"""The folder that is installed into: PREFIX, where it stands in the end, below DESTDIR while a package is made."""
from __future__ import annotations

from contextlib import ExitStack, contextmanager
from typing import Iterator, Sequence
import os
import re

from .manifest import Manifest
from .putting import Entry, Putting
from .removing import uninstall
from .tree import Tree
from .words import NotDone, WrongUsage

UNFIT = re.compile(r'[\x00-\x1f\x7f:;]')


class Destination:
    """`prefix` is where things are in the end, `folder` where they are put."""

    def __init__(self, prefix: str, destdir: str) -> None:
        if not prefix:
            raise WrongUsage('PREFIX is empty')
        if UNFIT.search(prefix):
            raise WrongUsage('PREFIX has a line break, another control character, a colon or a semicolon in it: '
                             'PATH and its like cannot hold that')
        if destdir and not os.path.isabs(prefix):
            raise WrongUsage(f'with DESTDIR, PREFIX is where things are in the end, and begins with /; {prefix!r} does not')
        self.staged = bool(destdir)
        self.prefix = os.path.abspath(prefix)
        self.folder = os.path.abspath(destdir) + self.prefix if destdir else self.prefix

    @contextmanager
    def tree(self) -> Iterator[Tree]:
        """The folder, locked."""
        tree = Tree(self.folder)
        try:
            tree.lock()
            yield tree
        finally:
            tree.close()

    def make(self, undo: ExitStack) -> bool:
        """Makes the folder and those above it that are missing; whether it was missing."""
        missing, path = [], os.path.normpath(self.folder)
        while not os.path.lexists(path):
            missing.append(path)
            path = os.path.dirname(path)
        for path in reversed(missing):
            os.mkdir(path)
            undo.callback(os.rmdir, path)
            os.chmod(path, 0o755)
        return bool(missing)

    def put(self, version: int, entries: Sequence[Entry]) -> list[str]:
        """Installs; what is kept of an earlier install."""
        with ExitStack() as undo:
            made = ['.'] if self.make(undo) else []
            with self.tree() as tree:
                kept = Putting(tree, version, entries, made).put()
                undo.pop_all()
                return kept

    def uninstall(self) -> list[str]:
        self.see()
        with self.tree() as tree:
            return uninstall(tree)

    def manifest(self) -> Manifest:
        """That of what is installed."""
        self.see()
        with self.tree() as tree:
            found = Manifest.read(tree)
        if found is None:
            raise NotDone(f'desk is not installed in {self.folder}')
        return found

    def see(self) -> None:
        if not os.path.isdir(self.folder):
            raise NotDone(f'desk is not installed in {self.folder}: there is no such folder')
