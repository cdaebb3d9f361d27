"""Puts files and links in their places, all or none.

First everything is looked at, and anything in the way refused. Then all is written beside its place under another name; what fails up
to here is undone. Then all is renamed, which is the work of a moment. The manifest is written before, as unfinished and with what may
stand at a path then and in the end, and again afterwards; so one that breaks off can be repeated, or uninstalled.
"""
from __future__ import annotations

from contextlib import ExitStack
from typing import NamedTuple, Sequence

from desk.command.files import undisturbed

from .manifest import PATH, Manifest, folders_of, temporary
from .removing import remove_compiled, remove_folders, remove_listed, remove_temporaries
from .tree import BLOCKED, Tree, file_mark, link_mark
from .words import NotDone, listed


class Entry(NamedTuple):
    """A file with its content, or a link with where it leads."""
    path: str
    content: bytes = b''
    mode: int = 0o644
    link: str = ''

    @property
    def mark(self) -> str:
        return link_mark(self.link) if self.link else file_mark(self.content)

    def write(self, tree: Tree, path: str) -> None:
        if self.link:
            tree.link(path, self.link)
        else:
            tree.write(path, self.content, self.mode)


class Putting:
    """One install into a tree, in place of the earlier one that the tree may hold."""

    def __init__(self, tree: Tree, version: int, entries: Sequence[Entry], made: Sequence[str] = ()) -> None:
        """`made` is `.` if the tree's root was made for this."""
        self.tree, self.entries = tree, entries
        self.new = Manifest(version, {entry.path: [entry.mark] for entry in entries}, made)
        self.before = Manifest.read(tree)
        self.old = self.before or Manifest(version, {}, ())
        self.folders = folders_of([*self.new.marks, PATH])
        self.missing = [path for path in self.folders if tree.mark(path) is None]

    # What is in the way

    def obstacles(self) -> list[str]:
        """Each in words."""
        return [*filter(None, map(self.folder_obstacle, ['.', *self.folders])), *filter(None, map(self.obstacle, self.new.marks))]

    def folder_obstacle(self, path: str) -> str | None:
        mark = self.tree.mark(path)
        if mark == 'folder' and not self.tree.writable(path):
            return f'{self.tree.full(path)}: no permission to write in this folder'
        if mark in ('folder', None, BLOCKED):  # what blocks is told of the outer folder
            return None
        return f'{self.tree.full(path)} must be a folder, and is a {mark.split()[0]}'

    def obstacle(self, path: str) -> str | None:
        mark = self.tree.mark(path)
        if mark not in (None, BLOCKED) and not self.old.lists(path, mark):
            since = 'has been changed since it was installed' if path in self.old.marks else 'is not of an earlier install'
            return f'{self.tree.full(path)} {since}'
        left_over = not self.old.finished and path in self.old.marks
        if self.tree.mark(temporary(path)) not in (None, BLOCKED) and not left_over:
            return f'{self.tree.full(temporary(path))} is not of an earlier install'
        return None

    # The install

    def put(self) -> list[str]:
        """Installs, and returns what is kept of an earlier install because it has been changed since."""
        obstacles = self.obstacles()
        if obstacles:
            raise NotDone(f'nothing is installed, as this is in the way:{listed(obstacles)}\n'
                          'Move it away, install as somebody who may write there, or choose another PREFIX')
        with ExitStack() as undo:
            self.prepare(undo)
            with undisturbed():
                undo.pop_all()
                return self.finish()

    def prepare(self, undo: ExitStack) -> None:
        """Makes the folders and writes everything beside its place; the folders of the manifest first, which lists all others."""
        remove_temporaries(self.tree, self.old)
        own = folders_of([PATH])
        self.make([path for path in self.missing if path in own], undo)
        undo.callback(self.restore)
        self.unfinished().write(self.tree)
        self.make([path for path in self.missing if path not in own], undo)
        for entry in self.entries:
            undo.callback(self.tree.remove, temporary(entry.path))
            entry.write(self.tree, temporary(entry.path))

    def make(self, folders: Sequence[str], undo: ExitStack) -> None:
        for path in folders:
            self.tree.make_folder(path)
            undo.callback(self.tree.remove_folder, path)

    def unfinished(self) -> Manifest:
        """The manifest while the install is at work: what may stand at each path, before and afterwards."""
        marks = {path: list(marks) for path, marks in self.old.marks.items()}
        for path, (mark,) in self.new.marks.items():
            if not self.old.lists(path, mark):
                marks.setdefault(path, []).append(mark)
        return Manifest(self.new.version, marks, {*self.old.folders, *self.new.folders, *self.missing}, finished=False)

    def restore(self) -> None:
        """Puts the manifest back as it was."""
        if self.before:
            self.before.write(self.tree)
        else:
            self.tree.remove(PATH)
            self.tree.remove(temporary(PATH))

    def finish(self) -> list[str]:
        try:
            for entry in self.entries:
                self.tree.rename(temporary(entry.path), entry.path.rpartition('/')[2])
            kept = remove_listed(self.tree, self.old, [path for path in self.old.marks if path not in self.new.marks])
            remove_compiled(self.tree, self.old.marks)
            needed = {'.', *self.folders}
            self.new.folders |= {*self.missing, *(self.old.folders & needed), *remove_folders(self.tree, self.old.folders - needed)}
            self.new.write(self.tree)
            return kept
        except OSError as error:
            raise NotDone(f'the install has broken off in the middle ({error.filename}: {error.strerror}): '
                          'repeat it once that is mended, or uninstall') from error
