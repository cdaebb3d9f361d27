"""share/desk/installed.txt: what is installed below a PREFIX.

    desk 1                          the version; `desk 1 unfinished` while an install is at work, or where one has broken off
    folder share/desk               a folder that the install made; `.` is PREFIX itself
    file SHA256 include/desk.h      a file and its content; two lines where a broken-off install may have left either
    link TARGET lib/libdesk.so      a symbolic link and where it leads

A path is from PREFIX and stays below it: what is read is refused otherwise.
"""
from __future__ import annotations

from typing import Iterable
import re

from .tree import Tree
from .words import NotDone

PATH = 'share/desk/installed.txt'
PART = r'(?!\.{1,2}(?:/|$))[\w.+-]+'  # of a path; neither . nor ..
FIRST = re.compile(r'desk ([1-9]\d{0,8})( unfinished)?', re.ASCII)
BELOW = f'{PART}(?:/{PART})*'
LINE = re.compile(rf'folder (?P<folder>\.|{BELOW})|(?P<mark>file [0-9a-f]{{64}}|link [\w./+-]+) (?P<path>{BELOW})', re.ASCII)


def temporary(path: str) -> str:
    """The path that what is to stand at a path is written to first."""
    folder, slash, name = path.rpartition('/')
    return f'{folder}{slash}.{name}.desk-new'


def folders_of(paths: Iterable[str]) -> list[str]:
    """All folders above these paths, each after its outer one."""
    found = set()
    for path in paths:
        parts = path.split('/')
        found |= {'/'.join(parts[:depth]) for depth in range(1, len(parts))}
    return sorted(found)


class Manifest:
    """The version, the marks that each path may have, and the folders."""

    def __init__(self, version: int, marks: dict[str, list[str]], folders: Iterable[str], finished: bool = True) -> None:
        self.version, self.marks, self.folders, self.finished = version, marks, set(folders), finished

    def text(self) -> str:
        lines = [f'desk {self.version}' + ('' if self.finished else ' unfinished')]
        lines += [f'folder {path}' for path in sorted(self.folders)]
        lines += [f'{mark} {path}' for path, marks in sorted(self.marks.items()) for mark in marks]
        return '\n'.join(lines) + '\n'

    def lists(self, path: str, mark: str | None) -> bool:
        """Whether what stands at a path, by its mark, was put there."""
        return mark in self.marks.get(path, [])

    def write(self, tree: Tree) -> None:
        tree.remove(temporary(PATH))
        tree.write(temporary(PATH), self.text().encode(), 0o644)
        tree.rename(temporary(PATH), PATH.rpartition('/')[2])

    @classmethod
    def parse(cls, text: str, name: str) -> Manifest:
        """The manifest that a text is; a line of which anything is not understood is refused."""
        lines = text.split('\n')
        first = FIRST.fullmatch(lines[0])
        if not first or lines[-1]:
            raise NotDone(f'{name} is not the list of an installed desk; nothing is changed')
        manifest = cls(int(first[1]), {}, (), not first[2])
        for number, line in enumerate(lines[1:-1], 2):
            found = LINE.fullmatch(line)
            if not found:
                raise NotDone(f'{name}, line {number}, is not understood: {line!r}; nothing is changed')
            if found['folder']:
                manifest.folders.add(found['folder'])
            else:
                manifest.marks.setdefault(found['path'], []).append(found['mark'])
        return manifest

    @classmethod
    def read(cls, tree: Tree) -> Manifest | None:
        """That of what is installed; none where nothing is."""
        mark = tree.mark(PATH)
        if mark is None:
            return None
        if not mark.startswith('file '):
            raise NotDone(f'{tree.full(PATH)} is no file of its own, or is reached through a symbolic link; nothing is changed')
        return cls.parse(tree.read(PATH).decode('utf-8', 'replace'), tree.full(PATH))
