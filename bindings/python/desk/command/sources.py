"""What a product is made of: the crates that it reaches, and the stamp of their sources."""
from __future__ import annotations

import hashlib
import os

TYPE_CHECKING = False  # as typing has it, which need not be loaded for a later use
if TYPE_CHECKING:
    from typing import Iterator

HERE = os.path.dirname(os.path.abspath(__file__))
MAKERS = ('build.py', 'sources.py', 'toolchain.py', '../version.py')  # how a product is made is part of its stamp
PARTS = ('src', 'specs', 'proofs')  # of a crate


class Sources:
    """The sources of a crate and of all that it reaches in the repository at `top`."""

    def __init__(self, top: str, crate: str) -> None:
        self.top, self.crate = top, crate

    def stamp(self) -> str:
        """The SHA-256 of the names and contents of all files, and of how they are built."""
        digest = hashlib.sha256()
        for folder, names in ((HERE, MAKERS), (self.top, self.files())):
            for name in names:
                try:
                    with open(os.path.join(folder, name), 'rb', buffering=0) as file:
                        content = file.read()
                except FileNotFoundError:  # a link that leads nowhere, as some editors leave beside an open file
                    continue
                digest.update(b'%s\0%d\0' % (os.fsencode(name), len(content)) + content)
        return digest.hexdigest()

    def files(self) -> Iterator[str]:
        """The paths from the top, always in the same order."""
        yield 'crates.txt'
        start = len(os.path.join(self.top, ''))
        for crate in self.crates():
            for part in PARTS:
                for folder, folders, names in os.walk(os.path.join(self.top, 'crates', crate, part)):
                    folders.sort()
                    for name in sorted(names):
                        yield os.path.join(folder, name)[start:]

    def crates(self) -> list[str]:
        """The crate and those that it reaches, in the order of crates.txt, which does not list the crates of the toolchain. Behind the name
        of a crate it may say what the crate is, as `desk_abi staticlib: ..`."""
        listed = {}
        with open(os.path.join(self.top, 'crates.txt'), encoding='utf-8', errors='replace') as lines:
            for line in lines:
                name, _, after = line.partition('#')[0].partition(':')
                listed[name.strip().partition(' ')[0]] = after.split()
        found, todo = set(), [self.crate]
        while todo:
            name = todo.pop()
            if name in listed and name not in found:
                found.add(name)
                todo += listed[name]
        return [name for name in listed if name in found]
