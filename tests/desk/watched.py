"""A desk that is watched: its image stands between guards, and whatever else a call lends is moved between guards for the call.

After each call the guards are whole; a refusal has changed nothing; only load, clear and events have changed the desk, and only in their
place; a book that is read is as it was. A shortlist, to which no desk is lent, is watched through one whose places it has to leave alone. What is
found otherwise raises Violated.
"""
from __future__ import annotations

from ctypes import Array, Structure, addressof, byref, c_size_t, memmove, sizeof
from functools import partial
from typing import Callable
import unittest.mock

import common  # noqa: F401  (where the module stands)
from desk import Desk, library, shortlist_into
from desk.desk import accept
from desk.events import EVENTS

GUARD = bytes(range(129, 193)) * 16  # nothing that a call is likely to write, and more than any call writes
BEFORE = b'\xaa'  # what an answer holds before it is written
CHANGES = ('desk_load', 'desk_clear', *(f'desk_{event}' for event in EVENTS))  # the calls that may change a place
NO_DESK = ('desk_shortlist',)  # the calls that no desk is lent to; the first that they are lent is a book to read


class Violated(Exception):
    """Memory that a call had to leave alone is not as it was."""


class Guarded:
    """Memory for one ctypes object, between guards."""

    def __init__(self, kind: type, content: bytes):
        self.memory = bytearray(GUARD + content + GUARD)
        self.object = kind.from_buffer(self.memory, len(GUARD))

    def content(self) -> bytes:
        """What it holds. The guards must be whole."""
        before, content, behind = self.memory[:len(GUARD)], self.memory[len(GUARD):-len(GUARD)], self.memory[-len(GUARD):]
        if before != GUARD or behind != GUARD:
            raise Violated(f'{"before" if before != GUARD else "behind"} a {type(self.object).__name__} of {len(content)} bytes')
        return bytes(content)


class Lent:
    """What an argument lends, moved between guards for one call."""

    def __init__(self, argument: object):
        self.memory = getattr(argument, '_obj', argument)
        is_buffer = isinstance(self.memory, Array)
        # An answer starts with something that is none, so that it shows where it is not written.
        self.before = bytes(self.memory) if is_buffer else BEFORE * sizeof(self.memory)
        self.guarded = Guarded(type(self.memory), self.before)
        self.argument = self.guarded.object if is_buffer else byref(self.guarded.object)

    def changed(self) -> bool:
        return self.guarded.content() != self.before

    def give_back(self) -> None:
        memmove(addressof(self.memory), addressof(self.guarded.object), sizeof(self.memory))


def moved(argument: object) -> Lent | int:
    """A number stays what it is."""
    return Lent(argument) if isinstance(getattr(argument, '_obj', argument), (Array, Structure, c_size_t)) else argument


class WatchedLibrary:
    """The library, seen to keep what it has to keep in every call on one image."""

    def __init__(self, real: object, image: Guarded):
        self._real, self._image = real, image

    def __getattr__(self, name: str) -> object:
        found = getattr(self._real, name)
        return partial(self._watched, name, found) if name in library.FUNCTIONS else found

    def _watched(self, name: str, function: Callable[..., int], *arguments: object) -> int:
        image, arguments = ((), arguments) if name in NO_DESK else (arguments[:1], arguments[1:])
        if image and getattr(image[0], '_obj', None) is not self._image.object:
            raise Violated(f'{name}: not the image of this desk')
        before, given = self._image.content(), [moved(argument) for argument in arguments]
        refusal = function(*image, *(each.argument if isinstance(each, Lent) else each for each in given))
        for at, each in enumerate(given):
            if isinstance(each, Lent):
                if each.changed() and (refusal or name in CHANGES or name in NO_DESK and at == 0):
                    raise Violated(f'{name}, number {refusal}, wrote into {each.memory!r}')
                each.give_back()
        self._see_image(name, refusal, arguments[:1], before)
        return refusal

    def _see_image(self, name: str, refusal: int, place: tuple, before: bytes) -> None:
        after, half = self._image.content(), len(before) // 2
        may_change = () if refusal else (1, 2) if name == 'desk_empty' else place if name in CHANGES else ()
        for place, start in ((1, 0), (2, half)):
            if place not in may_change and before[start:start + half] != after[start:start + half]:
                raise Violated(f'{name}, number {refusal}, changed place {place}')


class WatchedDesk(Desk):
    """A desk over a watched library. Everything else is the module's own."""

    def __init__(self, path: str | None = None):
        super().__init__(path)
        self.memory = Guarded(library.DeskImage, BEFORE * sizeof(library.DeskImage))
        self._image = self.memory.object
        self._library = WatchedLibrary(self._library, self.memory)
        accept(self._library.desk_empty(byref(self._image)))

    def shortlist_into(self, book: bytes, numbers: Array) -> int:
        """The module's, by the watched library."""
        with unittest.mock.patch.object(library, 'load', lambda _: self._library):
            return shortlist_into(book, numbers)
