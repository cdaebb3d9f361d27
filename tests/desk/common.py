"""What the tests of the module and the command share: where they stand, copies of the repository, desks with tables, rates in order."""
from __future__ import annotations

from typing import List, Sequence, Tuple
import os
import random
import shutil
import subprocess
import sys

TOP = os.path.realpath(os.path.join(os.path.dirname(os.path.abspath(__file__)), '..', '..'))
sys.path[:0] = [os.path.join(TOP, 'bindings', 'python'), os.path.join(TOP, 'tests')]
from desk import Desk, Table  # noqa: E402

Scale = List[Tuple[int, int]]  # n and d of each grade, best first
Row = Tuple[int, int, int]  # first column, defaults, announced rate


def read(*names: str) -> bytes:
    """A file of the repository."""
    with open(os.path.join(TOP, *names), 'rb') as file:
        return file.read()


def copy_repository(to: str, *built: str) -> None:
    """Copies what git tracks, and these parts of target/ where they are there. What rt has proved here it need not prove again there."""
    tracked = subprocess.run(['git', '-C', TOP, 'ls-files', '-z'], stdout=subprocess.PIPE, check=True).stdout
    for name in map(os.fsdecode, tracked.rstrip(b'\0').split(b'\0')):
        os.makedirs(os.path.dirname(os.path.join(to, name)), exist_ok=True)
        shutil.copy(os.path.join(TOP, name), os.path.join(to, name))
    for part in built:
        if os.path.isdir(os.path.join(TOP, 'target', part)):
            shutil.copytree(os.path.join(TOP, 'target', part), os.path.join(to, 'target', part), symlinks=True)


def in_order(rows: Sequence[Row]) -> list[Row]:
    """The rows with their announced rates put in order, so that none falls."""
    rates = sorted(announced for _, _, announced in rows)
    return [(first, defaults, rate) for (first, defaults, _), rate in zip(rows, rates)]


def exchanged(source: random.Random, rows: Sequence[Row]) -> list[Row]:
    """The rows with the announced rates of two of them exchanged; these may be equal, or those of one row."""
    rates, one, other = [announced for _, _, announced in rows], source.randrange(len(rows)), source.randrange(len(rows))
    rates[one], rates[other] = rates[other], rates[one]
    return [(first, defaults, rate) for (first, defaults, _), rate in zip(rows, rates)]


def table_of(scale: Scale) -> Table:
    """Its announced rates are 0."""
    return Table.of_rows('obligors', [(n, d, 0) for n, d in scale])


def loaded(desk: Desk, *scales: Scale | None) -> Desk:
    """The desk with these scales in its places, from place 1 on; None leaves a place as it is."""
    for place, scale in enumerate(scales, 1):
        if scale is not None:
            desk.load(place, table_of(scale))
    return desk
