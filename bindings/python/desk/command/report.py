"""`desk report`: document 01's printing program, which is proved like the library, on rater 1 of a book."""
from __future__ import annotations

from typing import Any
import subprocess

from ..book import load_refusals
from .files import read_bytes
from .outcome import Complaint, Outcome, WrongUsage


def report(file: str, program: str) -> Outcome:
    """What the program prints of a book, as it prints it."""
    book = read_bytes(file)
    ended = subprocess.run([program], input=book, stdout=subprocess.PIPE, check=False)
    if ended.returncode:
        raise WrongUsage(f'the printing program {program} ended with status {ended.returncode}')
    printed = ended.stdout.decode().rstrip('\n')
    lines = [line.split() for line in printed.split('\n')]
    data: dict[str, Any] = {'command': 'report', 'file': file, 'grades': [
        dict(zip(('grade', 'block_defaults', 'block_obligors', 'band'), map(int, line))) for line in lines[:-1]], 'gini': None}
    last = lines[-1]
    if last[0] == 'refused':
        return Outcome(printed, data, [], [of_load(int(last[-1]), book, file)])
    if 'refused' in last:
        return Outcome(printed, data, [], [Complaint(int(last[-1]), f'the Gini of {file}', '')])
    data['gini'] = {'numerator': int(last[1]), 'denominator': int(last[2])}
    return Outcome(printed, data)


def of_load(number: int, book: bytes, file: str) -> Complaint:
    """Why the load was refused: the program prints the number alone, and the book is at hand to say where."""
    found = load_refusals(book, 1)
    return Complaint.of(found[0], file) if found and found[0].number == number else Complaint(number, file, '')
