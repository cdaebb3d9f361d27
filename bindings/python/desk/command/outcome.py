"""What a command ends in: an answer as text and as data, what was refused, and what should be asked back."""
from __future__ import annotations

from typing import Any, NamedTuple, Sequence

from ..refusals import MEANINGS, Refused


class Complaint(NamedTuple):
    """Something that is refused: its number where load or another call refuses it too, the place, and why."""
    number: int | None
    where: str  # the file, of CSV with the line in it
    why: str

    @property
    def meaning(self) -> str | None:
        return None if self.number is None else MEANINGS[self.number]

    @classmethod
    def of(cls, refused: Refused, where: str) -> Complaint:
        return cls(refused.number, where, refused.where or '')

    def __str__(self) -> str:
        numbered = 'refused' if self.number is None else f'refused {self.number}: {self.meaning}'
        place = ': '.join(part for part in (self.where, self.why) if part)
        return f'{numbered}{":" if self.number is None else ";"} {place}'

    def data(self) -> dict[str, Any]:
        return {'number': self.number, 'meaning': self.meaning, 'where': self.where, 'why': self.why}


class Question(NamedTuple):
    """Something that looks wrong and is not refused. It never changes an answer."""
    about: str  # 'first_column', 'unit', 'direction', 'total' or 'reading'
    text: str


class Outcome(NamedTuple):
    """An answer. Where something was refused, the rest is answered all the same."""
    text: str
    data: dict[str, Any]
    questions: Sequence[Question] = ()
    refusals: Sequence[Complaint] = ()


class NotTaken(Exception):
    """Nothing could be answered: what was refused, and what should be asked back."""

    def __init__(self, refusals: Sequence[Complaint], questions: Sequence[Question] = ()):
        super().__init__('; '.join(map(str, refusals)))
        self.refusals, self.questions = refusals, questions


class WrongUsage(Exception):
    """What is asked cannot be answered here: wrong words on the command line, or something that is missing."""
