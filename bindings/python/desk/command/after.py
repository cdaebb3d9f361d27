"""`--after CHANGES.csv` of `desk compare`: a sheet of changes, behind the file or the rater that it changes."""
from __future__ import annotations

from typing import Sequence

from .outcome import WrongUsage

OPTION = '--after'
MARK = '\0'  # before the word of a sheet; no word of a command line holds it
FIRST, SECOND = 0, 1
# Which rater stands before a sheet, by how many words there are and how many of them stand before it: FILE FILE, FILE A B or FILE FILE A B.
BEFORE = {(2, 1): FIRST, (2, 2): SECOND, (3, 2): FIRST, (3, 3): SECOND, (4, 1): FIRST, (4, 2): SECOND, (4, 3): FIRST, (4, 4): SECOND}
WHERE = (f'{OPTION} stands behind the file that it changes, as in: desk compare FILE {OPTION} CHANGES.csv FILE; or, where one file has both raters, '
         f'behind the rater: desk compare FILE 1 {OPTION} CHANGES.csv 2')


def marked(arguments: Sequence[str]) -> list[str]:
    """The arguments with each sheet as a marked word behind the word that it follows. The parser of options would not say which that was."""
    found, left = [], list(arguments)
    while left and left[0] != '--':
        word = left.pop(0)
        name, equals, sheet = word.partition('=')
        if not short_for(OPTION, name) or not equals and not (left and is_word(left[0])):  # of one without a sheet the parser says so
            found.append(word)
        else:
            found.insert(behind_last_word(found), MARK + (sheet if equals else left.pop(0)))
    return found + left


def short_for(option: str, word: str) -> bool:
    """Whether a word is an option or as much of it as tells it from others."""
    return len(word) > len('--') and option.startswith(word)


def is_word(argument: str) -> bool:
    return argument == '-' or not argument.startswith('-')


def behind_last_word(arguments: Sequence[str]) -> int:
    """The index behind the last argument that is neither an option nor the prices that one takes; behind all where there is none."""
    at = len(arguments)
    while at and (not is_word(arguments[at - 1]) or at > 1 and short_for('--prices', arguments[at - 2])):
        at -= 1
    return at or len(arguments)


def apart(words: Sequence[str]) -> tuple[list[str], list[str | None]]:
    """The words that are no sheets, and the sheets of the first rater and of the second."""
    others = [word for word in words if not word.startswith(MARK)]
    if not 1 <= len(others) <= 4:
        raise WrongUsage(f'compare takes FILE [FILE] [A B], not {len(others)} words')
    sheets: list[str | None] = [None, None]
    count = 0
    for word in words:
        if not word.startswith(MARK):
            count += 1
            continue
        rater = BEFORE.get((len(others), count))
        if rater is None:
            raise WrongUsage(WHERE)
        if sheets[rater] is not None:
            raise WrongUsage(f'{OPTION} changes the {("first", "second")[rater]} rater twice: put both lists into one')
        sheets[rater] = word[len(MARK):]
    return others, sheets
