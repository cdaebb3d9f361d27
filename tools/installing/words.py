"""What is said to the user."""
from __future__ import annotations

from contextlib import suppress
import sys


class NotDone(Exception):
    """Says in words why what was asked is not done."""


class WrongUsage(Exception):
    """Says what is wrong with the command line or the environment."""


def say(text: object) -> None:
    """A line on standard error. Where that does not work there is nobody to tell."""
    with suppress(OSError):
        print(f'install: {text}', file=sys.stderr)


def listed(lines: list[str], most: int = 12) -> str:
    """Indented lines, of very many the first ones."""
    shown = lines if len(lines) <= most else lines[:most - 1] + [f'and {len(lines) - most + 1} more']
    return ''.join(f'\n  {line}' for line in shown)
