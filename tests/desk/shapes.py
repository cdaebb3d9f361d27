"""The shapes of the command's JSON, as docs/COMMAND.md states them under "As JSON", and whether an answer has its shape."""
from __future__ import annotations

from typing import Any, NamedTuple
import re

from common import read

PAGE = read('docs', 'COMMAND.md').decode()
PLAIN = {'text': str, 'number': int, 'boolean': bool, 'float': float, 'null': type(None)}
EVERY, OR, LIST_OF = 'every answer', ' or ', 'list of '


class Key(NamedTuple):
    """What stands under a key: its type in the page's words, and the values that the page lists, where it lists any."""
    type: str
    values: tuple[str, ...]


class Misfit(AssertionError):
    """An answer that is not as the page says."""


def shapes_of(page: str) -> dict[str, dict[str, Key]]:
    """Headings of the third level with their lists: a key, its type, and behind a semicolon what it is."""
    found: dict[str, dict[str, Key]] = {}
    for section in page.partition('\n## As JSON\n')[2].split('\n### ')[1:]:
        heading, _, body = section.partition('\n')
        keys = re.findall(r'^- `(\w+)`: ([^;\n]+)(?:; (.*))?$', body, re.M)
        found[heading.strip()] = {name: Key(kind.strip(), tuple(re.findall('`(\\w+)`', what))) for name, kind, what in keys}
    return found


def kinds_of_questions(page: str) -> set[str]:
    return set(re.findall(r'^\| `(\w+)` \|', page.partition('\n## Questions asked back\n')[2].partition('\n## ')[0], re.M))


class Shapes:
    """The page's shapes, and what was met of them: each shape, and of its keys each of several types, a list with something in it."""

    def __init__(self, page: str = PAGE):
        self.shapes, self.questions, self.met = shapes_of(page), kinds_of_questions(page), set()

    def check(self, answer: Any) -> None:
        """That an answer of the command has the shape of its command, or that of every answer where nothing could be answered."""
        if not isinstance(answer, dict) or answer.get('command') not in self.shapes:
            raise Misfit(f'no answer of a command: {answer}')
        own = 'show all' if answer['command'] == 'show' and 'raters' in answer else answer['command']
        every = self.shapes[EVERY].keys()
        self.check_keys({name: value for name, value in answer.items() if name in every}, EVERY)
        if answer.keys() != every:
            self.check_keys({name: value for name, value in answer.items() if name not in every}, own)

    def check_keys(self, value: Any, shape: str) -> None:
        keys = self.shapes[shape]
        if not isinstance(value, dict) or value.keys() != keys.keys():
            raise Misfit(f'{shape}: {value}')
        self.met.add(shape)
        for name, key in keys.items():
            self.check_type(value[name], key.type, f'{shape}.{name}')
            if len(key.values) > 1 and value[name] not in key.values:
                raise Misfit(f'{shape}.{name}: {value[name]!r} is none of {key.values}')

    def check_type(self, value: Any, kind: str, where: str) -> None:
        """That a value has a type in the page's words; `where` is its shape and key."""
        if OR in kind:
            met = next((each for each in kind.split(OR) if self.may_be(value, each)), None)
            self.met.add((where, met))
            self.check_type(value, met or kind.split(OR)[0], where)
        elif kind in PLAIN:
            if type(value) is not PLAIN[kind]:
                raise Misfit(f'{where}: {value!r} is no {kind}')
        elif kind.startswith(LIST_OF):
            if not isinstance(value, list):
                raise Misfit(f'{where}: {value!r} is no list')
            for each in value:
                self.met.add((where, 'list'))
                self.check_type(each, kind[len(LIST_OF):], where)
        else:
            self.check_keys(value, kind)

    def may_be(self, value: Any, kind: str) -> bool:
        """Whether a value is of this one of several types by its look: null, plain or with keys."""
        return type(value) is PLAIN[kind] if kind in PLAIN else isinstance(value, dict)

    def unmet(self) -> set:
        """Shapes, keys of each of several types, and lists, that no answer had."""
        expected: set = set(self.shapes)
        for shape, keys in self.shapes.items():
            for name, key in keys.items():
                where = f'{shape}.{name}'
                expected |= {(where, kind) for kind in key.type.split(OR)} if OR in key.type else set()
                expected |= {(where, 'list')} if key.type.startswith(LIST_OF) else set()
        return expected - self.met
