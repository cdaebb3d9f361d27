"""Tests desk.library against include/desk.h: structs with their fields, sizes and offsets, functions with their arguments, the limits, the
verdicts and the refusals; and that the header says of every function what it writes and what it refuses, and when. The header is read as
text, so that no compiler is needed.

    python3 tests/desk/test_header.py     # from anywhere
"""
from __future__ import annotations

from ctypes import POINTER, Structure, alignment, c_double, c_int64, c_size_t, c_uint32, c_uint8, sizeof
import re
import sys
import unittest

sys.dont_write_bytecode = True
from common import read  # noqa: E402
from desk import Kind, MEANINGS, book, library, table  # noqa: E402

HEADER = read('include', 'desk.h').decode()
CODE = re.sub(r'/\*.*?\*/', '', HEADER, flags=re.S)  # without comments
NUMBERS = {name: int(value) for name, value in re.findall(r'^#define (DESK_\w+) (\d+)', CODE, re.M)}
C_ALONE = {'DeskRow', 'DeskBook', 'DeskWrongCut'}  # counts from memory, where a book is cut wrong: Python has its own ways
STRUCTS = {name: getattr(library, 'DeskImage' if name == 'Desk' else name) for name in re.findall(r'typedef struct (\w+)', CODE)
           if name not in C_ALONE}
TYPES = {'uint8_t': c_uint8, 'uint32_t': c_uint32, 'int64_t': c_int64, 'size_t': c_size_t, 'double': c_double, **STRUCTS}
# What documents 01 and 02 have each call refuse, in their order.
REFUSED = {'desk_empty': [], 'desk_load': [1, 21, 2, 3, 4, 31, 32, 6, 7, 32, 33, 8, 10, 34, 9, 11], 'desk_clear': [1, 22],
           'desk_survivor_enters': [1, 22, 36, 38], 'desk_survivor_leaves': [1, 22, 36, 37], 'desk_survivor_defaults': [1, 22, 36, 37],
           'desk_defaulted_removed': [1, 22, 36, 37],
           'desk_pool': [1, 22, 13], 'desk_cheapest': [1, 22, 12], 'desk_compare': [22, 23, 24, 25], 'desk_compare_shares': [22, 23, 24, 35],
           'desk_measures': [1, 22, 23, 24], 'desk_brier': [1, 22], 'desk_spread': [1, 22], 'desk_write': [22, 13],
           'desk_shortlist': [2, 3, 31, 32, 6, 7, 32, 33, 8, 10, 34, 9, 11, 23, 24, 25, 13],
           'desk_book': [6, 7, 8, 10, 34, 9, 11], 'desk_load_rows': [1, 21, 6, 7, 8, 10, 34, 9, 11], 'desk_wrong_cut': []}


def fields(body: str) -> list[tuple[str, type]]:
    """The fields that `uint32_t a[DESK_GRADES], b; DeskPrice c;` declares."""
    found = []
    for kind, names in re.findall(r'(\w+) ([^;]+);', body):
        for name, length in re.findall(r'(\w+)(?:\[(\w+)\])?', names):
            found.append((name, TYPES[kind] * NUMBERS[length] if length else TYPES[kind]))
    return found


def argument(declared: str) -> type:
    """The type of `const Desk *desk` or `uint32_t place`."""
    kind, star = re.fullmatch(r'(?:const )?(\w+) (\*?)\w+', declared.strip()).groups()
    return POINTER(TYPES[kind]) if star else TYPES[kind]


class Header(unittest.TestCase):
    def test_every_struct(self) -> None:
        declared = re.findall(r'typedef struct (\w+) \{(.*?)\} (\w+);', CODE, re.S)
        self.assertEqual({name for name, _, _ in declared}, STRUCTS.keys() | C_ALONE)
        for name, body, again in declared:
            self.assertEqual(name, again)
            if name not in C_ALONE:
                self.assertEqual(list(STRUCTS[name]._fields_), fields(body), name)
        ours = {each for each in vars(library).values() if isinstance(each, type) and issubclass(each, Structure) and each is not Structure}
        self.assertEqual(ours, set(STRUCTS.values()))

    def test_sizes_and_offsets(self) -> None:
        stated = {name: int(size) for name, size in re.findall(r'sizeof\((\w+)\) == (\d+)', CODE)}
        self.assertLessEqual(STRUCTS.keys() | C_ALONE, stated.keys())
        self.assertEqual(stated, {**{name: sizeof(TYPES[name]) for name in stated.keys() - C_ALONE}, **self.sizes_in_c_alone()})
        for struct in STRUCTS.values():
            at = 0
            for name, kind in struct._fields_:  # no gap between fields
                self.assertEqual((getattr(struct, name).offset, getattr(struct, name).size, at % alignment(kind)), (at, sizeof(kind), 0))
                at += sizeof(kind)
            self.assertEqual(sizeof(struct), at)

    def sizes_in_c_alone(self) -> dict[str, int]:
        bodies = dict(re.findall(r'typedef struct (\w+) \{(.*?)\}', CODE, re.S))
        return {name: sizeof(type(name, (Structure,), {'_fields_': fields(bodies[name])})) for name in C_ALONE}

    def test_fields_of_one_kind_have_one_type(self) -> None:
        kinds: dict[str, set[str]] = {}
        for struct in STRUCTS.values():
            for name, kind in struct._fields_:
                if struct is not library.DeskPlace:  # whose columns have the names of a table's totals
                    kinds.setdefault(name, set()).add(kind.__name__)
        self.assertEqual({name for name, types in kinds.items() if len(types) > 1}, set())
        self.assertEqual(kinds['cutoff'], {c_int64.__name__})

    def test_every_function(self) -> None:
        declared = re.findall(r'^(\w+) (desk_\w+)\(([^)]*)\)(?: DESK_CHECKED)?;', CODE, re.M)
        self.assertEqual({kind for kind, _, _ in declared}, {'uint32_t'})
        self.assertEqual({name: [argument(each) for each in arguments.split(',') if each != 'void'] for _, name, arguments in declared},
                         library.FUNCTIONS)
        loaded = library.load(library.default_path())
        for name, arguments in library.FUNCTIONS.items():
            self.assertEqual((list(getattr(loaded, name).argtypes), getattr(loaded, name).restype), (arguments, c_uint32))

    def test_limits(self) -> None:
        most = ('obligors', [(1, 0, 0)] * table.MAX_GRADES)
        self.assertEqual(NUMBERS, {'DESK_VERSION': int(read('VERSION')), 'DESK_GRADES': table.MAX_GRADES,
                                   'DESK_RATERS': book.MAX_RATERS,
                                   'DESK_MAX_OBLIGORS': table.MAX_OBLIGORS, 'DESK_MAX_PRICE': 1_000_000,
                                   'DESK_MAX_OBLIGORS_ON_SHARES': table.MAX_OBLIGORS_ON_SHARES,
                                   'DESK_MAX_PRICE_ON_SHARES': 2_500_000_000,
                                   'DESK_POOL_NUMBERS': library.POOL_NUMBERS, 'DESK_BOOK_BYTES': library.BOOK_BYTES,
                                   'DESK_TABLE_BYTES': len(book.encode([most]))})
        self.assertEqual(len(book.encode([most, most])), library.BOOK_BYTES)

    def test_verdicts(self) -> None:
        names, = re.findall(r'^enum \{ (DESK_EQUAL[^}]*) \}', CODE, re.M)
        self.assertEqual([f'DESK_{kind.name}' for kind in sorted(Kind, key=lambda kind: kind.value)], names.split(', '))
        self.assertEqual(sorted(kind.value for kind in Kind), list(range(len(Kind))))

    def test_what_rows_count(self) -> None:
        in_cpp, in_c = re.findall(r'enum DeskCounts (?:: uint32_t )?\{ ([^}]*) \}', CODE)
        self.assertEqual((in_cpp, in_c), (in_c, ', '.join(f"DESK_BY_{kind.upper()} = '{kind[0]}'" for kind in ('obligors', 'survivors'))))

    def test_every_function_says_what_it_writes_and_refuses(self) -> None:
        said = re.findall(r'/\*((?:(?!\*/).)*?)\*/\n(?:DESK_CHECKED static inline )?uint32_t (desk_\w+)\(', HEADER, re.S)
        said = {name: ' '.join(comment.replace('\n *', ' ').split()) for comment, name in said}
        for name, numbers in REFUSED.items():
            self.assertRegex(said[name], r'Writes: .*Refuses', name)
            refuses = said[name].rsplit('Refuses', 1)[1]
            self.assertEqual([int(number) for number in re.findall(r'\b(\d+)\b', re.sub(r'\([^)]*\)', '', refuses))], numbers, name)
        public = set(re.findall(r'\buint32_t (desk_\w+)\(', CODE)) - {'desk_version'}
        self.assertEqual(public, REFUSED.keys())

    def test_every_result_must_be_looked_at(self) -> None:
        checked = re.findall(r'uint32_t (desk_\w+)\([^)]*\) DESK_CHECKED;|DESK_CHECKED static inline uint32_t (desk_\w+)', CODE)
        self.assertEqual({one or other for one, other in checked}, REFUSED.keys() - {'desk_empty'})

    def test_refusals(self) -> None:
        listed = re.findall(r'X\(DESK_REFUSED_\w+, (\d+), "([^"]*)"\)', HEADER)
        self.assertEqual(MEANINGS, {int(number): meaning for number, meaning in listed})


if __name__ == '__main__':
    unittest.main()
