"""Holds the table of docs/BANDS.md to the constant from which the library takes its band limits, and the library's bands to the table.

    python3 tests/desk/test_bands.py     # from anywhere; DESK_LIBRARY may name the library
"""
from __future__ import annotations

from fractions import Fraction
import re
import sys
import unittest

sys.dont_write_bytecode = True
from common import Scale, loaded, read  # noqa: E402
from desk import Desk  # noqa: E402

ROW = re.compile(r'^\| (\d+) \| ([\d,]+) \| ([\d.]+)% \|$', re.M)
HEAD = '| band | limit in ppm | in percent |\n| ---: | ---: | ---: |\n'
CONSTANT = re.compile(r'^const BAND_LIMITS: \[u32; (\d+)\] = \[\n((?:    [\d_, ]+,\n)*)\];$', re.M)
DEFINITION = re.compile(r'^listed_limits =\n((?:    (?:∷ )?[\d_]+\n)*)    ∷ \[\]$', re.M)
MOST = 1_000_000  # obligors of a table, and ppm of the whole


def rows() -> list[tuple[int, int, Fraction]]:
    """Band, limit in ppm and limit in percent, line by line."""
    return [(int(band), int(ppm.replace(',', '')), Fraction(percent)) for band, ppm, percent in ROW.findall(read('docs', 'BANDS.md').decode())]


def limits() -> list[int]:
    return [ppm for _, ppm, _ in rows()]


def numbers(text: str) -> list[int]:
    return [int(number) for number in re.findall(r'[\d_]+', text)]


def bands(scale: Scale) -> list[int]:
    return [grade.band for grade in loaded(Desk(), scale).pool(1)]


class Page(unittest.TestCase):
    def test_there_is_one_table_of_such_rows(self) -> None:
        page = read('docs', 'BANDS.md').decode()
        [table] = re.findall(r'(?:^\|.*\n)+', page, re.M)
        self.assertTrue(table.startswith(HEAD))
        self.assertEqual(len(ROW.findall(table)), table[len(HEAD):].count('\n'))
        self.assertIn('\nA rate above all of them is in band 14.\n', page)

    def test_the_limits_are_those_of_the_constant(self) -> None:
        [(count, entries)] = CONSTANT.findall(read('crates', 'pooling', 'src', 'lib.rt').decode())
        self.assertEqual(numbers(entries), limits())
        self.assertEqual(int(count), len(limits()))

    def test_the_limits_are_those_of_the_definition(self) -> None:
        [entries] = DEFINITION.findall(read('crates', 'pooling', 'specs', 'Limits.antt').decode())
        self.assertEqual(numbers(entries), limits())

    def test_fourteen_bands_in_their_order(self) -> None:
        self.assertEqual([band for band, _, _ in rows()], list(range(14)))

    def test_a_limit_is_100_times_2_to_the_band(self) -> None:
        self.assertEqual(limits(), [100 * 2 ** band for band in range(14)])

    def test_percent(self) -> None:
        for _, ppm, percent in rows():
            self.assertEqual(percent, Fraction(ppm, 10_000))

    def test_thousands_are_parted(self) -> None:
        written = [ppm for _, ppm, _ in ROW.findall(read('docs', 'BANDS.md').decode())]
        self.assertEqual(written, [f'{limit:,}' for limit in limits()])


class Bands(unittest.TestCase):
    def test_at_a_limit_and_one_ppm_beside_it(self) -> None:
        for band, ppm, _ in rows():
            self.assertEqual([bands([(MOST, ppm + more)]) for more in (-1, 0, 1)], [[band], [band], [band + 1]])

    def test_closer_to_a_limit_than_one_ppm(self) -> None:
        """With one obligor less the same defaults are a rate above the limit, by less than 1 ppm."""
        for band, ppm, _ in rows():
            self.assertEqual(bands([(MOST - 1, ppm)]), [band + 1])
            self.assertEqual(bands([(MOST - 1, ppm - 1)]), [band])

    def test_the_rate_is_that_of_the_block(self) -> None:
        """Two grades far from the limit on either side, which are joined."""
        for band, ppm, _ in rows():
            apart = min(ppm, MOST - ppm) // 2
            for more in (0, 1):
                scale = [(MOST // 2, ppm // 2 + apart), (MOST // 2, ppm // 2 - apart + more)]
                self.assertEqual(bands(scale), [band + more] * 2)

    def test_every_band_in_one_table(self) -> None:
        """Fourteen blocks, each at its limit, and one above all."""
        scale = [(10_000, ppm // 100) for ppm in limits()] + [(1, 1)]
        self.assertEqual(bands(scale), list(range(15)))


if __name__ == '__main__':
    unittest.main()
