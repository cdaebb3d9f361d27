"""From the bytes of a CSV file to its lines, and from a line to its cells."""
from __future__ import annotations

import codecs
import csv
import re

MARKS = ((codecs.BOM_UTF8, 'utf-8'), (codecs.BOM_UTF16_LE, 'utf-16-le'), (codecs.BOM_UTF16_BE, 'utf-16-be'))
NOT_TEXT = 'this is not UTF-8 text. Save the sheet as CSV (UTF-8)'
NOT_CELLS = ('not a line of CSV cells: a quote without its partner in the line, or text behind a closing quote. '
             'A cell ends on the line where it starts')
SEPARATORS = {',': 'commas', ';': 'semicolons', '\t': 'tabs'}
LINE_END = re.compile('\r\n|\n|\r')
SEPARATOR_LINE = re.compile('("?)sep=(.*)\\1', re.IGNORECASE)
ANY_SEPARATOR = re.compile('[,;\t]')
QUOTED = re.compile('"[^"]*"')


def is_text(content: bytes) -> bool:
    """False for what can only be a book. A book holds zero bytes; a text does so in UTF-16 alone, and then starts with its mark."""
    return b'\0' not in content or mark_of(content)[0] != b''


def mark_of(content: bytes) -> tuple[bytes, str]:
    """The byte order mark, if there is one, and the encoding that it says."""
    return next((known for known in MARKS if content.startswith(known[0])), (b'', 'utf-8'))


def lines_of(content: bytes) -> tuple[list[str], bool]:
    """The lines up to the first place that is not text, and whether that is all of them. A zero byte is not text."""
    mark, encoding = mark_of(content)
    body, whole = content[len(mark):], True
    try:
        text = body.decode(encoding)
    except UnicodeDecodeError as error:
        text, whole = body[:error.start].decode(encoding), False
    text, zero, _ = text.partition('\0')
    return LINE_END.split(text), whole and not zero


def is_blank(line: str) -> bool:
    """Also as spreadsheets write an empty row."""
    return not line.replace('""', '').strip(' \t,;')


def separator_line(line: str) -> str | None:
    """What a line such as `sep=;` says to separate the cells, or None for any other line."""
    said = SEPARATOR_LINE.fullmatch(line.rstrip(' '))
    return said and said.group(2).replace('\\t', '\t')


def separators_in(line: str) -> list[str]:
    """Those that stand outside quoted cells. At the ends of a line a tab may be a space."""
    bare = QUOTED.sub('quoted', line).strip(' \t')
    return [separator for separator in SEPARATORS if separator in bare]


def cells_of(line: str, separator: str) -> list[str] | None:
    """The cells of a line without the spaces around them, or None where its quotes do not fit."""
    if '"' in line:
        try:
            cells = next(csv.reader([line], delimiter=separator, skipinitialspace=True, strict=True))
        except csv.Error:
            return None
    else:
        cells = line.split(separator)
    return [cell.strip(' \t') for cell in cells]


def rough_cells(line: str) -> list[str]:
    """The cells of a line of which the separator is not known."""
    bare = QUOTED.sub(lambda quoted: ANY_SEPARATOR.sub(' ', quoted.group()), line)
    return [cell.strip(' "') for cell in ANY_SEPARATOR.split(bare)]
