"""Books for the tests: their bytes from plain lines, and their tables from bytes, as document 01 lays them out."""
from collections import namedtuple
import struct

KINDS = {'obligors': 0, 'survivors': 1}
# A table is its kind and its rows; a change of the bytes is the words of its line.
Described = namedtuple('Described', 'tables changes')


def described(path):
    """The books that a file of plain lines describes (examples/books.txt says how), by name."""
    books = {}
    with open(path) as lines:
        for line in lines:
            words = line.split('#')[0].split()
            if not words:
                continue
            if words[0] == 'book':
                tables, changes = books[words[1]] = Described([], [])
            elif words[0] == 'rater':
                tables.append((KINDS[words[1]], []))
            elif words[0].isdigit():
                tables[-1][1].append([int(word) for word in words])
            else:
                changes.append(words)
    return books


def changed(book, changes):
    """The bytes of a book after changes, with their length stated."""
    for what, *words in changes:
        if what == 'offset':
            rater, start = map(int, words)
            book = book[:2 + 2 * rater] + struct.pack('<H', start) + book[4 + 2 * rater:]
        elif what == 'without':
            book = book[:-int(words[0])]
        elif what == 'behind':
            book += bytes.fromhex(''.join(words))
        else:
            raise ValueError(what)
    return book[:2] + struct.pack('<H', len(book)) + book[4:]


def encoded(tables):
    """The bytes of a book."""
    offsets, body, start = b'', b'', 4 + 2 * len(tables)
    for kind, rows in tables:
        offsets += struct.pack('<H', start + len(body))
        body += struct.pack('<BBH', len(rows), kind, 0) + b''.join(struct.pack('<III', *row) for row in rows)
    return struct.pack('<HH', len(tables), start + len(body)) + offsets + body


def table(book, rater):
    """A rater's grades in a sound book, best first: obligors, defaults, announced rate."""
    at, = struct.unpack_from('<H', book, 2 + 2 * rater)
    grades, kind = struct.unpack_from('<BB', book, at)
    rows = [struct.unpack_from('<III', book, at + 4 + 12 * i) for i in range(grades)]
    return [(first + defaults if kind else first, defaults, announced) for first, defaults, announced in rows]
