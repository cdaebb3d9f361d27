"""Random CSV files for the tests of their reader: tables in a lawful dress, with the sheets that they are, and damage to them."""
from common import in_order
from desk.command.csv_file import Sheet

SEPARATORS = ',;\t'
TEXTS = ('', 'A', 'BB+', 'x, y', 'a;b', 'tab\there', 'say "so"', '"', 'Größe – 5', 'obligors', 'name', '=1', '#', 'n/a', 'sep=;', "it's")
NUMBERS = ('7', '500', '12', '0', '5%', '1,000')  # as labels
LABEL_NAMES = ('Grade', 'note', 'a, b', 'c;d', 'default', 'name', 'Rater', 'tab\there', '5"', 'n', 'rate %', '7')
ANNOUNCED = (('announced', ''), ('announced', ''), ('announced (ppm)', ''), ('announced', '%'), ('announced', '‰'), ('announced (%)', '%'),
             ('announced percent', '%'))  # the title of the column, and the unit of its cells
STRAY = (',', ';', '\t', '"', '""', '\n', '\r', ' ', '0', '9', '-', '.', '%', '‰', '٣', '\0', '\ufeff', '\u00a0', "'", 'obligors',
         'survivors', 'name,', 'sep=;\n', '\n\n', '1,000', '0.5%', 'x')
STRAY_BYTES = (0, *b'\t\n\r",;.%09', 0xa0, 0xff)


class Dress:
    """A file of one to four tables as a random person's spreadsheet writes it."""

    def __init__(self, source, small=False):
        self.source, self.small = source, small
        self.separator = source.choice(SEPARATORS)
        self.even = source.random() < 0.5  # every line of a table has as many cells as its header
        self.lines, self.sheets, self.percents = [], [], 0

    def content(self):
        if self.source.random() < 0.2:
            self.lines.append(self.source.choice(('sep=', 'SEP=')) + self.separator)
        for _ in range(self.source.choice((1, 2) if self.small else (1, 1, 2, 4))):
            if self.sheets or self.source.random() < 0.3:
                blank = ('', ' ', self.separator * 2, f'""{self.separator}""')
                self.lines += self.source.choices(blank, k=self.source.randint(1, 2))
            self.write_table()
        end = self.source.choice(('\n', '\r\n', '\r'))
        text = end.join(self.lines) + self.source.choice(('', end, end * 3))
        mark, encoding = self.source.choice((('', 'utf-8'), ('\ufeff', 'utf-8'), ('\ufeff', 'utf-16-le'), ('\ufeff', 'utf-16-be')))
        return (mark + text).encode(encoding)

    def write_table(self):
        name = self.source.choice((None, None, 'In-house', 'A, B; C', 'obligors'))
        if name:
            self.write_line([self.cased(self.source.choice(('name', 'rater'))), name], self.source.randint(0, 2))
        rows = [self.row() for _ in range(self.source.choice((1, 2, 3) if self.small else (0, 1, 2, 5, 40)))]
        rows = in_order(rows) if self.source.random() < 0.7 else rows
        counts = self.source.choice(('obligors', 'survivors'))
        labels = self.source.sample(LABEL_NAMES, self.source.choice((0, 0, 1, 2, 4)))
        order = self.source.sample([counts, 'defaults', 'announced', *labels], 3 + len(labels))
        title, unit = self.unit(rows)
        self.percents += unit != '' and rows != []
        spare = self.source.choice((0, 0, 1, 3))
        self.write_line([column if column in labels else self.cased(title if column == 'announced' else column) for column in order], spare)
        columns = {column: order.index(column) + 1 for column in (counts, 'defaults', 'announced')}
        self.sheets.append(Sheet(name, counts, len(self.lines), columns, [], [], [column for column in order if column in labels], []))
        for row in rows:
            cells = dict(zip((counts, 'defaults'), map(self.number, row)), announced=self.rate(row[2], unit, 'announced' == title))
            self.write_row(row, cells, order, spare)

    def write_row(self, row, cells, order, spare):
        sheet = self.sheets[-1]
        # In an uneven comma file a number in a label may make a row in two ways, which is refused.
        texts = TEXTS + (NUMBERS if self.even or self.separator != ',' else ())
        labels = {name: self.source.choice(texts) for name in sheet.label_names}
        line = [{**cells, **labels}[column] for column in order]
        while not self.even and line[-1] == '':
            line.pop()
        self.write_line(line, spare if self.even else self.source.randint(0, 3))
        sheet.rows.append(row)
        sheet.lines.append(len(self.lines))
        sheet.labels.append(list(labels.values()))

    def row(self):
        largest, number = self.source.choice((9, 999, 10 ** 6, 10 ** 9, 10 ** 18 - 1)), self.source.randint
        rate = self.source.choice((0, 10 ** 6, number(0, 10 ** 6), number(0, 999), 10 * number(0, 12345678)))
        return number(0, largest), number(0, largest), rate

    def unit(self, rows):
        """Three places behind the point may part thousands, and per mille has no fourth place to tell them from."""
        title, unit = self.source.choice(ANNOUNCED)
        clear = all(announced % 10 == 0 or announced < 1000 for _, _, announced in rows)
        return (title, unit) if unit != '‰' or clear else (title, '%')

    def cased(self, cell):
        return self.source.choice((cell, cell.upper(), cell.title(), f' {cell} '))

    def number(self, number):
        grouped = f'{number:,}'
        if ',' in grouped and self.source.random() < 0.5:
            return grouped.replace(',', self.source.choice(" \u00a0\u202f\u2009'\u2019" + (',.' if grouped.count(',') > 1 else '')))
        return str(number).rjust(self.source.choice((1, 1, 3)), '0')

    def rate(self, ppm, unit, by_sign):
        if not unit:
            return self.number(ppm)
        places = {'%': 4, '‰': 3}[unit]
        whole, behind = divmod(ppm, 10 ** places)
        behind = f'{behind:0{places}}'.rstrip('0')
        if whole and len(behind) == 3:
            behind += '0'
        sign = self.source.choice(('', ' ', '\u00a0')) + unit
        return str(whole) + (self.source.choice(',.') + behind if behind else '') + (sign if by_sign or self.source.random() < 0.5 else '')

    def write_line(self, cells, spare):
        self.lines.append(self.separator.join([self.cell(cell) for cell in cells] + [''] * spare))

    def cell(self, cell):
        if any(mark in cell for mark in SEPARATORS + '"') or self.source.random() < 0.1:
            return '"' + cell.replace('"', '""') + '"'
        return cell


def damaged(source, content):
    """A file with one to three faults."""
    for _ in range(source.randint(1, 3)):
        content = source.choice((with_bytes, with_bytes, with_strays, with_strays, with_lines, with_cells, cut, marked))(source, content)
    return content


def with_bytes(source, content):
    changed = bytearray(content)
    for _ in range(source.randint(1, 3)):
        if changed:
            changed[source.randrange(len(changed))] = source.choice((*STRAY_BYTES, source.randrange(256)))
    return bytes(changed)


def with_strays(source, content):
    at = source.randint(0, len(content))
    return content[:at] + source.choice(STRAY).encode() + content[at + source.randint(0, 2):]


def with_lines(source, content):
    """A line dropped, doubled, or moved."""
    lines = content.split(b'\n')
    line = lines.pop(source.randrange(len(lines)))
    for _ in range(source.randint(0, 2)):
        lines.insert(source.randint(0, len(lines)), line)
    return b'\n'.join(lines)


def with_cells(source, content):
    """Two cells exchanged, or another separator in places."""
    separator = source.choice((b',', b';', b'\t'))
    cells = content.split(separator)
    if source.random() < 0.5:
        return source.choice((b',', b';', b'\t')).join([separator.join(cells[:3]), separator.join(cells[3:])])
    first, second = source.randrange(len(cells)), source.randrange(len(cells))
    cells[first], cells[second] = cells[second], cells[first]
    return separator.join(cells)


def cut(source, content):
    return content[:source.randint(0, len(content))] if source.random() < 0.5 else content[source.randint(0, len(content)):]


def marked(source, content):
    """Another byte order mark, or none."""
    return source.choice((b'\xef\xbb\xbf', b'\xff\xfe', b'\xfe\xff', b'')) + content[source.randint(0, 3):]
