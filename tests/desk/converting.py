"""Packs and unpacks for the tests, and sees that what is refused leaves everything as it was."""
from __future__ import annotations

from running import Case

OBLIGORS, SURVIVORS = 'obligors,defaults,announced\n', 'survivors,defaults,announced\n'
BOOK_K = bytes.fromhex('01002e00060003000000' '0a00000002000000a0860100' '0a00000001000000f0490200' '1400000004000000400d0300')


class Converting(Case):
    def packed(self, *texts: str | bytes) -> bytes:
        """The book of these CSV files."""
        files = [self.put(f'{number}.csv', text) for number, text in enumerate(texts, 1)]
        self.answered('pack', *files, '-o', self.path('out.book'))
        return self.got('out.book')

    def unpacked(self, book: bytes) -> str:
        """The CSV of this book."""
        return self.answered('unpack', self.put('in.book', book)).out

    def not_taken(self, command: str, content: bytes | str, number: int | None, *parts: str) -> list[str]:
        """That content is refused, with a number or none, and with these words in the first line; and that the output is left as it was."""
        output, source = self.put('out', b'as it was'), self.put('in', content)
        names = self.names()
        lines = self.refused(number, command, source, '-o', output)
        self.assertEqual((self.got('out'), self.names()), (b'as it was', names))
        for part in (source, *parts):
            self.assertIn(part, lines[0])
        return lines
