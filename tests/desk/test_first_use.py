"""Uses ./desk for the first time, and later, in a copy of this repository with the toolchain that is here; without `rt` it is passed over.

What rt keeps of crates that are proved here it takes there too, so that they are not proved again.

    python3 tests/desk/test_first_use.py      # from anywhere
"""
from __future__ import annotations

import os
import re
import shutil
import subprocess
import sys
import tempfile
import unittest

sys.dont_write_bytecode = True
from common import TOP, copy_repository  # noqa: E402
from desk.version import VERSION  # noqa: E402


@unittest.skipUnless(shutil.which('rt'), 'there is no rt here')
class FirstUse(unittest.TestCase):
    def setUp(self) -> None:
        folder = tempfile.TemporaryDirectory()
        self.addCleanup(folder.cleanup)
        self.folder = folder.name
        self.top = os.path.join(self.folder, 'repository')
        copy_repository(self.top)
        self.alone = os.path.join(self.folder, 'bin')  # a PATH with Python and nothing else
        os.mkdir(self.alone)
        os.symlink(sys.executable, os.path.join(self.alone, 'python3'))

    def twelve(self, launcher: str, path: str) -> tuple[str, list[str]]:
        """Asks twelve times at once, each time in a process of its own. The one answer, and what each said on standard error."""
        words = [launcher, 'compare', os.path.join(self.top, 'examples', 'g.csv')]
        streams = {'stdout': subprocess.PIPE, 'stderr': subprocess.PIPE, 'text': True}
        processes = [subprocess.Popen(words, cwd=self.folder, env=dict(os.environ, PATH=path), **streams) for _ in range(12)]
        results = [(*process.communicate(), process.returncode) for process in processes]
        for out, said, status in results:
            self.assertEqual((out, status), (results[0][0], 0), said)
        return results[0][0], [said for _, said, _ in results]

    def test_twelve_first_uses_and_later_ones(self) -> None:
        launcher = os.path.join(self.top, 'desk')
        answer, said = self.twelve(launcher, f'{self.alone}{os.pathsep}{os.environ["PATH"]}')
        self.assertTrue(answer)
        self.assertEqual(sum('desk: the library is built' in text for text in said), 1, said)
        link = os.path.join(self.folder, 'link')
        os.symlink(launcher, link)
        for later in (launcher, link):
            self.assertEqual(self.twelve(later, self.alone), (answer, [''] * 12))
        self.check_library(os.path.join(self.top, 'target', 'desk', 'libdesk.so'))

    def check_library(self, path: str) -> None:
        """It has the functions of the C header and no others, and its code is not changed when it is loaded."""
        if not shutil.which('nm') or not shutil.which('readelf'):
            return
        with open(os.path.join(TOP, 'include', 'desk.h'), encoding='utf-8') as header:
            declared = {*re.findall(r'^uint32_t (desk_\w+)\(', header.read(), re.M), 'desk_version', f'desk_library_is_version_{VERSION}'}
        lines = subprocess.run(['nm', '-D', '--defined-only', path], stdout=subprocess.PIPE, check=True, text=True).stdout.splitlines()
        functions = [line.split()[-1] for line in lines if line.split()[-2] != 'A']  # save the name of the version itself
        self.assertEqual(sorted(functions), sorted(f'{name}@@DESK_{VERSION}' for name in declared))
        read = subprocess.run(['readelf', '-dW', path], stdout=subprocess.PIPE, check=True, text=True).stdout
        self.assertIn(f'soname: [libdesk.so.{VERSION}]', read)
        self.assertNotIn('TEXTREL', read)


if __name__ == '__main__':
    unittest.main()
