"""Tests the script ./desk: which package it runs, from where, and what it says where it cannot. The package is a stand-in.

    python3 tests/desk/test_launcher.py      # from anywhere
"""
from __future__ import annotations

import os
import shutil
import subprocess
import sys
import tempfile
import unittest

sys.dont_write_bytecode = True
LAUNCHER = os.path.join(os.path.dirname(os.path.abspath(__file__)), '..', '..', 'desk')
MAIN = """import signal, sys
def main(words):
    print(sys.path[0], signal.getsignal(signal.SIGINT) is signal.SIG_DFL, words)
    return 3
"""
OLD = """import sys
sys.version_info = (3, 7, 16)
__file__ = sys.argv[1]
exec(compile(open(__file__).read(), __file__, 'exec'))
"""


class Launcher(unittest.TestCase):
    def setUp(self) -> None:
        folder = tempfile.TemporaryDirectory()
        self.addCleanup(folder.cleanup)
        self.folder = os.path.realpath(folder.name)
        self.top = os.path.join(self.folder, 'top')
        self.packages = os.path.join(self.top, 'bindings', 'python')
        command = os.path.join(self.packages, 'desk', 'command')
        os.makedirs(command)
        with open(os.path.join(command, 'main.py'), 'w', encoding='utf-8') as file:
            file.write(MAIN)
        self.launcher = os.path.join(self.top, 'desk')
        shutil.copy(LAUNCHER, self.launcher)
        os.mkdir(os.path.join(self.folder, 'bin'))
        os.symlink(sys.executable, os.path.join(self.folder, 'bin', 'python3'))

    def run_it(self, *words: str) -> subprocess.CompletedProcess:
        """Runs a program, with this Python as python3, in a folder that is not the repository's."""
        env = dict(os.environ, PATH=f'{self.folder}/bin{os.pathsep}{os.environ["PATH"]}')
        return subprocess.run(words, cwd=self.folder, env=env, stdout=subprocess.PIPE, stderr=subprocess.PIPE, text=True)

    def assert_runs_main(self, launcher: str) -> None:
        got = self.run_it(launcher, 'compare', '-x', '')
        self.assertEqual((got.stdout, got.stderr, got.returncode), (f"{self.packages} True ['compare', '-x', '']\n", '', 3))

    def assert_refuses(self, got: subprocess.CompletedProcess, words: str) -> None:
        self.assertEqual((got.stdout, got.returncode), ('', 2))
        self.assertRegex(got.stderr, f'^desk: .*{words}.*\n$')

    def test_runs_main(self) -> None:
        self.assert_runs_main(self.launcher)
        self.assert_runs_main(os.path.join('top', 'desk'))

    def test_through_links(self) -> None:
        os.symlink(os.path.join('top', 'desk'), os.path.join(self.folder, 'near'))
        os.symlink(os.path.join(self.folder, 'near'), os.path.join(self.folder, 'bin', 'desk'))
        os.symlink(self.top, os.path.join(self.folder, 'again'))
        for launcher in (os.path.join(self.folder, 'near'), 'desk', os.path.join('again', 'desk')):
            self.assert_runs_main(launcher)

    def test_installed(self) -> None:
        """With another way to the module, as ./install writes it."""
        with open(self.launcher, encoding='utf-8') as file:
            text = file.read()
        self.assertEqual(text.count("WAY = 'bindings/python'"), 1)
        os.rename(self.packages, os.path.join(self.folder, 'module'))
        self.packages = os.path.join(self.folder, 'module')
        with open(self.launcher, 'w', encoding='utf-8') as file:
            file.write(text.replace("WAY = 'bindings/python'", "WAY = '../module'"))
        self.assert_runs_main(self.launcher)
        self.assert_runs_main(os.path.join('top', 'desk'))

    def test_copied(self) -> None:
        copy = shutil.copy(self.launcher, os.path.join(self.folder, 'bin', 'desk'))
        self.assert_refuses(self.run_it(copy, 'compare'), 'link to it')

    def test_old_python(self) -> None:
        self.assert_refuses(self.run_it('python3', '-c', OLD, self.launcher), 'Python 3.8 or later, and python3 is 3.7 here')


if __name__ == '__main__':
    unittest.main()
