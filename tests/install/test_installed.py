"""Tests ./install itself: the tree that it makes, what it prints, where it may stand, what it replaces, and that it leaves nothing behind.

    python3 tests/install/test_installed.py      # from anywhere; with everything built, as .ci/install does
"""
from __future__ import annotations

import os
import re
import shutil
import signal
import stat
import subprocess
import sys
import unittest
import unittest.mock

sys.dont_write_bytecode = True
from common import INSTALL, LIBRARY, PYTHON, TOP, VERSION, Case, content_of, standing  # noqa: E402
from installing import hints  # noqa: E402
from installing.destination import Destination  # noqa: E402
from installing.putting import Entry  # noqa: E402

FOR_C = {'include/desk.h': 0o644, 'lib/libdesk.a': 0o644, f'lib/{LIBRARY}': 0o755, 'lib/libdesk.so': LIBRARY,
         'lib/pkgconfig/desk.pc': 0o644, 'lib/cmake/desk/desk-config.cmake': 0o644, 'lib/cmake/desk/desk-config-version.cmake': 0o644}
BESIDE = {f'{PYTHON}/desk/libdesk.so': f'../../../{LIBRARY}', f'{PYTHON}/desk/report': 0o755, 'bin/desk': 0o755,
          'share/desk/installed.txt': 0o644}
PAGES = ('BANDS.md', 'BOOK.md', 'CHANGELOG.md', 'COMMAND.md', 'INSTALL.md', 'REFUSALS.md', 'example.c', 'memory.c', 'memory.cpp')
OLD_PYTHON = """import sys
sys.version_info = (3, 7, 16)
__file__ = sys.argv[1]
exec(compile(open(__file__).read(), __file__, 'exec'))
"""
SLOW = '''import sys, time
sys.path[:0] = sys.argv[2:]
from installing import main
main.Destination.put = lambda *_: (print('at work', flush=True), time.sleep(60))
sys.exit(main.main([sys.argv[1]], sys.argv[4]))
'''


def files_below(folder: str, ending: str, *but: str) -> list[str]:
    """The files of a folder of the sources, from there."""
    found = []
    for above, _, names in os.walk(os.path.join(TOP, folder)):
        inside = os.path.relpath(above, os.path.join(TOP, folder))
        found += [os.path.normpath(os.path.join(inside, name)) for name in names if name.endswith(ending)]
    return [name for name in found if name.split('/')[0] not in but]


def expected() -> dict[str, int | str]:
    """Every file with its mode, every link with where it leads."""
    modules = [f'{PYTHON}/desk/{name}' for name in files_below('bindings/python/desk', '.py')]
    crate = ['share/desk/rust/Cargo.toml', *(f'share/desk/rust/{name}' for name in files_below('bindings/rust', '.rs', 'tests', 'target'))]
    pages = [f'share/doc/desk/{name}' for name in PAGES]
    examples = [f'share/doc/desk/examples/{name}' for ending in ('.csv', '.book') for name in files_below('examples', ending)]
    return {**FOR_C, **BESIDE, **{path: 0o644 for path in modules + crate + pages + examples}}


class Installed(Case):
    def setUp(self) -> None:
        super().setUp()
        self.prefix = self.path('pre fix')

    def install(self, *words: str, **variables: str) -> str:
        return self.done(INSTALL, *words, **variables)

    def assert_whole(self, prefix: str) -> None:
        seen = standing(prefix)
        files = {path: content.decode() if stat.S_ISLNK(mode) else stat.S_IMODE(mode) for path, (mode, content) in seen.items()
                 if not stat.S_ISDIR(mode)}
        self.assertEqual(files, expected())
        self.assertEqual({mode for mode, _ in seen.values() if stat.S_ISDIR(mode)}, {stat.S_IFDIR | 0o755})

    def test_the_tree(self) -> None:
        self.done('sh', '-c', 'umask 077; "$0" "$1"', INSTALL, self.prefix)
        self.assert_whole(self.prefix)
        with open(os.path.join(self.prefix, 'share/desk/installed.txt'), encoding='utf-8') as file:
            listed = [line.split(' ')[-1] for line in file.read().splitlines()[1:]]
        self.assertEqual(sorted(['.', *standing(self.prefix)]), sorted([*listed, 'share/desk/installed.txt']))
        for name in ('include/desk.h', 'lib/libdesk.a', 'share/desk/rust/build.rs'):
            source = {'lib/libdesk.a': 'target/desk/libdesk.a', 'share/desk/rust/build.rs': 'bindings/rust/build.rs'}.get(name, name)
            self.assertEqual(content_of(os.path.join(self.prefix, name)), content_of(os.path.join(TOP, source)))

    def test_what_it_prints(self) -> None:
        printed = self.install(self.prefix)
        self.assertTrue(printed.startswith(f'desk {VERSION} is installed in {self.prefix}:\n'))
        self.assertLess(len(printed.splitlines()), 16)
        for variable, folder in (('PATH', 'bin'), ('PKG_CONFIG_PATH', 'lib/pkgconfig'), ('CMAKE_PREFIX_PATH', '.'), ('PYTHONPATH', PYTHON),
                                 ('LD_LIBRARY_PATH', 'lib')):
            line, = re.findall(rf'^  (export {variable}=.*)', printed, re.M)
            for there, rest in (('/else where', ':/else where'), ('', '')):
                told = subprocess.run(['/bin/sh', '-c', f'{line}\nprintf %s "${variable}"'], env={variable: there},
                                      stdout=subprocess.PIPE, check=True, text=True).stdout
                self.assertEqual(told, os.path.normpath(os.path.join(self.prefix, folder)) + rest)

    def test_what_is_found_anyway_is_not_asked_for(self) -> None:
        paths = {'PATH': f'{self.prefix}/bin:{self.environment["PATH"]}', 'PKG_CONFIG_PATH': f'{self.prefix}/lib/pkgconfig/',
                 'PYTHONPATH': f'{self.prefix}/{PYTHON}', 'LD_LIBRARY_PATH': f'/x:{self.prefix}/lib'}
        self.assertNotIn('export', self.install(self.prefix, **paths))
        self.assertNotIn('export', self.install(self.path('system'), DESTDIR=self.path('stage')))

    def test_without_the_toolchain(self) -> None:
        self.assertIsNone(shutil.which('rt', path=self.environment['PATH']))
        self.install(self.prefix)
        self.assert_whole(self.prefix)

    def test_a_relative_prefix(self) -> None:
        self.install(os.path.join('..', os.path.basename(self.folder), 'pre fix'))
        self.assert_whole(self.prefix)
        self.install('--uninstall', './pre fix/')
        self.assertFalse(os.path.exists(self.prefix))

    def test_odd_prefixes(self) -> None:
        for name in ("it's", '"$HOME"*', '-x\\', '#%s{0}', 'ü', os.fsdecode(b'\xff')):
            prefix = self.path(name)
            self.install(prefix)
            self.assertEqual(self.done(os.path.join(prefix, 'bin', 'desk'), 'refusals', '25')[:4], '25  ')
            self.install('--uninstall', prefix)
            self.assertFalse(os.path.exists(prefix))

    def test_below_destdir_and_moved(self) -> None:
        stage, system = self.path('stage'), self.path('system')
        self.install(system, DESTDIR=stage)
        self.assert_whole(stage + system)
        self.assertEqual(os.stat(stage + system).st_mode, stat.S_IFDIR | 0o755)
        self.install('--uninstall', system, DESTDIR=stage)
        self.assertFalse(os.path.exists(stage + system))
        self.assertFalse(os.path.exists(system))
        self.install(system, DESTDIR='stage')
        os.rename(stage + system, self.prefix)
        self.assertIn('cross', self.done(f'{self.prefix}/bin/desk', 'compare', os.path.join(TOP, 'examples', 'h.csv')))
        self.install('--uninstall', self.prefix)
        self.assertFalse(os.path.exists(self.prefix))

    def test_over_an_older_install(self) -> None:
        older = [Entry('include/desk.h', b'older'), Entry('lib/libdesk.so.0', b'', 0o755), Entry('lib/libdesk.so', link='libdesk.so.0'),
                 Entry('share/doc/desk/gone/page.md', b'older'), Entry('lib/python3.0/site-packages/desk/__init__.py', b'')]
        Destination(self.prefix, '').put(VERSION + 1, older)
        self.install(self.prefix)
        self.assert_whole(self.prefix)

    def test_a_foreign_file_is_refused(self) -> None:
        self.put('pre fix/include/desk.h', 'of another desk')
        before = standing(self.prefix)
        self.assertIn(f'{self.prefix}/include/desk.h is not of an earlier install', self.fails(1, INSTALL, self.prefix))
        self.assertEqual(standing(self.prefix), before)

    def test_nothing_is_left_behind(self) -> None:
        for name in ('bin/other', 'lib/libother.so', f'{PYTHON}/other/__init__.py', 'share/doc/other.md'):
            self.put(f'pre fix/{name}', f'{name}\n')
        os.symlink('other', os.path.join(self.prefix, 'bin', 'link'))
        before = standing(self.prefix)
        self.install(self.prefix)
        self.done(f'{self.prefix}/bin/desk', 'show', f'{self.prefix}/share/doc/desk/examples/k.csv')
        self.done('python3', '-c', 'import desk; desk.Desk()', PYTHONPATH=os.path.join(self.prefix, PYTHON))
        self.assertTrue(os.path.isdir(os.path.join(self.prefix, PYTHON, 'desk', '__pycache__')))
        self.assertEqual(self.install('--uninstall', self.prefix), f'desk is removed from {self.prefix}\n')
        self.assertEqual(standing(self.prefix), before)

    def test_what_has_been_changed_is_kept(self) -> None:
        self.install(self.prefix)
        self.put('pre fix/include/desk.h', 'mine')
        ended = self.ran(INSTALL, '--uninstall', self.prefix)
        self.assertEqual((ended.returncode, ended.stdout.splitlines()[1:]), (1, ['  include/desk.h']))
        self.assertEqual(sorted(standing(self.prefix)), ['include', 'include/desk.h'])

    def test_folders_that_hold_more_are_named(self) -> None:
        self.install(self.prefix)
        self.put('pre fix/share/desk/rust/target/mine', 'mine')
        said = self.install('--uninstall', self.prefix)
        self.assertEqual(said.splitlines()[1:], ['These folders stay, as they hold what was not installed:', '  share/desk/rust'])
        self.assertIn('share/desk/rust/target/mine', standing(self.prefix))

    def test_the_sources_stay_as_they_are(self) -> None:
        status = ['git', '-C', TOP, 'status', '--porcelain', '--ignored']
        before = self.done(*status)
        self.install(self.prefix)
        self.install('--uninstall', self.prefix)
        self.assertEqual(self.done(*status), before)


class Hints(unittest.TestCase):
    """What is asked to be set, where some of it is found anyway."""

    def asked(self, prefix: str, **found: list[str]) -> str:
        found = {'pkg_config_folders': [], 'python_folders': [], 'loader_folders': [], **found}
        answers = {name: lambda folders=folders: folders for name, folders in found.items()}
        with unittest.mock.patch.multiple(hints, **answers), unittest.mock.patch.dict(os.environ, {'PATH': '/usr/bin'}, clear=True):
            return '\n'.join(hints.settings(prefix, f'{prefix}/lib/python/site-packages'))

    def test_what_the_tools_find(self) -> None:
        for found, variable in (({'pkg_config_folders': ['/p/lib/pkgconfig/']}, 'PKG_CONFIG_PATH'),
                                ({'python_folders': ['', '/p/lib/python/site-packages']}, 'PYTHONPATH'),
                                ({'loader_folders': ['/p/lib']}, 'LD_LIBRARY_PATH')):
            self.assertIn(f'export {variable}=', self.asked('/p'))
            self.assertNotIn(f'export {variable}=', self.asked('/p', **found))
        self.assertIn('ldconfig ', self.asked('/p', loader_folders=['/p/lib']))
        self.assertNotIn('ldconfig', self.asked('/p'))

    def test_cmake_looks_in_the_usual_places(self) -> None:
        self.assertIn('export CMAKE_PREFIX_PATH=', self.asked('/p'))
        for prefix in ('/usr', '/usr/local'):
            self.assertNotIn('CMAKE_PREFIX_PATH', self.asked(prefix))

    def test_where_the_tools_look(self) -> None:
        self.assertIn('/usr/lib', hints.loader_folders())
        self.assertTrue(any('python' in folder for folder in hints.python_folders()))
        self.assertEqual(hints.answer('/no/such/program'), '')


class Words(Case):
    def test_wrong_usage(self) -> None:
        for words in ((), ('a', 'b'), ('--check', '--uninstall', 'a'), ('--chek', 'a'), ('',), ('a\nb',), ('a:b',), ('--check',)):
            self.assertIn('PREFIX', self.fails(2, INSTALL, *words))
        self.assertIn('DESTDIR', self.fails(2, INSTALL, 'relative', DESTDIR=self.folder))
        self.assertEqual(os.listdir(self.folder), ['.tools'])

    def test_help(self) -> None:
        for word in ('--help', '-h'):
            printed = self.done(INSTALL, word)
            for each in ('PREFIX', '--check', '--uninstall', 'DESTDIR', 'exit status'):
                self.assertIn(each, printed)

    def test_not_installed(self) -> None:
        for word in ('--check', '--uninstall'):
            self.assertIn('desk is not installed in', self.fails(1, INSTALL, word, self.path('none')))
            self.assertIn('desk is not installed in', self.fails(1, INSTALL, word, self.folder))
            self.assertIn('desk is not installed in', self.fails(1, INSTALL, word, '/usr', DESTDIR=self.folder))

    def test_no_way_to_write(self) -> None:
        self.put('file', '')
        for prefix in (self.path('file'), self.path('file', 'below'), '/proc/none', '/dev/null'):
            self.assertIn('install: ', self.fails(1, INSTALL, prefix))

    def test_old_python(self) -> None:
        self.assertIn('Python 3.8 or later, and python3 is 3.7 here', self.fails(2, 'python3', '-c', OLD_PYTHON, INSTALL, self.folder))

    def test_sources_that_are_not_whole(self) -> None:
        shutil.copytree(os.path.join(TOP, 'tools'), self.path('top', 'tools'))
        shutil.copytree(os.path.join(TOP, 'bindings'), self.path('top', 'bindings'))
        install = shutil.copy(INSTALL, self.path('top', 'install'))
        self.assertIn('these sources are not whole', self.fails(1, install, self.path('pre fix')))
        self.assertFalse(os.path.exists(self.path('pre fix')))

    def test_what_is_not_built_needs_the_toolchain(self) -> None:
        for name in ('tools', 'bindings', 'include', 'crates', 'docs', 'examples'):
            shutil.copytree(os.path.join(TOP, name), self.path('top', name), ignore=shutil.ignore_patterns('__pycache__', 'target'))
        for name in ('install', 'desk', 'crates.txt', 'CHANGELOG.md', 'VERSION'):
            shutil.copy(os.path.join(TOP, name), self.path('top', name))
        said = self.fails(1, self.path('top', 'install'), self.path('pre fix'))
        self.assertIn('the library is not built: that needs the Rattle toolchain, and there is no rt on the PATH', said)
        self.assertFalse(os.path.exists(self.path('pre fix')))
        self.assertEqual([folder for folder, _, _ in os.walk(self.path('top')) if folder.endswith('__pycache__')], [])

    def test_standard_output_that_does_not_work(self) -> None:
        """It is installed all the same."""
        for turned, status in (('>&-', 0), ('>/dev/full', 1), ('2>&-', 0), ('>&- 2>&-', 0), ('| true', 0)):
            ended = self.ran('sh', '-c', f'"$0" "$1" {turned}', INSTALL, self.path('pre fix'))
            self.assertEqual((ended.returncode, 'Traceback' in ended.stderr, 'ignored' in ended.stderr), (status, False, False), turned)
            self.assertEqual('standard output: No space' in ended.stderr, status == 1)
            self.done(INSTALL, '--uninstall', self.path('pre fix'))

    def test_interrupt(self) -> None:
        """It ends by the signal, and nothing is left."""
        words = [sys.executable, '-B', '-c', SLOW, self.path('pre fix'), f'{TOP}/tools', f'{TOP}/bindings/python', TOP]
        with subprocess.Popen(words, stdout=subprocess.PIPE, stderr=subprocess.PIPE, text=True) as process:
            self.assertEqual(process.stdout.readline(), 'at work\n')
            process.send_signal(signal.SIGINT)
            self.assertEqual((process.wait(60), process.stderr.read()), (-signal.SIGINT, ''))


if __name__ == '__main__':
    unittest.main()
