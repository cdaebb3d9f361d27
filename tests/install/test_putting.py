"""Tests how files are put below a PREFIX and removed again, with small ones: all or none, whatever stands there and whenever it breaks off.

    python3 tests/install/test_putting.py      # from anywhere
"""
from __future__ import annotations

from typing import Callable
import contextlib
import errno
import io
import os
import shutil
import stat
import sys
import threading
import time
import unittest
import unittest.mock

sys.dont_write_bytecode = True
from common import Case, standing  # noqa: E402
from installing.manifest import PATH  # noqa: E402
from installing.destination import Destination  # noqa: E402
from installing.manifest import folders_of  # noqa: E402
from installing.putting import Entry  # noqa: E402
from installing.tree import Tree  # noqa: E402
from installing.words import NotDone, WrongUsage  # noqa: E402

OLD = [Entry('bin/desk', b'old', 0o755), Entry('include/desk.h', b'header'), Entry('lib/libdesk.so', link='libdesk.so.8'),
       Entry('lib/libdesk.so.8', b'eight', 0o755), Entry('lib/python3/desk/gone.py', b''), Entry('lib/python3/desk/same.py', b'1'),
       Entry('share/desk/old/page.md', b'gone')]
NEW = [Entry('bin/desk', b'new', 0o755), Entry('include/desk.h', b'header'), Entry('lib/libdesk.so', link='libdesk.so.9'),
       Entry('lib/libdesk.so.9', b'nine', 0o755), Entry('lib/python3/desk/same.py', b'2'), Entry('share/doc/desk/page.md', b'')]
CHANGES = ('write', 'link', 'rename', 'remove', 'make_folder', 'remove_folder')  # of Tree


class Putting(Case):
    def setUp(self) -> None:
        super().setUp()
        self.prefix = self.path('pre fix')
        self.destination = Destination(self.prefix, '')
        quick = unittest.mock.patch('os.fsync')  # nobody pulls the plug here
        quick.start()
        self.addCleanup(quick.stop)

    def have_foreign_files(self) -> None:
        self.put('pre fix/lib/own.so', 'mine')
        self.put('pre fix/share/page', 'mine')
        os.symlink('/nowhere', self.path('pre fix', 'lib', 'own link'))
        os.chmod(self.path('pre fix', 'share'), 0o700)

    def seen(self) -> dict:
        return standing(self.prefix) if os.path.lexists(self.prefix) else {'nothing': True}

    def refused(self, act: Callable[[], object], *words: str) -> None:
        """Something is refused with these words, and nothing changed."""
        before = self.seen()
        with self.assertRaises(NotDone) as caught:
            act()
        for each in words:
            self.assertIn(each, str(caught.exception))
        self.assertEqual(self.seen(), before)

    def assert_installed(self, entries: list[Entry], *others: str) -> None:
        """These entries are there with their modes, in folders of mode 755, and besides the manifest only others."""
        seen = self.seen()
        for entry in entries:
            mode, content = seen.pop(entry.path)
            self.assertEqual(content, entry.link.encode() or entry.content)
            self.assertEqual(oct(mode), oct(stat.S_IFLNK | 0o777 if entry.link else stat.S_IFREG | entry.mode))
        self.assertEqual(oct(seen.pop(PATH)[0]), oct(stat.S_IFREG | 0o644))
        folders = {path for path, (mode, _) in seen.items() if mode == stat.S_IFDIR | 0o755}
        self.assertEqual(sorted(set(seen) - folders), sorted(others))


class Install(Putting):
    def test_into_nothing_and_back(self) -> None:
        for mask in (0o077, 0o000, 0o777 & ~0o700):
            before = os.umask(mask)
            try:
                self.assertEqual(self.destination.put(8, OLD), [])
            finally:
                os.umask(before)
            self.assert_installed(OLD)
            self.assertEqual(stat.S_IMODE(os.stat(self.prefix).st_mode), 0o755)
            self.assertEqual(self.destination.uninstall(), [])
            self.assertFalse(os.path.lexists(self.prefix))

    def test_what_was_there_is_there_in_the_end(self) -> None:
        self.have_foreign_files()
        before = self.seen()
        self.destination.put(8, OLD)
        self.destination.put(9, NEW)
        self.destination.uninstall()
        self.assertEqual(self.seen(), before)

    def test_an_empty_folder_that_was_there_stays(self) -> None:
        os.makedirs(self.path('pre fix', 'share', 'doc'))
        self.destination.put(9, NEW)
        self.destination.uninstall()
        self.assertEqual(sorted(self.seen()), ['share', 'share/doc'])

    def test_takes_the_place_of_an_earlier_install(self) -> None:
        self.destination.put(8, OLD)
        self.destination.put(9, NEW)
        self.assert_installed(NEW)
        self.assertFalse(os.path.exists(self.path('pre fix', 'share', 'desk', 'old')))
        self.destination.put(9, NEW)
        self.assert_installed(NEW)
        self.destination.uninstall()
        self.assertFalse(os.path.lexists(self.prefix))

    def test_a_foreign_file_is_refused(self) -> None:
        for path in ('bin/desk', 'lib/libdesk.so.9', 'lib/libdesk.so', 'share/doc/desk/page.md', 'bin/.desk.desk-new'):
            foreign = self.put(f'pre fix/{path}', 'mine')
            self.refused(lambda: self.destination.put(9, NEW), f'{foreign} is not of an earlier install')
            os.remove(foreign)
            os.symlink('nowhere', foreign)
            self.refused(lambda: self.destination.put(9, NEW), f'{foreign} is not of an earlier install')
            os.remove(foreign)
            os.mkdir(foreign)
            self.refused(lambda: self.destination.put(9, NEW), foreign)
            os.rmdir(foreign)
            os.mkfifo(foreign)
            self.refused(lambda: self.destination.put(9, NEW), foreign)
            os.remove(foreign)
        self.destination.put(9, NEW)

    def test_a_foreign_file_beside_an_earlier_install_is_refused(self) -> None:
        self.destination.put(8, OLD)
        self.put('pre fix/lib/libdesk.so.9', 'nine')
        self.refused(lambda: self.destination.put(9, NEW), 'lib/libdesk.so.9 is not of an earlier install')

    def test_all_that_is_in_the_way_is_told_at_once(self) -> None:
        self.put('pre fix/bin/desk', '')
        self.put('pre fix/lib', '')
        self.refused(lambda: self.destination.put(9, NEW), 'pre fix/bin/desk is not', 'pre fix/lib must be a folder, and is a file')

    def test_a_changed_file_is_refused(self) -> None:
        self.destination.put(8, OLD)
        self.put('pre fix/include/desk.h', 'mine')
        self.refused(lambda: self.destination.put(9, NEW), 'include/desk.h has been changed since it was installed')

    def test_a_changed_file_that_is_no_more_installed_is_kept(self) -> None:
        self.destination.put(8, OLD)
        self.put('pre fix/share/desk/old/page.md', 'mine')
        self.assertEqual(self.destination.put(9, NEW), ['share/desk/old/page.md'])
        self.assert_installed(NEW, 'share/desk/old/page.md')

    def test_a_file_that_is_gone_is_put_again(self) -> None:
        self.destination.put(9, NEW)
        os.remove(self.path('pre fix', 'include', 'desk.h'))
        os.remove(self.path('pre fix', 'lib', 'libdesk.so'))
        self.destination.put(9, NEW)
        self.assert_installed(NEW)

    def test_no_link_is_followed(self) -> None:
        elsewhere = self.path('elsewhere')
        os.mkdir(elsewhere)
        for inside in ('lib', 'share/desk'):
            os.makedirs(os.path.dirname(self.path('pre fix', inside)), exist_ok=True)
            os.symlink(elsewhere, self.path('pre fix', inside))
            with self.assertRaisesRegex(NotDone, f'{inside}.*link'):
                self.destination.put(9, NEW)
            self.assertEqual(os.listdir(elsewhere), [])
            os.remove(self.path('pre fix', inside))

    def test_prefix_may_be_a_link_or_end_in_a_slash(self) -> None:
        os.mkdir(self.path('real'))
        os.symlink('real', self.prefix)
        self.destination.put(9, NEW)
        self.assert_installed(NEW)
        Destination(f'{self.prefix}//', '').uninstall()
        self.assertEqual((os.listdir(self.path('real')), os.path.islink(self.prefix)), ([], True))

    def test_prefix_is_a_file(self) -> None:
        self.put('pre fix', 'mine')
        with self.assertRaises(NotADirectoryError):
            self.destination.put(9, NEW)

    def test_unfit_prefixes(self) -> None:
        for prefix in ('', 'a\nb', 'a\tb', 'a:b', 'a;b', 'a\x7fb', 'a\0b'):
            with self.assertRaises(WrongUsage):
                Destination(prefix, '')
        with self.assertRaisesRegex(WrongUsage, 'DESTDIR'):
            Destination('relative', self.folder)

    def test_below_destdir(self) -> None:
        system, stage = self.path('system'), self.path('stage')
        destination = Destination(system, stage)
        destination.put(9, NEW)
        self.prefix = stage + system
        self.assert_installed(NEW)
        destination.uninstall()
        self.assertFalse(os.path.exists(self.prefix) or os.path.exists(system))

    def test_two_at_once(self) -> None:
        """One waits for the other, so that both go through."""
        works = [threading.Thread(target=lambda: self.destination.put(9, NEW)) for _ in range(2)]
        slowly, order = Tree.make_folder, []

        def make(tree: Tree, path: str) -> None:
            order.append(threading.get_ident())
            time.sleep(0.01)
            slowly(tree, path)
        said = io.StringIO()
        with unittest.mock.patch.object(Tree, 'make_folder', make), contextlib.redirect_stderr(said):
            os.mkdir(self.prefix)
            for work in works:
                work.start()
            for work in works:
                work.join()
        self.assertEqual(len(set(order)), 1)
        self.assertEqual(said.getvalue(), f'install: another install is at work in {self.prefix}; waiting for it\n')
        self.assert_installed(NEW)

    @unittest.skipIf(os.getuid(), 'only root can become somebody else')
    def test_no_permission(self) -> None:
        self.destination.put(8, OLD)
        os.chmod(self.folder, 0o755)
        before = self.seen()
        for act, words in ((lambda: self.destination.put(9, NEW), 'no permission to write'),
                           (self.destination.uninstall, 'no permission to remove')):
            reader, writer = os.pipe()
            child = os.fork()
            if not child:
                os.setresuid(65534, 65534, 65534)
                try:
                    act()
                except NotDone as why:
                    os.write(writer, str(why).encode())
                os._exit(0)
            os.waitpid(child, 0)
            os.close(writer)
            with open(reader, encoding='utf-8') as said:
                self.assertIn(words, said.read())
        self.assertEqual(self.seen(), before)


class Uninstall(Putting):
    def test_not_installed(self) -> None:
        self.refused(self.destination.uninstall, 'desk is not installed', 'no such folder')
        self.have_foreign_files()
        self.refused(self.destination.uninstall, 'desk is not installed', PATH)

    def test_what_is_not_listed_is_kept(self) -> None:
        self.destination.put(9, NEW)
        own = ['bin/other', 'lib/libdesk.so.7', 'share/doc/desk/own.md', 'lib/python3/desk/__pycache__/own.cpython-311.pyc']
        for path in own:
            self.put(f'pre fix/{path}', 'mine')
        self.assertEqual(self.destination.uninstall(), [])
        self.assertEqual([path for path, (mode, _) in sorted(self.seen().items()) if stat.S_ISREG(mode)], sorted(own))

    def test_what_has_been_changed_is_kept_and_named(self) -> None:
        self.destination.put(9, NEW)
        self.put('pre fix/include/desk.h', 'mine')
        os.remove(self.path('pre fix', 'lib', 'libdesk.so'))
        os.symlink('own.so', self.path('pre fix', 'lib', 'libdesk.so'))
        self.assertEqual(self.destination.uninstall(), ['include/desk.h', 'lib/libdesk.so'])
        self.assertEqual(sorted(self.seen()), ['include', 'include/desk.h', 'lib', 'lib/libdesk.so'])
        self.refused(self.destination.uninstall, 'desk is not installed')
        self.refused(lambda: self.destination.put(9, NEW), 'include/desk.h is not of an earlier install')

    def test_a_mode_that_has_been_changed_does_not_matter(self) -> None:
        self.destination.put(9, NEW)
        os.chmod(self.path('pre fix', 'bin', 'desk'), 0o700)
        self.assertEqual(self.destination.uninstall(), [])
        self.assertFalse(os.path.lexists(self.prefix))

    def test_what_python_has_compiled_goes_too(self) -> None:
        self.destination.put(8, OLD)
        cache = self.path('pre fix', 'lib', 'python3', 'desk', '__pycache__')
        for name in ('gone.cpython-38.pyc', 'same.cpython-313.opt-2.pyc', 'same.pypy39-73.pyc'):
            self.put(f'{cache}/{name}', '')
        self.destination.put(9, NEW)
        self.assertFalse(os.path.exists(cache))
        self.put(f'{cache}/same.cpython-311.pyc', '')
        self.assertEqual(self.destination.uninstall(), [])
        self.assertFalse(os.path.lexists(self.prefix))

    def test_no_link_is_followed(self) -> None:
        self.destination.put(9, NEW)
        os.rename(self.path('pre fix', 'lib'), self.path('away'))
        os.symlink(self.path('away'), self.path('pre fix', 'lib'))
        before = standing(self.path('away'))
        self.assertEqual(self.destination.uninstall(), ['lib/libdesk.so', 'lib/libdesk.so.9', 'lib/python3/desk/same.py'])
        self.assertEqual(standing(self.path('away')), before)
        self.assertEqual(sorted(self.seen()), ['lib'])

    def test_a_cache_that_is_a_link_is_not_followed(self) -> None:
        self.destination.put(9, NEW)
        compiled = self.put('away/same.cpython-311.pyc', '')
        os.symlink(self.path('away'), self.path('pre fix', 'lib', 'python3', 'desk', '__pycache__'))
        self.destination.uninstall()
        self.assertTrue(os.path.exists(compiled))

    def test_a_manifest_that_leads_elsewhere_is_refused(self) -> None:
        self.destination.put(9, NEW)
        mine = self.put('mine', 'mine')
        self.put('pre fix/share/mine', 'mine')
        good = self.path('pre fix', PATH)
        with open(good, encoding='utf-8') as file:
            text = file.read()
        mark = 'file ' + '0' * 64
        for line in (f'{mark} ../mine', f'{mark} {mine}', f'{mark} share/../../mine', f'{mark} ./share/mine', f'{mark} share//mine',
                     'folder ..', f'{mark} share/mine/', f'{mark} /', f'{mark} ', 'folder share/..', 'folder /', 'folder ./share',
                     'file x share/mine', 'file share/mine', 'share/mine', '', f'{mark} share/mine\r', 'link ../mine/x y share/mine',
                     f'{mark} share/m\u00fcne'):
            self.put(f'pre fix/{PATH}', f'{text}{line}\n')
            self.refused(self.destination.uninstall, 'is not understood', 'nothing is changed')
            self.refused(lambda: self.destination.put(9, NEW), 'is not understood', 'nothing is changed')
        for whole in ('', 'desk', 'desk 0\n', 'desk 1', 'desk 1 \n', 'other 1\n', f'{text}x', f'\n{text}',
                      text.replace('desk 9', 'desk 9 half', 1)):
            self.put(f'pre fix/{PATH}', whole)
            self.refused(self.destination.uninstall, 'nothing is changed')

    def test_a_manifest_that_is_no_file_of_its_own_is_refused(self) -> None:
        self.destination.put(9, NEW)
        os.rename(self.path('pre fix', PATH), self.path('list'))
        os.symlink(self.path('list'), self.path('pre fix', PATH))
        self.refused(self.destination.uninstall, 'symbolic link')
        os.remove(self.path('pre fix', PATH))
        os.mkfifo(self.path('pre fix', PATH))
        self.refused(self.destination.uninstall, 'no file of its own')


class Breaking(Putting):
    """Every change in turn is the last one, or fails."""

    def stop_at(self, step: int, stop: Callable[[], None]):
        """From now on the change of this number does something else before it."""
        count = [0]

        def counted(change: Callable) -> Callable:
            def counting(*words: object) -> object:
                count[0] += 1
                if count[0] == step:
                    stop()
                return change(*words)
            return counting
        return unittest.mock.patch.multiple(Tree, **{name: counted(getattr(Tree, name)) for name in CHANGES})

    def killed_at(self, step: int, act: Callable[[], object]) -> bool:
        """Does something in a process that ends at once at this step; whether it came so far."""
        child = os.fork()
        if not child:
            try:
                with self.stop_at(step, lambda: os._exit(9)):
                    act()
            finally:
                os._exit(0)
        return os.waitpid(child, 0)[1] != 0

    def from_the_start(self, earlier: bool) -> dict:
        """A folder with foreign files and an earlier install, or not; what stands there without that."""
        shutil.rmtree(self.prefix, ignore_errors=True)
        self.have_foreign_files()
        os.makedirs(self.path('pre fix', 'share', 'desk'))  # a kill before there is a manifest leaves it behind
        before = self.seen()
        if earlier:
            self.destination.put(8, OLD)
        return before

    def test_killed_install(self) -> None:
        for earlier in (False, True):
            step = 1
            while True:
                before = self.from_the_start(earlier)
                if not self.killed_at(step, lambda: self.destination.put(9, NEW)):
                    break
                if step % 2:
                    self.destination.put(9, NEW)
                    self.assert_installed(NEW, 'lib/own link', 'lib/own.so', 'share', 'share/page')
                if os.path.exists(self.path('pre fix', PATH)):
                    self.assertEqual(self.destination.uninstall(), [])
                self.assertEqual(self.seen(), before, f'step {step}')
                step += 1
            self.assertGreater(step, 20)

    def test_killed_uninstall(self) -> None:
        step = 1
        while True:
            before = self.from_the_start(True)
            if not self.killed_at(step, self.destination.uninstall):
                break
            if os.path.exists(self.path('pre fix', PATH)):
                self.assertEqual(self.destination.uninstall(), [])
                self.assertEqual(self.seen(), before, f'step {step}')
            else:  # at most the empty folders of the list are left
                self.assertLessEqual(set(self.seen()) - set(before), set(folders_of([PATH])), f'step {step}')
            step += 1
        self.assertGreater(step, 10)

    def fails_at(self, step: int, error: BaseException) -> str:
        """What an install comes to in which a change fails: 'done', 'undone' or what it says."""
        def fail() -> None:
            raise error
        try:
            with self.stop_at(step, fail):
                self.destination.put(9, NEW)
            return 'done'
        except NotDone as why:
            return str(why)
        except type(error):
            return 'undone'

    def test_a_change_that_fails(self) -> None:
        """Before the last moment nothing is changed; in it the install can be repeated."""
        for error in (OSError(errno.ENOSPC, 'No space left on device', 'x'), KeyboardInterrupt()):
            outcomes = set()
            for step in range(1, 100):
                self.from_the_start(True)
                before = self.seen()
                outcome = self.fails_at(step, error)
                outcomes.add(outcome)
                if outcome == 'done':
                    break
                if outcome == 'undone' and not isinstance(error, KeyboardInterrupt):
                    self.assertEqual(self.seen(), before, f'step {step}')
                self.destination.put(9, NEW)
                self.assert_installed(NEW, 'lib/own link', 'lib/own.so', 'share', 'share/page')
            self.assertLessEqual({'done', 'undone'}, outcomes)

    def test_a_prefix_that_was_made_is_undone_too(self) -> None:
        destination = Destination(self.path('a', 'b', 'c'), '')
        with self.stop_at(9, lambda: (_ for _ in ()).throw(OSError(errno.ENOSPC, 'full', 'x'))), self.assertRaises(OSError):
            destination.put(9, NEW)
        self.assertFalse(os.path.exists(self.path('a')))


if __name__ == '__main__':
    unittest.main()
