"""Tests the files that the command reads and writes: whole or as they were, devices and pipes, huge ones, and names of any kind.

    python3 tests/desk/test_command_files.py      # from anywhere
"""
from __future__ import annotations

from typing import IO
import errno
import os
import resource
import shutil
import subprocess
import sys
import threading
import unittest
import unittest.mock

sys.dont_write_bytecode = True
sys.path.insert(0, os.path.dirname(os.path.abspath(__file__)))
from running import COMMAND, TOP, ask, content_of, environment, example, run, shell  # noqa: E402
from converting import BOOK_K, OBLIGORS, Converting  # noqa: E402
from desk.command import files  # noqa: E402

CSV_K = content_of(example('k.csv'))
TABLE = OBLIGORS + '1,0,0\n'


class Written(Converting):
    def test_a_refusal_makes_no_file(self) -> None:
        files = [self.put('b.csv', TABLE), self.put('a.csv', OBLIGORS + '1,2,0\n')]
        self.refused(8, 'pack', *files, '-o', self.path('a.book'))
        self.refused(2, 'unpack', self.put('a.book', BOOK_K[:-1]), '-o', self.path('out.csv'))
        self.assertEqual(self.names(), ['a.book', 'a.csv', 'b.csv'])

    def test_an_output_is_replaced_and_keeps_its_mode_and_links(self) -> None:
        source, target = self.put('k.book', BOOK_K), self.put('k.csv', 'old')
        os.chmod(target, 0o640)
        os.symlink('k.csv', self.path('link.csv'))
        self.answered('unpack', source, '-o', self.path('link.csv'))
        self.assertEqual(self.got('k.csv'), CSV_K)
        self.assertTrue(os.path.islink(self.path('link.csv')))
        self.assertEqual(os.stat(target).st_mode & 0o777, 0o640)
        self.assertEqual(self.names(), ['k.book', 'k.csv', 'link.csv'])

    def test_who_reads_an_output_that_is_replaced_reads_the_old_one(self) -> None:
        source, target = self.put('k.book', BOOK_K), self.put('k.csv', 'old')
        with open(target, 'rb') as reader:
            self.answered('unpack', source, '-o', target)
            self.assertEqual((reader.read(), self.got('k.csv')), (b'old', CSV_K))

    def test_a_new_output_has_the_mode_of_any_new_file(self) -> None:
        with open(self.path('other'), 'wb'):
            pass
        self.answered('unpack', example('k.book'), '-o', self.path('k.csv'))
        self.assertEqual(os.stat(self.path('k.csv')).st_mode, os.stat(self.path('other')).st_mode)

    def test_an_output_with_the_longest_name(self) -> None:
        name = 'k' * 255
        self.answered('unpack', example('k.book'), '-o', self.path(name))
        self.assertEqual((self.got(name), self.names()), (CSV_K, [name]))

    def test_an_output_that_is_also_an_input(self) -> None:
        source, book = self.put('a.csv', TABLE), self.put('k.book', BOOK_K)
        os.symlink('a.csv', self.path('link.csv'))
        os.link(source, self.path('hard.csv'))
        for output in (source, self.path('link.csv'), self.path('hard.csv'), os.path.join(self.folder, '.', 'a.csv')):
            self.assertIn('is to be read and written', self.wrong('pack', example('k.csv'), source, '-o', output))
        self.assertIn('is to be read and written', self.wrong('unpack', book, '-o', book))
        self.assertEqual((self.got('a.csv').decode(), self.got('k.book')), (TABLE, BOOK_K))

    def test_what_cannot_be_written(self) -> None:
        source = self.put('a.csv', TABLE)
        for output in (self.path('none/a.book'), self.folder, self.path('a.csv/b.book'), ''):
            said = self.wrong('pack', source, '-o', output)
            self.assertTrue(said.startswith(f'desk: {output}: ') and len(said.splitlines()) == 1, said)
        self.assertEqual(self.names(), ['a.csv'])


    def test_a_part_of_another_is_left_alone(self) -> None:
        """What stands where the new file is put together is not this command's, and stays."""
        part = []
        replace = os.replace

        def put_in_the_way(source: str, target: str) -> None:
            part.append(source)
            replace(source, target)
        with unittest.mock.patch.object(os, 'replace', put_in_the_way):
            self.answered('unpack', example('k.book'), '-o', self.path('k.csv'))
        self.put(part[0], 'of another')
        said = self.wrong('unpack', example('k.book'), '-o', self.path('k.csv'))
        self.assertIn(os.strerror(errno.EEXIST), said)
        self.assertEqual(self.got(part[0]), b'of another')


class Devices(Converting):
    def test_standard_output_by_its_name(self) -> None:
        self.assertEqual(run('unpack', example('k.book'), '-o', '/dev/stdout').out.encode(), CSV_K)
        packed = subprocess.run([*COMMAND, 'pack', example('k.csv'), '-o', '/dev/stdout'], stdout=subprocess.PIPE, check=True)
        self.assertEqual(packed.stdout, BOOK_K)

    def test_a_pipe_with_a_name(self) -> None:
        pipe, got = self.path('pipe'), []
        os.mkfifo(pipe)
        for words, expected in ((('unpack', example('k.book')), CSV_K), (('pack', example('k.csv')), BOOK_K)):
            reader = threading.Thread(target=lambda: got.append(content_of(pipe)))
            reader.start()
            self.assertEqual(self.answered(*words, '-o', pipe).out, '')
            reader.join()
            self.assertEqual(got.pop(), expected)
        self.assertEqual(self.names(), ['pipe'])

    def test_a_full_device(self) -> None:
        for words in (('unpack', example('k.book')), ('pack', example('k.csv'))):
            self.assertEqual(self.wrong(*words, '-o', '/dev/full'), f'desk: /dev/full: {os.strerror(errno.ENOSPC)}\n')

    def test_input_from_pipes(self) -> None:
        self.assertEqual(self.answered('unpack', '-', stdin=BOOK_K).out.encode(), CSV_K)
        pipe = self.path('pipe')
        os.mkfifo(pipe)
        writer = threading.Thread(target=lambda: self.put('pipe', BOOK_K))
        writer.start()
        self.assertEqual(self.answered('unpack', pipe).out.encode(), CSV_K)
        writer.join()


class FullDisk(Converting):
    """A disk that is full leaves what stood there, and nothing else."""

    def see_as_it_was(self) -> None:
        self.assertEqual((self.got('k.csv'), self.names()), (b'old', ['k.book', 'k.csv']))

    def test_at_every_step(self) -> None:
        source, target = self.put('k.book', BOOK_K), self.put('k.csv', 'old')

        def fails(*_: object) -> None:
            raise OSError(errno.ENOSPC, 'No space left on device')

        def fails_to_create(path: str, mode: str) -> IO:
            return fails() if mode == 'xb' else open(path, mode)
        for module, name, step in ((os, 'replace', fails), (shutil, 'copymode', fails), (files, 'open', fails_to_create)):
            with unittest.mock.patch.object(module, name, step, create=True):
                said = ask('unpack', source, '-o', target)
            self.assertEqual(said, (2, '', f'desk: {target}: No space left on device\n'))
            self.see_as_it_was()

    def test_while_bytes_are_written(self) -> None:
        """No file of the process may be longer than ten bytes, which is how a full disk looks to it."""
        source, target = self.put('k.book', BOOK_K), self.put('k.csv', 'old')
        limited = run('unpack', source, '-o', target, preexec_fn=lambda: resource.setrlimit(resource.RLIMIT_FSIZE, (10, 10)))
        self.assertEqual(limited, (2, '', f'desk: {target}: {os.strerror(errno.EFBIG)}\n'))
        self.see_as_it_was()

    def test_on_a_small_disk_of_its_own(self) -> None:
        """A disk of one page, which holds the old file and no more."""
        script = ('mount -t tmpfs -o size=4096 tmpfs "$TARGET" && cd "$TARGET" && printf old >k.csv || exit 77; '
                  '"$@"; echo "status $?"; ls; cat k.csv')
        if not shutil.which('unshare'):
            self.skipTest('there is no unshare here')
        ran = shell('exec unshare -m sh -c "$SCRIPT" sh "$@"', 'unpack', example('k.book'), '-o', 'k.csv',
                    env=environment(TARGET=self.folder, SCRIPT=script))
        if ran.status in (1, 32, 77):
            self.skipTest('no disk can be mounted here')
        self.assertEqual(ran, (0, 'status 2\nk.csv\nold', f'desk: k.csv: {os.strerror(errno.ENOSPC)}\n'))


class Read(Converting):
    def test_huge_ones(self) -> None:
        """10 GB in a process that may have 1 GB of memory, and a device that never ends: little of either is read."""
        huge = self.put('huge', BOOK_K)
        os.truncate(huge, 10 << 30)
        limit = {'preexec_fn': lambda: resource.setrlimit(resource.RLIMIT_AS, (1 << 30, 1 << 30))}
        for command in ('show', 'unpack', 'compare'):
            for path in (huge, '/dev/zero'):
                ran = run(command, path, **limit)
                self.assertEqual((ran.status, ran.out), (1, ''), ran.err)
                self.assertRegex(ran.err, f'^desk: refused 2: .*; {path}: over 1048576 bytes; a book has at most 65535\n$')
        with open('/dev/zero', 'rb') as zeros:
            self.assertEqual(run('show', '-', stdin=zeros, **limit).status, 1)

    def test_a_huge_text(self) -> None:
        path = self.put('a.csv', TABLE + '\n' * (1 << 20))
        self.assertIn('over 1048576 bytes', self.refused(None, 'show', path)[0])
        self.answered('show', self.put('b.csv', TABLE.replace('1,0', '2,1') + '\n' * ((1 << 20) - len(TABLE))))

    def test_what_cannot_be_read(self) -> None:
        for words in (('compare', self.path('none'), self.path('none')), ('show', self.path('none')), ('unpack', self.path('none')),
                      ('pack', self.path('none'), '-o', self.path('out'))):
            self.assertEqual(self.wrong(*words), f'desk: {self.path("none")}: {os.strerror(errno.ENOENT)}\n')
        self.assertEqual(self.wrong('show', self.folder), f'desk: {self.folder}: {os.strerror(errno.EISDIR)}\n')
        self.assertEqual(self.wrong('show', ''), f'desk: : {os.strerror(errno.ENOENT)}\n')
        loop = self.path('loop')
        os.symlink('loop', loop)
        self.assertEqual(self.wrong('show', loop), f'desk: {loop}: {os.strerror(errno.ELOOP)}\n')

    def test_a_file_that_breaks_off(self) -> None:
        """Reading fails after opening: the file is named all the same."""
        path = f'/proc/{os.getpid()}/mem'
        if os.path.exists(path):
            self.assertEqual(self.wrong('show', path), f'desk: {path}: {os.strerror(errno.EIO)}\n')
            with open(path, 'rb', buffering=0) as memory:
                self.assertEqual(run('show', '-', stdin=memory), (2, '', f'desk: standard input: {os.strerror(errno.EIO)}\n'))

    @unittest.skipIf(os.geteuid() == 0, 'root may read everything')
    def test_no_permission(self) -> None:
        path = self.put('a.book', BOOK_K)
        os.chmod(path, 0)
        self.assertEqual(self.wrong('show', path), f'desk: {path}: {os.strerror(errno.EACCES)}\n')
        os.chmod(path, 0o600)
        os.chmod(self.folder, 0o500)
        self.addCleanup(os.chmod, self.folder, 0o700)
        self.assertEqual(self.wrong('unpack', path, '-o', self.path('a.csv')), f'desk: {self.path("a.csv")}: {os.strerror(errno.EACCES)}\n')


class Names(Converting):
    """Names with anything in them, as words of a process."""
    NAMES = (b'two words', b'a\nline', b'\x1b[31mred\x07', b'\xff\xfe no text', '\U0001f600 \u00e9 \u202e'.encode(), b'-o', b'--json', b'-',
             b'%s{0}')

    def test_files_of_all_these_names(self) -> None:
        for name in self.NAMES:
            path, out = os.path.join(os.fsencode(self.folder), name), os.path.join(os.fsencode(self.folder), b'out ' + name)
            with open(path, 'wb') as file:
                file.write(BOOK_K)
            shown, unpacked = run('show', path), run('unpack', path, b'-o', out)
            self.assertEqual((shown.status, shown.err, unpacked.status, unpacked.err), (0, '', 0, ''), name)
            self.assertEqual(content_of(os.fsdecode(out)), CSV_K)
            for text in (shown.out, unpacked.out):
                self.assertFalse([each for each in text if not each.isprintable() and each != '\n'], name)
            self.assertEqual(len(shown.out.splitlines()), len(run('show', example('k.book')).out.splitlines()))
            os.remove(path)
            missing = run('show', path)
            self.assertEqual((missing.status, missing.out, len(missing.err.splitlines())), (2, '', 1), name)

    def test_a_leading_dash_behind_two_dashes(self) -> None:
        for name in ('-k.book', '--json', '-o'):
            self.put(name, BOOK_K)
            self.assertEqual(run('show', '--', name, cwd=self.folder).status, 0)
            self.assertEqual(run('compare', '--', name, name, cwd=self.folder).status, 0)

    def test_names_in_an_ascii_locale(self) -> None:
        ascii_only = environment(LC_ALL='C', PYTHONCOERCECLOCALE='0', PYTHONUTF8='0')
        command = [COMMAND[0], '-B', '-S', *COMMAND[4:]]  # without -I, which passes over these variables
        self.put('\u00e9.csv', 'name,Gr\u00f6\u00dfe \U0001f600\ngrade,obligors,defaults,announced\n\u00c4,5,1,100000\nB,5,2,300000\n')
        for line in ('show \u00e9.csv', 'compare \u00e9.csv \u00e9.csv', 'show \u00e9.csv --json', 'show \u00fc.csv',
                     'pack \u00e9.csv -o \u00f6.book', 'show \u00e9.csv \u00df', 'compare --prices \u00e9'):
            words = [*command, *line.split()]
            ran = subprocess.run(words, cwd=self.folder, env=ascii_only, stdout=subprocess.PIPE, stderr=subprocess.PIPE, check=False)
            self.assertEqual(ran.returncode, 0 if len(ran.stdout) else 2, ran.stderr)
            self.assertNotIn(b'fault of desk', ran.stderr)
            (ran.stdout + ran.stderr).decode('ascii')
        self.assertEqual(self.names(), ['\u00e9.csv', '\u00f6.book'])

    def test_from_another_folder(self) -> None:
        self.put('k.book', BOOK_K)
        self.assertEqual(run('show', 'k.book', cwd=self.folder).status, 0)
        self.assertNotIn(self.folder, TOP)


if __name__ == '__main__':
    unittest.main()
