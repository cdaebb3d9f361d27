"""Tests what goes to which stream and the exit status, and streams that are closed, full, or read by nobody.

    python3 tests/desk/test_command_streams.py      # from anywhere
"""
from __future__ import annotations

import errno
import os
import re
import signal
import subprocess
import sys
import unittest

sys.dont_write_bytecode = True
sys.path.insert(0, os.path.dirname(os.path.abspath(__file__)))
from running import COMMAND, Case, Ran, ask, environment, example, run, shell, sound  # noqa: E402
from converting import OBLIGORS  # noqa: E402
from desk.command.main import command_line  # noqa: E402

FULL = os.strerror(errno.ENOSPC)
ANSWERED = (('compare', example('h.book')), ('compare', example('lenders.book'), '1', '2', '--shares'), ('shortlist', example('committee.csv')),
            ('show', example('k.book')), ('show', example('portfolio.book')), ('unpack', example('k.book')), ('refusals',), ('refusals', '25'),
            ('update', example('inhouse.csv'), example('monday/inhouse.csv')), ('--help',), ('--version',), ('compare', '--help'))
REFUSED = (('compare', example('refusals.book'), '1', '4'), ('compare', example('lenders.book'), '1', '3', '--shares'),
           ('shortlist', example('lenders.book')), ('show', example('refusals.book'), '5'), ('unpack', example('refusals.book')),
           ('compare', example('inhouse.csv'), '--after', example('monday/inhouse.csv'), example('agency.csv')))
PARTLY = (('show', example('refusals.book')), ('show', example('refusals.book'), '2'))  # something is refused, the rest answered
WRONG = ((), ('compare',), ('shortlist',), ('turn', 'a'), ('show', example('none.book')), ('compare', example('k.book')), ('refusals', '14'),
         ('show', 'a', 'b', 'c'), ('pack', example('k.csv')), ('compare', example('h.book'), '--prices', 'x'),
         ('show', example('k.book'), '--nothing'), ('update', example('inhouse.csv')),
         ('compare', example('h.book'), '--after', example('monday/numbers.csv')))
COMMANDS = ('compare', 'shortlist', 'show', 'update', 'pack', 'unpack', 'report', 'refusals', 'build')


class Status(Case):
    def ran(self, *words: str) -> Ran:
        """What a process ends in, which is what is answered within this one."""
        ran = run(*words)
        self.assertEqual(ran, ask(*words), words)
        return ran

    def test_answered(self) -> None:
        for words in ANSWERED:
            ran = self.ran(*words)
            self.assertEqual((ran.status, ran.err, ran.out[-1:]), (0, '', '\n'), words)

    def test_refused(self) -> None:
        for words in REFUSED:
            ran = self.ran(*words)
            self.assertEqual((ran.status, ran.out), (1, ''), words)
            self.assertTrue(all(line.startswith('desk: refused ') for line in ran.err.splitlines()), ran.err)

    def test_partly_refused(self) -> None:
        for words in PARTLY:
            ran = self.ran(*words)
            self.assertEqual(ran.status, 1)
            self.assertTrue(ran.out and ran.err.startswith('desk: refused '), words)

    def test_wrong(self) -> None:
        for words in WRONG:
            ran = self.ran(*words)
            self.assertEqual((ran.status, ran.out), (2, ''), words)
            self.assertTrue(ran.err.splitlines()[-1].startswith('desk: '), ran.err)

    def test_questions_are_no_refusals(self) -> None:
        ran = run('show', self.put('a.csv', OBLIGORS + '5,2,100000\n5,1,200000\n'))
        self.assertEqual(ran.status, 0)
        self.assertTrue(ran.out and ran.err.startswith('desk: note: '), ran.err)

    def test_no_library(self) -> None:
        for name in ('/nowhere/libdesk.so', example('k.book')):
            ran = run('compare', example('h.book'), env=environment(DESK_LIBRARY=name))
            self.assertEqual((ran.status, ran.out), (2, ''))
            self.assertIn(name, ran.err)


class Help(Case):
    def test_of_all_commands(self) -> None:
        text = ask('--help').out
        self.assertEqual(re.findall('^    ([a-z]+)(?: |$)', text, re.M), list(COMMANDS))
        for command in COMMANDS:
            ran = ask(command, '--help')
            self.assertEqual((ran.status, ran.err), (0, ''))
            self.assertTrue(ran.out.startswith(f'usage: desk {command} '), ran.out)
            self.assertIn('--json', ran.out)

    def test_examples_of_the_help_are_commands(self) -> None:
        """Each line of an example is a command line that is understood."""
        texts = [ask('--help').out] + [ask(command, '--help').out for command in COMMANDS]
        lines = [line for text in texts for line in re.findall('^(?:  |example: )desk (.*?)(?:   .*)?$', text, re.M)]
        self.assertGreater(len(lines), 12)
        for line in lines:
            command_line().parse_args(line.split())

    def test_wrong_usage_shows_how(self) -> None:
        self.assertTrue(self.wrong('show').startswith('usage: desk show '))
        self.assertNotIn('\x1b', self.wrong('show', 'a', 'b', '\x1b[31m'))


class ClosedAndFull(Case):
    def test_standard_output_closed_or_full(self) -> None:
        for words in ANSWERED + PARTLY:
            self.assertEqual(shell('exec "$@" >&-', *words), (2, '', 'desk: standard output: it is closed\n'), words)
            self.assertEqual(shell('exec "$@" >/dev/full', *words), (2, '', f'desk: standard output: {FULL}\n'), words)

    def test_standard_error_closed_or_full(self) -> None:
        """The status says what happened all the same."""
        for words in REFUSED + PARTLY + WRONG:
            expected = ask(*words)
            for script in ('exec "$@" 2>&-', 'exec "$@" 2>/dev/full'):
                self.assertEqual(shell(script, *words), (expected.status, expected.out, ''), (script, words))

    def test_both(self) -> None:
        for words in (ANSWERED[0], ANSWERED[-1], WRONG[1]):
            for script in ('exec "$@" >&- 2>&-', 'exec "$@" >/dev/full 2>/dev/full', 'exec "$@" <&- >&- 2>&-'):
                self.assertEqual(shell(script, *words), (2, '', ''))

    def test_standard_input_closed(self) -> None:
        self.assertEqual(shell('exec "$@" <&-', 'show', '-'), (2, '', 'desk: there is no standard input to read\n'))
        for words in ANSWERED:
            self.assertEqual(shell('exec "$@" <&-', *words), ask(*words))

    def test_files_are_written_all_the_same(self) -> None:
        """A descriptor that is closed is not taken for a stream when a file gets its number."""
        out = self.path('k.csv')
        for script in ('exec "$@" <&-', 'exec "$@" <&- 2>&-', 'exec "$@" <&- >&- 2>&-'):
            shell(script, 'unpack', example('k.book'), '-o', out)
            self.assertEqual(self.got('k.csv').decode(), run('unpack', example('k.book')).out)
            os.remove(out)


class NobodyReads(Case):
    def unread(self, *words: str, stream: str) -> Ran:
        """Runs the command with a stream that is a pipe whose reader has gone."""
        reader, writer = os.pipe()
        os.close(reader)
        streams = {'stdout': subprocess.PIPE, 'stderr': subprocess.PIPE, stream: writer}
        ended = subprocess.run([*COMMAND, *words], env=environment(), stdin=subprocess.DEVNULL, check=False, **streams)
        os.close(writer)
        return sound(Ran(ended.returncode, (ended.stdout or b'').decode(), (ended.stderr or b'').decode()))

    def test_the_answer(self) -> None:
        """The command ends by the signal, as other programs do, and says nothing."""
        for words in ANSWERED + PARTLY:
            self.assertEqual(self.unread(*words, stream='stdout'), (-signal.SIGPIPE, '', ''), words)

    def test_what_is_said(self) -> None:
        for words in REFUSED + PARTLY + WRONG:
            expected = ask(*words)
            self.assertEqual(self.unread(*words, stream='stderr'), (expected.status, expected.out, ''), words)

    def test_who_reads_a_byte(self) -> None:
        ran = shell('{ "$@"; echo $? >&2; } | head -c 1', 'show', example('portfolio.book'))
        self.assertIn(ran.err, ('0\n', f'{128 + signal.SIGPIPE}\n'))
        self.assertEqual(len(ran.out), 1)

    def test_a_pipe_that_an_output_names(self) -> None:
        reader, writer = os.pipe()
        os.close(reader)
        ran = run('unpack', example('k.book'), '-o', f'/dev/fd/{writer}', pass_fds=(writer,))
        os.close(writer)
        self.assertEqual(ran, (-signal.SIGPIPE, '', ''))


if __name__ == '__main__':
    unittest.main()
