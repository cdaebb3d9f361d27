"""Interrupts the command (SIGINT): while it starts, reads and writes, and before each line of the functions that have to cope with it.

It ends by the signal and says nothing; a file is whole or as it was, and nothing else is left.

    python3 tests/desk/test_command_interrupts.py      # from anywhere
"""
from __future__ import annotations

import os
import random
import signal
import subprocess
import sys
import threading
import time
import traceback
import unittest

sys.dont_write_bytecode = True
sys.path.insert(0, os.path.dirname(os.path.abspath(__file__)))
from running import COMMAND, LAUNCHER, LIBRARY, Case, Ran, content_of, environment, example, sound  # noqa: E402
from desk.command import files, main  # noqa: E402

# Python itself has a handler until the first line of a program is run. This one does what the launcher's first line does, says that it
# has, and goes on as the launcher.
STARTED = """import _signal, os, sys
_signal.signal(_signal.SIGINT, _signal.SIG_DFL)
os.write(2, b'started')
sys.argv = sys.argv[1:]
exec(compile(open(sys.argv[0]).read(), sys.argv[0], 'exec'), {'__name__': '__main__', '__file__': sys.argv[0]})
"""
BY_SIGNAL = Ran(-signal.SIGINT, '', '')
CSV_K = content_of(example('k.csv'))


class Processes(Case):
    def interrupted(self, *words: str, after: float, times: int = 1) -> Ran:
        """Runs the command and interrupts it, some time after it has started."""
        process = subprocess.Popen([*COMMAND[:-1], '-c', STARTED, LAUNCHER, *words], env=environment(), stdin=subprocess.DEVNULL,
                                   stdout=subprocess.PIPE, stderr=subprocess.PIPE)
        self.assertEqual(process.stderr.read(len('started')), b'started')
        time.sleep(after)
        for _ in range(times):
            process.send_signal(signal.SIGINT)
        out, err = process.communicate(timeout=60)
        return sound(Ran(process.returncode, out.decode(), err.decode()))

    def test_at_random_moments_of_starting_and_reading(self) -> None:
        """A pipe that nobody writes to: the command never gets further than opening it."""
        source, pipe = random.Random(1), self.path('pipe')
        os.mkfifo(pipe)
        for number in range(50):
            times = source.choice((1, 1, 5))
            self.assertEqual(self.interrupted('show', pipe, after=source.random() * 0.1, times=times), BY_SIGNAL, number)

    def test_a_pipe_that_never_ends(self) -> None:
        pipe, going = self.path('pipe'), [True]
        os.mkfifo(pipe)

        def write_on() -> None:
            with open(pipe, 'wb', buffering=0) as stream:
                while going:
                    stream.write(b'obligors,defaults,announced\n')
                    time.sleep(0.01)
        writer = threading.Thread(target=lambda: self.assertRaises(BrokenPipeError, write_on))
        writer.start()
        self.assertEqual(self.interrupted('show', pipe, after=0.5), BY_SIGNAL)
        writer.join()

    def test_at_random_moments_of_writing(self) -> None:
        source, target = random.Random(2), self.path('k.csv')
        for _ in range(40):
            self.put('k.csv', 'old')
            ran = self.interrupted('unpack', example('k.book'), '-o', target, after=0.03 + source.random() * 0.05)
            self.assertIn(ran.status, (0, -signal.SIGINT))
            self.assertEqual((ran.err, self.names()), ('', ['k.csv']))
            self.assertIn(self.got('k.csv'), [CSV_K] if ran.status == 0 else [CSV_K, b'old'])


class EveryLine(Case):
    """An interrupt before the first, second, .. line that is run of the functions that cope with it, each in a process of its own."""
    WATCHED = (main.__file__, files.__file__)

    def forked(self, words: list[str], line: int) -> tuple[int, str, str]:
        """How a process ended that was interrupted before this one of its lines: its status as subprocess has it, and what it printed."""
        outputs = [self.path(name) for name in ('out', 'err')]
        child = os.fork()
        if not child:
            try:
                self.within_child(words, line, outputs)
            finally:
                os._exit(99)
        _, status = os.waitpid(child, 0)
        code = -os.WTERMSIG(status) if os.WIFSIGNALED(status) else os.WEXITSTATUS(status)
        return sound(Ran(code, *(content_of(output).decode() for output in outputs)))

    def within_child(self, words: list[str], line: int, outputs: list[str]) -> None:
        sys.stdout, sys.stderr = (open(output, 'w', encoding='utf-8') for output in outputs)
        os.environ['DESK_LIBRARY'] = LIBRARY
        signal.signal(signal.SIGINT, signal.SIG_DFL)  # as the launcher leaves it
        left = line

        def trace(frame, event, _):
            nonlocal left
            if frame.f_code.co_filename not in self.WATCHED:
                return None
            left -= event == 'line'
            if left == 0:
                left -= 1
                signal.raise_signal(signal.SIGINT)
            return trace
        sys.settrace(trace)
        try:
            status = main.main(words)
        except BaseException:  # what would be a traceback
            sys.settrace(None)
            traceback.print_exc()
            sys.stderr.flush()
            return
        sys.settrace(None)
        os._exit(status)

    def see_every_line(self, words: list[str], status: int) -> None:
        """Each line until the command comes to its end."""
        self.put('k.csv', 'old')
        self.put('out', '')
        self.put('err', '')
        names, line, whole = self.names(), 1, self.forked(words, -1)
        self.assertEqual(whole.status, status)
        while True:
            self.put('k.csv', 'old')
            ran = self.forked(words, line)
            self.assertEqual(self.names(), names, line)
            if ran.status == status:
                break
            self.assertEqual(ran.status, -signal.SIGINT, (line, ran))
            self.assertIn(ran.out, ('', whole.out))
            self.assertIn(self.got('k.csv'), (b'old', CSV_K))
            line += 1
        self.assertGreater(line, 30)

    def test_of_an_answer(self) -> None:
        self.see_every_line(['refusals', '3'], 0)

    def test_of_a_file_that_is_written(self) -> None:
        self.see_every_line(['unpack', example('k.book'), '-o', self.path('k.csv')], 0)

    def test_of_a_refusal(self) -> None:
        self.see_every_line(['unpack', example('refusals.book'), '-o', self.path('k.csv')], 1)

    def test_of_wrong_usage_and_files_that_are_not_there(self) -> None:
        self.see_every_line(['show'], 2)
        self.see_every_line(['unpack', self.path('none')], 2)


if __name__ == '__main__':
    unittest.main()
