"""Tests what ./desk proves and builds, and when: a stand-in for `rt` and its linker works on a small repository, so that nothing is proved.

    python3 tests/desk/test_build.py      # from anywhere
"""
from __future__ import annotations

import contextlib
import fcntl
import os
import shutil
import subprocess
import sys
import tempfile
import time
import unittest
import unittest.mock

sys.dont_write_bytecode = True
PACKAGES = os.path.join(os.path.dirname(os.path.abspath(__file__)), '..', '..', 'bindings', 'python')
sys.path.insert(0, PACKAGES)
from desk.command import build  # noqa: E402
from desk.version import VERSION  # noqa: E402

CRATES = """# of the kit: json and csv
low:
other: low
middle: low json
desk_abi staticlib: low middle   # and not other
report: middle csv
"""
# The archive and the program are copies of a source of low. KIT/before and KIT/after are what a test has the stand-in do besides, at the top.
RT = """#!/bin/sh
trap '' PIPE
kit=$(dirname "$(dirname "$0")")
[ "$1" != doc ] || { cat "$kit/doc"; exit; }
crate=$(basename "$PWD")
cd ../.. || exit 2
echo "begin $* $crate" >>"$kit/calls"
. "$kit/before"
out=crates/$crate/out
mkdir -p "$out"
cp crates/low/src/lib.rt "$out/lib$crate.a"
cp crates/low/src/lib.rt "$out/$crate"
chmod +x "$out/$crate"
. "$kit/after"
echo "end $1" >>"$kit/calls"
sed -n 's/^\\([a-z_]*\\)[ a-z]*:.*/crate \\1: modules loaded=3 checked=4\\nlogic=proved functions=5/p' crates.txt
"""
LINKER = """#!/bin/sh
kit=$(dirname "$0")/../..
printf '%s\\n' "$@" >"$kit/link"
while [ $# -gt 0 ]; do
    case $1 in
    -o) to=$2 ;;
    --whole-archive) archive=$2 ;;
    --version-script=*) cp "${1#*=}" "$kit/exports" ;;
    esac
    shift
done
. "$kit/linking"
cp "$archive" "$to"
"""
HOLD = 'touch "$kit/held"; while [ -e "$kit/held" ] && [ ! -e "$kit/go" ]; do sleep 0.01; done\n'  # ends with the test at the latest
PATIENCE = 60  # seconds, for what would never come
USE = """import signal, sys
signal.signal(signal.SIGINT, signal.default_int_handler)
sys.path.insert(0, sys.argv[1])
from desk.command.build import shared_library
print(shared_library(sys.argv[2]))
"""


def put(path: str, text: str) -> None:
    os.makedirs(os.path.dirname(path), exist_ok=True)
    with open(path, 'w', encoding='utf-8') as file:
        file.write(text)


def got(path: str) -> str:
    with open(path, encoding='utf-8', errors='replace') as file:
        return file.read()


class Case(unittest.TestCase):
    def setUp(self) -> None:
        folder = tempfile.TemporaryDirectory()
        self.addCleanup(folder.cleanup)
        self.folder = os.path.realpath(folder.name)
        self.top, self.kit = os.path.join(self.folder, 'top'), os.path.join(self.folder, 'kit')
        self.product = os.path.join(self.top, 'target', 'desk', 'libdesk.so')
        self.source = os.path.join(self.top, 'crates', 'low', 'src', 'lib.rt')
        self.put_repository()
        self.put_kit()
        self.on_path(f'{self.kit}/bin{os.pathsep}{os.environ["PATH"]}')

    def put_repository(self) -> None:
        put(os.path.join(self.top, 'crates.txt'), CRATES)
        for crate in ('low', 'middle', 'other', 'desk_abi', 'report'):
            for name in ('src/lib.rt', 'specs/Table.antt', 'proofs/pool/Proof.antt'):
                put(os.path.join(self.top, 'crates', crate, name), f'{name} of {crate}\n')

    def put_kit(self) -> None:
        tools = os.path.join(self.kit, 'toolchain')
        self.rt, self.linker = os.path.join(self.kit, 'bin', 'rt'), os.path.join(tools, 'bin', 'ld.lld')
        put(self.rt, RT)
        put(self.linker, LINKER)
        put(os.path.join(tools, 'lib', 'libc.so.6'), '')
        for program in (self.rt, self.linker):
            os.chmod(program, 0o755)
        for name in ('before', 'after', 'linking', 'calls'):
            put(os.path.join(self.kit, name), '')
        put(os.path.join(self.kit, 'doc'), f'{self.kit}/START-HERE.md\n')

    def on_path(self, path: str) -> None:
        changed = unittest.mock.patch.dict(os.environ, PATH=path)
        changed.start()
        self.addCleanup(changed.stop)

    def asked(self, name: str, script: str = '') -> None:
        """Has the stand-in do something besides."""
        put(os.path.join(self.kit, name), script)

    def calls(self) -> list[str]:
        return got(os.path.join(self.kit, 'calls')).splitlines()

    def builds(self) -> int:
        return sum(call.startswith('begin lib') for call in self.calls())

    def use(self, product=build.shared_library) -> str:
        """Uses a product in this process, and returns what was said on standard error."""
        with open(os.path.join(self.folder, 'said'), 'w+', encoding='utf-8') as said, contextlib.redirect_stderr(said):
            self.path = product(self.top)
            said.seek(0)
            return said.read()

    def fails(self, product=build.shared_library) -> str:
        """Uses a product that cannot be had, and returns the words for that."""
        with self.assertRaises(build.NotBuilt) as caught:
            self.use(product)
        return str(caught.exception)

    def start(self, packages: str = PACKAGES, stderr=subprocess.PIPE) -> subprocess.Popen:
        """Uses the library in a process of its own, whose standard error has a buffer, as it is by default."""
        env = {name: value for name, value in os.environ.items() if name != 'PYTHONUNBUFFERED'}
        words = [sys.executable, '-B', '-c', USE, packages, self.top]
        process = subprocess.Popen(words, env=env, stdout=subprocess.PIPE, stderr=stderr, text=True)
        self.addCleanup(self.end, process)
        return process

    def answer(self, process: subprocess.Popen) -> tuple[str, int]:
        """What a process printed, and its status."""
        return process.communicate(timeout=PATIENCE)[0], process.returncode

    def end(self, process: subprocess.Popen) -> None:
        process.kill()
        process.wait()
        for stream in (process.stdout, process.stderr):
            if stream:
                stream.close()

    def wait_until(self, condition) -> None:
        end = time.monotonic() + PATIENCE
        while not condition():
            self.assertLess(time.monotonic(), end, 'what was waited for did not come')
            time.sleep(0.01)

    def held(self) -> bool:
        return os.path.exists(os.path.join(self.kit, 'held'))

    def is_free(self) -> bool:
        """Whether nobody has the lock."""
        with open(os.path.join(self.top, 'target', 'desk', 'lock'), 'ab') as lock, contextlib.suppress(BlockingIOError):
            fcntl.flock(lock, fcntl.LOCK_EX | fcntl.LOCK_NB)
            return True
        return False

    def assert_none_built(self) -> None:
        """Nothing of a product is there, whole or half, save the lock and the log."""
        self.assertLessEqual(set(os.listdir(os.path.dirname(self.product))), {'lock', 'libdesk.so.log', 'report.log'})


class FirstUse(Case):
    def test_builds_once(self) -> None:
        self.use()
        self.assertEqual(self.path, self.product)
        self.assertEqual(got(self.product), got(self.source))
        self.assertEqual(self.calls(), ['begin lib desk_abi', 'end lib'])

    def test_links_what_is_to_be_called_and_no_more(self) -> None:
        self.use()
        words = got(os.path.join(self.kit, 'link')).splitlines()
        self.assertEqual(words[words.index('-soname') + 1], f'libdesk.so.{VERSION}')
        self.assertEqual(words[words.index('--whole-archive') + 1], os.path.join(self.top, 'target', 'staticlib', 'libdesk_c.a'))
        self.assertEqual(got(os.path.join(self.kit, 'exports')), f'DESK_{VERSION} {{ global: desk_*; local: *; }};\n')
        self.assertFalse([name for name in os.listdir(os.path.dirname(self.product)) if name.endswith(('.new', '.exports', '.archive'))])

    def test_says_how_far_it_is(self) -> None:
        lines = self.use().splitlines()
        self.assertRegex(lines[0], '^desk: this is the first use: the library .* some minutes, once$')
        self.assertRegex(lines[1], r'^desk: 1 of 3 crates proved \(low, \d+ s; \d+ s in all\)$')
        self.assertRegex(lines[2], r'^desk: 2 of 3 crates proved \(middle, \d+ s; \d+ s in all\)$')
        self.assertRegex(lines[3], r'^desk: 3 of 3 crates proved \(desk_abi, \d+ s; \d+ s in all\)$')
        self.assertRegex(lines[4], r'^desk: the library is built \(\d+ s\)$')
        self.assertEqual(len(lines), 5)

    def test_counts_crates_that_are_unchanged(self) -> None:
        """rt says nothing of them."""
        self.asked('after', 'echo "crate desk_abi: modules loaded=3 checked=4" >&2; echo "logic=proved functions=5"; exit\n')
        lines = self.use().splitlines()
        self.assertRegex(lines[1], r'^desk: 3 of 3 crates proved \(desk_abi, ')
        self.assertEqual(len(lines), 3)
        self.asked('after', 'exit\n')
        put(self.source, 'changed\n')
        self.assertIn('desk: 3 of 3 crates proved (desk_abi, ', self.use())

    def test_takes_whatever_rt_prints(self) -> None:
        lines = (r'\377', 'rt:', 'crate', 'crate : modules', 'logic=proved ', 'crate nobody: modules loaded=1 checked=2', 'logic=proved functions=3',
                 ' crate low: modules loaded=1 checked=2', r'\0', 'no end of line')
        self.asked('before', "printf '" + r'\n'.join(lines) + "\\n'\n")
        self.assertIn('2 of 3', self.use())
        self.assertEqual(got(self.product), got(self.source))

    def test_goes_on_without_standard_error(self) -> None:
        with open('/dev/full', 'w') as full:
            process = self.start(stderr=full)
            self.assertEqual(self.answer(process), (f'{self.product}\n', 0))
        shutil.rmtree(os.path.dirname(self.product))
        words = ['sh', '-c', 'exec "$@" 2>&-', 'sh', sys.executable, '-B', '-c', USE, PACKAGES, self.top]
        self.assertEqual(subprocess.run(words, stdout=subprocess.PIPE, text=True).stdout, f'{self.product}\n')
        self.assertEqual(self.builds(), 2)

    def test_printing_program(self) -> None:
        said = self.use(build.printing_program)
        self.assertEqual(self.path, os.path.join(self.top, 'target', 'desk', 'report'))
        self.assertEqual(got(self.path), got(self.source))
        self.assertTrue(os.access(self.path, os.X_OK))
        self.assertEqual(self.calls(), ['begin run report', 'end run'])
        self.assertIn('desk: 3 of 3 crates proved (report, ', said)
        self.assertEqual(self.use(build.printing_program), '')
        self.use()
        self.assertEqual(self.builds(), 1)

    def test_archive(self) -> None:
        self.use(build.archive)
        self.assertEqual(self.path, os.path.join(self.top, 'target', 'desk', 'libdesk.a'))
        self.assertEqual(got(self.path), got(self.source))
        self.assertEqual((self.builds(), os.path.exists(os.path.join(self.kit, 'link'))), (1, False))
        self.assertEqual(self.use(build.archive), '')

    def test_one_build_does_for_the_library_and_the_archive(self) -> None:
        self.use()
        self.assertEqual(self.use(build.archive), '')
        self.assertEqual((got(self.path), self.builds()), (got(self.source), 1))


class LaterUse(Case):
    def setUp(self) -> None:
        super().setUp()
        self.use()
        self.asked('calls')

    def assert_built_again(self) -> None:
        self.assertRegex(self.use(), '^desk: the sources have changed: ')
        self.assertEqual(self.builds(), 1)
        self.assertEqual(got(self.product), got(self.source))
        self.use()
        self.assertEqual(self.builds(), 1)

    def in_crate(self, *parts: str) -> str:
        return os.path.join(self.top, 'crates', *parts)

    def test_calls_nothing_and_says_nothing(self) -> None:
        self.assertEqual(self.use(), '')
        self.assertEqual((self.path, self.calls()), (self.product, []))

    def test_needs_no_toolchain(self) -> None:
        self.on_path(os.path.join(self.folder, 'nothing'))
        self.assertEqual(self.use(), '')
        self.assertEqual(self.path, self.product)

    def test_needs_to_write_nothing(self) -> None:
        folder = os.path.dirname(self.product)
        before = {name: os.stat(os.path.join(folder, name)) for name in os.listdir(folder)}
        self.use()
        self.assertEqual(before, {name: os.stat(os.path.join(folder, name)) for name in os.listdir(folder)})

    def test_changed_source(self) -> None:
        put(self.source, 'changed\n')
        self.assert_built_again()

    def test_changed_source_and_the_archive(self) -> None:
        put(self.source, 'changed\n')
        self.use(build.archive)
        self.assertEqual((got(self.path), self.builds()), ('changed\n', 1))
        self.assert_archive_of_old_sources_is_not_kept()

    def assert_archive_of_old_sources_is_not_kept(self) -> None:
        put(self.source, 'changed again\n')
        self.use()
        self.assertEqual(self.use(build.archive), '')
        self.assertEqual(got(self.path), 'changed again\n')

    def test_changed_definition(self) -> None:
        put(self.in_crate('middle', 'specs', 'Table.antt'), 'changed\n')
        self.assert_built_again()

    def test_changed_proof(self) -> None:
        put(self.in_crate('desk_abi', 'proofs', 'pool', 'Proof.antt'), 'changed\n')
        self.assert_built_again()

    def test_changed_list_of_crates(self) -> None:
        put(os.path.join(self.top, 'crates.txt'), CRATES.replace('middle: low', 'middle:'))
        self.assert_built_again()

    def test_one_more_crate(self) -> None:
        put(os.path.join(self.top, 'crates.txt'), CRATES.replace('staticlib: low', 'staticlib: other low'))
        self.assert_built_again()
        self.assertEqual(self.calls()[0], 'begin lib desk_abi')

    def test_new_file(self) -> None:
        put(self.in_crate('low', 'proofs', 'band', 'Proof.antt'), '')
        self.assert_built_again()

    def test_removed_file(self) -> None:
        os.remove(self.in_crate('low', 'specs', 'Table.antt'))
        self.assert_built_again()

    def test_renamed_file(self) -> None:
        os.rename(self.in_crate('low', 'specs', 'Table.antt'), self.in_crate('low', 'specs', 'Tables.antt'))
        self.assert_built_again()

    def test_text_moved_to_the_next_file(self) -> None:
        first, second = self.in_crate('low', 'specs', 'Table.antt'), self.in_crate('low', 'src', 'lib.rt')
        whole = got(first) + got(second)
        put(first, whole[:5])
        put(second, whole[5:])
        self.assert_built_again()

    def test_change_that_does_not_concern_the_library(self) -> None:
        for parts in (('other', 'src', 'lib.rt'), ('report', 'src', 'lib.rt'), ('low', 'must-fail', 'slip.edit'), ('low', 'stdout')):
            put(self.in_crate(*parts), 'changed\n')
        os.symlink('nowhere', self.in_crate('low', 'src', '.#lib.rt'))
        self.assertEqual(self.use(), '')
        self.assertEqual(self.calls(), [])

    def test_product_or_stamp_lost(self) -> None:
        for count, name in enumerate(('libdesk.so', 'libdesk.so.stamp'), 1):
            os.remove(os.path.join(os.path.dirname(self.product), name))
            self.use()
            self.assertEqual(self.builds(), count)
            self.assertEqual(got(self.product), got(self.source))

    def test_changed_way_to_build(self) -> None:
        packages = os.path.join(self.folder, 'packages')
        shutil.copytree(PACKAGES, packages)
        for count, name in enumerate(('command/build.py', 'command/sources.py', 'command/toolchain.py', 'version.py'), 1):
            self.assertEqual(self.start(packages).wait(), 0)
            with open(os.path.join(packages, 'desk', name), 'a', encoding='utf-8') as file:
                file.write('# changed\n')
            self.assertEqual(self.start(packages).wait(), 0)
            self.assertEqual(self.builds(), count)


class Failures(Case):
    def assert_tried_again(self) -> None:
        """Once the fault is gone the next use builds."""
        self.assert_none_built()
        for name in ('before', 'after', 'linking', 'calls'):
            self.asked(name)
        self.use()
        self.assertEqual((self.builds(), got(self.product)), (1, got(self.source)))

    def assert_log_has(self, words: str, text: str) -> None:
        log = f'{self.product}.log'
        self.assertIn(log, words)
        self.assertIn(text, got(log))

    def test_crate_not_proved(self) -> None:
        self.asked('before', """echo 'src/low.rt:3:1: note: goal 7'; echo 'fn low::pool: no proof: expected answers'
                                echo 'fn low::bands: no proof: a call of low::pool'; echo 'logic=not-proved'
                                echo 'rt: the library low did not build, so nothing above it was checked'; exit 1\n""")
        words = self.fails()
        self.assertIn('the library is not built: low::pool is not proved.', words)
        self.assert_log_has(words, 'goal 7')
        self.assert_tried_again()

    def test_crate_of_the_library_not_proved(self) -> None:
        self.asked('after', 'echo "goal 8" >&2; exit 1\n')
        words = self.fails()
        self.assertIn('desk_abi is not proved', words)
        self.assert_log_has(words, 'goal 8')
        self.assert_tried_again()

    def test_program_not_proved(self) -> None:
        self.asked('before', "echo 'fn report::main: no proof: expected answers'; exit 1\n")
        self.assertIn('the printing program is not built: report::main is not proved', self.fails(build.printing_program))
        self.asked('before')
        self.asked('after', 'rm crates/report/out/report\n')
        self.assertIn('there is no', self.fails(build.printing_program))
        self.assert_none_built()

    def test_toolchain_fails(self) -> None:
        self.asked('before', 'echo "rt: RT_JOBS is a number" >&2; exit 2\n')
        words = self.fails()
        self.assertIn('ended with status 2', words)
        self.assert_log_has(words, 'RT_JOBS')
        self.assert_tried_again()

    def test_linker_fails(self) -> None:
        self.asked('linking', 'echo half >"$to"; echo "undefined symbol" >&2; exit 1\n')
        words = self.fails()
        self.assertIn('the linker ended with status 1', words)
        self.assert_log_has(words, 'undefined symbol')
        self.assert_tried_again()

    def test_sources_change_and_are_not_proved_then(self) -> None:
        self.asked('after', 'echo changed >>crates/low/src/lib.rt; echo "exit 1" >"$kit/before"\n')
        self.assertIn('is not proved', self.fails())
        self.assertEqual(self.builds(), 2)
        self.assert_tried_again()

    def test_linker_missing(self) -> None:
        os.rename(self.linker, f'{self.linker}.away')
        self.assertIn(f'the toolchain has no {self.linker}', self.fails())
        os.rename(f'{self.linker}.away', self.linker)
        self.assert_tried_again()

    def test_kit_not_found(self) -> None:
        self.asked('doc', 'no path at all\n')
        self.assertIn('the toolchain has no', self.fails())
        self.assert_none_built()

    def test_no_toolchain(self) -> None:
        self.on_path(os.path.join(self.folder, 'nothing'))
        self.assertIn('there is no rt on the PATH', self.fails())
        self.assert_none_built()

    def test_no_toolchain_and_changed_sources(self) -> None:
        self.use()
        put(self.source, 'changed\n')
        self.on_path(os.path.join(self.folder, 'nothing'))
        self.assertIn('there is no rt on the PATH', self.fails())

    def test_failed_build_after_a_change_keeps_no_old_product(self) -> None:
        self.use()
        put(self.source, 'changed\n')
        self.asked('before', 'exit 1\n')
        for _ in range(2):
            self.assertIn('is not proved', self.fails())

    def test_target_is_a_file(self) -> None:
        put(os.path.join(self.top, 'target'), '')
        self.assertIn('Not a directory', self.fails())
        self.assertEqual(self.calls(), [])

    def test_full_disk(self) -> None:
        os.makedirs(os.path.dirname(self.product))
        os.symlink('/dev/full', f'{self.product}.log')
        self.assertIn('No space left on device', self.fails())
        os.remove(f'{self.product}.log')
        self.assert_tried_again()

    def test_no_repository(self) -> None:
        os.remove(os.path.join(self.top, 'crates.txt'))
        self.assertIn('crates.txt: No such file', self.fails())


class SeveralAtOnce(Case):
    def test_twelve_first_uses_and_twelve_later_ones(self) -> None:
        self.asked('before', HOLD)
        said = [os.path.join(self.folder, f'said{i}') for i in range(12)]
        with contextlib.ExitStack() as files:
            processes = [self.start(stderr=files.enter_context(open(path, 'w'))) for path in said]
        self.wait_until(lambda: sum('waiting' in got(path) for path in said) == 11)
        self.asked('go')
        self.assert_all_answer(processes)
        self.assertEqual(self.builds(), 1)
        self.assertEqual(sum(got(path).count('waiting') for path in said), 11)
        self.assertEqual(sum(got(path).count('3 of 3') for path in said), 1)
        self.asked('calls')
        self.assert_all_answer([self.start() for _ in range(12)])
        self.assertEqual(self.calls(), [])

    def assert_all_answer(self, processes: list[subprocess.Popen]) -> None:
        for process in processes:
            self.assertEqual(self.answer(process), (f'{self.product}\n', 0))
        self.assertEqual(got(self.product), got(self.source))

    def test_source_changed_during_the_build(self) -> None:
        self.asked('after', '[ -e "$kit/once" ] || { touch "$kit/once"; echo changed >crates/low/src/lib.rt; }\n')
        self.assertIn('changed meanwhile', self.use())
        self.assertEqual((got(self.product), self.builds()), ('changed\n', 2))
        self.assertEqual(self.use(), '')

    def test_broken_off_between_product_and_stamp(self) -> None:
        self.use()
        old = got(self.source)
        put(self.source, 'changed\n')
        replace = os.replace

        def once(here: str, there: str) -> None:
            replace(here, there)
            raise KeyboardInterrupt

        with unittest.mock.patch('os.replace', once), self.assertRaises(KeyboardInterrupt):
            self.use()
        self.assertEqual(got(self.product), 'changed\n')
        put(self.source, old)
        self.use()
        self.assertEqual(got(self.product), old)

    def test_killed_while_rt_runs(self) -> None:
        self.asked('before', HOLD)
        first = self.start()
        self.wait_until(self.held)
        first.kill()
        first.wait()
        said = os.path.join(self.folder, 'said')
        with open(said, 'w', encoding='utf-8') as file:
            second = self.start(stderr=file)
        self.wait_until(lambda: got(said))
        self.assertIn('waiting', got(said))
        self.assertEqual(self.calls(), ['begin lib desk_abi'])
        self.asked('go')
        self.assertEqual(self.answer(second), (f'{self.product}\n', 0))
        self.assertEqual(self.calls()[:3], ['begin lib desk_abi', 'end lib', 'begin lib desk_abi'])
        self.assertEqual(got(self.product), got(self.source))

    def test_interrupt(self) -> None:
        self.asked('before', f'({HOLD}) &\nwait\n')  # a shell's background process, which ignores the interrupt
        process = self.start()
        self.wait_until(self.held)
        process.send_signal(2)
        self.assertIn('KeyboardInterrupt', process.communicate(timeout=PATIENCE)[1])
        self.wait_until(self.is_free)
        self.assert_none_built()
        self.assertEqual(self.calls(), ['begin lib desk_abi'])
        self.asked('before')
        self.use()
        self.assertEqual(got(self.product), got(self.source))


if __name__ == '__main__':
    unittest.main()
