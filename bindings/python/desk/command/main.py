"""The words of the command line, its answers on standard output, everything else on standard error, and its exit status.

Exit status: 0 answered; 1 something was refused (what could be answered is printed all the same); 2 wrong usage, or a file, a disk or a
build that does not work.
"""
from __future__ import annotations

import argparse
import json
import os
import re
import signal
import sys
from typing import Callable, NoReturn, TextIO

from .. import library
from ..answers import Price
from ..library import LibraryMissing
from ..refusals import MEANINGS
from ..version import VERSION
from .after import OPTION, marked
from .layout import plain
from .outcome import NotTaken, Outcome, WrongUsage

ANSWERED, REFUSED, FAILED = 0, 1, 2

DESCRIPTION = '''\
Compares credit rating scales: which of two is better whatever the prices, and if they cross, at which prices each one is; and which
of all raters of a book no other one beats.
Files are books or CSV, told apart by their content; - is standard input.
'''
EXAMPLES = '''\
examples:
  desk compare inhouse.csv agency.csv             one table in each file
  desk compare portfolio.book 1 3                 two raters of one book
  desk compare inhouse.csv agency.csv --prices 50:1 --prices 20:1
  desk compare harbour.csv valley.csv --shares    scales of books of different sizes
  desk shortlist portfolio.book                   the raters that no other one beats
  desk show portfolio.book                        all raters at a glance
  desk show portfolio.book 3                      one rater in full
  desk update inhouse.csv monday.csv -o new.csv   firms that enter, leave, default or are removed, booked
  desk compare inhouse.csv --after monday.csv agency.csv --shares
  desk pack inhouse.csv agency.csv -o both.book   CSV to a book
  desk unpack both.book                           and back

A CSV table has a header and a line for each grade, best grade first. The header names the columns, in any order: either obligors
(everybody in the grade, the defaulted included) or survivors (the defaulted left out), then defaults and announced (the announced
default rate in ppm, which never falls from a line to the next). A sheet of changes has the columns event (enters, leaves, defaults or
removed), grade (its number or name) and times.

exit status: 0 answered; 1 refused (with its number, see `desk refusals`); 2 wrong usage, or a file, disk or build that does
not work.
'''


def prices(word: str) -> Price:
    """Prices as the command line has them, u:v."""
    found = re.fullmatch('([0-9]{1,19}):([0-9]{1,19})', word)  # as many digits as a ratio has that `compare --shares` finds
    if not found:
        raise argparse.ArgumentTypeError(f'{word!r} is not U:V, two whole numbers such as 50:1, of at most 19 digits: what a missed default '
                                         'costs, and what a survivor turned away costs; with --shares, all defaults of a book and all survivors')
    return Price(int(found[1]), int(found[2]))


def refusal_number(word: str) -> int:
    number = int(word) if word.isascii() and word.isdigit() and len(word) < 10 else 0
    if number == 5:  # which an answer of an earlier version may have
        raise argparse.ArgumentTypeError('5 is never given since version 3: 31, 32 and 33 say which of its three faults a book has')
    if number not in MEANINGS:
        raise argparse.ArgumentTypeError(f'{word!r} is no refusal number')
    return number


class ShowVersion(argparse.Action):
    def __call__(self, parser: argparse.ArgumentParser, *_: object) -> None:
        put(f'desk {VERSION}')
        parser.exit()


class Parser(argparse.ArgumentParser):
    """A parser that prints as the rest of the command does, and knows which word a sheet of `compare` follows."""

    def parse_args(self, args: list[str], namespace: argparse.Namespace | None = None) -> argparse.Namespace:
        return super().parse_args(args[:1] + marked(args[1:]) if args[:1] == ['compare'] else args, namespace)

    def print_help(self, file: TextIO | None = None) -> None:
        put(self.format_help().rstrip('\n'))

    def error(self, message: str) -> NoReturn:
        warn(self.format_usage())
        raise WrongUsage(message)


def command_line() -> Parser:
    """All commands with their words."""
    parser = Parser(prog='desk', description=DESCRIPTION, epilog=EXAMPLES, formatter_class=argparse.RawDescriptionHelpFormatter)
    parser.add_argument('--version', nargs=0, action=ShowVersion, help='show the version, that of the library too, and exit')
    commands = parser.add_subparsers(dest='command', required=True, metavar='COMMAND')

    def command(name: str, does: str, example: str) -> Parser:
        made = commands.add_parser(name, help=does, description=does, epilog=f'example: {example}',
                                   formatter_class=argparse.RawDescriptionHelpFormatter)
        made.add_argument('--json', action='store_true', help='answer as JSON (docs/COMMAND.md has its form)')
        return made
    words_of_compare(command)
    shortlist = command('shortlist', 'the raters of a book that no other one beats, and who beats the others', 'desk shortlist portfolio.book')
    shortlist.add_argument('files', nargs='+', metavar='FILE', help='a book, or several files whose raters, in this order, are taken as one book')
    show = command('show', 'the grades, rates and measures of a rater, or all raters at a glance', 'desk show portfolio.book 3')
    show.add_argument('file', metavar='FILE')
    show.add_argument('rater', nargs='?', metavar='RATER', help='its number or name; left out, all raters of a file that has several')
    show.add_argument('--repeated', action='store_true', help='for an empty grade also the pooled rate and band that pool repeats for it, '
                                                              'and of which grade they are')
    words_of_update(command)
    pack = command('pack', 'CSV files to one book; each table is a rater, in the order given',
                   'desk pack inhouse.csv agency.csv -o both.book')
    pack.add_argument('files', nargs='+', metavar='FILE.csv')
    pack.add_argument('-o', dest='output', required=True, metavar='OUT.book')
    unpack = command('unpack', 'a book to one CSV, on standard output if -o is left out', 'desk unpack both.book -o both.csv')
    unpack.add_argument('file', metavar='IN.book')
    unpack.add_argument('-o', dest='output', metavar='OUT.csv')
    report = command('report', "document 01's printing program on rater 1 of a book", 'desk report examples/k.book')
    report.add_argument('file', metavar='BOOK')
    refusals = command('refusals', 'what the refusal numbers mean', 'desk refusals 25')
    refusals.add_argument('number', nargs='?', type=refusal_number, metavar='NUMBER')
    command('build', 'prove and build the library and the printing program, where the sources have changed', 'desk build')
    return parser


def words_of_compare(command: Callable[[str, str, str], Parser]) -> None:
    compare = command('compare', 'which of two scales is better', 'desk compare inhouse.csv agency.csv --prices 50:1')
    compare.usage = 'desk compare [-h] [--json] [--shares] [--prices U:V] FILE [--after CHANGES.csv] [FILE [--after CHANGES.csv]] [A B]'
    compare.add_argument('words', nargs='+', metavar='FILE [FILE] [A B]', help='one or two files, then the raters by number or name where '
                                                                               'a file has several: A of the first file, B of the second')
    compare.add_argument('--shares', action='store_true', help='compare scales of books of different sizes: costs go by shares of each '
                                                               "book's own defaults missed and survivors turned away")
    compare.add_argument('--prices', action='append', default=[], type=prices, metavar='U:V',
                         help='also the cheapest cutoffs of both at these prices of a missed default and of a survivor turned away, with '
                              '--shares of all defaults missed and of all survivors turned away; may be repeated')
    compare.add_argument(OPTION, action='append', metavar='CHANGES.csv',
                         help='behind a file, or behind A or B: compare its table as the changes of this sheet leave it, see desk update')


def words_of_update(command: Callable[[str, str, str], Parser]) -> None:
    update = command('update', "a rater's table after a sheet of changes: firms that enter, leave, default or are removed",
                     'desk update inhouse.csv monday.csv -o tuesday.csv')
    update.usage = 'desk update [-h] [--json] FILE [RATER] CHANGES.csv [-o OUT]'
    update.add_argument('words', nargs='+', metavar='FILE [RATER] CHANGES.csv', help='the file with the table, the rater by number or name where it '
                                                                                    'has several, and the sheet: event,grade,times')
    update.add_argument('-o', dest='output', metavar='OUT', help='the file to write, a book or CSV as its name says: OUT.book or OUT.csv; left out, '
                                                                 'what would change is shown alone')


def answer(asked: argparse.Namespace) -> Outcome:
    """Runs one command. Each imports what it needs, so that none waits for another's."""
    if asked.command == 'compare':
        from .compare import compare
        return compare(asked.words, asked.prices, asked.shares, shared_library())
    if asked.command == 'shortlist':
        from .shortlist import shortlist
        return shortlist(asked.files, shared_library())
    if asked.command == 'show':
        from .show import show
        return show(asked.file, asked.rater, asked.repeated, shared_library())
    if asked.command == 'update':
        from .update import update
        return update(asked.words, asked.output, shared_library())
    if asked.command == 'pack':
        from .convert import pack
        return pack(asked.files, asked.output)
    if asked.command == 'unpack':
        from .convert import unpack
        return unpack(asked.file, asked.output)
    if asked.command == 'report':
        from .report import report
        return report(asked.file, printing_program())
    if asked.command == 'refusals':
        return meanings(asked.number)
    built = {'library': shared_library(), 'report': printing_program()}
    if library.repository() is None:  # installed: nothing is built, but it must be there
        library.load(built['library'])
    return Outcome('\n'.join(built.values()), {'command': 'build', **built})


def meanings(number: int | None) -> Outcome:
    wanted = {each: MEANINGS[each] for each in MEANINGS if number in (None, each)}
    return Outcome('\n'.join(f'{each:2}  {meaning}' for each, meaning in wanted.items()),
                   {'command': 'refusals', 'meanings': [{'number': each, 'meaning': meaning} for each, meaning in wanted.items()]})


# What is built first

def shared_library() -> str:
    """The library: the one that is named or installed, else that of the sources here, built where they have changed."""
    top = library.repository()
    if top is None or os.environ.get('DESK_LIBRARY'):
        return library.default_path()
    from .build import shared_library as product
    return built(product, top)


def printing_program() -> str:
    """The program: the installed one, beside the package, else that of the sources here."""
    top, beside = library.repository(), os.path.join(os.path.dirname(os.path.realpath(library.__file__)), 'report')
    if os.path.isfile(beside):
        return beside
    if top is None:
        raise WrongUsage(f'the printing program is built from the sources, and they are not here; nor is an installed one, {beside}')
    from .build import printing_program as product
    return built(product, top)


def built(product: Callable[[str], str], top: str) -> str:
    from .build import NotBuilt
    signal.signal(signal.SIGINT, signal.default_int_handler)  # a build ends what it has started first
    try:
        return product(top)
    except NotBuilt as why:
        raise WrongUsage(str(why)) from None
    finally:
        signal.signal(signal.SIGINT, signal.SIG_DFL)


# What is printed

def hush(stream: TextIO) -> None:
    """Sends what a stream still holds nowhere, so that it is not tried again at the end."""
    nowhere = os.open(os.devnull, os.O_WRONLY)
    os.dup2(nowhere, stream.fileno())
    os.close(nowhere)


def warn(text: str) -> None:
    """Text on standard error. Where that does not work there is nobody to tell."""
    if sys.stderr is None:
        return
    try:
        sys.stderr.write(text)
        sys.stderr.flush()
    except OSError:
        hush(sys.stderr)


def say(message: object) -> None:
    warn(f'desk: {plain(str(message))}\n')


def put(text: str) -> None:
    """The answer on standard output, whole or not at all known to be whole."""
    if sys.stdout is None:
        raise OSError(None, 'it is closed')
    try:
        sys.stdout.write(text + '\n')
        sys.stdout.flush()
    except OSError:
        hush(sys.stdout)
        raise


def tell(outcome: Outcome, as_json: bool) -> int:
    """Prints an outcome, and returns the exit status that it means."""
    if as_json:
        questions = [question._asdict() for question in outcome.questions]
        put(json.dumps({**outcome.data, 'refusals': [refusal.data() for refusal in outcome.refusals], 'questions': questions}, indent=2))
    elif outcome.text:
        put(outcome.text)
    for refusal in outcome.refusals:
        say(refusal)
    for question in [] if as_json else outcome.questions:
        say(f'note: {question.text}')
    return REFUSED if outcome.refusals else ANSWERED


def run(arguments: list[str]) -> int:
    """Answers one command line."""
    try:
        asked = command_line().parse_args(arguments)
    except SystemExit:  # after --help or --version
        return ANSWERED
    try:
        return tell(answer(asked), asked.json)
    except NotTaken as not_taken:
        return tell(Outcome('', {'command': asked.command}, not_taken.questions, not_taken.refusals), asked.json)


def answered(arguments: list[str]) -> int:
    """The same, where whatever does not work is said in words."""
    for stream in (sys.stdout, sys.stderr):
        if stream is not None:
            stream.reconfigure(errors='backslashreplace')
    try:
        return run(arguments)
    except (WrongUsage, LibraryMissing) as wrong:
        say(wrong)
    except KeyboardInterrupt:
        return die_of(signal.SIGINT)
    except BrokenPipeError:  # who read the answer has gone
        return die_of(signal.SIGPIPE)
    except OSError as error:
        say(f'{"standard output" if error.filename is None else error.filename}: {error.strerror or error}')
    except Exception as error:  # pylint: disable=broad-except
        say(f'this is a fault of desk itself, please report it: {type(error).__name__}: {error}')
    return FAILED


def die_of(number: int) -> int:
    """Ends as a program does that never handled the signal, so that a shell sees what happened."""
    signal.signal(number, signal.SIG_DFL)
    os.kill(os.getpid(), number)
    return 128 + number  # where the signal is blocked


def main(arguments: list[str]) -> int:
    """The whole command: no traceback, whatever happens. An interrupt ends it at once, save where there is something to tidy up first."""
    signal.signal(signal.SIGINT, signal.SIG_DFL)
    return answered(arguments)
