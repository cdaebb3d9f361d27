"""The words of ./install, what it prints, and its exit status: 0 done; 1 not done, or not all of it, said in words; 2 wrong usage."""
from __future__ import annotations

import argparse
import os
import signal
import sys

from desk.command.main import die_of, hush

from .destination import Destination
from .words import NotDone, WrongUsage, listed, say

DONE, NOT_DONE, WRONG = 0, 1, 2
DESCRIPTION = '''\
Installs desk below the folder PREFIX: the header, the shared and static library with files for pkg-config and CMake, the Python module,
the command desk, the Rust crate and the documents. What is not built yet is proved and built first.
'''
MORE = '''\
examples:
  ./install ~/.local                 for yourself
  sudo ./install /usr/local          for all
  ./install --check ~/.local         compiles and runs a C, a C++, a Rust and a Python program against what is installed
  ./install --uninstall ~/.local     removes it
  DESTDIR=stage ./install /usr       for a package: all goes to stage/usr, to be moved to /usr

exit status: 0 done; 1 not done, or not all of it, and said why; 2 wrong usage.
'''


def command_line() -> argparse.ArgumentParser:
    parser = argparse.ArgumentParser(prog='./install', description=DESCRIPTION, epilog=MORE, add_help=False,
                                     formatter_class=argparse.RawDescriptionHelpFormatter, usage='./install [--check | --uninstall] PREFIX')
    which = parser.add_mutually_exclusive_group()
    which.add_argument('--check', action='store_true', help='try what is installed in PREFIX')
    which.add_argument('--uninstall', action='store_true', help='remove what is installed in PREFIX')
    which.add_argument('--help', '-h', action='help', help='this page')
    parser.add_argument('prefix', metavar='PREFIX', help='the folder; it is made if it is not there')
    return parser


def install(destination: Destination, top: str) -> int:
    from .hints import summary
    from .contents import VERSION, Contents
    contents = Contents(top)
    kept = destination.put(VERSION, contents.entries())
    print(summary(destination, contents))
    if kept:
        print(f'Kept of an earlier install, as it has been changed since:{listed(kept)}')
    return DONE


def uninstall(destination: Destination) -> int:
    made = destination.manifest().folders
    kept = destination.uninstall()
    if kept:
        print(f'desk is removed from {destination.folder}, save what has been changed since it was installed:{listed(kept)}')
        return NOT_DONE
    print(f'desk is removed from {destination.folder}')
    stay = [path for path in sorted(made) if os.path.lexists(os.path.join(destination.folder, path))]
    innermost = [path for path in stay if path != '.' and not any(other.startswith(f'{path}/') for other in stay)]
    if innermost:
        print(f'These folders stay, as they hold what was not installed:{listed(innermost)}')
    return DONE


def run(arguments: list[str], top: str) -> int:
    asked = command_line().parse_args(arguments)
    destination = Destination(asked.prefix, os.environ.get('DESTDIR', ''))
    if asked.uninstall:
        return uninstall(destination)
    if asked.check:
        from .check import check
        return DONE if check(destination) else NOT_DONE
    return install(destination, top)


def answered(arguments: list[str], top: str) -> int:
    """Does what is asked, and has all that is printed written."""
    status = run(arguments, top)
    if sys.stdout is not None:
        sys.stdout.flush()
    return status


def main(arguments: list[str], top: str) -> int:
    for stream in filter(None, (sys.stdout, sys.stderr)):
        stream.reconfigure(errors='backslashreplace')
    signal.signal(signal.SIGINT, signal.default_int_handler)  # what is half done is undone first
    try:
        return answered(arguments, top)
    except NotDone as why:
        say(why)
    except WrongUsage as wrong:
        say(wrong)
        return WRONG
    except KeyboardInterrupt:
        return die_of(signal.SIGINT)
    except BrokenPipeError:  # who read what is printed has gone
        return die_of(signal.SIGPIPE)
    except OSError as error:
        say(f'{error.filename}: {error.strerror or error}' if error.filename else f'standard output: {error.strerror}')
        hush(sys.stdout)
    return NOT_DONE
