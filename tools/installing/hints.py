"""What an install prints: where each thing is, and what has to be set so that it is found there."""
from __future__ import annotations

from typing import Iterator
import glob
import os
import re
import shlex
import shutil
import subprocess
import sys

from .destination import Destination
from .contents import VERSION, Contents

SYSTEM = ('/', '/usr', '/usr/local')  # where CMake looks by itself


def summary(destination: Destination, contents: Contents) -> str:
    """The lines that an install ends with."""
    lines = [f'desk {VERSION} is installed in {destination.folder}:',
             f'  C, C++    include/desk.h, lib/{contents.library}, lib/libdesk.a, lib/pkgconfig/desk.pc, lib/cmake/desk',
             '  Rust      share/desk/rust',
             f'  Python    {contents.module}',
             '  command   bin/desk',
             '  pages     share/doc/desk']
    if destination.staged:
        return '\n'.join(lines + [f'It is made for {destination.prefix}, and works wherever it is moved to as a whole.'])
    set_first = list(settings(destination.prefix, os.path.join(destination.prefix, os.path.dirname(contents.module))))
    if set_first:
        lines += ['To be found there it needs, in the shell or its profile:', *(f'  {line}' for line in set_first)]
    prefix = shlex.quote(destination.prefix)
    return '\n'.join(lines + [f'./install --check {prefix} tries it; ./install --uninstall {prefix} removes it.'])


def settings(prefix: str, packages: str) -> Iterator[str]:
    """What is to be set for an install, each as a line for the shell. What is found without is left out."""
    programs, libraries = os.path.join(prefix, 'bin'), os.path.join(prefix, 'lib')
    on_path = same(programs, os.environ.get('PATH', '').split(os.pathsep))
    if not on_path:
        yield setting('PATH', programs)
    if not same(os.path.join(libraries, 'pkgconfig'), pkg_config_folders()):
        yield setting('PKG_CONFIG_PATH', os.path.join(libraries, 'pkgconfig'))
    if not on_path and not same(prefix, [*SYSTEM, *re.split('[:;]', os.environ.get('CMAKE_PREFIX_PATH', ''))]):
        yield setting('CMAKE_PREFIX_PATH', prefix)
    if not same(packages, python_folders()):
        yield setting('PYTHONPATH', packages)
    if same(libraries, loader_folders()):
        yield 'ldconfig   # as root, once: so that the loader finds the shared library'
    elif not same(libraries, os.environ.get('LD_LIBRARY_PATH', '').split(':')):
        yield f'{setting("LD_LIBRARY_PATH", libraries)}   # or link with {shlex.quote(f"-Wl,-rpath,{libraries}")}'


def setting(name: str, folder: str) -> str:
    return f'export {name}={shlex.quote(folder)}"${{{name}:+:${name}}}"'


def same(folder: str, among: list[str]) -> bool:
    """Whether a folder is among others, by whatever name."""
    return os.path.realpath(folder) in [os.path.realpath(each) for each in among if each]


def answer(*words: str) -> str:
    """What a program prints; nothing where it does not work."""
    try:
        return subprocess.run(words, stdin=subprocess.DEVNULL, stdout=subprocess.PIPE, stderr=subprocess.DEVNULL, check=False,
                              cwd='/', timeout=10).stdout.decode(errors='surrogateescape').strip()
    except (OSError, subprocess.TimeoutExpired):
        return ''


def pkg_config_folders() -> list[str]:
    program = shutil.which('pkg-config')
    built_in = answer(program, '--variable=pc_path', 'pkg-config') if program else ''
    return f'{os.environ.get("PKG_CONFIG_PATH", "")}:{built_in}'.split(':')


def python_folders() -> list[str]:
    """Where a python3 looks for modules that is started as users do."""
    return answer(sys.executable, '-c', 'import sys; print("\\n".join(sys.path))').split('\n')


def loader_folders() -> list[str]:
    """Where the loader looks by itself, once `ldconfig` has been run."""
    found = ['/lib', '/usr/lib']
    for name in ['/etc/ld.so.conf', *sorted(glob.glob('/etc/ld.so.conf.d/*.conf'))]:
        try:
            with open(name, encoding='utf-8', errors='replace') as file:
                found += re.findall(r'^\s*(/[^\s#]*)', file.read(), re.M)
        except OSError:
            continue
    return found
