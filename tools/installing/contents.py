"""What is installed, and where: every file and link of an install, read or made from the sources."""
from __future__ import annotations

from typing import Iterator
import glob
import os
import sysconfig

from desk.command.build import NotBuilt, archive, printing_program, shared_library
from desk.version import VERSION

from .putting import Entry
from .words import NotDone

HERE = os.path.dirname(os.path.abspath(__file__))
DOCUMENTS = ('CHANGELOG.md', 'docs/BANDS.md', 'docs/BOOK.md', 'docs/COMMAND.md', 'docs/INSTALL.md', 'docs/REFUSALS.md',
             'bindings/c/example.c', 'bindings/c/memory.c', 'bindings/c/memory.cpp')
WAY = "WAY = 'bindings/python'"  # as the launcher has it in the sources


def site_packages() -> str:
    """Where this Python looks for modules below a PREFIX of its own, from PREFIX; not the place that some systems put before it."""
    return os.path.relpath(sysconfig.get_path('purelib', 'posix_prefix', {'base': '/', 'platbase': '/'}), '/')


class Contents:
    """The sources at `top`, as entries of an install."""

    def __init__(self, top: str) -> None:
        self.top = top
        self.module = f'{site_packages()}/desk'
        self.library = f'libdesk.so.{VERSION}'

    def entries(self) -> list[Entry]:
        """Everything, sorted by its path; builds first what is to be built."""
        try:
            found = [*self.for_c(), *self.for_python(), *self.for_rust(), *self.documents()]
        except NotBuilt as why:
            raise NotDone(str(why)) from None
        except FileNotFoundError as error:
            raise NotDone(f'these sources are not whole: there is no {error.filename}') from None
        return sorted(found)

    def read(self, name: str) -> bytes:
        with open(os.path.join(self.top, name), 'rb') as file:
            return file.read()

    def matching(self, folder: str, pattern: str) -> Iterator[str]:
        """The files of a folder of the sources, from that folder, that match a pattern."""
        start = os.path.join(glob.escape(os.path.join(self.top, folder)), '')
        found = sorted(glob.glob(start + pattern, recursive=True))
        if not found:
            raise FileNotFoundError(2, '', os.path.join(self.top, folder, pattern))
        return (os.path.relpath(path, os.path.join(self.top, folder)) for path in found)

    def filled(self, template: str) -> bytes:
        """A template of this folder with the version in it."""
        with open(os.path.join(HERE, template), 'rb') as file:
            return file.read().replace(b'@VERSION@', b'%d' % VERSION)

    def for_c(self) -> Iterator[Entry]:
        yield Entry('include/desk.h', self.read('include/desk.h'))
        yield Entry(f'lib/{self.library}', self.read(shared_library(self.top)), 0o755)
        yield Entry('lib/libdesk.so', link=self.library)
        yield Entry('lib/libdesk.a', self.read(archive(self.top)))
        yield Entry('lib/pkgconfig/desk.pc', self.filled('desk.pc.in'))
        for name in ('desk-config.cmake', 'desk-config-version.cmake'):
            yield Entry(f'lib/cmake/desk/{name}', self.filled(f'{name}.in'))

    def for_python(self) -> Iterator[Entry]:
        """The module with the library and the printing program beside it, and the command."""
        for name in self.matching('bindings/python/desk', '**/*.py'):
            yield Entry(f'{self.module}/{name}', self.read(f'bindings/python/desk/{name}'))
        yield Entry(f'{self.module}/libdesk.so', link=os.path.relpath(f'lib/{self.library}', self.module))
        yield Entry(f'{self.module}/report', self.read(printing_program(self.top)), 0o755)
        yield Entry('bin/desk', self.launcher(), 0o755)

    def launcher(self) -> bytes:
        """The script ./desk with its way to the installed module."""
        text = self.read('desk').decode()
        if text.count(WAY) != 1:
            raise NotDone(f'{os.path.join(self.top, "desk")} does not have {WAY!r} once')
        return text.replace(WAY, f"WAY = '../{os.path.dirname(self.module)}'").encode()

    def for_rust(self) -> Iterator[Entry]:
        for pattern in ('Cargo.toml', 'build.rs', 'src/**/*.rs', 'examples/**/*.rs'):
            for name in self.matching('bindings/rust', pattern):
                yield Entry(f'share/desk/rust/{name}', self.read(f'bindings/rust/{name}'))

    def documents(self) -> Iterator[Entry]:
        for name in DOCUMENTS:
            yield Entry(f'share/doc/desk/{os.path.basename(name)}', self.read(name))
        for pattern in ('**/*.csv', '**/*.book'):
            for name in self.matching('examples', pattern):
                yield Entry(f'share/doc/desk/examples/{name}', self.read(f'examples/{name}'))
