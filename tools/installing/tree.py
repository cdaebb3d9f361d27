"""A folder and what stands below it. Every path is walked part by part, so that no symbolic link below the folder is ever followed."""
from __future__ import annotations

from contextlib import contextmanager, suppress
from typing import Iterator
import errno
import fcntl
import hashlib
import os
import stat

from .words import say

FOLDER = os.O_RDONLY | os.O_DIRECTORY | os.O_NOFOLLOW
NO_WAY = (errno.ENOTDIR, errno.ELOOP)  # a part of the way is a file or a link
BLOCKED = 'blocked'


def file_mark(content: bytes) -> str:
    return f'file {hashlib.sha256(content).hexdigest()}'


def link_mark(target: str) -> str:
    return f'link {target}'


class Tree:
    """Paths are from its root, with slashes. The root itself may be reached through links."""

    def __init__(self, root: str) -> None:
        self.root = os.path.realpath(root)
        self.descriptor = os.open(self.root, os.O_RDONLY | os.O_DIRECTORY)

    def close(self) -> None:
        os.close(self.descriptor)

    def lock(self) -> None:
        """Waits for another that works on the same folder. Some file systems have no locks; there nobody waits."""
        with suppress(OSError):
            try:
                fcntl.flock(self.descriptor, fcntl.LOCK_EX | fcntl.LOCK_NB)
            except BlockingIOError:
                say(f'another install is at work in {self.root}; waiting for it')
                fcntl.flock(self.descriptor, fcntl.LOCK_EX)

    def full(self, path: str) -> str:
        return os.path.normpath(os.path.join(self.root, path))

    @contextmanager
    def folder_of(self, path: str) -> Iterator[tuple[int, str]]:
        """The open folder that a path stands in, and its name there. What fails is told with the whole path."""
        *folders, name = path.split('/')
        held = os.dup(self.descriptor)
        try:
            for each in folders:
                outer, held = held, os.open(each, FOLDER, dir_fd=held)
                os.close(outer)
            yield held, name
        except OSError as error:
            raise OSError(error.errno, error.strerror, self.full(path)) from None
        finally:
            os.close(held)

    def mark(self, path: str) -> str | None:
        """What stands at a path: `file` with its SHA-256, `link` with where it leads, `folder`, `special`; nothing; or no way to it."""
        try:
            with self.folder_of(path) as (folder, name):
                mode = os.stat(name, dir_fd=folder, follow_symlinks=False).st_mode
                if stat.S_ISLNK(mode):
                    return link_mark(os.readlink(name, dir_fd=folder))
                if stat.S_ISREG(mode):
                    return file_mark(self.read(path))
                return 'folder' if stat.S_ISDIR(mode) else 'special'
        except FileNotFoundError:
            return None
        except OSError as error:
            if error.errno in NO_WAY:
                return BLOCKED
            raise

    def read(self, path: str) -> bytes:
        with self.folder_of(path) as (folder, name):
            with open(os.open(name, os.O_RDONLY | os.O_NOFOLLOW | os.O_NONBLOCK, dir_fd=folder), 'rb') as file:
                return file.read()

    def writable(self, path: str) -> bool:
        """Whether names can be added to and removed from a folder."""
        with self.folder_of(f'{path}/.' if path != '.' else path) as (folder, name):
            return os.access(name, os.W_OK | os.X_OK, dir_fd=folder)

    def names(self, path: str) -> list[str]:
        """The names in a folder; none where there is no such folder."""
        try:
            with self.folder_of(f'{path}/.') as (folder, _):
                return sorted(os.listdir(folder))
        except OSError as error:
            if error.errno in (errno.ENOENT, *NO_WAY):
                return []
            raise

    # Changes

    def write(self, path: str, content: bytes, mode: int) -> None:
        """A new file, on the disk and with this mode whatever the umask."""
        with self.folder_of(path) as (folder, name):
            with open(os.open(name, os.O_WRONLY | os.O_CREAT | os.O_EXCL, 0o600, dir_fd=folder), 'wb') as file:
                file.write(content)
                file.flush()
                os.fchmod(file.fileno(), mode)
                os.fsync(file.fileno())

    def link(self, path: str, target: str) -> None:
        with self.folder_of(path) as (folder, name):
            os.symlink(target, name, dir_fd=folder)

    def rename(self, path: str, name: str) -> None:
        """Gives what stands at a path another name in the same folder, in place of what has it."""
        with self.folder_of(path) as (folder, before):
            os.replace(before, name, src_dir_fd=folder, dst_dir_fd=folder)

    def remove(self, path: str) -> None:
        """Removes a file or a link that need not be there."""
        with suppress(FileNotFoundError), self.folder_of(path) as (folder, name):
            os.unlink(name, dir_fd=folder)

    def make_folder(self, path: str) -> None:
        with self.folder_of(path) as (folder, name):
            os.mkdir(name, dir_fd=folder)
            made = os.open(name, FOLDER, dir_fd=folder)
            try:
                os.fchmod(made, 0o755)
            finally:
                os.close(made)

    def remove_folder(self, path: str) -> bool:
        """Removes a folder if it is empty; the root too. Whether it is gone."""
        try:
            if path == '.':
                os.rmdir(self.root)
                return True
            with self.folder_of(path) as (folder, name):
                os.rmdir(name, dir_fd=folder)
        except FileNotFoundError:
            return True
        except OSError:
            return False
        return True
