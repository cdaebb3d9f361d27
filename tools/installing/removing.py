"""Takes away what is installed: what the manifest lists, as it was put there, and nothing else."""
from __future__ import annotations

from typing import Iterable
import re

from .manifest import PATH, Manifest, folders_of, temporary
from .tree import Tree
from .words import NotDone, listed


def compiled(tree: Tree, path: str) -> list[str]:
    """What Python has made of a module's source beside it."""
    folder, _, name = path.rpartition('/')
    if not name.endswith('.py'):
        return []
    cache = f'{folder}/__pycache__'
    of_it = re.compile(re.escape(name[:-3]) + r'\.\w+-\d+(\.opt-\d)?\.pyc')
    return [f'{cache}/{each}' for each in tree.names(cache) if of_it.fullmatch(each)]


def remove_compiled(tree: Tree, paths: Iterable[str]) -> None:
    for path in paths:
        for each in compiled(tree, path):
            tree.remove(each)
            tree.remove_folder(each.rpartition('/')[0])


def remove_listed(tree: Tree, manifest: Manifest, paths: Iterable[str]) -> list[str]:
    """Removes what stands at these paths as the manifest lists it, and returns the others: they are kept."""
    kept = []
    for path in paths:
        mark = tree.mark(path)
        if manifest.lists(path, mark):
            tree.remove(path)
        elif mark is not None:
            kept.append(path)
    return kept


def remove_temporaries(tree: Tree, manifest: Manifest) -> None:
    """What an install that has broken off left of files that it was about to put."""
    if not manifest.finished:
        for path in manifest.marks:
            if tree.mark(path.rpartition('/')[0] or '.') == 'folder':
                tree.remove(temporary(path))


def remove_folders(tree: Tree, folders: Iterable[str]) -> set[str]:
    """Removes those of the folders that are empty, the inner ones first, and returns the others."""
    inner_first = sorted(folders, key=lambda path: (path != '.', path.count('/')), reverse=True)
    return {path for path in inner_first if not tree.remove_folder(path)}


def locked_folders(tree: Tree, paths: Iterable[str]) -> list[str]:
    """The folders of these paths that nothing can be removed from."""
    folders = sorted({path.rpartition('/')[0] or '.' for path in paths})
    return [tree.full(path) for path in folders if tree.mark(path) == 'folder' and not tree.writable(path)]


def uninstall(tree: Tree) -> list[str]:
    """Removes what is installed, and returns what is kept because it has been changed since."""
    manifest = Manifest.read(tree)
    if manifest is None:
        raise NotDone(f'desk is not installed in {tree.root}: there is no {PATH}')
    locked = locked_folders(tree, [*manifest.marks, PATH])
    if locked:
        raise NotDone(f'nothing is removed, as there is no permission to remove from{listed(locked)}')
    remove_temporaries(tree, manifest)
    remove_compiled(tree, manifest.marks)
    kept = remove_listed(tree, manifest, manifest.marks)
    own = {'.', *folders_of([PATH])}
    remove_folders(tree, manifest.folders - own)
    tree.remove(temporary(PATH))
    tree.remove(PATH)  # as late as can be: without it nothing can be uninstalled any more
    remove_folders(tree, manifest.folders & own)
    return kept
