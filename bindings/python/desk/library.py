"""The proved library for C, by ctypes: the structs and functions of include/desk.h, and where the library is found."""
from __future__ import annotations

from ctypes import CDLL, POINTER, Structure, c_double, c_int64, c_size_t, c_uint32, c_ubyte
from functools import lru_cache
import os

from .table import MAX_GRADES
from .version import VERSION

POOL_NUMBERS = 3 * MAX_GRADES  # room for whatever pool writes
BOOK_BYTES = 976  # room for whatever write writes
NAME = 'libdesk.so'


class DeskPlace(Structure):
    _fields_ = [('obligors', c_uint32 * MAX_GRADES), ('defaults', c_uint32 * MAX_GRADES), ('announced', c_uint32 * MAX_GRADES),
                ('grades', c_uint32), ('loaded', c_uint32), ('pooled', c_uint32 * POOL_NUMBERS)]


class DeskImage(Structure):
    """A desk in memory, `Desk` of the header."""
    _fields_ = [('first', DeskPlace), ('second', DeskPlace)]


class DeskCutoff(Structure):
    _fields_ = [('cutoff', c_int64), ('cost', c_int64)]


class DeskPrice(Structure):
    _fields_ = [('u', c_uint32), ('v', c_uint32)]


class DeskVerdict(Structure):
    _fields_ = [('kind', c_uint32), ('first_dearer', DeskPrice), ('second_dearer', DeskPrice)]


class DeskFraction(Structure):
    _fields_ = [('numerator', c_int64), ('denominator', c_int64)]


class DeskMeasures(Structure):
    _fields_ = [('defaults', c_int64), ('survivors', c_int64), ('gini', DeskFraction), ('roc', DeskFraction), ('cap', DeskFraction),
                ('pietra', DeskFraction), ('cutoff', c_int64)]


class DeskSpread(Structure):
    _fields_ = [('total', c_double), ('residual', c_double)]


# What each function takes, as the header declares it; each returns a refusal number or 0, save the first, which returns the version.
ON_A_PLACE = [POINTER(DeskImage), c_uint32]
FUNCTIONS = {
    'desk_version': [],
    'desk_empty': [POINTER(DeskImage)],
    'desk_load': ON_A_PLACE + [POINTER(c_ubyte), c_size_t, c_uint32],
    'desk_clear': ON_A_PLACE,
    'desk_survivor_enters': ON_A_PLACE + [c_uint32],
    'desk_survivor_leaves': ON_A_PLACE + [c_uint32],
    'desk_survivor_defaults': ON_A_PLACE + [c_uint32],
    'desk_defaulted_removed': ON_A_PLACE + [c_uint32],
    'desk_pool': ON_A_PLACE + [POINTER(c_uint32), c_size_t],
    'desk_cheapest': ON_A_PLACE + [c_uint32, c_uint32, POINTER(DeskCutoff)],
    'desk_compare': [POINTER(DeskImage), POINTER(DeskVerdict)],
    'desk_compare_shares': [POINTER(DeskImage), POINTER(DeskVerdict)],
    'desk_measures': ON_A_PLACE + [POINTER(DeskMeasures)],
    'desk_brier': ON_A_PLACE + [POINTER(DeskFraction)],
    'desk_spread': ON_A_PLACE + [POINTER(DeskSpread)],
    'desk_write': [POINTER(DeskImage), POINTER(c_ubyte), c_size_t, POINTER(c_size_t)],
    'desk_shortlist': [POINTER(c_ubyte), c_size_t, POINTER(c_uint32), c_size_t, POINTER(c_size_t)],
}


class LibraryMissing(ImportError):
    """The shared library is not where it is looked for, cannot be loaded, or is of another version than this module."""


def repository() -> str | None:
    """The folder of the sources, where this package is `bindings/python/desk` of them."""
    top = os.path.dirname(os.path.dirname(os.path.dirname(os.path.dirname(os.path.realpath(__file__)))))
    return top if os.path.isfile(os.path.join(top, 'crates.txt')) else None


def default_path() -> str:
    """The file that DESK_LIBRARY names, else the library beside this package, else the one that `./desk build` writes."""
    named = os.environ.get('DESK_LIBRARY')
    beside = os.path.join(os.path.dirname(os.path.realpath(__file__)), NAME)
    top = repository()
    if named or top is None or os.path.isfile(beside):
        return named or beside
    return os.path.join(top, 'target', 'desk', NAME)


@lru_cache(maxsize=None)
def load(path: str) -> CDLL:
    """The library in a file, its functions declared. One of another version may lay out its answers otherwise, so it is not used."""
    try:
        library = CDLL(path)
        check_version(path, library.desk_version())
        for name, arguments in FUNCTIONS.items():
            function = getattr(library, name)
            function.argtypes, function.restype = arguments, c_uint32
    except (OSError, AttributeError) as error:
        raise LibraryMissing(f'{path} cannot be used ({error}). In a copy of the sources `./desk build` writes it; '
                             'elsewhere DESK_LIBRARY names the file') from None
    return library


def check_version(path: str, version: int) -> None:
    if version != VERSION:
        raise LibraryMissing(f'{path} is version {version} of the library, and this module is made for version {VERSION}: '
                             'install both from the same sources')
