"""The archive: where its shared object is, what it has to be, and how its functions are called."""
import ctypes
import os
import platform
import sys
from pathlib import Path
from typing import Any

from ._table import MOST_QUESTIONS, __version__

MADE_FOR = "the archive is for x86-64 Linux and nothing else"
MADE_BY = "bin/shared makes it, and the package in dist/ has it in place"
ONE_BUILD = "both must come from one build, as they do in dist/"


def unfit(text: str) -> ImportError:
    """Returns the error that tells why the package can't be imported. Since it bears the package's
    name, `python -m` tells it in a line and without a traceback.
    """
    return ImportError(text, name=__package__)


def library_path() -> Path:
    """Returns where the shared object is: where BELFRYCHEST_LIBRARY says, or else beside these
    modules, or else in target/outside/ of the repository that they stand in.
    """
    here = Path(__file__).resolve().parent
    named = os.environ.get("BELFRYCHEST_LIBRARY")
    built = "libbelfrychest.so"
    outside = (here / "../../../target/outside").resolve()
    places = [Path(named).resolve()] if named else [here / built, outside / built]
    for place in places:
        if place.is_file():
            return place
    raise unfit(
        f"there is no {' and no '.join(map(str, places))}; {MADE_BY}; BELFRYCHEST_LIBRARY may say "
        "where it is")


def refuse_other_machine(system: str, machine: str) -> None:
    """Raises unless a machine, as `sys.platform` and `platform.machine` call it, can load it."""
    if (system, machine) != ("linux", "x86_64"):
        raise unfit(f"{MADE_FOR}; this Python runs on {system}, {machine}")


def refuse_other_file(path: Path) -> None:
    """Raises unless a file's first bytes, the ELF header, say that it is made for x86-64."""
    with open(path, "rb") as file:
        header = file.read(20)
    if header[:4] != b"\x7fELF" or len(header) < 20:
        raise unfit(f"{path} is no shared object; {MADE_BY}")
    wide, little = header[4] == 2, header[5] == 1
    machine = int.from_bytes(header[18:20], "little" if little else "big")
    if not (wide and little and machine == 62):
        raise unfit(f"{path} is for another processor (ELF machine {machine}); {MADE_FOR}")


def opened(path: Path, version: str) -> ctypes.PyDLL:
    """Loads the shared object, which has to be of this version.

    PyDLL keeps the interpreter's lock during a call, so that no other Python code alters what is
    being read.
    """
    refuse_other_file(path)
    try:
        library = ctypes.PyDLL(str(path))
    except OSError as error:
        raise unfit(f"{path} can't be loaded: {error}") from None
    try:
        found = library["belfry_version"]
    except AttributeError:
        raise unfit(
            f"{path} tells no version, and the package is version {version}; {ONE_BUILD}") from None
    found.argtypes, found.restype = (), ctypes.c_uint32
    if str(found()) != version:
        raise unfit(
            f"{path} is version {found()}, and the package is version {version}; {ONE_BUILD}")
    return library


refuse_other_machine(sys.platform, platform.machine())
library = opened(library_path(), __version__)


# The archive's structs, as the C header has them.

word32 = ctypes.c_uint32
size = ctypes.c_size_t
lent_memory = (ctypes.c_void_p, size)


class VerdictStruct(ctypes.Structure):
    _fields_ = [("answer", word32), ("list", word32), ("index", word32)]


class PartStruct(ctypes.Structure):
    _fields_ = [("verdict", VerdictStruct), ("start", size), ("words", size)]


class TicketStruct(ctypes.Structure):
    _fields_ = [
        ("relation", word32), ("order", word32), ("placed", word32), ("document", word32),
        ("first", word32), ("second", word32),
    ]


class PageStruct(ctypes.Structure):
    _fields_ = [
        ("verdict", VerdictStruct), ("done", word32), ("count", size), ("ticket", TicketStruct),
    ]


class PagesStruct(ctypes.Structure):
    _fields_ = [("answer", word32), ("questions", word32), ("pages", PageStruct * MOST_QUESTIONS)]


class RangeStruct(ctypes.Structure):
    _fields_ = [
        ("verdict", VerdictStruct), ("present", word32), ("low", ctypes.c_float),
        ("high", ctypes.c_float),
    ]


class WrittenStruct(ctypes.Structure):
    _fields_ = [("verdict", VerdictStruct), ("count", size)]


class UnnumberedStruct(ctypes.Structure):
    _fields_ = [("answer", word32), ("document", word32), ("count", size)]


class BookStruct(ctypes.Structure):
    _fields_ = [("verdict", VerdictStruct), ("lists", word32)]


class BodyStruct(ctypes.Structure):
    _fields_ = [("verdict", VerdictStruct), ("start", size), ("bytes", size)]


def function(name: str, result: Any, *arguments: Any) -> Any:
    """Returns a function of the archive, which takes these arguments and answers so."""
    found = library["belfry_" + name]
    found.argtypes, found.restype = arguments, result
    return found
