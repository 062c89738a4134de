"""How a caller's memory is lent to the archive, and what memory and numbers are taken."""
import ctypes
import operator
from array import array
from collections.abc import Mapping, Set
from contextlib import contextmanager
from mmap import mmap
from typing import (
    TYPE_CHECKING, Any, Callable, Dict, Iterable, Iterator, NamedTuple, Protocol, Union,
)

from ._table import (
    ENTRY_WORDS, LINK_WORDS, MOST_NODES, NODE_WORDS, NONE, NUMBER_BYTES, PAIR_WORDS, QUESTION_WORDS,
    READING_WORDS, ROW_WORDS, SUBTOTAL_WORDS,
)


class NumpyArray(Protocol):
    """An array of numpy, by the attribute that numpy gives each of its arrays."""

    @property
    def __array_interface__(self) -> Dict[str, Any]: ...


# What a type checker takes for memory to be lent. A call takes any object that lends its memory.
# Words are what calls return.
if TYPE_CHECKING:
    Words = array[int]
    Buffer = Union[bytes, bytearray, memoryview, mmap, Words, ctypes.Array[Any], NumpyArray]
else:
    Words = array
    Buffer = Union[bytes, bytearray, memoryview, mmap, array, ctypes.Array, NumpyArray]


class Kind(NamedTuple):
    """What memory has to hold: the letters of its format, the bytes of a number, its name in
    errors, the numbers of an item, and an item's name.
    """

    letters: str
    number_bytes: int
    wanted: str
    item_numbers: int
    item: str


def _words(item_words: int, item: str) -> Kind:
    """Returns the kind of memory that holds items of `item_words` words."""
    wanted = "a buffer of unsigned 32-bit words, such as array('I') or a numpy array of uint32"
    return Kind("IL", NUMBER_BYTES, wanted, item_words, item)


MARKS = _words(1, "a mark")
NODES = _words(NODE_WORDS, "a node")
PAIRS = _words(PAIR_WORDS, "a pair")
ROWS = _words(ROW_WORDS, "a row")
LINKS = _words(LINK_WORDS, "a link")
ENTRIES = _words(ENTRY_WORDS, "an entry")
READINGS = _words(READING_WORDS, "a reading")
HUNDREDTHS = _words(1, "a sample's hundredths")
SUBTOTALS = _words(SUBTOTAL_WORDS, "a subtotal")
QUESTIONS = _words(QUESTION_WORDS, "a question")
BYTES = Kind("Bbc", 1, "a buffer of bytes", 1, "a byte")


def judge(what: str, view: memoryview, kind: Kind, writable: bool) -> None:
    """Raises what is wrong with a view, if anything is."""
    order, letter = view.format[:-1], view.format[-1:]
    fits = order in ("", "@", "=", "<") and letter in kind.letters
    if not fits or view.itemsize != kind.number_bytes:
        raise TypeError(
            f"{what} must be {kind.wanted}, not of format {view.format!r} with {view.itemsize} "
            "bytes an item")
    if writable and view.readonly:
        raise TypeError(f"{what} must be writable")
    shape = view.shape or ()
    if len(shape) > 1 and shape[-1] != kind.item_numbers:
        raise ValueError(
            f"{what} has more than one dimension, so the last one must be {kind.item_numbers}, "
            f"the numbers of {kind.item}, and not {shape[-1]}")
    if view.nbytes > 0 and not view.c_contiguous:
        raise ValueError(f"{what} must be contiguous")


class PyBuffer(ctypes.Structure):
    """Python's own Py_buffer. Only its first field is read here; ctypes alone gives no address of
    memory that is read-only.
    """

    _fields_ = [
        ("address", ctypes.c_void_p), ("owner", ctypes.c_void_p), ("bytes", ctypes.c_ssize_t),
        ("item_bytes", ctypes.c_ssize_t), ("read_only", ctypes.c_int),
        ("dimensions", ctypes.c_int), ("format", ctypes.c_char_p), ("shape", ctypes.c_void_p),
        ("strides", ctypes.c_void_p), ("suboffsets", ctypes.c_void_p),
        ("internal", ctypes.c_void_p),
    ]


# Taken by index, these two are this module's own: other modules may declare theirs in another way.
_get_buffer = ctypes.pythonapi["PyObject_GetBuffer"]
_get_buffer.argtypes = [ctypes.py_object, ctypes.POINTER(PyBuffer), ctypes.c_int]
_release_buffer = ctypes.pythonapi["PyBuffer_Release"]
_release_buffer.argtypes, _release_buffer.restype = [ctypes.POINTER(PyBuffer)], None

_nothing = ctypes.c_uint32()  # what an empty buffer points at, since the archive wants an address


def _address(view: memoryview) -> int:
    """Returns where the memory of a view lies. The view keeps it there until it is released."""
    if view.nbytes == 0:
        return ctypes.addressof(_nothing)
    held = PyBuffer()
    _get_buffer(view, ctypes.byref(held), 0)
    address: int = held.address
    _release_buffer(ctypes.byref(held))
    return address


class Lent(NamedTuple):
    """Memory as the archive takes it: its address and its length in words or bytes; and where it
    ends.
    """

    address: int
    length: int
    end: int


@contextmanager
def lent(what: str, buffer: Buffer, kind: Kind, writable: bool = False) -> Iterator[Lent]:
    """Lends a caller's memory. Until it is given back its owner can't be resized; after that
    nothing here holds it, even if a refusal is kept.
    """
    try:
        view = memoryview(buffer)  # type: ignore[arg-type]
    except (TypeError, BufferError):
        raise TypeError(f"{what} must be {kind.wanted}, not {type(buffer).__name__}") from None
    with view:
        judge(what, view, kind, writable)
        address = _address(view)
        if address % kind.number_bytes != 0:
            raise ValueError(f"{what} must start at a multiple of {kind.number_bytes} bytes")
        yield Lent(address, view.nbytes // kind.number_bytes, address + view.nbytes)


def in_order(what: str, items: Iterable[Any], wanted: str, order: str) -> Iterator[Any]:
    """Returns an iterator over items. A set has no order, and a dict would give its keys."""
    kind = type(items).__name__
    if isinstance(items, (Set, Mapping)):
        raise TypeError(f"{what} must come in {order}, not as {kind}")
    try:
        return iter(items)
    except TypeError:
        raise TypeError(
            f"{what} must be a list of {wanted}, or a buffer of their words, not {kind}") from None


def memory_of(items: Union[Buffer, Iterable[Any]],
              to_words: Callable[[Iterable[Any]], Words]) -> Buffer:
    """Returns items as memory: as they are where they lend theirs, or else their words."""
    try:
        memoryview(items).release()  # type: ignore[arg-type]
    except TypeError:
        return to_words(items)  # type: ignore[arg-type]
    return items  # type: ignore[return-value]


def keep_apart(out: Lent, *inputs: Lent) -> None:
    """Raises where an output shares memory with what is read: it would change under the reader."""
    if any(out.address < given.end and given.address < out.end for given in inputs):
        raise ValueError("out must not overlap what is read")


def part(buffer: Buffer, start: int, size: int) -> memoryview:
    """Returns `size` bytes of a caller's memory from byte `start` on, as words, and no copy. Empty
    memory can't be cast if it has several dimensions; any other empty memory stands for it.
    """
    with memoryview(buffer) as view:  # type: ignore[arg-type]
        if view.nbytes == 0:
            return memoryview(array("I"))
        with view.cast("B") as flat, flat[start:start + size] as taken:
            return taken.cast("I")


def word(what: str, number: int) -> int:
    """Returns the number, if it is one of 32 bits."""
    try:
        found = operator.index(number)
    except TypeError:
        raise TypeError(f"{what} must be a whole number, not {type(number).__name__}") from None
    if not 0 <= found <= NONE:
        raise ValueError(f"{what} must be from 0 to {NONE}, not {found}")
    return found


def room_for(what: str, buffer: Buffer, kind: Kind, result_words: int) -> Words:
    """Returns room for a result of `result_words` words for each item that is read. More items than
    MOST_NODES are refused, so they need none.
    """
    with lent(what, buffer, kind) as given:
        items = min(given.length // kind.item_numbers, MOST_NODES)
    return array("I", bytes(NUMBER_BYTES * items * result_words))
