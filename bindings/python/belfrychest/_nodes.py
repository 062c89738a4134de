"""Nodes, pairs, rows, links and subtotals as named tuples, and these to words and back."""
from array import array
from itertools import chain
from struct import iter_unpack
from typing import Any, Callable, Iterable, Iterator, NamedTuple, Tuple, TypeVar

from ._memory import LINKS, NODES, PAIRS, ROWS, SUBTOTALS, Buffer, Kind, Words, lent, part
from ._table import NODE_WORDS, NUMBER_BYTES


class Node(NamedTuple):
    """A node: its document, start, end and level."""

    document: int
    start: int
    end: int
    level: int


class Pair(NamedTuple):
    """A pair of a listing: the descendant is inside the ancestor."""

    ancestor: Node
    descendant: Node


class Row(NamedTuple):
    """A row of a numbered document's table: a node and its tag."""

    document: int
    start: int
    end: int
    level: int
    tag: int


class Link(NamedTuple):
    """The links of a node: the indexes of three nodes of its list, each NONE if there is none."""

    parent: int
    first_child: int
    next_sibling: int


class Subtotal(NamedTuple):
    """What a sheet says of a zone: the samples inside it, how many of them have a reading, and the
    sum of those readings in hundredths of a percent.
    """

    samples: int
    present: int
    sum: int


def words(items: Iterable[Iterable[Any]]) -> Words:
    """Returns the numbers of all items in one array, ready to be lent.

    The items are nodes, pairs, rows, links, or other tuples of numbers, each of the same length. A
    ValueError tells of an item that isn't like the first, or of a number that isn't one of 32 bits.
    """
    out, size = array("I"), 0
    for index, item in enumerate(items):
        before = len(out)
        try:
            out.extend(chain(*item) if isinstance(item, Pair) else item)
        except OverflowError:
            raise ValueError(f"item {index} has a number that isn't one of 32 bits") from None
        size = len(out) if index == 0 else size
        if len(out) - before != size:
            raise ValueError(f"item {index} has {len(out) - before} numbers, and item 0 has {size}")
    return out


Item = TypeVar("Item")


def _items(what: str, buffer: Buffer, kind: Kind, make: Callable[..., Item]) -> Iterator[Item]:
    """Makes an item of each whole item's words, one at a time."""
    with lent(what, buffer, kind) as given:
        length = given.length
    if length % kind.item_numbers != 0:
        raise ValueError(
            f"{what} must have a multiple of {kind.item_numbers} words, the numbers of "
            f"{kind.item}, and not {length}")
    whole = part(buffer, 0, NUMBER_BYTES * length)
    return map(make, iter_unpack(f"={kind.item_numbers}I", whole))


def _pair(numbers: Tuple[int, ...]) -> Pair:
    return Pair(Node(*numbers[:NODE_WORDS]), Node(*numbers[NODE_WORDS:]))


def nodes(words: Buffer) -> Iterator[Node]:
    """Reads a list node by node. Until the last one is read, the list can't be resized."""
    return _items("words", words, NODES, Node._make)


def node_pairs(words: Buffer) -> Iterator[Pair]:
    """Reads what `listing` or `page` wrote, pair by pair, as `nodes` reads a list."""
    return _items("words", words, PAIRS, _pair)


def rows(words: Buffer) -> Iterator[Row]:
    """Reads a table row by row, as `nodes` reads a list."""
    return _items("words", words, ROWS, Row._make)


def node_links(words: Buffer) -> Iterator[Link]:
    """Reads what `links` wrote, a link for each node, as `nodes` reads a list."""
    return _items("words", words, LINKS, Link._make)


def subtotals(words: Buffer) -> Iterator[Subtotal]:
    """Reads what `sheet_into` wrote, a subtotal for each zone, as `nodes` reads a list."""
    return _items("words", words, SUBTOTALS, Subtotal._make)
