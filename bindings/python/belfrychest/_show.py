"""What a book holds and, where it is refused, where its fault is.

Nothing is judged here. The library says which answer a book draws, and at which node. The node that
this one is at odds with, its partner, is found by asking the library again with fewer nodes. The
faulty entry of the contents is found by asking it with fewer entries. Only the bytes of a refused
book are read by hand, since the library shows none of them.
"""
import struct
from dataclasses import dataclass, replace
from typing import Callable, Dict, Iterator, List, NamedTuple, Optional, Sequence, Tuple

from . import (
    HINTS, Answer, Node, Refused, book_body, book_check, book_write, nodes, verdict, verdict_two,
    words,
)
from ._table import CONTENTS_NUMBERS, MOST_LISTS, MOST_NODES, NODE_WORDS, NUMBER_BYTES

_ENTRY_BYTES = NUMBER_BYTES * CONTENTS_NUMBERS
_NODE_BYTES = NUMBER_BYTES * NODE_WORDS
_NEIGHBOURS = 2  # how many nodes are shown on each side of a node at fault
TO_JOIN = 2  # how many lists a listing needs


@dataclass(frozen=True)
class Entry:
    """A list as a book's contents tell it: its tag, where its body starts, and its node count."""

    tag: int
    offset: int
    count: int


@dataclass(frozen=True)
class Spot:
    """Where a node is: the number of its list in the book, and its index there."""

    list: int
    index: int


class Fault(NamedTuple):
    """Why a book is refused: the faulty node and its partner or, if no node is at fault, a text."""

    answer: Answer
    node: Optional[Spot] = None
    partner: Optional[Spot] = None
    text: str = ""


class Look(NamedTuple):
    """What a book shows: its entries and lists, the numbers of the two lists that are joined (None
    for one that isn't there), and its fault.

    If the contents are refused there are no lists, and entries only as far as the bytes go.
    """

    entries: List[Entry]
    lists: List[memoryview]
    joined: Tuple[Optional[int], ...]
    fault: Optional[Fault]


# Looking into a book.

def look_into(book: bytes) -> Look:
    """Returns what a book holds, and its own fault if it has one. No lists are joined."""
    entries = _entries(book)
    try:
        book_check(book)
    except Refused as refused:
        if refused.list is None or refused.index is None:
            fault = Fault(refused.number, text=_contents_fault(book, entries))
            return Look(entries, [], (), fault)
        lists = _bodies(book, entries)
        other = partner(lists[refused.list], refused.index, refused.number)
        other_spot = None if other is None else Spot(refused.list, other)
        fault = Fault(refused.number, Spot(refused.list, refused.index), other_spot)
        return Look(entries, lists, (), fault)
    return Look(entries, _bodies(book, entries), (), None)


def join(book: bytes, look: Look, ancestors: Optional[int], descendants: Optional[int]) -> Look:
    """Returns the look with two lists joined: those with the given tags, or where no tag is given
    the first and the second list of the book. A book without a fault may have one then.
    """
    tags = [entry.tag for entry in look.entries[:len(look.lists)]]
    first_tags = [*tags, *[None] * TO_JOIN]
    given = zip((ancestors, descendants), first_tags)
    wanted = [default if tag is None else tag for tag, default in given]
    joined = tuple(tags.index(tag) if tag in tags else None for tag in wanted)
    look = look._replace(joined=joined)
    if look.fault is not None:
        return look
    return look._replace(fault=_absent(book, wanted) or _joint(look))


def partner(given: memoryview, index: int, answer: Answer) -> Optional[int]:
    """Returns the index of the earlier node that a list's faulty node is at odds with, or None if
    the faulty node is wrong by itself. Of several such nodes it is the last: from the one after it
    on, the nodes up to the faulty one are taken.
    """
    if answer == Answer.ORDER:
        return index - 1
    if answer not in (Answer.CROSS, Answer.DEPTH):
        return None
    up_to_node = given[:NODE_WORDS * (index + 1)]

    def taken(first: int) -> bool:
        return verdict(up_to_node[NODE_WORDS * first:]).answer == Answer.TAKEN

    return _least(0, index, taken) - 1


def _absent(book: bytes, wanted: Sequence[Optional[int]]) -> Optional[Fault]:
    """Returns the fault of a book that lacks a list to be joined."""
    for tag in wanted:
        if tag is None:
            text = f"the book has {book_check(book)} of the {TO_JOIN} lists that a listing needs"
            return Fault(Answer.ABSENT, text=text)
        try:
            book_body(book, tag)
        except Refused as refused:
            return Fault(refused.number, text=f"the book has no list with tag {tag}")
    return None


def _joint(look: Look) -> Optional[Fault]:
    """Returns the fault of two accepted lists that can't be joined: the first descendant that is at
    odds with an ancestor, and the first such ancestor.
    """
    outer, inner = (number for number in look.joined if number is not None)
    ancestors, descendants = look.lists[outer], look.lists[inner]
    answer = verdict_two(ancestors, descendants).answer
    if answer == Answer.TAKEN:
        return None

    def descendants_fail(count: int) -> bool:
        return verdict_two(ancestors, descendants[:NODE_WORDS * count]).answer == answer

    last = _least(1, len(descendants) // NODE_WORDS, descendants_fail)
    descendant = descendants[NODE_WORDS * (last - 1):NODE_WORDS * last]

    def ancestors_fail(count: int) -> bool:
        return verdict_two(ancestors[:NODE_WORDS * count], descendant).answer == answer

    other = _least(1, len(ancestors) // NODE_WORDS, ancestors_fail)
    return Fault(answer, Spot(inner, last - 1), Spot(outer, other - 1))


def _least(low: int, high: int, holds: Callable[[int], bool]) -> int:
    """Returns the least number from `low` to `high` for which something holds. It must hold for
    `high`, and for each number above one for which it holds.
    """
    while low < high:
        middle = (low + high) // 2
        low, high = (low, middle) if holds(middle) else (middle + 1, high)
    return low


# The contents of a book.

def _entries(book: bytes) -> List[Entry]:
    """Returns the entries of a book's contents, as far as the bytes go."""
    whole = max(len(book) - NUMBER_BYTES, 0) // _ENTRY_BYTES
    there = range(min(_number_of_lists(book), MOST_LISTS, whole))
    return [Entry(*struct.unpack_from("<3I", book, _entry_place(number))) for number in there]


def _number_of_lists(book: bytes) -> int:
    """Returns the number of lists that a book tells, which may be any number."""
    return int.from_bytes(book[:NUMBER_BYTES], "little")


def _entry_place(number: int) -> int:
    """Returns the first byte of a list's entry. For the number of lists this is where the contents
    end.
    """
    return NUMBER_BYTES + _ENTRY_BYTES * number


def _bodies(book: bytes, entries: Sequence[Entry]) -> List[memoryview]:
    """Returns the lists of a book whose contents are right, as parts of it."""
    view = memoryview(book)
    return [view[entry.offset:entry.offset + _NODE_BYTES * entry.count].cast("I")
            for entry in entries]


def _contents_fault(book: bytes, entries: Sequence[Entry]) -> str:
    """Says what is wrong with contents that the library refuses, and at which byte."""
    size, lists = len(book), _number_of_lists(book)
    if size < NUMBER_BYTES:
        return f"byte {size}: the book ends within its first number, the number of lists"
    if _written([Entry(tag, 0, 0) for tag in range(min(lists, MOST_LISTS + 1))]) is None:
        return f"byte 0: the number of lists is {lists}, above {MOST_LISTS}"
    wanted = _written(entries)
    if wanted is None:
        return _entry_fault(entries)
    if len(entries) < lists:
        end = _entry_place(lists)
        return f"byte {size}: the book ends within its contents, which need {end} bytes"
    for number, (told, right) in enumerate(zip(entries, _entries(wanted))):
        if told.offset != right.offset:
            place = _entry_place(number) + NUMBER_BYTES
            return f"byte {place}: the offset of list {number} is {told.offset}, not {right.offset}"
    place = min(size, len(wanted))
    return f"byte {place}: the book has {size} bytes, but its contents tell of {len(wanted)}"


def _entry_fault(entries: Sequence[Entry]) -> str:
    """Says what is wrong with the first entry that the library refuses, and at which byte."""
    number, by_tag = faulty_entry(entries)
    entry, place = entries[number], _entry_place(number)
    if by_tag:
        before = entries[number - 1].tag
        return f"byte {place}: the tag of list {number} is {entry.tag}, not above {before}"
    place += 2 * NUMBER_BYTES
    return f"byte {place}: the node count of list {number} is {entry.count}, above {MOST_NODES}"


def faulty_entry(entries: Sequence[Entry]) -> Tuple[int, bool]:
    """Returns the number of the first entry that the library refuses, and whether it would refuse
    it with no nodes too.
    """
    number = _least(1, len(entries), lambda count: _written(entries[:count]) is None) - 1
    without_nodes = replace(entries[number], count=0)
    return number, _written([*entries[:number], without_nodes]) is None


def _written(entries: Sequence[Entry]) -> Optional[bytes]:
    """Returns the book that the library writes for the tags and counts of some entries, with nodes
    made up; or None if it refuses them. For a count above the most nodes, one above is asked for.
    """
    counts = [min(entry.count, MOST_NODES + 1) for entry in entries]
    made_up = words((0, place, place, 1) for place in range(max(counts, default=0)))
    all_nodes = made_up[:0]
    for count in counts:
        all_nodes.extend(made_up[:NODE_WORDS * count])
    try:
        return bytes(book_write(words(zip((entry.tag for entry in entries), counts)), all_nodes))
    except Refused:
        return None


# Telling it.

def report(name: str, book: bytes, look: Look) -> str:
    """Returns what `show` prints of a book."""
    lines = [f"{name}: {len(book)} bytes"]
    for number, entry in enumerate(look.entries):
        place = f"{entry.count} nodes from byte {entry.offset}"
        lines.append(f"list {number}: tag {entry.tag}, {place}")
    if look.fault is None:
        lines.append(f"{Answer.TAKEN:d} {Answer.TAKEN.name}")
    else:
        lines += [f"refused {where(look, look.fault)}", HINTS[look.fault.answer]]
    return "\n".join([*lines, *_neighbourhood(look), ""])


def where(look: Look, fault: Fault) -> str:
    """Returns a fault's answer by number and name, and where the fault is."""
    texts = [f"{fault.answer:d} {fault.answer.name}"]
    if fault.text:
        texts.append(fault.text)
    if fault.node is not None:
        texts.append(_place(look, fault.node))
    if fault.partner is not None:
        texts.append("with " + _place(look, fault.partner))
    return ", ".join(texts)


def _place(look: Look, spot: Spot) -> str:
    """Says where a node is."""
    entry = look.entries[spot.list]
    byte = entry.offset + _NODE_BYTES * spot.index
    return f"list {spot.list} (tag {entry.tag}) index {spot.index} at byte {byte}"


def marks(look: Look) -> Dict[Spot, str]:
    """Returns the nodes at fault, and what each of them is called."""
    if look.fault is None:
        return {}
    named = (look.fault.node, "fault"), (look.fault.partner, "partner")
    return {spot: name for spot, name in named if spot is not None}


def _neighbourhood(look: Look) -> Iterator[str]:
    """Yields lines with the nodes at fault and those around them, list by list."""
    marked = marks(look)
    for number in sorted({spot.list for spot in marked}):
        yield from ["", f"list {number}, tag {look.entries[number].tag}"]
        yield _line("index", *Node._fields)
        yield from _lines_near(look, number, marked)


def _lines_near(look: Look, number: int, marked: Dict[Spot, str]) -> Iterator[str]:
    """Yields a line for each node of a list that is at fault or near such a node, and dots where
    nodes between them are left out.
    """
    at_fault = [spot.index for spot in marked if spot.list == number]
    before = None
    for index, node in enumerate(nodes(look.lists[number])):
        if min(abs(index - other) for other in at_fault) <= _NEIGHBOURS:
            if before is not None and before + 1 < index:
                yield _line(*["..."] * (1 + NODE_WORDS))
            yield _line(index, *node) + f"  {marked.get(Spot(number, index), '')}".rstrip()
            before = index


def _line(*cells: object) -> str:
    """Returns cells as a line of a table."""
    return "".join(f"{cell!s:>12}" for cell in cells)
