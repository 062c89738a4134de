"""Field books: several lists in one run of bytes."""
from array import array
from struct import unpack_from
from typing import Dict, Mapping

from ._answers import settle, verdict_of
from ._archive import BodyStruct, BookStruct, WrittenStruct, function, lent_memory, word32
from ._memory import BYTES, ENTRIES, NODES, Buffer, keep_apart, lent, part, word
from ._table import CONTENTS_NUMBERS, ENTRY_WORDS, NODE_WORDS, NUMBER_BYTES

_book_check = function("book_check", BookStruct, *lent_memory)
_book_body = function("book_body", BodyStruct, *lent_memory, word32)
_book_write = function("book_write", WrittenStruct, *lent_memory, *lent_memory, *lent_memory)


def book_check(book: Buffer) -> int:
    """Returns how many lists a book has. Raises `Refused` unless it is a book."""
    with lent("book", book, BYTES) as given:
        found = _book_check(given.address, given.length)
    settle(verdict_of(found.verdict))
    return int(found.lists)


def book_body(book: Buffer, tag: int) -> memoryview:
    """Returns the list that a book has under a tag, as a part of the book's own memory. The part is
    words, and can be lent again as it is.

    While the part is kept, the book can't be resized; `release()` gives it back.
    """
    given_tag = word("tag", tag)
    with lent("book", book, BYTES) as given:
        found = _book_body(given.address, given.length, given_tag)
    settle(verdict_of(found.verdict))
    return part(book, found.start, found.bytes)


def book_lists(book: Buffer) -> Dict[int, memoryview]:
    """Returns all lists of a book by their tags, in the book's order, each as `book_body` does."""
    step = NUMBER_BYTES * CONTENTS_NUMBERS
    places = [NUMBER_BYTES + step * number for number in range(book_check(book))]
    with memoryview(book) as given:  # type: ignore[arg-type]
        tags = [unpack_from("<I", given, place)[0] for place in places]
    return {tag: book_body(book, tag) for tag in tags}


def book_write_into(entries: Buffer, nodes: Buffer, out: Buffer) -> int:
    """Writes the book of some lists into `out`: `entries` has a tag and a number of nodes for each
    list, `nodes` the nodes of all of them. Returns the number of bytes.
    """
    with lent("entries", entries, ENTRIES) as wanted, lent("nodes", nodes, NODES) as given, \
            lent("out", out, BYTES, writable=True) as room:
        keep_apart(room, wanted, given)
        found = _book_write(wanted.address, wanted.length, given.address, given.length,
                            room.address, room.length)
    settle(verdict_of(found.verdict))
    return int(found.count)


def book_write(entries: Buffer, nodes: Buffer) -> bytearray:
    """Returns the book that `book_write_into` writes, in bytes of its own."""
    with lent("entries", entries, ENTRIES) as wanted, lent("nodes", nodes, NODES) as given:
        contents = 1 + CONTENTS_NUMBERS * (wanted.length // ENTRY_WORDS)
        numbers = contents + given.length
    out = bytearray(NUMBER_BYTES * numbers)
    del out[book_write_into(entries, nodes, out):]
    return out


def write_book(lists: Mapping[int, Buffer]) -> bytearray:
    """Returns the book of some lists by their tags, in bytes of its own. The tags may come in any
    order; in the book they ascend, and a refusal's `list` is the place in that order, from 0.
    """
    entries, nodes = array("I"), array("I")
    for tag in sorted(lists):
        with lent(f"the list of tag {tag}", lists[tag], NODES) as given:
            count, rest = divmod(given.length, NODE_WORDS)
        if rest != 0:
            raise ValueError(f"the list of tag {tag} has {rest} words after its last whole node")
        entries.extend((word("tag", tag), count))
        with part(lists[tag], 0, NUMBER_BYTES * given.length) as taken:
            nodes.frombytes(taken.tobytes())
    return book_write(entries, nodes)
