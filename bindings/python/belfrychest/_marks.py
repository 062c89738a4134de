"""Marks to tables and back, and picking a tag's list out of a table."""
from typing import Tuple

from ._answers import settle, verdict_of
from ._archive import UnnumberedStruct, VerdictStruct, WrittenStruct, function, lent_memory, word32
from ._memory import MARKS, NODES, ROWS, Buffer, Words, keep_apart, lent, room_for, word
from ._table import NODE_WORDS, ROW_WORDS

_number = function("number", WrittenStruct, word32, *lent_memory, *lent_memory)
_unnumber = function("unnumber", UnnumberedStruct, *lent_memory, *lent_memory)
_pick = function("pick", WrittenStruct, *lent_memory, word32, *lent_memory)


def number_into(document: int, marks: Buffer, out: Buffer) -> int:
    """Numbers a document's marks and writes its table into `out`, five words a row: document,
    start, end, level and tag. Returns the number of rows.
    """
    given_document = word("document", document)
    with lent("marks", marks, MARKS) as given, lent("out", out, ROWS, writable=True) as room:
        keep_apart(room, given)
        found = _number(given_document, given.address, given.length, room.address, room.length)
    settle(verdict_of(found.verdict))
    return int(found.count)


def number(document: int, marks: Buffer) -> Words:
    """Returns the table of a document's marks, in an array of its own."""
    out = room_for("marks", marks, MARKS, ROW_WORDS)
    del out[ROW_WORDS * number_into(document, marks, out):]
    return out


def unnumber_into(table: Buffer, out: Buffer) -> Tuple[int, int]:
    """Writes the marks that have this table into `out`. Returns the document's number and the
    number of marks.
    """
    with lent("table", table, ROWS) as given, lent("out", out, MARKS, writable=True) as room:
        keep_apart(room, given)
        found = _unnumber(given.address, given.length, room.address, room.length)
    settle(verdict_of(VerdictStruct(found.answer)))
    return found.document, found.count


def unnumber(table: Buffer) -> Tuple[int, Words]:
    """Returns the document's number and the marks that have this table, in an array of their own. A
    row has at most two marks, an opening and a close.
    """
    out = room_for("table", table, ROWS, 2)
    document, count = unnumber_into(table, out)
    del out[count:]
    return document, out


def pick_into(table: Buffer, tag: int, out: Buffer) -> int:
    """Writes the nodes of the rows with this tag into `out`, four words each. Returns the number of
    nodes.
    """
    given_tag = word("tag", tag)
    with lent("table", table, ROWS) as given, lent("out", out, NODES, writable=True) as room:
        keep_apart(room, given)
        found = _pick(given.address, given.length, given_tag, room.address, room.length)
    settle(verdict_of(found.verdict))
    return int(found.count)


def pick(table: Buffer, tag: int) -> Words:
    """Returns the list of the nodes with this tag, in an array of its own."""
    out = room_for("table", table, ROWS, NODE_WORDS)
    del out[NODE_WORDS * pick_into(table, tag, out):]
    return out
