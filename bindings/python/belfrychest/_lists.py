"""Checking lists, linking the nodes of one, and checking such links."""
from array import array

from ._answers import Verdict, settle, verdict_of
from ._archive import PartStruct, VerdictStruct, WrittenStruct, function, lent_memory
from ._memory import LINKS, NODES, Buffer, Words, keep_apart, lent, part, room_for
from ._table import LINK_WORDS, NUMBER_BYTES

_check = function("check", VerdictStruct, *lent_memory)
_check_two = function("check_two", VerdictStruct, *lent_memory, *lent_memory)
_faulty = function("faulty", PartStruct, *lent_memory, *lent_memory)
_links = function("links", WrittenStruct, *lent_memory, *lent_memory)
_links_check = function("links_check", VerdictStruct, *lent_memory, *lent_memory)


def verdict(nodes: Buffer) -> Verdict:
    """Returns what the check of one list answers, and raises no `Refused`."""
    with lent("nodes", nodes, NODES) as given:
        found = _check(given.address, given.length)
    return verdict_of(found)


def verdict_two(ancestors: Buffer, descendants: Buffer) -> Verdict:
    """Returns what the check of two lists answers that are to be joined: what is wrong with the
    ancestors, then with the descendants, then JOINT.
    """
    with lent("ancestors", ancestors, NODES) as zones, \
            lent("descendants", descendants, NODES) as samples:
        found = _check_two(zones.address, zones.length, samples.address, samples.length)
    return verdict_of(found, two_lists=True)


def check(nodes: Buffer) -> None:
    """Raises `Refused` unless the list is accepted."""
    settle(verdict(nodes))


def check_two(ancestors: Buffer, descendants: Buffer) -> None:
    """Raises `Refused` unless the two lists can be joined."""
    settle(verdict_two(ancestors, descendants))


def faulty(ancestors: Buffer, descendants: Buffer) -> memoryview:
    """Checks two lists and shows where to repair: the words from the faulty node to its list's end,
    as a part of the caller's own memory. It is empty unless the answer is LEVEL to DEPTH.

    While the part is kept, the list can't be resized; `release()` gives it back.
    """
    with lent("ancestors", ancestors, NODES) as zones, \
            lent("descendants", descendants, NODES) as samples:
        found = _faulty(zones.address, zones.length, samples.address, samples.length)
    if found.words == 0:
        return memoryview(array("I"))
    blamed = (ancestors, descendants)[found.verdict.list]
    return part(blamed, NUMBER_BYTES * found.start, NUMBER_BYTES * found.words)


def links_into(nodes: Buffer, out: Buffer) -> int:
    """Writes a link for each node into `out`: the index of its parent, of its first child and of
    its next sibling, or NONE. Returns the number of nodes.
    """
    with lent("nodes", nodes, NODES) as given, lent("out", out, LINKS, writable=True) as room:
        keep_apart(room, given)
        found = _links(given.address, given.length, room.address, room.length)
    settle(verdict_of(found.verdict))
    return int(found.count)


def links(nodes: Buffer) -> Words:
    """Returns the links of a list, three words a node, in an array of their own."""
    out = room_for("nodes", nodes, NODES, LINK_WORDS)
    del out[LINK_WORDS * links_into(nodes, out):]
    return out


def verdict_links(nodes: Buffer, links: Buffer) -> Verdict:
    """Returns what the check of links answers, which may come from anyone: what is wrong with the
    list, then LINKS unless the words are exactly what `links` returns for it.
    """
    with lent("nodes", nodes, NODES) as given, lent("links", links, LINKS) as forest:
        found = _links_check(given.address, given.length, forest.address, forest.length)
    return verdict_of(found)


def check_links(nodes: Buffer, links: Buffer) -> None:
    """Raises `Refused` unless the list is accepted and the links are its own."""
    settle(verdict_links(nodes, links))
