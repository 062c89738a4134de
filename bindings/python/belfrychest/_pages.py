"""Listing pairs, page by page or whole."""
import operator
import struct
from array import array
from contextlib import contextmanager
from dataclasses import dataclass
from enum import IntEnum
from typing import Any, Callable, Iterator, Optional, Sequence, Tuple

from ._answers import settle, verdict_of
from ._archive import PageStruct, TicketStruct, function, lent_memory
from ._memory import LINKS, NODES, PAIRS, Buffer, Lent, Words, keep_apart, lent, word
from ._nodes import Pair, node_pairs
from ._table import (
    NUMBER_BYTES, PAGE_PAIRS, PAIR_WORDS, TICKET_BYTES, TICKET_FORM, TICKET_WORDS,
)

_list = function("list", PageStruct, *lent_memory, *lent_memory, TicketStruct, *lent_memory)
_list_linked = function("list_linked", PageStruct, *lent_memory, *lent_memory, *lent_memory,
                        TicketStruct, *lent_memory)


class Relation(IntEnum):
    """Which pairs are listed: those with the descendant inside the ancestor, or only those of them
    with the descendant one level deeper.
    """

    INSIDE = 0
    DIRECTLY = 1


class Order(IntEnum):
    """What a listing is sorted by within a document: the descendant's start and then the
    ancestor's, or the ancestor's and then the descendant's.
    """

    DESCENDANT = 0
    ANCESTOR = 1


def require(what: str, value: Any, wanted: type) -> None:
    """Raises unless a value is of the type wanted. An equal number of another type isn't."""
    if not isinstance(value, wanted):
        raise TypeError(f"{what} must be of the type {wanted.__name__}, not {value!r}")


_STORED = f"<{1 + TICKET_WORDS}I"


@dataclass(frozen=True, init=False)
class Ticket:
    """What is kept between two pages: which pairs are asked for, in which order, and, if it is
    placed, the last pair's sort key.

    Where `placed` is false the ticket is fresh, and the last three numbers say nothing.
    """

    relation: Relation
    order: Order
    placed: bool
    document: int
    first: int
    second: int

    def __init__(self, *, relation: Relation, order: Order, placed: bool = False,
                 document: int = 0, first: int = 0, second: int = 0) -> None:
        require("relation", relation, Relation)
        require("order", order, Order)
        require("placed", placed, bool)
        key = {"document": document, "first": first, "second": second}
        words = {what: word(what, number) for what, number in key.items()}
        vars(self).update(relation=relation, order=order, placed=placed, **words)

    @classmethod
    def fresh(cls, *, relation: Relation = Relation.INSIDE,
              order: Order = Order.DESCENDANT) -> "Ticket":
        """Returns the ticket that a listing starts with."""
        return cls(relation=relation, order=order)

    def to_words(self) -> Tuple[int, ...]:
        """Returns the ticket as its six words."""
        return (int(self.relation), int(self.order), int(self.placed),
                self.document, self.first, self.second)

    @classmethod
    def from_words(cls, words: Sequence[int]) -> "Ticket":
        """Returns the ticket of six words. Any six 32-bit numbers are one: a relation other than 0
        is DIRECTLY, an order other than 0 is ANCESTOR, and `placed` is any number other than 0.
        """
        if len(words) != TICKET_WORDS:
            raise ValueError(f"a ticket has {TICKET_WORDS} words, not {len(words)}")
        relation, order, placed, *key = (word("a ticket's word", number) for number in words)
        return cls(relation=Relation(relation != 0), order=Order(order != 0), placed=placed != 0,
                   document=key[0], first=key[1], second=key[2])

    def to_bytes(self) -> bytes:
        """Returns the ticket as 28 bytes to be stored, little-endian: the form's number, and then
        the six words. C and Rust store the same.
        """
        return struct.pack(_STORED, TICKET_FORM, *self.to_words())

    @classmethod
    def from_bytes(cls, stored: bytes) -> "Ticket":
        """Returns the ticket that `to_bytes` stored."""
        if len(stored) != TICKET_BYTES:
            raise ValueError(f"a stored ticket has {TICKET_BYTES} bytes, not {len(stored)}")
        form, *words = struct.unpack(_STORED, stored)
        if form != TICKET_FORM:
            raise ValueError(f"a ticket of form {TICKET_FORM} was expected, and this is {form}")
        return cls.from_words(words)


def ticket_of(found: TicketStruct) -> Ticket:
    """Returns the ticket of the archive's struct."""
    return Ticket.from_words([getattr(found, field) for field, *_ in TicketStruct._fields_])


@dataclass(frozen=True)
class Page:
    """What a page call wrote: how many pairs, whether these were all that remained, and the ticket
    for the next page.
    """

    count: int
    done: bool
    ticket: Ticket


Turn = Callable[[Ticket, Words], Page]


def refuse_no_room(words: int) -> None:
    """Raises if an output of this many words has room for no pair."""
    if words < PAIR_WORDS:
        raise ValueError(
            f"out must have room for a pair, {PAIR_WORDS} words, not {words}: such a page would "
            "never be the last")


@contextmanager
def _lent_links(links: Optional[Buffer]) -> Iterator[Tuple[Lent, ...]]:
    """Lends the links, if there are any."""
    if links is None:
        yield ()
    else:
        with lent("links", links, LINKS) as forest:
            yield (forest,)


def page(ancestors: Buffer, descendants: Buffer, ticket: Ticket, out: Buffer, *,
         links: Optional[Buffer] = None) -> Page:
    """Writes the next pairs of a listing into `out`, as many as it has room for, eight words each:
    the ancestor's four, then the descendant's.

    The answer's ticket leads to the next page. A refusal is raised and counts for nothing: the
    ticket given is still good. Every page checks both lists anew, and many small pages are slow:
    give room for PAGE_PAIRS pairs.

    The links of the ancestors, as `links` returns them, may be lent too. Zones without samples are
    then passed over together with everything inside them, and the page is the same. The links may
    come from anyone, and are refused with LINKS unless they are exactly those of the ancestors as
    they are now. On every farm that was measured, checking them cost more than it saved.
    """
    require("ticket", ticket, Ticket)
    given = TicketStruct(*ticket.to_words())
    with lent("ancestors", ancestors, NODES) as zones, \
            lent("descendants", descendants, NODES) as samples, \
            _lent_links(links) as forest, \
            lent("out", out, PAIRS, writable=True) as room:
        keep_apart(room, zones, samples, *forest)
        refuse_no_room(room.length)
        read = [number for memory in (zones, samples, *forest)
                for number in (memory.address, memory.length)]
        found = (_list_linked if forest else _list)(*read, given, room.address, room.length)
    settle(verdict_of(found.verdict, two_lists=True))
    return Page(found.count, found.done != 0, ticket_of(found.ticket))


def pairs(ancestors: Buffer, descendants: Buffer, *, relation: Relation = Relation.INSIDE,
          order: Order = Order.DESCENDANT, room: int = PAGE_PAIRS,
          links: Optional[Buffer] = None) -> Iterator[Pair]:
    """Lists all pairs of two lists, one by one. They are fetched in pages of `room` pairs. The
    links of the ancestors may be lent as to `page`. If the ancestors are edited between two pairs,
    write their links anew into the same memory, with `links_into`.

    Between two pairs the lists may be edited, and the next page sees it. When the listing ends,
    every pair that stood in the lists unaltered at each page has been handed out. Each pair handed
    out stood in the lists of its own page, and no two had the same document and the same two
    starts. A node of which a word was changed is another node (docs/SCOPE.md, Listings and
    tickets). A page that is refused raises `Refused` and ends the listing; to go on after a repair,
    call `page` and keep its tickets.
    """
    return turned(lambda ticket, out: page(ancestors, descendants, ticket, out, links=links),
                  Ticket.fresh(relation=relation, order=order), room)


def listing(ancestors: Buffer, descendants: Buffer, *, relation: Relation = Relation.INSIDE,
            order: Order = Order.DESCENDANT, links: Optional[Buffer] = None) -> Words:
    """Returns all pairs of two lists in one array, eight words each, as `page` writes them. The
    links of the ancestors may be lent as to `page`.
    """
    whole, ticket, done = array("I"), Ticket.fresh(relation=relation, order=order), False
    out = page_room(PAGE_PAIRS)
    while not done:
        written = page(ancestors, descendants, ticket, out, links=links)
        whole += out[:PAIR_WORDS * written.count]
        ticket, done = written.ticket, written.done
    return whole


def page_room(room: int) -> Words:
    """Returns an output with room for this many pairs, which must be at least one."""
    if operator.index(room) < 1:
        raise ValueError(f"room must be at least 1, not {room}")
    return array("I", bytes(NUMBER_BYTES * PAIR_WORDS * room))


def turned(turn: Turn, ticket: Ticket, room: int) -> Iterator[Pair]:
    """Lists the pairs of page after page, until one says done. Wrong numbers are told at once."""
    return _turned(turn, ticket, page_room(room))


def _turned(turn: Turn, ticket: Ticket, out: Words) -> Iterator[Pair]:
    done = False
    while not done:
        written = turn(ticket, out)
        ticket, done = written.ticket, written.done
        yield from node_pairs(out[:PAIR_WORDS * written.count])
