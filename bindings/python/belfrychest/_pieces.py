"""Two lists of any length, cut into pieces that the archive takes.

It is proved of the whole lists (crates/demands/proofs/Pieces.antt):

- A list draws none of the answers 3 to 7 exactly when three things hold. Each piece is accepted.
  The first node of each piece comes after the last node of the piece before it. The check of two
  takes every two pieces. Two lists draw none of 3 to 8 exactly when this holds for both, and the
  check of two takes every ancestor piece with every descendant piece.
- The pairs of two lists are those of every ancestor piece with every descendant piece.
- Two pieces without a common document pass the check of two, and have no pair.

So this rule says whether lists are refused, and which pairs they have. Which answer and which index
a refusal gives isn't proved. The archive is asked for them too, with fewer nodes. The tests hold
them against its answers for short lists that aren't cut.
"""
from array import array
from bisect import bisect_left, bisect_right
from contextlib import contextmanager
from heapq import merge
from itertools import chain, islice
from operator import itemgetter
from struct import iter_unpack
from typing import Iterable, Iterator, List, Optional, Tuple

from . import _lists, _pages
from ._answers import Verdict, settle
from ._memory import NODES, PAIRS, Buffer, Words, keep_apart, lent, part
from ._nodes import Pair
from ._pages import Order, Page, Relation, Ticket
from ._table import MOST_NODES, NODE_WORDS, NUMBER_BYTES, PAGE_PAIRS, PAIR_WORDS, Answer

Meeting = Tuple[memoryview, memoryview]  # an ancestor piece and a descendant piece
Numbers = Tuple[int, ...]  # the words of a pair

_ANCESTOR_START, _DESCENDANT_START = 1, NODE_WORDS + 1
_KEYS = {
    Order.DESCENDANT: itemgetter(0, _DESCENDANT_START, _ANCESTOR_START),
    Order.ANCESTOR: itemgetter(0, _ANCESTOR_START, _DESCENDANT_START),
}
_EVERYTHING = Ticket.fresh(order=Order.ANCESTOR)  # leaves out no piece


def _taken(verdict: Verdict) -> bool:
    return verdict.answer == Answer.TAKEN


def _joined(*parts: memoryview) -> Words:
    """Returns the words of some parts in one list."""
    return array("I", b"".join(parts))


class _Cut:
    """A list as pieces of at most `size` nodes, each a part of the caller's own memory; and the
    documents of each piece's first and last node.
    """

    def __init__(self, words: memoryview, size: int) -> None:
        whole, step = len(words) - len(words) % NODE_WORDS, NODE_WORDS * size
        self.size = size
        self.words = words
        self.rest = words[whole:]
        self.pieces = [words[at:min(at + step, whole)] for at in range(0, whole, step)]
        self.firsts = [piece[0] for piece in self.pieces]
        self.lasts = [piece[-NODE_WORDS] for piece in self.pieces]

    def verdict(self, number: int) -> Verdict:
        """Returns the verdict on the whole list, which is list `number` of two."""
        if not _taken(_lists.verdict(self.rest)):
            return Verdict(Answer.RAGGED, number)
        index = self.first_fault()
        return Verdict(Answer.TAKEN) if index is None else Verdict(self.fault(index), number, index)

    def first_fault(self) -> Optional[int]:
        """Returns the index of the first faulty node, or None if there is none."""
        for number, piece in enumerate(self.pieces):
            sound = self.sound(number)
            if NODE_WORDS * sound < len(piece):
                return self.size * number + sound
        return None

    def sound(self, number: int) -> int:
        """Returns how many nodes of a piece come before its first faulty one. The pieces before it
        have no faulty node, so their documents ascend, and those that end in an earlier document
        than this one starts in can't meet it.
        """
        piece = self.pieces[number]
        own = _lists.verdict(piece).index
        sound = len(piece) // NODE_WORDS if own is None else own
        if number > 0:
            border = _joined(self.pieces[number - 1][-NODE_WORDS:], piece[:NODE_WORDS])
            sound = sound if _taken(_lists.verdict(border)) else 0
        meeting = bisect_left(self.lasts, self.firsts[number], 0, number)
        for earlier in self.pieces[meeting:number]:
            sound = _sound_after(earlier, piece[:NODE_WORDS * sound])
        return sound

    def fault(self, index: int) -> Answer:
        """Returns the answer for the list's first faulty node. Each part of the nodes before it is
        checked with this node after it, and the lowest answer counts, since 3 to 7 are tried in
        this order. A part is half a piece, which leaves room for the node.
        """
        end, step = NODE_WORDS * index, NODE_WORDS * ((self.size + 1) // 2)
        node = self.words[end:end + NODE_WORDS]
        parts = (self.words[at:min(at + step, end)] for at in range(0, max(end, 1), step))
        found = (_lists.verdict(_joined(before, node)) for before in parts)
        return min(verdict.answer for verdict in found if not _taken(verdict))

    def meeting(self, number: int, other: "_Cut") -> List[memoryview]:
        """Returns the pieces of another list that can have a document in common with piece
        `number`. Neither list has a faulty node, so their documents ascend.
        """
        start = bisect_left(other.lasts, self.firsts[number])
        return other.pieces[start:bisect_right(other.firsts, self.lasts[number])]


def _sound_after(earlier: memoryview, later: memoryview) -> int:
    """Returns how many nodes of the later piece come before the first that is at odds with the
    earlier piece. They are the most, from the piece's start, that the check of two takes.
    """
    sound, most = 0, len(later) // NODE_WORDS
    asked = most
    while sound < most:
        if _taken(_lists.verdict_two(earlier, later[:NODE_WORDS * asked])):
            sound = asked
        else:
            most = asked - 1
        asked = (sound + most + 1) // 2
    return sound


@contextmanager
def _cut(what: str, buffer: Buffer, size: int) -> Iterator[_Cut]:
    """Cuts a list. Its owner can't resize it while a piece is kept."""
    with lent(what, buffer, NODES) as given:
        yield _Cut(part(buffer, 0, NUMBER_BYTES * given.length), size)


def _groups(ancestors: _Cut, descendants: _Cut, ticket: Ticket) -> Iterator[List[Meeting]]:
    """Groups the pieces that meet. A group has one leading piece, of the descendants in descendant
    order and of the ancestors in ancestor order. So all pairs of a group come before those of the
    next. Leading pieces that the ticket has passed are left out.
    """
    leads = ticket.order == Order.ANCESTOR
    leading, other = (ancestors, descendants) if leads else (descendants, ancestors)
    for number, piece in enumerate(leading.pieces):
        if not _is_passed(piece, ticket):
            found = leading.meeting(number, other)
            yield [(piece, met) if leads else (met, piece) for met in found]


def _is_passed(leading: memoryview, ticket: Ticket) -> bool:
    """Tells whether all pairs that a leading piece can have come before the ticket's place."""
    document, start, *_ = leading[-NODE_WORDS:]
    return ticket.placed and (document, start) < (ticket.document, ticket.first)


def _merged(pages: Iterable[Words], order: Order) -> Iterable[Numbers]:
    """Returns the pairs of several sorted pages, sorted."""
    return merge(*(iter_unpack(f"={PAIR_WORDS}I", page) for page in pages), key=_KEYS[order])


def _next_of(group: List[Meeting], ticket: Ticket, room: int) -> Tuple[List[Numbers], bool]:
    """Returns a group's next pairs, as many as there is room for, and whether none remains. If
    there is no room, a page of one pair tells whether any remains.
    """
    pages, done = [], True
    for zones, samples in group:
        out = _pages.page_room(max(room, 1))
        written = _pages.page(zones, samples, ticket, out)
        pages.append(out[:PAIR_WORDS * written.count])
        done = done and written.done
    count = sum(map(len, pages)) // PAIR_WORDS
    return list(islice(_merged(pages, ticket.order), room)), done and count <= room


class Pieces:
    """Two lists of any number of nodes, joined as the library would do it if it had no limit.

    The lists stay the caller's own, and may be edited or resized between two calls or two pages.
    Each call cuts them anew, every MOST nodes, without a copy. Don't edit them in another thread
    while a call runs: it calls the archive many times, and other threads run in between.

    Every two pieces with a common document are checked together. So a check takes long if one
    document has many pieces, and not if there are many documents. Each page costs such a check, and
    a call for each two pieces that meet, from the ticket's place on until the page is full;
    `listing` checks once.
    """

    def __init__(self, ancestors: Buffer, descendants: Buffer, *, _size: int = MOST_NODES) -> None:
        self.ancestors = ancestors
        self.descendants = descendants
        self._size = _size

    @contextmanager
    def _both(self) -> Iterator[Tuple[_Cut, _Cut]]:
        with _cut("ancestors", self.ancestors, self._size) as ancestors, \
                _cut("descendants", self.descendants, self._size) as descendants:
            yield ancestors, descendants

    def verdict(self) -> Verdict:
        """Returns what `verdict_two` would return for these lists. It is never LONG, and the index
        is that in the whole list.
        """
        with self._both() as (ancestors, descendants):
            for number, cut in enumerate((ancestors, descendants)):
                found = cut.verdict(number)
                if not _taken(found):
                    return found
            meeting = chain.from_iterable(_groups(ancestors, descendants, _EVERYTHING))
            verdicts = (_lists.verdict_two(zones, samples) for zones, samples in meeting)
            refused = (found for found in verdicts if not _taken(found))
            return next(refused, Verdict(Answer.TAKEN))

    def check(self) -> None:
        """Raises `Refused` unless the two lists can be joined."""
        settle(self.verdict())

    def page(self, ticket: Ticket, out: Buffer) -> Page:
        """Writes the next pairs into `out`, as the function `page` does, by the same tickets."""
        _pages.require("ticket", ticket, Ticket)
        with lent("ancestors", self.ancestors, NODES) as zones, \
                lent("descendants", self.descendants, NODES) as samples, \
                lent("out", out, PAIRS, writable=True) as room:
            keep_apart(room, zones, samples)
            _pages.refuse_no_room(room.length)
        self.check()
        pairs, done = self._next(ticket, room.length // PAIR_WORDS)
        words = array("I", chain.from_iterable(pairs))
        with part(out, 0, NUMBER_BYTES * len(words)) as written:
            written[:] = memoryview(words)
        if pairs:
            document, first, second = _KEYS[ticket.order](pairs[-1])
            ticket = Ticket(relation=ticket.relation, order=ticket.order, placed=True,
                            document=document, first=first, second=second)
        return Page(len(pairs), done, ticket)

    def _next(self, ticket: Ticket, room: int) -> Tuple[List[Numbers], bool]:
        """Returns the next pairs of two lists that were checked, and whether none remains."""
        pairs: List[Numbers] = []
        with self._both() as (ancestors, descendants):
            for group in _groups(ancestors, descendants, ticket):
                found, done = _next_of(group, ticket, room - len(pairs))
                pairs += found
                if not done:
                    return pairs, False
        return pairs, True

    def pairs(self, *, relation: Relation = Relation.INSIDE, order: Order = Order.DESCENDANT,
              room: int = PAGE_PAIRS) -> Iterator[Pair]:
        """Lists all pairs one by one, as the function `pairs` does. Each page of `room` pairs costs
        a check of both lists, which may be edited in between. Where they aren't, and all pairs fit
        into memory, `node_pairs(pieces.listing())` checks once and is quicker.
        """
        return _pages.turned(self.page, Ticket.fresh(relation=relation, order=order), room)

    def listing(self, *, relation: Relation = Relation.INSIDE,
                order: Order = Order.DESCENDANT) -> Words:
        """Returns all pairs in one array, as the function `listing` does. It checks the lists once,
        and so is the quickest way to all pairs.
        """
        asked, out = Ticket.fresh(relation=relation, order=order), array("I")
        self.check()
        with self._both() as (ancestors, descendants):
            for group in _groups(ancestors, descendants, asked):
                pages = [_pages.listing(*two, relation=relation, order=order) for two in group]
                out.extend(chain.from_iterable(_merged(pages, order)))
        return out

    def meeting(self) -> List[Meeting]:
        """Checks both lists, and returns every ancestor piece with every descendant piece that it
        can have a pair with, as parts of the caller's own memory.

        Together these have all pairs of the lists, each pair once. Each can be listed by itself, in
        any order, in several processes or on several machines. All their pairs, sorted by document
        and then by the starts in the order wanted, are the whole listing.
        """
        self.check()
        with self._both() as (ancestors, descendants):
            groups = _groups(ancestors, descendants, _EVERYTHING)
            return list(chain.from_iterable(groups))
