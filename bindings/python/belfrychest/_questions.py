"""Several questions to one book in one call."""
from array import array
from dataclasses import dataclass
from itertools import islice
from typing import Iterable, Iterator, List, Optional, Union

from ._answers import Verdict, settle, verdict_of
from ._archive import PagesStruct, VerdictStruct, function, lent_memory
from ._memory import BYTES, PAIRS, QUESTIONS, Buffer, Words, in_order, lent, memory_of, word
from ._nodes import Pair, node_pairs
from ._pages import Ticket, page_room, require, ticket_of
from ._table import PAGE_PAIRS, Answer

_ask = function("ask", PagesStruct, *lent_memory, *lent_memory, *lent_memory)


@dataclass(frozen=True)
class Question:
    """A question to a book: the tag of the list of ancestors, that of the list of descendants, and
    a ticket, which is a fresh one unless another is given.
    """

    ancestors: int
    descendants: int
    ticket: Ticket = Ticket.fresh()

    def __post_init__(self) -> None:
        require("ticket", self.ticket, Ticket)
        vars(self).update(ancestors=word("ancestors", self.ancestors),
                          descendants=word("descendants", self.descendants))


@dataclass(frozen=True)
class Reply:
    """What a question is answered: the verdict on it, its pairs, whether these were all that
    remained, and the ticket to ask with next.

    A question that is refused has None for its pairs, not an empty list. It isn't done, and its
    ticket is the one that it was asked with.
    """

    verdict: Verdict
    pairs: Optional[List[Pair]]
    done: bool
    ticket: Ticket


def _words(questions: Iterable[Question]) -> Words:
    """Returns the words of questions, eight for each: both tags, and the six of the ticket."""
    out = array("I")
    for index, asked in enumerate(in_order("questions", questions, "Question", "an order")):
        require(f"question {index}", asked, Question)
        out.extend((asked.ancestors, asked.descendants, *asked.ticket.to_words()))
    return out


def ask(book: Buffer, questions: Union[Buffer, Iterable[Question]], *,
        room: int = PAGE_PAIRS) -> List[Reply]:
    """Asks a book several questions in one call, at most MOST_QUESTIONS, and returns a `Reply` for
    each, in their order.

    There is room for `room` pairs. Each question in turn has all the room that those before it left
    over. With that room it is answered as `page` answers for the two lists of the book.

    A question that is refused takes no room and doesn't stop the others. Its reply has the verdict:
    the book's own fault, whichever list it is in, then ABSENT for a tag that the book lacks, then
    JOINT. A refusal of the whole call is raised: LONG for too many questions. Memory of
    words can be lent for the questions too, eight for each. It is refused with RAGGED where a word
    is left over.

    To go on, ask with the tickets of the replies, until each is done or refused. The book may be
    edited in between: what `pairs` says of edited lists is true of each question.

    This call takes more than 128 KiB of stack. `belfrychest.h` says how much a thread needs for it.
    """
    out = page_room(room)
    with lent("book", book, BYTES) as given, \
            lent("questions", memory_of(questions, _words), QUESTIONS) as asked, \
            lent("out", out, PAIRS, writable=True) as written:
        found = _ask(given.address, given.length, asked.address, asked.length, written.address,
                     written.length)
    settle(verdict_of(VerdictStruct(found.answer)))
    return list(_replies(found, node_pairs(out)))


def _replies(found: PagesStruct, pairs: Iterator[Pair]) -> Iterator[Reply]:
    """Yields a reply for each page. Their pairs come one page after the other."""
    for page in found.pages[:found.questions]:
        verdict = verdict_of(page.verdict)
        taken = verdict.answer == Answer.TAKEN
        handed_out = list(islice(pairs, page.count)) if taken else None
        yield Reply(verdict, handed_out, page.done != 0, ticket_of(page.ticket))
