"""Belfrychest for Python: every zone with the samples inside it, out of the proved archive.

A list is a buffer of 32-bit words, four for each node: document, start, end, level. Any
C-contiguous memory of such words will do: an array('I'), a memoryview of format 'I', a numpy array
of uint32, a ctypes array of c_uint32. A book is any bytes, such as a bytearray or a mapped file.
The archive reads and writes all of it where it lies, and copies nothing. Memory with more than one
dimension must have the words of one item in its last dimension: a numpy array of nodes has the
shape (n, 4).

`words` turns tuples into such memory. `nodes`, `node_pairs`, `rows`, `node_links` and `subtotals`
read it.
`pairs` lists the pairs of two lists one by one, `listing` returns all of them in one array, and
`page` writes one page. These take lists of at most MOST nodes; `Pieces` takes lists of any length.
All but `Pieces` may be lent the ancestors' `links`, and pass over zones without samples by them.
`check_links` checks links that come from anyone.
`zone_range` returns the low and the high of the lab readings in a zone, and None where it has none.
`sheet` adds up the readings of every zone at once, in whole numbers.
`ask` asks a book several questions in one call.

A refusal of the library is raised as `Refused`, and leaves whatever was lent for writing as it was.
`verdict`, `verdict_two` and `verdict_links` return it instead. So does `ask` for each question, in
its `Reply`. Memory that can't be lent is a TypeError or a ValueError, and so is a number that
doesn't have 32 bits; neither reaches the archive.

What is proved is proved of lists that stay as they are for the length of a call. So no other Python
code runs during a call of the archive; but don't lend memory that is written meanwhile by another
process, or by a read in another thread.
"""
from ._answers import Refused, Verdict, name
from ._books import book_body, book_check, book_lists, book_write, book_write_into, write_book
from ._lists import check, check_links, check_two, faulty, links, links_into
from ._lists import verdict, verdict_links, verdict_two
from ._marks import number, number_into, pick, pick_into, unnumber, unnumber_into
from ._memory import Buffer, Words
from ._nodes import Link, Node, Pair, Row, Subtotal
from ._nodes import node_links, node_pairs, nodes, rows, subtotals, words
from ._pages import Order, Page, Relation, Ticket, listing, page, pairs
from ._pieces import Pieces
from ._questions import Question, Reply, ask
from ._readings import Grams, Percent, Range, Reading, reading_words, zone_range
from ._sheets import sheet, sheet_into
from ._table import CLOSE, HINTS, MOST_HUNDREDTHS, MOST_LEVELS, MOST_LISTS, MOST_QUESTIONS
from ._table import NO_HUNDREDTHS, NONE, PAGE_PAIRS, TEXT
from ._table import MOST_NODES as MOST
from ._table import Answer, __version__

__all__ = [
    "Answer", "Buffer", "CLOSE", "Grams", "HINTS", "Link", "MOST", "MOST_HUNDREDTHS",
    "MOST_LEVELS", "MOST_LISTS", "MOST_QUESTIONS", "NONE", "NO_HUNDREDTHS", "Node", "Order",
    "PAGE_PAIRS", "Page", "Pair", "Percent", "Pieces", "Question", "Range", "Reading", "Refused",
    "Relation", "Reply", "Row", "Subtotal", "TEXT", "Ticket", "Verdict", "Words", "__version__",
    "ask", "book_body", "book_check", "book_lists", "book_write", "book_write_into", "check",
    "check_links", "check_two", "faulty", "links", "links_into", "listing", "name", "node_links",
    "node_pairs", "nodes", "number", "number_into", "page", "pairs", "pick", "pick_into",
    "reading_words", "rows", "sheet", "sheet_into", "subtotals", "unnumber", "unnumber_into",
    "verdict", "verdict_links", "verdict_two", "words", "write_book", "zone_range",
]
