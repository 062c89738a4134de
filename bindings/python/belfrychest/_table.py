"""The version, the limits of the C header, and the answers. Written by bin/tables."""
from enum import IntEnum

__version__ = "6"

MOST_NODES = 4096
MOST_LEVELS = 64
MOST_CONTAINING = 63
MOST_LISTS = 64
MOST_QUESTIONS = 32
PRINTED_BYTES = 61440
PAGE_PAIRS = 4096
NODE_WORDS = 4
PAIR_WORDS = 8
ROW_WORDS = 5
LINK_WORDS = 3
ENTRY_WORDS = 2
READING_WORDS = 2
SUBTOTAL_WORDS = 3
TICKET_WORDS = 6
QUESTION_WORDS = 8
NUMBER_BYTES = 4
CONTENTS_NUMBERS = 3
TICKET_FORM = 1
TICKET_BYTES = 28
NAME_BYTES = 8
CLOSE = 0
TEXT = 65536
MISSING = 0
PERCENT = 1
GRAMS = 2
MOST_PERCENT = 100
MOST_GRAMS = 1000
MOST_HUNDREDTHS = 10000
NO_HUNDREDTHS = 65535
NONE = 4294967295
ANCESTORS = 0
DESCENDANTS = 1
INSIDE = 0
DIRECTLY = 1
DESCENDANT_ORDER = 0
ANCESTOR_ORDER = 1
FRESH = 0
PLACED = 1


class Answer(IntEnum):
    """The answers by number (docs/SCOPE.md, Answer numbers)."""

    TAKEN = 0
    RAGGED = 1
    LONG = 2
    LEVEL = 3
    SPAN = 4
    ORDER = 5
    CROSS = 6
    DEPTH = 7
    JOINT = 8
    ROOM = 9
    MARK = 10
    STRAY = 11
    DEEP = 12
    UNCLOSED = 13
    TABLE = 14
    CONTENTS = 15
    ABSENT = 16
    READING = 17
    LINKS = 18


HINTS = {
    Answer.TAKEN: (
        "Nothing: the call did what it says."
    ),
    Answer.RAGGED: (
        "Give whole nodes of 4 words, rows of 5, entries of 2 or questions of 8. For each sample "
        "give one reading of 2 words, or one word of hundredths for a sheet. A length is cut off, "
        "or counts bytes, nodes or questions instead of words."
    ),
    Answer.LONG: (
        "Join longer lists with Pieces (Python, Rust). Or cut them yourself: check each piece "
        "alone, and every two pieces of a list together. The first node of each piece must come "
        "after the last node of the piece before it, by document and start. Then join every piece "
        "of one list with every piece of the other. One call takes at most 4,096 marks or rows, "
        "and the program a book of at most 61,440 bytes. Spread more than 32 questions over "
        "several calls."
    ),
    Answer.LEVEL: (
        "Give the node a level from 1 to 64."
    ),
    Answer.SPAN: (
        "Let the node end where it starts, or later: start and end are swapped, or one of them is "
        "wrong."
    ),
    Answer.ORDER: (
        "Sort the list by document and start, and let no two nodes have the same document and "
        "start."
    ),
    Answer.CROSS: (
        "Let the node end no later than that earlier node ends, or start after it ends."
    ),
    Answer.DEPTH: (
        "Give the node a higher level than every node that it is inside, by one or by more."
    ),
    Answer.JOINT: (
        "Find the two nodes, one of each list, that overlap. Make them identical or apart, or put "
        "one inside the other and give the inner one the higher level."
    ),
    Answer.ROOM: (
        "Give a longer output; nothing was written."
    ),
    Answer.MARK: (
        "Give marks from 0, a close, to 65,536, a text; the numbers between are tags."
    ),
    Answer.STRAY: (
        "Let the first mark open the root, and let no mark follow the one that closes it."
    ),
    Answer.DEEP: (
        "Nest elements and texts at most 64 levels deep."
    ),
    Answer.UNCLOSED: (
        "Close every element that is opened; there must be a root."
    ),
    Answer.TABLE: (
        "Give the whole table of one document as numbering wrote it: a row is missing, altered or "
        "out of place."
    ),
    Answer.CONTENTS: (
        "Write the book again: it is no book, or cut off, or damaged. In writing, let each tag be "
        "above the one before it, and the counts add up to the nodes. There are at most 64 lists "
        "of at most 4,096 nodes."
    ),
    Answer.ABSENT: (
        "Ask for a tag that the book has, or for the index of a zone, counted from 0. The program "
        "needs a book with at least two lists."
    ),
    Answer.READING: (
        "Repair the reading of the sample at that index. Give a percentage from 0 to 100, grams "
        "per kilogram from 0 to 1,000, or a missing one, whose bits are 0. For a sheet, give "
        "hundredths of a percent from 0 to 10,000, or 65,535 for a missing one. Never give 0 for "
        "a sample that the lab didn't read."
    ),
    Answer.LINKS: (
        "Write the links of that list anew: these are of another list, are older than its last "
        "edit, or are cut off. A page call without links gives the same page."
    ),
}
