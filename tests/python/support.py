"""What the tests share: the scope's figures, random lists, and the naive model of tests/oracles."""
import os
import subprocess
import sys
from array import array
from collections import Counter
from itertools import chain
from pathlib import Path

ROOT = Path(__file__).resolve().parents[2]
PYTHON = ROOT / "bindings" / "python"
sys.path[:0] = [str(PYTHON), str(ROOT / "tests" / "oracles"), str(ROOT / "examples")]

import figure_books  # noqa: E402
import scope as model  # noqa: E402
from belfrychest import NONE, TEXT, Answer, Order, Relation, Ticket, Verdict  # noqa: E402

LISTINGS = [{"relation": relation, "order": order} for relation in Relation for order in Order]
PAINT = 0xA5A5A5A5


def start_python(*arguments, stdout=subprocess.PIPE, **variables):
    """Starts Python with the package on its path, under the emulator if this runs under it."""
    environment = dict(os.environ, PYTHONPATH=str(PYTHON), **variables)
    emulator = os.environ.get("BELFRYCHEST_EMULATOR")
    libraries = environment.pop("LD_LIBRARY_PATH", "") if emulator else ""
    before = [emulator, "-E", f"LD_LIBRARY_PATH={libraries}"] if emulator else []
    command = [*before, sys.executable, *map(str, arguments)]
    return subprocess.Popen(command, stdout=stdout, stderr=subprocess.PIPE, env=environment)


def words(nodes):
    return array("I", chain.from_iterable(nodes))


def in_five(*nodes):
    """Returns the list of nodes of document 5, given as (start, end, level)."""
    return words((5, *node) for node in nodes)


def painted(length):
    return array("I", [PAINT] * length)


def starts(pairs):
    return [(ancestor.start, descendant.start) for ancestor, descendant in pairs]


def ticket(*numbers):
    """Returns the ticket of some words; those that aren't given are 0."""
    return Ticket.from_words(numbers + (0,) * (6 - len(numbers)))


MARKS = array("I", [1, 2, 2, 3, TEXT, 0, 0, 3, 0, 0, 0])
TABLE = words([
    (5, 1, 11, 1, 1), (5, 2, 10, 2, 2), (5, 3, 7, 3, 2), (5, 4, 6, 4, 3), (5, 5, 5, 5, TEXT),
    (5, 8, 9, 3, 3),
])
Z = in_five((2, 10, 2), (3, 7, 3))
S = in_five((4, 6, 4), (8, 9, 3))
E = in_five((1, 9, 1), (2, 6, 2), (4, 6, 3), (5, 6, 4))
T = in_five((3, 3, 3), (6, 6, 5), (9, 9, 2))
ENTRIES = array("I", [2, 2, 3, 2])
# The links of Z.
FOREST = array("I", [NONE, 1, NONE, 0, NONE, NONE])
BOOK = figure_books.FIGURE
INSIDE = Ticket.fresh(relation=Relation.INSIDE, order=Order.DESCENDANT)


# The model of tests/oracles, in the binding's terms.

def key(pair, order):
    return model.key(pair, order.name.lower())


def listing(ancestors, descendants, relation, order):
    return model.listing(ancestors, descendants, relation.name.lower(), order.name.lower())


def in_model(given):
    """Returns a ticket as the model has it."""
    place = (given.document, given.first, given.second) if given.placed else ()
    return given.relation.name.lower(), given.order.name.lower(), place


def two_lists(ancestors, descendants):
    answer, number, index = model.check_two(words(ancestors), words(descendants))
    placed = Answer.LEVEL <= Answer[answer] <= Answer.DEPTH
    return Verdict(Answer[answer], *((number, index) if placed else ()))


# Random marks and lists.

def random_marks(rng, length):
    marks, depth = [rng.randint(1, 3)], 1
    while depth > 0:
        mark = 0 if len(marks) > length else rng.choice((0, 1, 2, 3, 65536))
        marks.append(mark)
        depth += (mark == 0) * -1 + (0 < mark < 65536)
    return marks


def by_order_and_size(table):
    """Returns a table's nodes numbered by order and size: each ends where the last node in it
    starts.
    """
    starts = [row[1] for row in table]
    return [(document, start, max(other for other in starts if start <= other <= end), level)
            for document, start, end, level, _ in table]


def random_tree(rng, length=10, documents=(5, 6)):
    """Returns the nodes of some documents, as (document, start, end, level). Every other document
    is numbered by order and size.
    """
    found = []
    for document in documents:
        table = model.number(document, random_marks(rng, rng.randint(0, length)))[1]
        found += by_order_and_size(table) if rng.random() < 0.5 else [row[:4] for row in table]
    return found


def most_around(zones, samples):
    """Returns the most zones around one sample that end at one position."""
    ends = Counter((sample, zone[2]) for zone in zones for sample in samples
                   if model.inside(sample, zone))
    return max(ends.values(), default=0)


def some_of(rng, nodes):
    return [node for node in nodes if rng.random() < 0.6]


def damaged(rng, nodes):
    """Returns the nodes, half of the time with one number of one node changed."""
    made = [list(node) for node in nodes]
    if made and rng.random() < 0.5:
        other = rng.choice((0, 1, 2, 3, 5, 6, 7, 64, 65, NONE))
        rng.choice(made)[rng.randrange(4)] = other
    return [tuple(node) for node in made]


def tuples(out, count):
    """Returns the first pairs of an output, as two tuples each."""
    ends = range(8, 8 * count + 8, 8)
    return [(tuple(out[end - 8:end - 4]), tuple(out[end - 4:end])) for end in ends]
