"""A naive model of docs/SCOPE.md, which works out what each call and the program must answer.

It calls nothing of the library. A node is a tuple of document, start, end and level, and a table's
row has the tag as a fifth number. Answers go by their names. Every pair of nodes that isn't apart
is looked at. The one shortcut is `walk`, which leaves out the nodes that ended earlier.
"""
import struct

NAMES = """
    TAKEN RAGGED LONG LEVEL SPAN ORDER CROSS DEPTH JOINT ROOM MARK STRAY DEEP UNCLOSED TABLE
    CONTENTS ABSENT READING LINKS
""".split()
ANSWER = {name: number for number, name in enumerate(NAMES)}
MOST = 4096
MOST_LEVEL = 64
MOST_LISTS = 64
MOST_QUESTIONS = 32
MOST_INPUT = 61440
TEXT = 65536
NONE = 4294967295


# Nodes and lists.

def inside(y, x):
    return y[0] == x[0] and x[1] < y[1] and y[2] <= x[2]


def directly(y, x):
    return inside(y, x) and y[3] == x[3] + 1


RELATIONS = {"inside": inside, "directly": directly}


def cut(words, size):
    """Returns the words as tuples of this size. A rest is left out."""
    return [tuple(words[at:at + size]) for at in range(0, len(words) // size * size, size)]


def flat(parts):
    """Returns the words of some nodes, rows or links, one after the other."""
    return [word for part in parts for word in part]


def walk(nodes):
    """Yields each node with the earlier ones of its document that don't end before its start.

    The nodes must ascend by document and start, up to the last one that is asked for. So a node
    that ended earlier is apart from all that follow, and is left out from then on.
    """
    earlier = []
    for node in nodes:
        earlier = [e for e in earlier if e[0] == node[0] and e[2] >= node[1]]
        yield node, earlier
        earlier = earlier + [node]


def fault(before, node, earlier):
    """Returns what is wrong with a node, by the node before it and by those that `walk` yields."""
    document, start, end, level = node
    if not 1 <= level <= MOST_LEVEL:
        return "LEVEL"
    if end < start:
        return "SPAN"
    if before is not None and (document, start) <= before[:2]:
        return "ORDER"
    if any(not inside(node, e) for e in earlier):
        return "CROSS"
    if any(inside(node, e) and e[3] >= level for e in earlier):
        return "DEPTH"
    return "TAKEN"


def check_list(nodes):
    """Returns the answer and the index of the first faulty node."""
    before = None
    for index, (node, earlier) in enumerate(walk(nodes)):
        answer = fault(before, node, earlier)
        if answer != "TAKEN":
            return answer, index
        before = node
    return "TAKEN", 0


def check_words(words, size):
    """Returns RAGGED or LONG, or TAKEN where the words make whole parts and not too many."""
    if len(words) % size != 0:
        return "RAGGED"
    return "LONG" if len(words) // size > MOST else "TAKEN"


def odds(x, y):
    """Tells whether two nodes, one of either list, are at odds."""
    def nested(inner, outer):
        return inside(inner, outer) and inner[3] > outer[3]

    apart = x[0] != y[0] or x[2] < y[1] or y[2] < x[1]
    return not (apart or x == y or nested(x, y) or nested(y, x))


def at_odds(ancestors, descendants):
    """Tells whether two accepted lists are JOINT. Two nodes of one list are never at odds."""
    both = sorted(ancestors + descendants)
    return any(odds(e, node) for node, earlier in walk(both) for e in earlier)


def check_two(*lists):
    """Returns the answer, the list and the index for two lists of words."""
    for number, words in enumerate(lists):
        answer, index = check_words(words, 4), 0
        if answer == "TAKEN":
            answer, index = check_list(cut(words, 4))
        if answer != "TAKEN":
            return answer, number, index
    return "JOINT" if at_odds(*(cut(words, 4) for words in lists)) else "TAKEN", 0, 0


# Lab readings: a kind and the bits of a 32-bit float. Python's floats have twice the bits. Its
# quotient of two 32-bit floats, rounded once more to 32 bits, is the nearest 32-bit float.

MISSING, PERCENT, GRAMS = 0, 1, 2
MOST_VALUE = {PERCENT: 100.0, GRAMS: 1000.0}


def as_float(number):
    """Returns the nearest 32-bit float."""
    return struct.unpack("<f", struct.pack("<f", number))[0]


def float_of(bits):
    return struct.unpack("<f", struct.pack("<I", bits))[0]


def bits_of(number):
    return struct.unpack("<I", struct.pack("<f", number))[0]


def is_reading(kind, bits):
    """Tells whether two words are a reading. No comparison with what isn't a number holds."""
    if kind == MISSING:
        return bits == 0
    return kind in MOST_VALUE and 0.0 <= float_of(bits) <= MOST_VALUE[kind]


def in_percent(kind, bits):
    return as_float(float_of(bits) / 10.0) if kind == GRAMS else float_of(bits)


def zone_range(zones, samples, readings, zone):
    """Returns the answer, the list, the index, and the low and the high as bits; () of none."""
    verdict = check_two(zones, samples)
    if verdict[0] != "TAKEN":
        return *verdict, ()
    nodes, outer = cut(samples, 4), cut(zones, 4)
    if len(readings) != 2 * len(nodes):
        return "RAGGED", 0, 0, ()
    pairs = cut(readings, 2)
    faulty = [index for index, pair in enumerate(pairs) if not is_reading(*pair)]
    if faulty:
        return "READING", 0, faulty[0], ()
    if zone >= len(outer):
        return "ABSENT", 0, 0, ()
    values = [in_percent(*pair) for node, pair in zip(nodes, pairs)
              if inside(node, outer[zone]) and pair[0] != MISSING]
    # Of equal values Python's min and max return the first.
    found = tuple(map(bits_of, (min(values), max(values)))) if values else ()
    return "TAKEN", 0, 0, found


# The zone sheet: a word a sample, and three words a zone.

MOST_HUNDREDTHS, NO_HUNDREDTHS = 10000, 65535


def subtotal(words):
    """Returns how many samples have these words, how many are present, and the sum of those."""
    present = [word for word in words if word != NO_HUNDREDTHS]
    return len(words), len(present), sum(present)


def sheet(zones, samples, hundredths):
    """Returns the answer, the list, the index, and the subtotals; none of a refused sheet."""
    verdict = check_two(zones, samples)
    if verdict[0] != "TAKEN":
        return *verdict, []
    nodes = cut(samples, 4)
    if len(hundredths) != len(nodes):
        return "RAGGED", 0, 0, []
    faulty = [index for index, word in enumerate(hundredths)
              if word > MOST_HUNDREDTHS and word != NO_HUNDREDTHS]
    if faulty:
        return "READING", 0, faulty[0], []
    rows = [subtotal([word for node, word in zip(nodes, hundredths) if inside(node, zone)])
            for zone in cut(zones, 4)]
    return "TAKEN", 0, 0, rows


# Listings and tickets. A ticket is (relation, order, place), and a fresh place is ().

def key(pair, order):
    ancestor, descendant = pair
    starts = (ancestor[1], descendant[1])
    return (ancestor[0], *(starts if order == "ancestor" else starts[::-1]))


def listing(ancestors, descendants, relation, order):
    """Returns all pairs of two accepted lists, in this order."""
    zones, samples = set(ancestors), set(descendants)
    pairs = [(x, y) for y, earlier in walk(sorted(zones | samples)) if y in samples
             for x in earlier if x in zones and RELATIONS[relation](y, x)]
    return sorted(pairs, key=lambda pair: key(pair, order))


def remaining(pairs, order, place):
    return [pair for pair in pairs if key(pair, order) > place]


def page(pairs, ticket, room):
    """Returns the pairs of a page, whether it is done, and the new ticket."""
    relation, order, place = ticket
    left = remaining(pairs, order, place)
    written = left[:room]
    place = key(written[-1], order) if written else place
    return written, len(written) == len(left), (relation, order, place)


# Marks and tables.

def mark_fault(mark, begun, depth):
    """Returns what is wrong with a mark at this depth, or None."""
    if mark > TEXT:
        return "MARK"
    if depth == 0 and (mark in (0, TEXT) or begun):
        return "STRAY"
    return "DEEP" if mark > 0 and depth == MOST_LEVEL else None


def number(document, marks):
    """Returns the answer and the table's rows."""
    if len(marks) > MOST:
        return "LONG", []
    rows, opened = [], []
    for position, mark in enumerate(marks, 1):
        wrong = mark_fault(mark, bool(rows), len(opened))
        if wrong:
            return wrong, []
        if mark == 0:
            rows[opened.pop()][2] = position
            continue
        rows.append([document, position, position, len(opened) + 1, mark])
        if mark != TEXT:
            opened.append(len(rows) - 1)
    return ("UNCLOSED", []) if opened or not rows else ("TAKEN", [tuple(row) for row in rows])


def unnumber(rows):
    """Returns the answer and the marks. It tries the only marks that could have this table."""
    length = rows[0][2] if rows else 0
    if length > MOST or any(not 1 <= row[1] <= length for row in rows):
        return "TABLE", []
    marks = [0] * length
    for row in rows:
        marks[row[1] - 1] = row[4]
    same = number(rows[0][0] if rows else 0, marks) == ("TAKEN", rows)
    return ("TAKEN", marks) if same else ("TABLE", [])


# The containment forest.

def parent_index(nodes, index):
    around = [i for i, node in enumerate(nodes) if inside(nodes[index], node)]
    return max(around, key=lambda i: nodes[i][1], default=NONE)


def links(nodes):
    """Returns the index of the parent, the first child and the next sibling of each node."""
    everyone = range(len(nodes))
    parents = [parent_index(nodes, i) for i in everyone]

    def is_sibling(i, j):
        return j > i and parents[j] == parents[i] and nodes[j][0] == nodes[i][0]

    return [(parents[i], min((j for j in everyone if parents[j] == i), default=NONE),
             min((j for j in everyone if is_sibling(i, j)), default=NONE)) for i in everyone]


def check_links(words, given):
    """Returns the answer, the list and the index for a list of words and words lent as links."""
    answer, index = check_words(words, 4), 0
    if answer == "TAKEN":
        answer, index = check_list(cut(words, 4))
    if answer == "TAKEN" and list(given) != flat(links(cut(words, 4))):
        answer = "LINKS"
    return answer, 0, index


def linked_page(ancestors, descendants, given, ticket, room):
    """Returns the answer, the list and the index of a page call that is lent links, and its page:
    the plain one, or that of a refusal.
    """
    verdict = check_two(ancestors, descendants)
    if verdict[0] == "TAKEN":
        verdict = check_links(ancestors, given)
    if verdict[0] != "TAKEN":
        return *verdict, ([], False, ticket)
    pairs = listing(cut(ancestors, 4), cut(descendants, 4), *ticket[:2])
    return *verdict, page(pairs, ticket, room)


# The field book, and what the program prints of it.

def little(*numbers):
    return b"".join(struct.pack("<I", number) for number in numbers)


def book(*lists, contents=None, end=b""):
    """Returns the book of (tag, nodes) lists. Other contents, or bytes after its end, damage it."""
    entries, offset = [], 4 + 12 * len(lists)
    for tag, nodes in lists:
        entries.append((tag, offset, len(nodes)))
        offset += 16 * len(nodes)
    if contents is not None:
        entries = contents(entries)
    bodies = [little(*node) for _, nodes in lists for node in nodes]
    return b"".join([little(len(lists)), *(little(*entry) for entry in entries), *bodies, end])


def contents_of(b):
    """Returns the (tag, offset, count) entries, or None where the contents break a rule."""
    lists = struct.unpack_from("<I", b)[0] if len(b) >= 4 else MOST_LISTS + 1
    offset = 4 + 12 * lists
    if lists > MOST_LISTS or len(b) < offset:
        return None
    entries = [struct.unpack_from("<III", b, 4 + 12 * k) for k in range(lists)]
    for k, (tag, at, count) in enumerate(entries):
        if at != offset or count > MOST or (k > 0 and tag <= entries[k - 1][0]):
            return None
        offset += 16 * count
    return entries if offset == len(b) else None


def nodes_of(b, entry):
    return [struct.unpack_from("<IIII", b, entry[1] + 16 * i) for i in range(entry[2])]


def check_bodies(bodies):
    """Returns the answer, the list and the index of the first faulty body."""
    for number_, nodes in enumerate(bodies):
        answer, index = check_list(nodes)
        if answer != "TAKEN":
            return answer, number_, index
    return "TAKEN", 0, 0


def read(b):
    """Returns the answer, the list, the index, and the entries; none of a refused book."""
    entries = contents_of(b)
    if entries is None:
        return "CONTENTS", 0, 0, []
    verdict = check_bodies([nodes_of(b, entry) for entry in entries])
    return *verdict, entries if verdict[0] == "TAKEN" else []


def write(entries, words):
    """Returns the answer, the list, the index, and the book of (tag, count) entries and nodes."""
    if len(words) % 4 != 0:
        return "RAGGED", 0, 0, b""
    tags, counts = [tag for tag, _ in entries], [count for _, count in entries]
    ascending = all(tag < after for tag, after in zip(tags, tags[1:]))
    if len(entries) > MOST_LISTS or not ascending or any(count > MOST for count in counts) \
            or sum(counts) != len(words) // 4:
        return "CONTENTS", 0, 0, b""
    nodes = cut(words, 4)
    bodies = [nodes[sum(counts[:k]):sum(counts[:k + 1])] for k in range(len(counts))]
    verdict = check_bodies(bodies)
    return *verdict, book(*zip(tags, bodies)) if verdict[0] == "TAKEN" else b""


# Several questions to one book. A question is the tag of the ancestors, that of the descendants and
# a ticket.

def reply(b, question, room):
    """Returns the answer, the list, the index, the pairs, whether it is done, and the ticket."""
    ancestors, descendants, ticket = question
    *verdict, entries = read(b)
    lists = {entry[0]: nodes_of(b, entry) for entry in entries}
    if verdict[0] == "TAKEN" and not {ancestors, descendants} <= set(lists):
        verdict = "ABSENT", 0, 0
    if verdict[0] == "TAKEN" and at_odds(lists[ancestors], lists[descendants]):
        verdict = "JOINT", 0, 0
    if verdict[0] != "TAKEN":
        return *verdict, [], False, ticket
    return *verdict, *page(listing(lists[ancestors], lists[descendants], *ticket[:2]), ticket, room)


def ask(b, questions, room):
    """Returns the answer of the whole call and the replies, each with the room that is left."""
    if len(questions) > MOST_QUESTIONS:
        return "LONG", []
    replies = []
    for question in questions:
        replies.append(reply(b, question, room))
        room -= len(replies[-1][3])
    return "TAKEN", replies


def refused(name):
    return f"refused {ANSWER[name]} {name}\n"


def pair_lines(pairs):
    """Returns the lines of all pairs and of their number."""
    lines = [f"{x[0]} {x[1]} {y[1]}\n" for x, y in pairs]
    return "".join(lines) + f"pairs {len(pairs)}\n"


def printed(b):
    """Returns what the program prints, whole."""
    if len(b) > MOST_INPUT:
        return refused("LONG")
    answer, _, _, entries = read(b)
    if answer != "TAKEN":
        return refused(answer)
    if len(entries) < 2:
        return refused("ABSENT")
    zones, samples = nodes_of(b, entries[0]), nodes_of(b, entries[1])
    if at_odds(zones, samples):
        return refused("JOINT")
    return pair_lines(listing(zones, samples, "inside", "descendant"))
