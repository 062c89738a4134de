"""The books that the figures are run on. The name of each says what is the matter with it."""
import struct

from scope import ANSWER, MOST_LISTS, book, little, printed, read, write

# The book of the scope's figures: two zones and two samples.
Z = [(5, 2, 10, 2), (5, 3, 7, 3)]
S = [(5, 4, 6, 4), (5, 8, 9, 3)]
FIGURE = book((2, Z), (3, S))
ONE = [(5, 1, 9, 1)]
THREE = [(5, 1, 9, 1), (5, 3, 9, 2), (5, 5, 9, 3)]
GREATEST = 4294967295


def siblings(count, width):
    """Returns nodes of level 1 side by side in document 5, each with its end `width` later."""
    return [(5, start, start + width, 1) for start in range(1, 1 + count * (width + 1), width + 1)]


def by_size(*nodes):
    """Returns nodes of document 5 that are given by order, size and level."""
    return [(5, order, order + size, level) for order, size, level in nodes]


def nest(count):
    return [(5, 1 + i, 10000 - i, 1 + i) for i in range(count)]


def points(count):
    return [(5, 100 + i, 100 + i, 64) for i in range(count)]


def changed(index, column, number):
    """Returns what changes one number of the contents, to another one or by a function."""
    def change(entries):
        made = [list(entry) for entry in entries]
        made[index][column] = number(made[index][column]) if callable(number) else number
        return made
    return change


def with_contents(*change):
    return book((2, Z), (3, S), contents=changed(*change))


def with_node(position, node):
    """Returns the figure's book with one sample in place of another."""
    samples = list(S)
    samples[position] = node
    return book((2, Z), (3, samples))


def with_lists(count):
    """Returns the figure's book with more lists after its two, so that there are `count`."""
    return book((2, Z), (3, S), *[(2 + k, ONE) for k in range(2, count)])


def shared_out(lists, nodes, end=b""):
    """Returns a book of this many lists, with tags from 1 on, and the bytes after its end. The
    nodes are shared out among them: zones side by side in the first list, samples in the others.
    Those of the second list lie in every tenth zone.
    """
    def of_list(k):
        count = nodes // lists + (k < nodes % lists)
        starts = range(k + 1, k + 1 + 30 * count, 30)
        return siblings(count, 2) if k == 0 else [(5, start, start, 2) for start in starts]
    return book(*[(k + 1, of_list(k)) for k in range(lists)], end=end)


def of_full_size(end=b""):
    """Returns a book of 61,440 bytes, and the bytes after its end."""
    empty = [(4 + k, []) for k in range(3)]
    return book((2, siblings(3835, 2)), (3, [(5, 2, 2, 2)]), *empty, end=end)


CASES = {
    "figure": FIGURE,
    "empty-input": b"",
    "no-lists": book(),
    "one-list": book((2, Z)),
    "two-lists-empty": book((2, []), (3, [])),
    "first-list-empty": book((2, []), (3, S)),
    "second-list-empty": book((2, Z), (3, [])),
    "lists-16-empty": shared_out(16, 0),
    "lists-17-empty": shared_out(17, 0),
    "lists-64-empty": shared_out(64, 0),
    "lists-65-empty": shared_out(65, 0),
    "lists-16": with_lists(16),
    "lists-17": with_lists(17),
    "lists-64": with_lists(64),
    "lists-65": with_lists(65),
    "least-and-greatest-tag": book((0, Z), (GREATEST, S)),
    "tags-equal": book((2, Z), (2, S)),
    "tags-falling": book((3, Z), (2, S)),
    "first-offset-one-more": with_contents(0, 1, lambda at: at + 1),
    "second-offset-one-less": with_contents(1, 1, lambda at: at - 1),
    "second-offset-at-contents-end": with_contents(1, 1, 28),
    "count-one-more": with_contents(1, 2, 3),
    "count-greatest": with_contents(1, 2, GREATEST),
    "big-endian": struct.pack(">23I", *struct.unpack("<23I", FIGURE)),
    "byte-after": book((2, Z), (3, S), end=b"\0"),
    "node-after": book((2, Z), (3, S), end=little(5, 9, 9, 4)),
    "last-byte-missing": FIGURE[:-1],
    "contents-cut": FIGURE[:27],
    "three-bytes": FIGURE[:3],
    "count-4096": book((2, siblings(4096, 0))),
    "count-4097": book((2, siblings(4097, 0))),
    "bytes-61440": of_full_size(),
    "bytes-61441": of_full_size(end=b"\0"),
    "lists-64-nodes-3791": shared_out(64, 3791),
    "lists-64-twelve-bytes-after": shared_out(64, 3791, end=bytes(12)),
    "lists-64-thirteen-bytes-after": shared_out(64, 3791, end=bytes(13)),
    "lists-64-nodes-3792": shared_out(64, 3792),
    "lists-61-nodes-3794": shared_out(61, 3794),
    "lists-61-byte-after": shared_out(61, 3794, end=b"\0"),
    "level-0": with_node(1, (5, 8, 9, 0)),
    "level-65": with_node(0, (5, 4, 6, 65)),
    "span": with_node(1, (5, 8, 7, 3)),
    "order": with_node(1, (5, 4, 6, 4)),
    "cross": with_node(1, (5, 6, 9, 5)),
    "depth": with_node(1, (5, 5, 5, 4)),
    "both-faulty": book((2, [(5, 2, 10, 2), (5, 3, 1, 3)]), (3, [(5, 4, 6, 0)])),
    "third-list-faulty": book((2, Z), (3, S), (4, [(5, 1, 2, 1), (5, 3, 4, 1), (5, 3, 4, 1)])),
    "joint": with_node(1, (5, 8, 12, 3)),
    "same-node-in-both": book((2, Z), (3, [Z[1], S[0]])),
    "order-and-size": book((2, by_size((1, 8, 1), (4, 2, 2), (7, 2, 2))),
                           (3, by_size((2, 0, 2), (5, 0, 3), (8, 0, 3)))),
    "equal-ends": book((2, THREE), (3, [(5, 6, 9, 4), (5, 7, 8, 5)])),
    "equal-ends-at-one-level": book((2, THREE), (3, [(5, 6, 9, 3)])),
    "other-document": book((2, Z), (3, [(6, 4, 6, 4)])),
    "greatest-numbers": book((2, [(GREATEST, 4294967290, GREATEST, 1)]),
                             (3, [(GREATEST, 4294967294, 4294967294, 2)])),
    "page-full": book((2, nest(32)), (3, points(128))),
    "page-and-one": book((2, nest(17)), (3, points(241))),
}


def parts(b):
    """Returns the entries that the contents have, as far as they go, and the words after them."""
    lists = struct.unpack_from("<I", b)[0] if len(b) >= 4 else 0
    count = min(lists, MOST_LISTS + 1, max(len(b) // 4 - 1, 0) // 3)
    entries = [struct.unpack_from("<III", b, 4 + 12 * k)[::2] for k in range(count)]
    end = min(4 + 12 * count, len(b))
    words = (len(b) - end) // 4
    return entries, struct.unpack_from(f"<{words}I", b, end)


def report(name, b):
    """Returns what crates/figures_books prints of a book: what opening it answers, where its lists
    lie, what writing its parts anew answers, and what the printing program prints.
    """
    answer, number, index, entries = read(b)
    said = [f"== {name}: {len(b)} bytes",
            f"read {ANSWER[answer]} {answer} list {number} index {index} lists {len(entries)}"]
    said += [f"tag {tag} from {offset} bytes {16 * count}" for tag, offset, count in entries]
    answer, number, index, again = write(*parts(b))
    line = f"written {ANSWER[answer]} {answer} list {number} index {index} bytes {len(again)}"
    if answer == "TAKEN":
        line += (", as read" if again == b else ", not as read") + "; in one byte less 9 ROOM"
    return "\n".join(said + [line]) + "\n" + printed(b)
