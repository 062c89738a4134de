"""Memory of every kind, where it lies, and everything that can't be lent."""
import ctypes
import struct
import tracemalloc
import unittest
from array import array
from mmap import mmap
from types import SimpleNamespace

from support import (
    BOOK, ENTRIES, FOREST, INSIDE, MARKS, PAINT, S, TABLE, Z, figure_books, in_five, painted,
    starts, words,
)

import belfrychest as belfry
from belfrychest import NONE, Page, Question, Refused
from belfrychest import _archive, _memory

try:
    import numpy
except ImportError:
    numpy = None


def mapped(numbers):
    """Returns the numbers in a mapped file without a name."""
    file = mmap(-1, 4096)
    file[:4 * len(numbers)] = array("I", numbers).tobytes()
    return memoryview(file)[:4 * len(numbers)].cast("I")


def shaped(numbers, *last):
    """Returns the numbers with a last dimension, or several."""
    held = bytearray(array("I", numbers).tobytes())
    items = len(numbers)
    for dimension in last:
        items //= dimension
    return memoryview(held).cast("I", shape=[items, *last])


def in_rows(numbers):
    """Returns empty memory with `numbers` numbers a row."""
    return ((ctypes.c_uint32 * numbers) * 0)()


KINDS = {
    "array": lambda numbers: array("I", numbers),
    "view of an array": lambda numbers: memoryview(array("I", numbers)),
    "part of an array": lambda numbers: memoryview(array("I", [9, *numbers, 9]))[1:-1],
    "read-only view": lambda numbers: memoryview(array("I", numbers)).toreadonly(),
    "read-only bytes": lambda numbers: memoryview(array("I", numbers).tobytes()).cast("I"),
    "bytearray": lambda numbers: memoryview(bytearray(array("I", numbers).tobytes())).cast("I"),
    "rows and columns": lambda numbers: shaped(numbers, 4),
    "three dimensions": lambda numbers: shaped(numbers, 1, 4),
    "ctypes": lambda numbers: (ctypes.c_uint32 * len(numbers))(*numbers),
    "ctypes in rows": lambda numbers: ((ctypes.c_uint32 * 4) * (len(numbers) // 4)).from_buffer(
        array("I", numbers)),
    "mapped file": mapped,
}
if numpy:
    KINDS["numpy"] = lambda numbers: numpy.array(numbers, dtype=numpy.uint32)
    KINDS["numpy in rows"] = lambda numbers: numpy.array(numbers, dtype="<u4").reshape(-1, 4)
READINGS = belfry.reading_words([belfry.Percent(4.5), belfry.Grams(1000.0)])
HUNDREDTHS = array("I", [belfry.NO_HUNDREDTHS, belfry.MOST_HUNDREDTHS])
SHEET = [(2, 1, 10000), (1, 0, 0)]
QUESTIONS = array("I", [2, 3, 0, 0, 0, 0, 0, 0, 2, 4, 0, 0, 0, 0, 0, 0])
REPLIES = belfry.ask(BOOK, [Question(2, 3), Question(2, 4)])
EMPTY = [
    array("I"), memoryview(array("I")), memoryview(b"").cast("I"),
    memoryview(bytearray()).cast("I"), (ctypes.c_uint32 * 0)(),
    memoryview(array("I", [1, 2]))[0:0:2],
]


class Memory(unittest.TestCase):
    def test_lists_of_every_kind(self):
        for kind, make in KINDS.items():
            with self.subTest(kind=kind):
                zones, samples = make(Z.tolist()), make(S.tolist())
                crossed = make(in_five((2, 10, 2), (3, 12, 3)).tolist())
                self.assertEqual(starts(belfry.pairs(zones, samples)), [(2, 4), (3, 4), (2, 8)])
                self.assertEqual(belfry.Pieces(zones, samples).listing(), belfry.listing(Z, S))
                self.assertEqual(list(belfry.nodes(zones)), list(belfry.nodes(Z)))
                self.assertEqual(belfry.links(zones), belfry.links(Z))
                self.assertIsNone(belfry.check_links(zones, FOREST))
                found = belfry.listing(zones, samples, links=FOREST)
                self.assertEqual(found, belfry.listing(Z, S))
                self.assertEqual(belfry.zone_range(zones, samples, READINGS, 0), (4.5, 100.0))
                self.assertEqual(belfry.sheet(zones, samples, HUNDREDTHS), SHEET)
                self.assertEqual(belfry.faulty(crossed, samples).tolist(), [5, 3, 12, 3])
                self.assertEqual(belfry.faulty(samples, crossed).tolist(), [5, 3, 12, 3])
                self.assertEqual(belfry.write_book({3: samples, 2: zones}), BOOK)

    def test_links_of_every_kind(self):
        rows = {"rows and columns": lambda numbers: shaped(numbers, 3),
                "three dimensions": lambda numbers: shaped(numbers, 1, 3)}
        fitting = {kind: make for kind, make in KINDS.items()
                   if kind not in ("ctypes in rows", "numpy in rows")}
        for kind, make in {**fitting, **rows}.items():
            with self.subTest(kind=kind):
                forest = make(FOREST.tolist())
                self.assertIsNone(belfry.check_links(Z, forest))
                self.assertEqual(belfry.listing(Z, S, links=forest), belfry.listing(Z, S))
                self.assertEqual(list(belfry.pairs(Z, S, links=forest, room=1)),
                                 list(belfry.pairs(Z, S)))

    def test_outputs_of_every_writable_kind(self):
        for kind in set(KINDS) - {"read-only view", "read-only bytes"}:
            with self.subTest(kind=kind):
                out = KINDS[kind]([PAINT] * 12)
                self.assertEqual(belfry.pick_into(TABLE, 2, out), 2)
                self.assertEqual(memoryview(out).tobytes(), (Z + painted(4)).tobytes())

    def test_books_of_every_kind(self):
        for book in (BOOK, bytearray(BOOK), memoryview(BOOK), array("B", BOOK), array("b", BOOK),
                     (ctypes.c_char * 92)(*BOOK), (ctypes.c_ubyte * 92)(*BOOK),
                     memoryview(b"." + BOOK)[1:]):
            with self.subTest(kind=type(book)):
                self.assertEqual(belfry.book_check(book), 2)
                self.assertEqual(belfry.book_body(book, 3).tolist(), S.tolist())
                self.assertEqual(belfry.ask(book, QUESTIONS), REPLIES)
                lists = belfry.book_lists(book)
                self.assertEqual([(tag, part.tolist()) for tag, part in lists.items()],
                                 [(2, Z.tolist()), (3, S.tolist())])

    def test_empty_memory_of_every_kind(self):
        for nothing in EMPTY:
            with self.subTest(kind=type(nothing)):
                self.assertIsNone(belfry.check_two(nothing, nothing))
                self.assertEqual(list(belfry.pairs(nothing, S)), [])
                self.assertEqual((belfry.links(nothing), belfry.pick(nothing, 2)),
                                 (array("I"), array("I")))
                self.assertIsNone(belfry.zone_range(Z, nothing, nothing, 1))
                self.assertEqual(belfry.sheet(Z, nothing, nothing), [(0, 0, 0)] * 2)
                self.assertEqual(belfry.sheet_into(nothing, nothing, nothing, painted(0)), 0)
                self.assertEqual(belfry.book_write(nothing, nothing), bytes(4))
                self.assertEqual(belfry.ask(BOOK, nothing), [])
                page = belfry.page(nothing, nothing, INSIDE, painted(8))
                self.assertEqual(page, Page(0, True, INSIDE))
                page = belfry.page(nothing, S, INSIDE, painted(8), links=nothing)
                self.assertEqual(page, Page(0, True, INSIDE))
                self.assertIsNone(belfry.check_links(nothing, nothing))
                self.assertRaisesRegex(Refused, "LINKS", belfry.check_links, Z, nothing)
                self.assertRaisesRegex(Refused, "LINKS", belfry.listing, Z, S, links=nothing)
                self.assertRaisesRegex(Refused, "UNCLOSED", belfry.number, 5, nothing)
                self.assertRaisesRegex(Refused, "TABLE", belfry.unnumber, nothing)
                with _memory.lent("memory", nothing, _memory.NODES) as lent:
                    self.assertEqual((lent.address == 0, lent.length, lent.end),
                                     (False, 0, lent.address))
        for nothing in (b"", bytearray(), memoryview(b""), array("B")):
            self.assertRaisesRegex(Refused, "CONTENTS", belfry.book_check, nothing)
            self.assertEqual(belfry.ask(nothing, QUESTIONS[:8])[0].verdict.answer.name, "CONTENTS")

    def test_an_empty_list_in_rows(self):
        """Reads what numpy returns for the nodes that a mask leaves, where it leaves none."""
        kinds = {belfry.nodes: 4, belfry.node_pairs: 8, belfry.rows: 5, belfry.node_links: 3,
                 belfry.subtotals: 3}
        for read, numbers in kinds.items():
            self.assertEqual(list(read(in_rows(numbers))), [])
        nothing = in_rows(4)
        self.assertEqual(memoryview(nothing).shape, (0, 4))
        for lists in ((nothing, S), (Z, nothing), (nothing, nothing)):
            self.assertIsNone(belfry.check_two(*lists))
            self.assertEqual((list(belfry.pairs(*lists)), belfry.listing(*lists)), ([], array("I")))
            cut = belfry.Pieces(*lists)
            self.assertIsNone(cut.check())
            self.assertEqual((list(cut.pairs()), cut.listing(), cut.meeting()),
                             ([], array("I"), []))
            self.assertEqual(cut.page(INSIDE, painted(8)), Page(0, True, INSIDE))
            self.assertEqual(belfry.faulty(*lists).tolist(), [])
        self.assertEqual(belfry.links(nothing), array("I"))
        self.assertIsNone(belfry.check_links(nothing, in_rows(3)))
        self.assertEqual(belfry.listing(nothing, S, links=in_rows(3)), array("I"))
        self.assertEqual(belfry.book_write(in_rows(2), nothing), bytes(4))
        book = belfry.write_book({2: nothing, 3: S})
        self.assertEqual([part.tolist() for part in belfry.book_lists(book).values()],
                         [[], S.tolist()])

    def test_the_archive_is_lent_the_callers_own_address(self):
        held, numbers = BOOK + BOOK[:4], (ctypes.c_uint32 * 8)()
        address = ctypes.cast(ctypes.c_char_p(held), ctypes.c_void_p).value
        for buffer, kind, expected in (
            (Z, _memory.NODES, (Z.buffer_info()[0], 8)),
            (memoryview(Z)[4:], _memory.NODES, (Z.buffer_info()[0] + 16, 4)),
            (held, _memory.BYTES, (address, 96)),
            (memoryview(held)[28:60].cast("I"), _memory.NODES, (address + 28, 8)),
            (numbers, _memory.NODES, (ctypes.addressof(numbers), 8)),
        ):
            with _memory.lent("memory", buffer, kind) as lent:
                self.assertEqual((lent.address, lent.length), expected)

    def test_no_call_copies_a_list(self):
        nodes = words(figure_books.siblings(belfry.MOST, 2))
        book = belfry.book_write(array("I", [2, belfry.MOST]), nodes)
        out, forest = painted(8), belfry.links(nodes)
        for call in (
            lambda: belfry.check(nodes), lambda: belfry.check_two(nodes, nodes),
            lambda: belfry.check_links(nodes, forest),
            lambda: belfry.page(nodes, nodes, INSIDE, out, links=forest),
            lambda: belfry.faulty(nodes, nodes), lambda: belfry.page(nodes, nodes, INSIDE, out),
            lambda: belfry.book_check(book), lambda: belfry.book_body(book, 2),
            lambda: belfry.book_lists(book), lambda: belfry.Pieces(nodes, nodes).check(),
            lambda: belfry.Pieces(nodes, nodes).meeting(), lambda: next(belfry.nodes(nodes)),
        ):
            tracemalloc.start()
            call()
            peak = tracemalloc.get_traced_memory()[1]
            tracemalloc.stop()
            self.assertLess(peak, len(nodes) * 4 // 2)

    def test_a_part_is_the_callers_own_memory(self):
        nodes, book = in_five((2, 10, 2), (3, 12, 3)), bytearray(BOOK)
        with belfry.faulty(nodes, S) as part:
            part[2] = 7
        self.assertEqual(nodes, Z)
        with belfry.book_body(book, 3) as part:
            part[7] = 9
        self.assertEqual(book[88:], struct.pack("<I", 9))
        self.assertTrue(belfry.book_body(BOOK, 3).readonly)

    def test_a_list_can_be_resized_after_a_call_and_not_while_a_part_is_kept(self):
        nodes, signed, kept = S + S, array("i", [1]), []
        for call in (
            lambda: belfry.check_two(Z, nodes), lambda: belfry.page(Z, nodes, INSIDE, nodes),
            lambda: belfry.check_two(nodes, signed), lambda: belfry.check_links(Z, nodes),
            lambda: belfry.page(Z, S, INSIDE, nodes, links=nodes),
            lambda: belfry.Pieces(Z, nodes, _size=1).check(),
            lambda: belfry.Pieces(Z, nodes, _size=1).page(INSIDE, painted(8)),
        ):
            try:
                call()
            except (Refused, TypeError, ValueError) as error:
                kept.append(error)
            nodes.extend(Z)
            signed.append(1)
        self.assertEqual(list(map(type, kept)), [
            Refused, ValueError, TypeError, Refused, ValueError, Refused, Refused,
        ])
        part = belfry.faulty(Z, nodes)
        self.assertRaises(BufferError, nodes.append, 5)
        part.release()
        nodes.append(5)
        self.assertEqual(len(nodes), 73)

    def test_other_threads_wait_during_a_call(self):
        self.assertIs(type(_archive.library), ctypes.PyDLL)


class Shapes(unittest.TestCase):
    """Memory with more than one dimension has the numbers of an item in its last one."""

    def test_the_last_dimension_is_an_items_numbers(self):
        links, pairs = belfry.links(Z), shaped([PAINT] * 24, 8)
        self.assertEqual(belfry.page(shaped(Z.tolist(), 4), S, INSIDE, pairs).count, 3)
        self.assertEqual(array("I", pairs.tobytes()), belfry.listing(Z, S))
        self.assertEqual(belfry.pick(shaped(TABLE.tolist(), 5), 2), Z)
        found = belfry.zone_range(Z, S, shaped(READINGS.tolist(), 2), 0)
        self.assertEqual(found, (4.5, 100.0))
        subtotals = shaped([PAINT] * 6, 3)
        found = belfry.sheet_into(Z, S, shaped(HUNDREDTHS.tolist(), 1), subtotals)
        self.assertEqual((found, list(belfry.subtotals(subtotals))), (2, SHEET))
        self.assertEqual(belfry.number(5, shaped(MARKS.tolist(), 1)), TABLE)
        self.assertEqual(belfry.ask(BOOK, shaped(QUESTIONS.tolist(), 8)), REPLIES)
        self.assertEqual(belfry.book_write(shaped(ENTRIES.tolist(), 2), Z + S), BOOK)
        found = list(belfry.node_links(shaped(links.tolist(), 3)))
        self.assertEqual(found, list(belfry.node_links(links)))

    def test_any_other_last_dimension_is_an_error_that_says_so(self):
        wrong = shaped([0] * 240, 4, 6)
        for call, item in (
            (lambda: belfry.check(wrong), "4, the numbers of a node"),
            (lambda: belfry.Pieces(Z, wrong).check(), "4, the numbers of a node"),
            (lambda: belfry.page(Z, S, INSIDE, wrong), "8, the numbers of a pair"),
            (lambda: belfry.zone_range(Z, S, wrong, 0), "2, the numbers of a reading"),
            (lambda: belfry.sheet(Z, S, wrong), "1, the numbers of a sample's hundredths"),
            (lambda: belfry.sheet_into(Z, S, [1, 2], wrong), "3, the numbers of a subtotal"),
            (lambda: belfry.unnumber(wrong), "5, the numbers of a row"),
            (lambda: belfry.links_into(Z, wrong), "3, the numbers of a link"),
            (lambda: belfry.check_links(Z, wrong), "3, the numbers of a link"),
            (lambda: belfry.listing(Z, S, links=wrong), "3, the numbers of a link"),
            (lambda: belfry.book_write(wrong, Z), "2, the numbers of an entry"),
            (lambda: belfry.number(5, wrong), "1, the numbers of a mark"),
            (lambda: belfry.ask(BOOK, wrong), "8, the numbers of a question"),
            (lambda: belfry.write_book({2: wrong}), "4, the numbers of a node"),
        ):
            with self.subTest(item=item), self.assertRaisesRegex(ValueError, f"{item}, and not 6"):
                call()

    @unittest.skipUnless(numpy, "numpy isn't installed")
    def test_numpy_arrays(self):
        zones = numpy.array(Z, dtype=numpy.uint32).reshape(-1, 4)
        out = numpy.zeros((3, 8), dtype=numpy.uint32)
        self.assertEqual(belfry.page(zones, S, INSIDE, out).count, 3)
        self.assertEqual(out[:, [1, 5]].tolist(), [[2, 4], [3, 4], [2, 8]])
        pairs = numpy.frombuffer(belfry.listing(zones, S), dtype=numpy.uint32).reshape(-1, 8)
        self.assertEqual(pairs.tolist(), out.tolist())
        self.assertRaisesRegex(ValueError, "4, the numbers of a node", belfry.check, out)
        self.assertRaisesRegex(ValueError, "contiguous", belfry.check, out[:, :4])
        self.assertRaisesRegex(TypeError, "uint32", belfry.check, zones.astype(numpy.int64))
        self.assertRaisesRegex(TypeError, "uint32", belfry.check, zones.astype(">u4"))


class OneNumber(ctypes.Structure):
    _fields_ = [("number", ctypes.c_uint32)]


def released():
    view = memoryview(array("I", Z))
    view.release()
    return view


NOT_MEMORY = [(None, TypeError), (5, TypeError), ("5 2 10 2", TypeError), (Z.tolist(), TypeError),
              (released(), ValueError)]
WRONG_WORDS = NOT_MEMORY + [
    *((array(letter, [5, 2, 10, 2]), TypeError) for letter in "bBhHilqQfd"),
    (b"5 2 10 2", TypeError),
    ((ctypes.c_uint32.__ctype_be__ * 4)(), TypeError),
    ((OneNumber * 4)(), TypeError),
    (memoryview(Z)[::2], ValueError),
    (memoryview(Z)[::-1], ValueError),
    (memoryview(bytearray(20))[1:17].cast("I"), ValueError),
]
WRONG_BYTES = NOT_MEMORY + [(Z, TypeError), (array("H", [1]), TypeError),
                            (memoryview(bytearray(BOOK))[::2], ValueError)]
WRONG = {
    "words": WRONG_WORDS,
    "out": WRONG_WORDS + [(memoryview(bytes(400)).cast("I"), TypeError),
                          (memoryview(Z).toreadonly(), TypeError)],
    "hundredths": [wrong for wrong in WRONG_WORDS if type(wrong[0]) is not list] + [
        ([1.0, 2], TypeError), ([1, "2"], TypeError), ([1, -1], ValueError),
        ([1 << 32, 2], ValueError)],
    "questions": [wrong for wrong in WRONG_WORDS if type(wrong[0]) is not list] + [
        ([Question(2, 3), None], TypeError), ([(2, 3, INSIDE)], TypeError), ([2, 3], TypeError),
        ([QUESTIONS], TypeError)],
    "links": [wrong for wrong in WRONG_WORDS if wrong[0] is not None],
    "book": WRONG_BYTES,
    "out bytes": WRONG_BYTES + [(bytes(100), TypeError)],
    "number": [(-1, ValueError), (1 << 32, ValueError), (1.0, TypeError), ("2", TypeError),
               (None, TypeError)],
    "ticket": [(None, TypeError), ((0, 0, 0, 0, 0, 0), TypeError), (INSIDE.to_bytes(), TypeError)],
}
TWO = [("words", Z), ("words", S)]
CALLS = [
    (belfry.check, [("words", Z)]), (belfry.verdict, [("words", Z)]),
    (belfry.check_two, TWO), (belfry.verdict_two, TWO), (belfry.faulty, TWO),
    (belfry.page, [*TWO, ("ticket", INSIDE), ("out", painted(24))]),
    (lambda zones, samples: list(belfry.pairs(zones, samples)), TWO), (belfry.listing, TWO),
    (belfry.check_links, [("words", Z), ("words", FOREST)]),
    (belfry.verdict_links, [("words", Z), ("words", FOREST)]),
    (lambda zones, samples, place, out, forest:
     belfry.page(zones, samples, place, out, links=forest),
     [*TWO, ("ticket", INSIDE), ("out", painted(24)), ("links", FOREST)]),
    (lambda zones, samples, forest: list(belfry.pairs(zones, samples, links=forest)),
     [*TWO, ("links", FOREST)]),
    (lambda zones, samples, forest: belfry.listing(zones, samples, links=forest),
     [*TWO, ("links", FOREST)]),
    (lambda zones, samples: belfry.Pieces(zones, samples).verdict(), TWO),
    (lambda zones, samples: belfry.Pieces(zones, samples).meeting(), TWO),
    (lambda zones, samples: belfry.Pieces(zones, samples).listing(), TWO),
    (lambda zones, samples, place, out: belfry.Pieces(zones, samples).page(place, out),
     [*TWO, ("ticket", INSIDE), ("out", painted(24))]),
    (belfry.zone_range, [*TWO, ("words", READINGS), ("number", 0)]),
    (belfry.sheet, [*TWO, ("hundredths", HUNDREDTHS)]),
    (belfry.sheet_into, [*TWO, ("hundredths", HUNDREDTHS), ("out", painted(6))]),
    (belfry.subtotals, [("words", painted(6))]),
    (belfry.nodes, [("words", Z)]), (belfry.rows, [("words", TABLE)]),
    (belfry.node_pairs, [("words", Z)]), (belfry.node_links, [("words", belfry.links(Z))]),
    (belfry.number, [("number", 5), ("words", MARKS)]),
    (belfry.number_into, [("number", 5), ("words", MARKS), ("out", painted(30))]),
    (belfry.unnumber, [("words", TABLE)]),
    (belfry.unnumber_into, [("words", TABLE), ("out", painted(11))]),
    (belfry.pick, [("words", TABLE), ("number", 2)]),
    (belfry.pick_into, [("words", TABLE), ("number", 2), ("out", painted(8))]),
    (belfry.links, [("words", Z)]), (belfry.links_into, [("words", Z), ("out", painted(6))]),
    (belfry.book_check, [("book", BOOK)]), (belfry.book_body, [("book", BOOK), ("number", 2)]),
    (belfry.book_lists, [("book", BOOK)]),
    (belfry.ask, [("book", BOOK), ("questions", QUESTIONS)]),
    (belfry.ask, [("book", BOOK), ("questions", [Question(2, 3)])]),
    (Question, [("number", 2), ("number", 3), ("ticket", INSIDE)]),
    (belfry.book_write, [("words", ENTRIES), ("words", Z + S)]),
    (belfry.book_write_into, [("words", ENTRIES), ("words", Z + S), ("out bytes", bytearray(92))]),
    (lambda tag, nodes: belfry.write_book({tag: nodes}), [("number", 2), ("words", Z)]),
    (belfry.name, [("number", 5)]),
]


class WrongArguments(unittest.TestCase):
    def test_each_is_an_error_of_its_type_or_value(self):
        for function, arguments in CALLS:
            values = [value for _, value in arguments]
            function(*values)
            for position, (role, _) in enumerate(arguments):
                self.check_argument(function, values, position, WRONG[role])

    def check_argument(self, function, values, position, wrong):
        for value, expected in wrong:
            with self.subTest(function=function, position=position, wrong=value):
                with self.assertRaises(expected):
                    function(*values[:position], value, *values[position + 1:])

    def test_words_of_format_l_are_taken_where_they_have_four_bytes(self):
        wide = array("L", [5, 2, 10, 2])
        self.assertRaisesRegex(TypeError, "format 'L' with 8 bytes an item", belfry.check, wide)
        short = SimpleNamespace(format="L", itemsize=4, readonly=False, nbytes=16, shape=(4,),
                                c_contiguous=True)
        self.assertIsNone(_memory.judge("nodes", short, _memory.NODES, writable=False))

    def test_the_message_names_the_argument(self):
        with self.assertRaisesRegex(TypeError, "descendants must be a buffer .* uint32, not list"):
            belfry.check_two(Z, [1, 2])
        with self.assertRaisesRegex(ValueError, "tag must be from 0 to 4294967295, not -1"):
            belfry.pick(TABLE, -1)

    def test_an_output_that_overlaps_an_input(self):
        whole = array("I", [PAINT] * 64)
        lent = memoryview(whole)
        lent[:8], lent[8:19] = memoryview(Z), memoryview(MARKS)
        before = whole.tolist()
        for call in (
            lambda: belfry.page(whole, S, INSIDE, whole),
            lambda: belfry.page(S, lent[:8], INSIDE, lent[7:]),
            lambda: belfry.page(lent[:8], S, INSIDE, lent[:8]),
            lambda: belfry.page(Z, S, INSIDE, lent[20:], links=lent[15:21]),
            lambda: belfry.page(Z, S, INSIDE, lent[20:28], links=lent[27:33]),
            lambda: belfry.Pieces(lent[:8], S).page(INSIDE, lent),
            lambda: belfry.Pieces(S, lent[:8]).page(INSIDE, lent[7:]),
            lambda: belfry.number_into(5, lent[8:19], lent[18:]),
            lambda: belfry.unnumber_into(lent[20:25], lent[:21]),
            lambda: belfry.pick_into(lent[:5], 2, lent[4:]),
            lambda: belfry.links_into(lent[:8], lent[4:10]),
            lambda: belfry.sheet_into(lent[:8], S, HUNDREDTHS, lent[7:13]),
            lambda: belfry.sheet_into(Z, lent[:8], lent[30:32], lent[4:10]),
            lambda: belfry.sheet_into(Z, S, lent[30:32], lent[31:37]),
            lambda: belfry.book_write_into(ENTRIES, lent[:8], lent.cast("B")[31:]),
            lambda: belfry.book_write_into(lent[40:44], Z, lent.cast("B")),
        ):
            with self.assertRaisesRegex(ValueError, "overlap"):
                call()
        self.assertEqual(whole.tolist(), before)

    def test_an_output_beside_an_input(self):
        lent = memoryview(Z + painted(6))
        self.assertEqual(belfry.links_into(lent[:8], lent[8:]), 2)
        self.assertEqual(lent[8:].tolist(), belfry.links(Z).tolist())

    def test_numbers_at_the_ends_of_their_range(self):
        self.assertEqual(belfry.number(NONE, array("I", [1, 0])).tolist(), [NONE, 1, 2, 1, 1])
        book = belfry.book_write(array("I", [NONE, 2]), S)
        self.assertEqual(belfry.book_body(book, NONE).tolist(), S.tolist())
        self.assertEqual(list(belfry.book_lists(book)), [NONE])
        [reply] = belfry.ask(book, [Question(NONE, NONE)])
        self.assertEqual((reply.pairs, reply.done), ([], True))


if __name__ == "__main__":
    unittest.main()
