"""Tuples to words and back, and books by their tags."""
import unittest
from array import array

from support import BOOK, S, TABLE, Z, model, words

import belfrychest as belfry
from belfrychest import NONE, TEXT, Link, Node, Pair, Refused, Row, Subtotal


class Tuples(unittest.TestCase):
    def test_words_and_back(self):
        nodes = [Node(5, 2, 10, 2), Node(5, 3, 7, 3)]
        pairs = [Pair(nodes[0], Node(5, 4, 6, 4)), Pair(nodes[1], Node(5, 4, 6, 4))]
        rows = [Row(5, 1, 3, 1, 9), Row(5, 2, 2, 2, TEXT)]
        links = [Link(NONE, 1, NONE), Link(0, NONE, NONE)]
        for read, items, numbers in (
            (belfry.nodes, nodes, [5, 2, 10, 2, 5, 3, 7, 3]),
            (belfry.node_pairs, pairs, [5, 2, 10, 2, 5, 4, 6, 4, 5, 3, 7, 3, 5, 4, 6, 4]),
            (belfry.rows, rows, [5, 1, 3, 1, 9, 5, 2, 2, 2, TEXT]),
            (belfry.node_links, links, [NONE, 1, NONE, 0, NONE, NONE]),
            (belfry.subtotals, [Subtotal(2, 1, 450), Subtotal(1, 0, 0)], [2, 1, 450, 1, 0, 0]),
        ):
            with self.subTest(read=read):
                made = belfry.words(items)
                self.assertEqual(made, array("I", numbers))
                again = list(read(made))
                self.assertEqual(again, items)
                self.assertEqual({type(item) for item in again}, {type(items[0])})
                self.assertEqual(list(read(array("I"))), [])

    def test_they_read_what_the_calls_write(self):
        self.assertEqual(list(belfry.rows(TABLE))[3], Row(5, 4, 6, 4, 3))
        self.assertEqual([pair.ancestor.start for pair in belfry.node_pairs(belfry.listing(Z, S))],
                         [2, 3, 2])
        self.assertEqual([link.parent for link in belfry.node_links(belfry.links(Z))], [NONE, 0])

    def test_words_of_any_tuples_and_of_nothing(self):
        self.assertEqual(belfry.words(iter([(5, 2, 10, 2), [5, 3, 7, 3]])), Z)
        self.assertEqual(belfry.words([]), array("I"))

    def test_an_item_that_is_not_like_the_first_is_told(self):
        for items, message in (
            ([(5, 2, 10, 2), (5, 3, 7)], "item 1 has 3 numbers, and item 0 has 4"),
            ([Node(5, 2, 10, 2), Row(5, 3, 7, 3, 2)], "item 1 has 5 numbers, and item 0 has 4"),
            ([(5, 2, 10, 2), (5, 3, 7, -1)], "item 1 has a number that isn't one of 32 bits"),
            ([(5, 2, 10, 1 << 32)], "item 0 has a number that isn't one of 32 bits"),
        ):
            with self.subTest(items=items), self.assertRaisesRegex(ValueError, message):
                belfry.words(items)
        for items in ([5, 2, 10, 2], [(5, 2, None, 2)], [(5, 2, 10.0, 2)]):
            with self.subTest(items=items), self.assertRaises(TypeError):
                belfry.words(items)

    def test_words_that_make_no_whole_items_are_told(self):
        with self.assertRaisesRegex(ValueError, "multiple of 4 words, .* a node, and not 7$"):
            belfry.nodes(Z[:7])
        with self.assertRaisesRegex(ValueError, "multiple of 8 words, .* a pair, and not 4$"):
            belfry.node_pairs(Z[:4])

    def test_a_list_is_read_one_by_one_and_cannot_be_resized_meanwhile(self):
        nodes = array("I", Z)
        reading = belfry.nodes(nodes)
        self.assertEqual(next(reading).start, 2)
        nodes[5] = 4
        self.assertEqual(next(reading).start, 4)
        self.assertRaises(BufferError, nodes.append, 5)
        del reading
        nodes.append(5)
        self.assertEqual(len(nodes), 9)


class Books(unittest.TestCase):
    def test_a_book_by_its_tags_in_any_order(self):
        self.assertEqual(belfry.write_book({2: Z, 3: S}), BOOK)
        self.assertEqual(belfry.write_book({3: S, 2: Z}), BOOK)
        again = belfry.book_lists(belfry.write_book({NONE: Z, 0: array("I"), 7: S}))
        self.assertEqual([(tag, part.tolist()) for tag, part in again.items()],
                         [(0, []), (7, S.tolist()), (NONE, Z.tolist())])
        self.assertEqual(belfry.book_lists(belfry.write_book({})), {})

    def test_its_lists_are_the_books_own_memory(self):
        book = bytearray(BOOK)
        belfry.book_lists(book)[3][7] = 64
        self.assertEqual(book[88:], b"\x40\0\0\0")

    def test_a_faulty_list_has_its_place_among_the_tags(self):
        with self.assertRaises(Refused) as raised:
            belfry.write_book({9: S + S, 4: Z})
        refused = raised.exception
        self.assertEqual((refused.name, refused.list, refused.index), ("ORDER", 1, 2))

    def test_words_never_move_from_one_list_to_the_next(self):
        """Writes three words of one list and five of the next, which would make two whole nodes."""
        message = "the list of tag 2 has 3 words after its last whole node"
        with self.assertRaisesRegex(ValueError, message):
            belfry.write_book({2: Z[:3], 3: Z[3:]})

    def test_as_many_lists_as_a_book_may_have(self):
        self.assertEqual(belfry.MOST_LISTS, 64)
        for count in (0, 1, 16, 17, 63, 64):
            lists = {tag: (Z, S, array("I"))[tag % 3] for tag in range(count)}
            book = belfry.write_book(lists)
            expected = model.book(*((tag, model.cut(part, 4)) for tag, part in lists.items()))
            self.assertEqual((book, belfry.book_check(book)), (expected, count))
            again = belfry.book_lists(book)
            self.assertEqual([(tag, part.tolist()) for tag, part in again.items()],
                             [(tag, part.tolist()) for tag, part in lists.items()])

    def test_more_lists_than_a_book_may_have(self):
        for count in (65, 66, 300):
            book = model.book(*((tag, []) for tag in range(count)))
            lists = {tag: Z for tag in range(count)}
            for call, given in ((belfry.book_check, book), (belfry.book_lists, book),
                                (belfry.write_book, lists)):
                with self.subTest(call=call), self.assertRaisesRegex(Refused, "CONTENTS"):
                    call(given)

    def test_what_no_book_holds_is_refused(self):
        with self.assertRaisesRegex(Refused, "CONTENTS"):
            belfry.write_book({2: words([(5, 1 + at, 1 + at, 1) for at in range(4097)])})
        with self.assertRaisesRegex(Refused, "CONTENTS"):
            belfry.book_lists(BOOK[:-1])


if __name__ == "__main__":
    unittest.main()
