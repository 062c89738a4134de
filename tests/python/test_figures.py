"""The scope's figures, every refusal, and the calls that write into the caller's memory."""
import math
import pickle
import unittest
from array import array
from itertools import product

from support import (
    BOOK, E, ENTRIES, FOREST, INSIDE, LISTINGS, MARKS, S, T, TABLE, Z, figure_books, in_five, model,
    painted, starts, ticket, words,
)

import belfrychest as belfry
from belfrychest import (
    HINTS, MOST_QUESTIONS, NO_HUNDREDTHS, NONE, Answer, Grams, Node, Order, Page, Percent, Question,
    Range, Refused, Relation, Reply, Subtotal, Ticket, Verdict,
)


def page_of(ancestors, descendants, given, room):
    """Returns the starts of a page's pairs, whether it was done, and the ticket for the next."""
    out = painted(8 * room)
    page = belfry.page(ancestors, descendants, given, out)
    return starts(belfry.node_pairs(out[:8 * page.count])), page.done, page.ticket


TAKEN = Verdict(Answer.TAKEN)
QUESTIONS = array("I", [2, 3, 0, 0, 0, 0, 0, 0, 2, 4, 0, 1, 1, 5, 2, 8, 2, 3, 1, 1, 0, 0, 0, 0])


class Figures(unittest.TestCase):
    """docs/SCOPE.md, Figures to hold against it."""

    def test_marks_are_numbered_and_come_back(self):
        self.assertEqual(belfry.number(5, MARKS), TABLE)
        self.assertEqual(belfry.unnumber(TABLE), (5, MARKS))

    def test_tags_are_picked(self):
        self.assertEqual([belfry.pick(TABLE, tag) for tag in (2, 3, 4)], [Z, S, array("I")])

    def test_listings(self):
        expected = [[(2, 4), (3, 4), (2, 8)], [(2, 4), (2, 8), (3, 4)], [(3, 4), (2, 8)],
                    [(2, 8), (3, 4)]]
        self.assertEqual([starts(belfry.pairs(Z, S, **which)) for which in LISTINGS], expected)
        self.assertEqual(starts(belfry.pairs(Z, S)), expected[0])
        self.assertEqual(starts(belfry.pairs(Z, Z)), [(2, 3)])
        self.assertEqual(next(belfry.pairs(Z, S)), (Node(5, 2, 10, 2), Node(5, 4, 6, 4)))

    def test_a_list_by_order_and_size(self):
        ranges, points = ((1, 8, 1), (4, 2, 2), (7, 2, 2)), ((2, 0, 2), (5, 0, 3), (8, 0, 3))
        ranges, points, both = (
            in_five(*((order, order + size, level) for order, size, level in nodes))
            for nodes in (ranges, points, sorted(ranges + points)))
        self.assertEqual(belfry.verdict(both), Verdict(Answer.TAKEN, None, None))
        expected = [[(1, 2), (1, 5), (4, 5), (1, 8), (7, 8)],
                    [(1, 2), (1, 5), (1, 8), (4, 5), (7, 8)],
                    [(1, 2), (4, 5), (7, 8)], [(1, 2), (4, 5), (7, 8)]]
        for which, pairs in zip(LISTINGS, expected):
            self.assertEqual(starts(belfry.pairs(ranges, points, **which)), pairs)
            self.assertEqual(starts(belfry.pairs(ranges, points, **which, room=1)), pairs)

    def test_zones_that_end_at_one_position(self):
        expected = [[(1, 3), (2, 3), (1, 6), (2, 6), (4, 6), (5, 6), (1, 9)],
                    [(1, 3), (1, 6), (1, 9), (2, 3), (2, 6), (4, 6), (5, 6)],
                    [(2, 3), (5, 6), (1, 9)], [(1, 9), (2, 3), (5, 6)]]
        for which, pairs in zip(LISTINGS, expected):
            self.assertEqual(starts(belfry.pairs(E, T, **which)), pairs)
            self.assertEqual(starts(belfry.pairs(E, T, **which, room=1)), pairs)
        readings = [Percent(10.0), Percent(20.0), Percent(30.0)]
        self.assertEqual([belfry.zone_range(E, T, readings, zone) for zone in range(4)],
                         [(10.0, 30.0), (10.0, 20.0), (20.0, 20.0), (20.0, 20.0)])

    def test_pages_that_stop_between_zones_with_one_end(self):
        for order, room, first, second in (
            (Order.DESCENDANT, 4, [(1, 3), (2, 3), (1, 6), (2, 6)], [(4, 6), (5, 6), (1, 9)]),
            (Order.ANCESTOR, 5, [(1, 3), (1, 6), (1, 9), (2, 3), (2, 6)], [(4, 6), (5, 6)]),
        ):
            fresh = Ticket.fresh(relation=Relation.INSIDE, order=order)
            *found, reached = page_of(E, T, fresh, room)
            self.assertEqual(found, [first, False])
            for zones in (E, E[:4] + E[8:]):
                *found, _ = page_of(zones, T, reached, room)
                self.assertEqual(found, [second, True])

    def test_pages_of_two(self):
        out = painted(17)
        first = belfry.page(Z, S, INSIDE, out)
        self.assertEqual(first, Page(2, False, ticket(0, 0, 1, 5, 4, 3)))
        self.assertEqual(out, Z[:4] + S[:4] + Z[4:] + S[:4] + painted(1))
        last = belfry.page(Z, S, first.ticket, out)
        self.assertEqual(last, Page(1, True, ticket(0, 0, 1, 5, 8, 2)))
        self.assertEqual(out, Z[:4] + S[4:] + Z[4:] + S[:4] + painted(1))

    def test_pages_of_two_with_links(self):
        out = painted(17)
        first = belfry.page(Z, S, INSIDE, out, links=FOREST)
        self.assertEqual(first, Page(2, False, ticket(0, 0, 1, 5, 4, 3)))
        self.assertEqual(out, Z[:4] + S[:4] + Z[4:] + S[:4] + painted(1))
        last = belfry.page(Z, S, first.ticket, out, links=FOREST)
        self.assertEqual(last, Page(1, True, ticket(0, 0, 1, 5, 8, 2)))
        self.assertEqual(out, Z[:4] + S[4:] + Z[4:] + S[:4] + painted(1))

    def test_listings_with_links(self):
        for zones, samples in ((Z, S), (E, T), (Z, Z), (S, Z), (array("I"), S), (Z, array("I"))):
            forest = belfry.links(zones)
            for which in LISTINGS:
                found = belfry.listing(zones, samples, **which, links=forest)
                self.assertEqual(found, belfry.listing(zones, samples, **which))
                one_by_one = belfry.pairs(zones, samples, **which, links=forest, room=1)
                self.assertEqual(belfry.words(one_by_one), found)

    def test_links_with_any_word_changed(self):
        for zones in (Z, E, S, T):
            forest = belfry.links(zones)
            self.assertEqual(belfry.verdict_links(zones, forest), TAKEN)
            self.assertIsNone(belfry.check_links(zones, forest))
            for place, word in product(range(len(forest)), (0, 1, 2, 3, 4, 1 << 31, NONE)):
                changed = forest[:place] + array("I", [word]) + forest[place + 1:]
                expected = Answer.TAKEN if forest[place] == word else Answer.LINKS
                self.assertEqual(belfry.verdict_links(zones, changed), Verdict(expected))

    def test_ranges(self):
        tenth = model.as_float(38.0 / 10.0)
        for readings, outer, inner in (
            ([None, None], None, None), ([Percent(4.5), None], (4.5, 4.5), (4.5, 4.5)),
            ([None, Percent(0)], (0.0, 0.0), None), ([None, Grams(38.0)], (tenth, tenth), None),
            ([Percent(4.5), Grams(38.0)], (tenth, 4.5), (4.5, 4.5)),
        ):
            with self.subTest(readings=readings):
                made = belfry.reading_words(readings)
                for given in (readings, iter(readings), made, memoryview(made).toreadonly()):
                    self.assertEqual(belfry.zone_range(Z, S, given, 0), outer)
                self.assertEqual(belfry.zone_range(Z, S, readings, 1), inner)
        self.assertIsNone(belfry.zone_range(Z, array("I"), [], 1))
        found = belfry.zone_range(Z, S, [Percent(100), Grams(1000.0)], 0)
        self.assertEqual((found, type(found), found.low, found.high),
                         ((100.0, 100.0), Range, 100.0, 100.0))

    def test_of_equal_readings_the_first_stays(self):
        for readings in ([Percent(-0.0), Percent(0.0)], [Grams(0.0), Percent(-0.0)]):
            found = belfry.zone_range(Z, S, readings, 0)
            self.assertEqual(list(map(str, found)), [str(readings[0].value)] * 2)

    def test_sheets(self):
        for hundredths, outer, inner in (
            ([None, None], (2, 0, 0), (1, 0, 0)), ([450, None], (2, 1, 450), (1, 1, 450)),
            ([None, 0], (2, 1, 0), (1, 0, 0)), ([450, 380], (2, 2, 830), (1, 1, 450)),
            ([None, 380], (2, 1, 380), (1, 0, 0)), ([0, 10000], (2, 2, 10000), (1, 1, 0)),
        ):
            with self.subTest(hundredths=hundredths):
                made = array("I", [NO_HUNDREDTHS if each is None else each for each in hundredths])
                for given in (hundredths, iter(hundredths), made, memoryview(made).toreadonly()):
                    self.assertEqual(belfry.sheet(Z, S, given), [outer, inner])
        self.assertEqual(belfry.sheet(Z, array("I"), []), [(0, 0, 0)] * 2)
        self.assertEqual(belfry.sheet(array("I"), S, [450, 380]), [])
        [first, second] = belfry.sheet(Z, S, [None, 450])
        self.assertEqual((type(first), first.samples, first.present, first.sum),
                         (Subtotal, 2, 1, 450))
        self.assertEqual(second, Subtotal(samples=1, present=0, sum=0))

    def test_sheets_of_nodes_in_both_lists_and_of_zones_with_one_end(self):
        self.assertEqual(belfry.sheet(Z, Z, [100, 20]), [(1, 1, 20), (0, 0, 0)])
        self.assertEqual(belfry.sheet(S, Z, [100, 20]), [(0, 0, 0)] * 2)
        self.assertEqual(belfry.sheet(E, T, [1000, 2000, 3000]),
                         [(3, 3, 6000), (2, 2, 3000), (1, 1, 2000), (1, 1, 2000)])

    def test_links(self):
        self.assertEqual(belfry.links(Z).tolist(), [NONE, 1, NONE, 0, NONE, NONE])
        self.assertEqual(belfry.links(E).tolist(),
                         [NONE, 1, NONE, 0, 2, NONE, 1, 3, NONE, 2, NONE, NONE])

    def test_the_book(self):
        book = belfry.book_write(ENTRIES, Z + S)
        self.assertEqual((len(book), bytes(book)), (92, BOOK))
        self.assertEqual(belfry.book_check(BOOK), 2)
        zones, samples = belfry.book_body(BOOK, 2), belfry.book_body(BOOK, 3)
        self.assertEqual((zones.tolist(), samples.tolist()), (Z.tolist(), S.tolist()))
        self.assertEqual(starts(belfry.pairs(zones, samples)), [(2, 4), (3, 4), (2, 8)])

    def test_books_with_many_lists(self):
        for count, size in ((16, 196), (17, 208), (64, 772)):
            book = belfry.book_write(words((1 + k, 0) for k in range(count)), array("I"))
            self.assertEqual((len(book), belfry.book_check(book)), (size, count))
            self.assertEqual(book, figure_books.shared_out(count, 0))
        with self.assertRaisesRegex(Refused, "CONTENTS"):
            belfry.book_write(words((1 + k, 0) for k in range(65)), array("I"))
        with self.assertRaisesRegex(Refused, "CONTENTS"):
            belfry.book_check(figure_books.shared_out(65, 0))

    def test_the_largest_book(self):
        nodes = words(figure_books.siblings(4096, 0))
        book = belfry.write_book({tag: nodes for tag in range(64)})
        self.assertEqual((len(book), belfry.book_check(book)), (4195076, 64))
        self.assertEqual(book[772:], 64 * nodes.tobytes())
        lists = belfry.book_lists(book)
        self.assertEqual(list(lists), list(range(64)))
        self.assertEqual({part.tobytes() for part in lists.values()}, {nodes.tobytes()})
        self.assertEqual(belfry.write_book(lists), book)
        short = bytearray(4195075 * b"\xa5")
        with self.assertRaisesRegex(Refused, "ROOM"):
            belfry.book_write_into(words((tag, 4096) for tag in range(64)), 64 * nodes, short)
        self.assertEqual(short, 4195075 * b"\xa5")

    def test_questions_share_the_room_and_a_refused_one_takes_none(self):
        placed = ticket(0, 1, 1, 5, 2, 8)
        questions = [Question(2, 3), Question(2, 4, placed), Question(2, 3, ticket(1, 1))]
        for given in (questions, iter(questions), tuple(questions), QUESTIONS,
                      memoryview(QUESTIONS).toreadonly()):
            first, second, third = belfry.ask(BOOK, given, room=4)
            self.assertEqual(starts(first.pairs), [(2, 4), (3, 4), (2, 8)])
            self.assertEqual((first.verdict, first.done), (TAKEN, True))
            self.assertEqual(first.ticket, ticket(0, 0, 1, 5, 8, 2))
            self.assertEqual(second, Reply(Verdict(Answer.ABSENT), None, False, placed))
            pair = (Node(5, 2, 10, 2), Node(5, 8, 9, 3))
            self.assertEqual(third, Reply(TAKEN, [pair], False, ticket(1, 1, 1, 5, 2, 8)))

    def test_the_number_of_questions(self):
        [reply] = belfry.ask(BOOK, [Question(2, 3)])
        for count in (0, 1, 2, MOST_QUESTIONS):
            questions = [Question(2, 3)] * count
            self.assertEqual(belfry.ask(BOOK, questions), [reply] * count)
            replies = belfry.ask(BOOK, questions, room=3)
            self.assertEqual([len(reply.pairs) for reply in replies], ([3] + [0] * count)[:count])
            self.assertEqual([reply.done for reply in replies], ([True] + [False] * count)[:count])

    def test_a_fault_of_the_book_refuses_each_question(self):
        asked = [Question(2, 3), Question(2, 9, ticket(1, 0, 1, 5, 4, 3))]
        for book, verdict in (
            (BOOK[:-1], Verdict(Answer.CONTENTS)), (b"", Verdict(Answer.CONTENTS)),
            (figure_books.CASES["third-list-faulty"], Verdict(Answer.ORDER, 2, 2)),
            (figure_books.CASES["span"], Verdict(Answer.SPAN, 1, 1)),
        ):
            expected = [Reply(verdict, None, False, question.ticket) for question in asked]
            self.assertEqual(belfry.ask(book, asked), expected)

    def test_lists_at_odds_refuse_their_question_alone(self):
        book = belfry.write_book({2: Z, 3: S, 4: in_five((4, 12, 2))})
        replies = belfry.ask(book, [Question(2, 4), Question(4, 4), Question(2, 3)])
        self.assertEqual([reply.verdict.answer.name for reply in replies],
                         ["JOINT", "TAKEN", "TAKEN"])
        self.assertEqual([reply.pairs and starts(reply.pairs) for reply in replies],
                         [None, [], [(2, 4), (3, 4), (2, 8)]])

    def test_an_empty_body_is_an_empty_list(self):
        book = belfry.book_write(array("I", [2, 0, 9, 2]), S)
        zones, samples = belfry.book_body(book, 2), belfry.book_body(book, 9)
        self.assertEqual((len(samples), list(belfry.pairs(zones, samples))), (8, []))

    def test_verdicts(self):
        for nodes, answer, index in (
            (((1, 5, 1), (5, 7, 2)), Answer.CROSS, 1), (((1, 5, 1), (6, 7, 1)), Answer.TAKEN, None),
            (((1, 9, 1), (7, 9, 2)), Answer.TAKEN, None),
            (((1, 9, 1), (7, 8, 2)), Answer.TAKEN, None),
            (((1, 9, 1), (7, 10, 2)), Answer.CROSS, 1), (((1, 9, 1), (7, 9, 1)), Answer.DEPTH, 1),
            (((1, 9, 3), (2, 3, 3)), Answer.DEPTH, 1), (((1, 9, 2), (7, 9, 2)), Answer.DEPTH, 1),
            (((2, 2, 64),), Answer.TAKEN, None), (((2, 2, 65),), Answer.LEVEL, 0),
        ):
            with self.subTest(nodes=nodes):
                only, second = (None, None) if index is None else (0, 1)
                found = belfry.verdict(in_five(*nodes))
                self.assertEqual(found, Verdict(answer, only, index))
                found = belfry.verdict_two(array("I"), in_five(*nodes))
                self.assertEqual(found, Verdict(answer, second, index))

    def test_verdicts_of_two_lists(self):
        for node, answer in (
            ((4, 12, 2), Answer.JOINT), ((4, 9, 1), Answer.JOINT), ((1, 9, 2), Answer.JOINT),
            ((4, 9, 2), Answer.TAKEN),
        ):
            with self.subTest(node=node):
                found = belfry.verdict_two(in_five((1, 9, 1)), in_five(node))
                self.assertEqual(found, Verdict(answer, None, None))

    def test_a_list_of_the_greatest_length(self):
        most = memoryview(words(figure_books.siblings(belfry.MOST, 2)))
        self.assertIsNone(belfry.check(most))
        self.assertIsNone(belfry.check_two(most, most))
        self.assertEqual(len(belfry.links(most)), 3 * belfry.MOST)

    def test_checks_say_nothing_of_accepted_lists(self):
        self.assertIsNone(belfry.check(Z))
        self.assertIsNone(belfry.check_two(Z, S))
        self.assertEqual(len(belfry.faulty(Z, S)), 0)

    def test_names(self):
        self.assertEqual([belfry.name(number) for number in range(19)], model.NAMES)
        self.assertEqual([answer.name for answer in Answer], model.NAMES)
        self.assertEqual((belfry.name(19), belfry.name(NONE)), ("", ""))


class Writing(unittest.TestCase):
    """The calls that write into the caller's memory write their result there, say how much, and
    leave the rest.
    """

    def test_into_words(self):
        for call, count, expected in (
            (lambda out: belfry.number_into(5, MARKS, out), 6, TABLE),
            (lambda out: belfry.unnumber_into(TABLE, out), (5, 11), MARKS),
            (lambda out: belfry.pick_into(TABLE, 3, out), 2, S),
            (lambda out: belfry.links_into(Z, out), 2, belfry.links(Z)),
            (lambda out: belfry.sheet_into(Z, S, [450, None], out), 2,
             array("I", [2, 1, 450, 1, 1, 450])),
        ):
            with self.subTest(expected=expected):
                out = painted(len(expected) + 2)
                self.assertEqual(call(memoryview(out)[1:]), count)
                self.assertEqual(out, painted(1) + expected + painted(1))

    def test_into_bytes(self):
        out = bytearray(b"\xa5" * 94)
        self.assertEqual(belfry.book_write_into(ENTRIES, Z + S, memoryview(out)[1:]), 92)
        self.assertEqual(out, b"\xa5" + BOOK + b"\xa5")


LEVELS = in_five((4, 6, 4), (8, 9, 0))
SPANS = in_five((2, 10, 2), (3, 1, 3))
CROSSED = in_five((1, 5, 1), (5, 7, 2))
TOO_DEEP = in_five((1, 9, 3), (2, 3, 3))
LONG = words(figure_books.siblings(4097, 0))
GOOD = [Percent(4.5), Grams(38.0)]
MANY = [Question(2, 3)] * (MOST_QUESTIONS + 1)
REFUSALS = [
    (lambda: belfry.check(array("I", bytes(4 * 16385))), Answer.RAGGED, None, None),
    (lambda: belfry.check_two(Z[:3], Z), Answer.RAGGED, 0, None),
    (lambda: belfry.check_two(Z, Z[:3]), Answer.RAGGED, 1, None),
    (lambda: belfry.page(Z, Z[:3], INSIDE, painted(8)), Answer.RAGGED, 1, None),
    (lambda: belfry.check(LONG), Answer.LONG, None, None),
    (lambda: belfry.check_two(LONG, S), Answer.LONG, 0, None),
    (lambda: belfry.listing(Z, LONG), Answer.LONG, 1, None),
    (lambda: belfry.check(in_five((2, 2, 65))), Answer.LEVEL, 0, 0),
    (lambda: next(belfry.pairs(Z, LEVELS)), Answer.LEVEL, 1, 1),
    (lambda: belfry.check_two(SPANS, S), Answer.SPAN, 0, 1),
    (lambda: belfry.check_two(Z, S + S), Answer.ORDER, 1, 2),
    (lambda: belfry.links(CROSSED), Answer.CROSS, 0, 1),
    (lambda: belfry.page(S, TOO_DEEP, INSIDE, painted(8)), Answer.DEPTH, 1, 1),
    (lambda: belfry.check_two(in_five((1, 9, 1)), in_five((4, 12, 2))), Answer.JOINT, None, None),
    (lambda: belfry.check_links(Z[:3], FOREST), Answer.RAGGED, None, None),
    (lambda: belfry.check_links(LONG, FOREST), Answer.LONG, None, None),
    (lambda: belfry.check_links(CROSSED, FOREST), Answer.CROSS, 0, 1),
    (lambda: belfry.check_links(Z, FOREST[1:]), Answer.LINKS, None, None),
    (lambda: belfry.check_links(Z, FOREST[3:]), Answer.LINKS, None, None),
    (lambda: belfry.check_links(Z, FOREST + FOREST[:1]), Answer.LINKS, None, None),
    (lambda: belfry.check_links(Z, array("I")), Answer.LINKS, None, None),
    (lambda: belfry.check_links(array("I"), FOREST[3:]), Answer.LINKS, None, None),
    (lambda: belfry.check_links(S, FOREST), Answer.LINKS, None, None),
    (lambda: belfry.page(Z, S, INSIDE, painted(8), links=FOREST[1:]), Answer.LINKS, None, None),
    (lambda: belfry.page(Z, LEVELS, INSIDE, painted(8), links=FOREST[1:]), Answer.LEVEL, 1, 1),
    (lambda: belfry.listing(Z, LONG, links=array("I")), Answer.LONG, 1, None),
    (lambda: belfry.listing(Z, S, links=belfry.links(S)), Answer.LINKS, None, None),
    (lambda: belfry.listing(Z, in_five((6, 8, 3)), links=S[:3]), Answer.JOINT, None, None),
    (lambda: next(belfry.pairs(Z, S, links=array("I"))), Answer.LINKS, None, None),
    (lambda: belfry.zone_range(Z[:3], S, GOOD, 0), Answer.RAGGED, 0, None),
    (lambda: belfry.zone_range(Z, S[:3], GOOD, 0), Answer.RAGGED, 1, None),
    (lambda: belfry.zone_range(LONG, S, GOOD, 0), Answer.LONG, 0, None),
    (lambda: belfry.zone_range(Z, LEVELS, GOOD, 0), Answer.LEVEL, 1, 1),
    (lambda: belfry.zone_range(Z, S, GOOD[1:], 0), Answer.RAGGED, None, None),
    (lambda: belfry.zone_range(Z, S, [*GOOD, None], 0), Answer.RAGGED, None, None),
    (lambda: belfry.zone_range(Z, S, array("I", [1, 0, 1]), 0), Answer.RAGGED, None, None),
    (lambda: belfry.zone_range(Z, S, [Percent(-1.0), *GOOD[1:]], 1), Answer.READING, None, 0),
    (lambda: belfry.zone_range(Z, S, [GOOD[0], Grams(1000.5)], 1), Answer.READING, None, 1),
    (lambda: belfry.zone_range(Z, S, [None, Percent(math.nan)], 9), Answer.READING, None, 1),
    (lambda: belfry.zone_range(Z, S, [Grams(math.inf), None], 0), Answer.READING, None, 0),
    (lambda: belfry.zone_range(Z, S, [None, Grams(1e39)], 0), Answer.READING, None, 1),
    (lambda: belfry.zone_range(Z, S, array("I", [1, 0, 0, 1]), 0), Answer.READING, None, 1),
    (lambda: belfry.zone_range(Z, S, array("I", [3, 0, 0, 0]), 0), Answer.READING, None, 0),
    (lambda: belfry.zone_range(Z, S, GOOD, 2), Answer.ABSENT, None, None),
    (lambda: belfry.zone_range(Z, S, GOOD, NONE), Answer.ABSENT, None, None),
    (lambda: belfry.sheet(Z[:3], S, [1, 2]), Answer.RAGGED, 0, None),
    (lambda: belfry.sheet(Z, S[:3], [1, 2]), Answer.RAGGED, 1, None),
    (lambda: belfry.sheet(Z, LONG, [1, 2]), Answer.LONG, 1, None),
    (lambda: belfry.sheet(CROSSED, S, [1, 2]), Answer.CROSS, 0, 1),
    (lambda: belfry.sheet(in_five((1, 9, 1)), in_five((4, 12, 2)), []), Answer.JOINT, None, None),
    (lambda: belfry.sheet(Z, S, [10001]), Answer.RAGGED, None, None),
    (lambda: belfry.sheet(Z, S, [1, 2, None]), Answer.RAGGED, None, None),
    (lambda: belfry.sheet(Z, S, [None, 10001]), Answer.READING, None, 1),
    (lambda: belfry.sheet(Z, S, [65534, 65536]), Answer.READING, None, 0),
    (lambda: belfry.sheet(array("I"), S, [1, NONE]), Answer.READING, None, 1),
    (lambda: belfry.sheet_into(Z, S, [1, 65536], painted(5)), Answer.READING, None, 1),
    (lambda: belfry.sheet_into(Z, S, [1, 2], painted(5)), Answer.ROOM, None, None),
    (lambda: belfry.number_into(5, MARKS, painted(29)), Answer.ROOM, None, None),
    (lambda: belfry.unnumber_into(TABLE, painted(10)), Answer.ROOM, None, None),
    (lambda: belfry.pick_into(TABLE, 2, painted(7)), Answer.ROOM, None, None),
    (lambda: belfry.links_into(Z, painted(5)), Answer.ROOM, None, None),
    (lambda: belfry.book_write_into(ENTRIES, Z + S, bytearray(91)), Answer.ROOM, None, None),
    (lambda: belfry.number(5, array("I", [1, 65537, 0])), Answer.MARK, None, None),
    (lambda: belfry.number(5, array("I", [0])), Answer.STRAY, None, None),
    (lambda: belfry.number(5, array("I", [1, 0, 1, 0])), Answer.STRAY, None, None),
    (lambda: belfry.number(5, array("I", [1] * 65)), Answer.DEEP, None, None),
    (lambda: belfry.number(5, array("I")), Answer.UNCLOSED, None, None),
    (lambda: belfry.number(5, array("I", bytes(4 * 4097))), Answer.LONG, None, None),
    (lambda: belfry.unnumber(TABLE[5:]), Answer.TABLE, None, None),
    (lambda: belfry.unnumber(TABLE[1:]), Answer.RAGGED, None, None),
    (lambda: belfry.pick(TABLE[1:], 2), Answer.RAGGED, None, None),
    (lambda: belfry.book_check(BOOK[:-1]), Answer.CONTENTS, None, None),
    (lambda: belfry.book_check(figure_books.CASES["third-list-faulty"]), Answer.ORDER, 2, 2),
    (lambda: belfry.book_body(b"", 2), Answer.CONTENTS, None, None),
    (lambda: belfry.book_body(figure_books.CASES["span"], 2), Answer.SPAN, 1, 1),
    (lambda: belfry.book_body(BOOK, 4), Answer.ABSENT, None, None),
    (lambda: belfry.ask(BOOK, MANY), Answer.LONG, None, None),
    (lambda: belfry.ask(b"", MANY * 30), Answer.LONG, None, None),
    (lambda: belfry.ask(BOOK, QUESTIONS[1:]), Answer.RAGGED, None, None),
    (lambda: belfry.ask(b"", QUESTIONS[:7]), Answer.RAGGED, None, None),
    (lambda: belfry.ask(BOOK, QUESTIONS * 11 + QUESTIONS[:1]), Answer.RAGGED, None, None),
    (lambda: belfry.book_write(array("I", [2, 2, 3]), Z), Answer.RAGGED, None, None),
    (lambda: belfry.book_write(array("I", [2, 2, 3, 3]), Z + S), Answer.CONTENTS, None, None),
    (lambda: belfry.book_write(ENTRIES, Z + S[4:] + S[:4]), Answer.ORDER, 1, 1),
]


class Refusals(unittest.TestCase):
    def test_each_is_raised_with_its_fields_and_none_where_no_place_is_meant(self):
        for call, number, list_, index in REFUSALS:
            with self.subTest(number=number, list=list_, index=index):
                with self.assertRaises(Refused) as raised:
                    call()
                refused = raised.exception
                self.assertEqual((refused.number, refused.name), (number, number.name))
                self.assertEqual((refused.list, refused.index), (list_, index))
                self.assertIsInstance(refused.number, Answer)

    def test_every_answer_but_taken_is_tried(self):
        self.assertEqual({number for _, number, _, _ in REFUSALS}, set(Answer) - {Answer.TAKEN})

    def test_the_message_says_what_and_what_to_do_and_the_place_if_there_is_one(self):
        for refused, expected in (
            (Refused(5, 1, 2), "5 ORDER, list 1, index 2: "), (Refused(2, 0), "2 LONG, list 0: "),
            (Refused(8), "8 JOINT: "), (Refused(17, index=3), "17 READING, index 3: "),
            (Refused(18), "18 LINKS: "),
        ):
            self.assertEqual(str(refused), expected + HINTS[refused.number])
            self.assertEqual(refused.hint, HINTS[refused.number])
        self.assertEqual((set(HINTS), len(set(HINTS.values()))), (set(Answer), 19))

    def test_it_can_be_pickled(self):
        again = pickle.loads(pickle.dumps(Refused(6, 1, 7)))
        self.assertEqual((again.number, again.name, again.list, again.index), (6, "CROSS", 1, 7))

    def test_an_output_is_left_as_it_was(self):
        out, book = painted(40), bytearray(b"\xa5" * 100)
        for call in (
            lambda: belfry.page(Z, S + S, INSIDE, out),
            lambda: belfry.page(Z, S, INSIDE, out, links=FOREST[:-1]),
            lambda: belfry.number_into(5, MARKS[:-1], out),
            lambda: belfry.unnumber_into(TABLE[5:], out),
            lambda: belfry.pick_into(TABLE[1:], 2, out),
            lambda: belfry.links_into(S + S, out),
            lambda: belfry.book_write_into(ENTRIES, Z + Z + S, book),
        ):
            self.assertRaises(Refused, call)
        self.assertEqual((out, book), (painted(40), b"\xa5" * 100))


if __name__ == "__main__":
    unittest.main()
