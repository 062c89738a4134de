"""Pieces: what it answers of lists cut into small pieces is what the archive answers of them whole,
and what the naive model does.
"""
import random
import unittest
from array import array
from itertools import chain
from unittest import mock

from support import (
    INSIDE, LISTINGS, S, Z, damaged, in_five, key, listing, painted, random_tree, some_of, starts,
    ticket, tuples, two_lists, words,
)

import belfrychest as belfry
from belfrychest import (
    NONE, Answer, Order, Page, Pieces, Refused, Relation, Ticket, Verdict, _pages,
)

DOCUMENTS = ((5,), (5, 6), (5, 6, 7))


def two_of(rng, length=12):
    """Returns two lists of some nodes of one tree."""
    tree = random_tree(rng, length, rng.choice(DOCUMENTS))
    return some_of(rng, tree), some_of(rng, tree)


def random_ticket(rng, relation, order):
    """Returns a fresh ticket, or one at a place that may stand in the lists."""
    place = (rng.randint(4, 7), rng.randint(0, 16), rng.randint(0, 16))
    return ticket(relation, order, rng.randint(0, 3), *place)


class AgainstTheArchive(unittest.TestCase):
    def test_verdicts(self):
        rng, seen = random.Random(11), set()
        for _ in range(700):
            zones, samples = (damaged(rng, nodes) for nodes in two_of(rng))
            expected = belfry.verdict_two(words(zones), words(samples))
            self.assertEqual(expected, two_lists(zones, samples))
            size = rng.randint(1, 5)
            found = Pieces(words(zones), words(samples), _size=size).verdict()
            self.assertEqual(found, expected, (zones, samples, size))
            seen.add((found.answer, found.list, found.index is not None and found.index >= size))
        expected = {(Answer(number), list_, True) for number in range(3, 8) for list_ in (0, 1)}
        expected |= {(Answer.TAKEN, None, False), (Answer.JOINT, None, False)}
        self.assertLessEqual(expected, seen)

    def test_a_crossing_that_also_is_too_deep_is_a_crossing(self):
        """Tries a last node that is inside the first, not deep enough, and crosses the second."""
        crossed = in_five((1, 20, 5), (2, 5, 6), (7, 8, 6), (9, 10, 6), (4, 12, 3))
        sorted_ = in_five((1, 20, 5), (2, 5, 6), (4, 7, 3))
        for nodes in (crossed, sorted_):
            for size in range(1, 6):
                found = Pieces(array("I"), nodes, _size=size).verdict()
                self.assertEqual(found, belfry.verdict_two(array("I"), nodes))
        self.assertEqual(belfry.verdict(sorted_).answer, Answer.CROSS)

    def test_listings(self):
        rng, pairs = random.Random(12), 0
        for _ in range(12):
            zones, samples = two_of(rng, 16)
            cut = Pieces(words(zones), words(samples), _size=rng.randint(1, 5))
            for which in LISTINGS:
                found = cut.listing(**which)
                expected = listing(zones, samples, **which)
                self.assertEqual(found, words(map(chain.from_iterable, expected)))
                self.assertEqual(found, belfry.listing(words(zones), words(samples), **which))
                self.assertEqual(list(cut.pairs(**which, room=rng.randint(3, 9))), expected)
                pairs += len(expected)
        self.assertGreater(pairs, 150)

    def test_pages(self):
        rng, done = random.Random(13), []
        for _ in range(150):
            zones, samples = map(words, two_of(rng, 20))
            given = random_ticket(rng, **rng.choice(LISTINGS))
            room = rng.randint(8, 60)
            out, expected = painted(room), painted(room)
            page = Pieces(zones, samples, _size=rng.randint(1, 5)).page(given, out)
            self.assertEqual(page, belfry.page(zones, samples, given, expected))
            self.assertEqual(out, expected)
            done.append((page.done, page.count == room // 8))
        self.assertEqual(set(done), {(False, True), (True, True), (True, False)})

    def test_edits_between_pages(self):
        rng = random.Random(14)
        for _ in range(10):
            tree = random_tree(rng, 16, rng.choice(DOCUMENTS))
            self.hold_pages(rng, tree, **rng.choice(LISTINGS))

    def hold_pages(self, rng, tree, relation, order):
        """Checks that page after page is that of the archive, while nodes come and go in the lists
        lent.
        """
        zones, samples = array("I"), array("I")
        cut = Pieces(zones, samples, _size=rng.randint(1, 4))
        reached, done, stood, handed = Ticket.fresh(relation=relation, order=order), False, None, []
        kept = some_of(rng, tree)
        while not done:
            now = [sorted({*kept, *some_of(rng, tree)}) for _ in range(2)]
            zones[:], samples[:] = map(words, now)
            out, expected = painted(16), painted(16)
            page = cut.page(reached, out)
            self.assertEqual(page, belfry.page(zones, samples, reached, expected))
            self.assertEqual(out, expected)
            pairs = set(listing(*now, relation, order))
            stood = pairs if stood is None else stood & pairs
            handed += tuples(out, page.count)
            reached, done = page.ticket, page.done
        self.assertLessEqual(stood, set(handed))
        self.assertEqual(len({key(pair, order) for pair in handed}), len(handed))

    def test_meeting_pieces_have_each_pair_once(self):
        rng, left_out = random.Random(15), 0
        for _ in range(15):
            zones, samples = two_of(rng, 16)
            cut = Pieces(words(zones), words(samples), _size=rng.randint(1, 5))
            meeting = cut.meeting()
            found = [pair for two in meeting for pair in belfry.pairs(*two)]
            found.sort(key=lambda pair: key(pair, Order.DESCENDANT))
            self.assertEqual(found, list(cut.pairs()))
            pieces = [{tuple(two[side]) for two in meeting} for side in (0, 1)]
            left_out += len(pieces[0]) * len(pieces[1]) - len(meeting)
        self.assertGreater(left_out, 0)


class Whole(unittest.TestCase):
    """What a caller sees of Pieces as of the calls that it stands for."""

    def test_words_that_are_no_whole_nodes(self):
        crossed = in_five((1, 5, 1), (5, 7, 2))
        for zones, samples, expected in (
            (Z[:3], S, Verdict(Answer.RAGGED, 0)), (Z, S[:-1], Verdict(Answer.RAGGED, 1)),
            (crossed + Z[:1], S, Verdict(Answer.RAGGED, 0)),
            (crossed, S[:-1], Verdict(Answer.CROSS, 0, 1)),
        ):
            for size in (1, 2, 4096):
                self.assertEqual(Pieces(zones, samples, _size=size).verdict(), expected)
            self.assertEqual(belfry.verdict_two(zones, samples), expected)

    def test_empty_lists(self):
        empty = Pieces(array("I"), array("I"))
        self.assertIsNone(empty.check())
        self.assertEqual((empty.meeting(), list(empty.pairs())), ([], []))
        self.assertEqual(empty.listing(), array("I"))
        self.assertEqual(empty.page(INSIDE, painted(8)), Page(0, True, INSIDE))

    def test_a_refusal_leaves_the_output_and_the_ticket_stays_good(self):
        zones, out = array("I", Z), painted(8)
        cut = Pieces(zones, S, _size=1)
        reached = cut.page(INSIDE, out).ticket
        before = out[:]
        zones[6] = 12
        with self.assertRaisesRegex(Refused, "^6 CROSS, list 0, index 1: ") as raised:
            cut.page(reached, out)
        self.assertEqual((raised.exception.list, raised.exception.index, out), (0, 1, before))
        for call in (cut.check, cut.listing, cut.meeting, lambda: next(cut.pairs())):
            self.assertRaises(Refused, call)
        zones[6] = 7
        self.assertEqual(cut.page(reached, out).ticket, ticket(0, 0, 1, 5, 4, 3))

    def test_pieces_that_the_ticket_has_passed_are_not_asked_but_checked(self):
        """Cuts three samples and two zones into pieces of one."""
        samples = in_five((4, 6, 4), (8, 8, 3), (9, 9, 3))
        cut = Pieces(Z, samples, _size=1)
        for place, calls in (((), 6), ((1, 5, 8, 2), 4), ((1, 5, 9, 2), 2), ((1, 6, 0, 0), 0)):
            given = ticket(0, 0, *place)
            with mock.patch.object(_pages, "page", wraps=belfry.page) as asked:
                page = cut.page(given, painted(80))
            self.assertEqual(asked.call_count, calls)
            self.assertEqual(page, belfry.page(Z, samples, given, painted(80)))
            samples[3] = 65
            self.assertRaisesRegex(Refused, "^3 LEVEL, list 1, index 0: ", cut.page, given,
                                   painted(8))
            samples[3] = 4

    def test_words_after_the_result_are_left(self):
        out = painted(29)
        page = Pieces(Z, S, _size=1).page(INSIDE, out)
        self.assertEqual(page, Page(3, True, ticket(0, 0, 1, 5, 8, 2)))
        self.assertEqual(out, belfry.listing(Z, S) + painted(5))

    def test_what_it_is_asked_for(self):
        cut = Pieces(Z, S)
        for call in (
            lambda: cut.listing(relation=Order.ANCESTOR), lambda: cut.listing(order=1),
            lambda: cut.pairs(order=Relation.DIRECTLY), lambda: cut.pairs(room=1.5),
            lambda: cut.listing(Relation.INSIDE), lambda: cut.page((0, 0, 0, 0, 0, 0), painted(8)),
        ):
            self.assertRaises(TypeError, call)
        self.assertRaises(ValueError, cut.pairs, room=0)
        self.assertRaisesRegex(ValueError, "room for a pair", cut.page, INSIDE, painted(7))

    def test_the_pieces_are_the_callers_own_memory(self):
        zones = array("I", Z)
        (first, _), (second, _) = Pieces(zones, S, _size=1).meeting()[::2]
        self.assertEqual((first.tolist(), second.tolist()), (Z[:4].tolist(), Z[4:].tolist()))
        first[3] = 64
        self.assertEqual(zones[3], 64)
        self.assertRaises(BufferError, zones.append, 5)

    def test_documents_at_both_ends_of_their_range(self):
        nodes = words([(0, 1, 9, 1), (0, 2, 3, 2), (NONE, 1, 9, 1), (NONE, 2, 3, 2)])
        for size in range(1, 5):
            cut = Pieces(nodes, nodes, _size=size)
            self.assertEqual([pair.ancestor.document for pair in cut.pairs()], [0, NONE])
            self.assertEqual(starts(cut.pairs()), [(1, 2), (1, 2)])


if __name__ == "__main__":
    unittest.main()
