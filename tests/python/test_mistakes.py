"""The mistakes of users that once lost pairs or hid a fault without a word, by name."""
import unittest
from array import array
from collections import OrderedDict, deque
from inspect import signature
from types import MappingProxyType

from support import BOOK, FOREST, INSIDE, S, Z, in_five, painted, starts, ticket, words

import belfrychest as belfry
from belfrychest import (
    NO_HUNDREDTHS, Answer, Grams, Order, Percent, Pieces, Question, Refused, Relation, Ticket,
    Verdict,
)


class TheOrderGivenAsTheRelation(unittest.TestCase):
    """`pairs(zones, samples, Order.ANCESTOR)` listed the pairs directly inside, and no others."""

    def test_by_position(self):
        for call in (
            lambda: belfry.pairs(Z, S, Order.ANCESTOR),
            lambda: belfry.pairs(Z, S, Relation.DIRECTLY),
            lambda: belfry.listing(Z, S, Order.ANCESTOR),
            lambda: Ticket.fresh(Order.ANCESTOR),
            lambda: Ticket(Relation.INSIDE, Order.ANCESTOR),
            lambda: Pieces(Z, S).pairs(Order.ANCESTOR),
            lambda: Pieces(Z, S).listing(Order.ANCESTOR),
            lambda: belfry.ask(BOOK, [Question(2, 3)], 4096),
        ):
            with self.assertRaisesRegex(TypeError, "positional argument"):
                call()

    def test_by_the_other_enum_or_a_number(self):
        for relation, order in (
            (Order.ANCESTOR, Order.DESCENDANT), (Order.DESCENDANT, Order.DESCENDANT),
            (1, Order.ANCESTOR), (0, Order.ANCESTOR), (None, Order.ANCESTOR),
            (Relation.INSIDE, Relation.DIRECTLY), (Relation.INSIDE, 1), (Relation.INSIDE, None),
        ):
            cut, message = Pieces(Z, S), "must be of the type (Relation|Order), not"
            for call, *lists in ((belfry.pairs, Z, S), (belfry.listing, Z, S), (cut.pairs,),
                                 (cut.listing,), (Ticket,), (Ticket.fresh,)):
                with self.subTest(relation=relation, order=order, call=call):
                    with self.assertRaisesRegex(TypeError, message):
                        call(*lists, relation=relation, order=order)

    def test_all_pairs_come_in_the_order_asked_for(self):
        self.assertEqual(starts(belfry.pairs(Z, S, order=Order.ANCESTOR)), [(2, 4), (2, 8), (3, 4)])

START, END, LEVEL = 1, 2, 3


def field_of(zones):
    """Returns a zone with `zones` zones side by side in it, and a sample in each of those."""
    outer = (5, 1, 10 * zones + 20, 1)
    inner = [(5, 10 * at + 10, 10 * at + 19, 2) for at in range(zones)]
    return words([outer, *inner]), words((5, start + 4, start + 4, 3) for _, start, _, _ in inner)


def by_piece(zones, samples):
    """Does what "split it" once made users do: joins the pieces of both lists, one with one."""
    step = 4 * belfry.MOST
    ends = range(0, max(len(zones), len(samples)), step)
    return [(zones[at:at + step], samples[at:at + step]) for at in ends]


class ListsSplitAndJoinedPieceByPiece(unittest.TestCase):
    def setUp(self):
        self.zones, self.samples = field_of(4500)

    def test_no_pair_is_lost(self):
        self.assertEqual((len(self.zones) // 4, len(self.samples) // 4), (4501, 4500))
        with self.assertRaisesRegex(Refused, "^2 LONG, list 0: .*Pieces"):
            belfry.listing(self.zones, self.samples)
        lost = [belfry.listing(*two) for two in by_piece(self.zones, self.samples)]
        self.assertEqual(sum(map(len, lost)) // 8, 8595)
        cut = Pieces(self.zones, self.samples)
        found = cut.listing()
        starts_of = [(10 * at + 14, zone) for at in range(4500) for zone in (1, 10 * at + 10)]
        self.assertEqual(list(zip(found[5::8], found[1::8])), starts_of)
        self.assertEqual(belfry.words(cut.pairs()), found)
        self.assertEqual(len(cut.meeting()), 4)

    def assert_fault(self, expected):
        """Checks that each piece passes with the piece that it was joined with, and that the whole
        is refused.
        """
        for two in by_piece(self.zones, self.samples):
            self.assertEqual(belfry.verdict_two(*two).answer, Answer.TAKEN)
        cut = Pieces(self.zones, self.samples)
        self.assertEqual(cut.verdict(), expected)
        for call in (cut.check, cut.listing, cut.meeting, lambda: next(cut.pairs())):
            with self.assertRaises(Refused) as raised:
                call()
            refused = raised.exception
            self.assertEqual((refused.number, refused.list, refused.index),
                             (expected.answer, expected.list, expected.index))

    def test_a_zone_that_crosses_the_last_one_before_the_cut_is_found(self):
        self.zones[4 * 4095 + END] = self.zones[4 * 4096 + START]
        self.assert_fault(Verdict(Answer.CROSS, 0, 4096))

    def test_a_zone_that_crosses_the_first_one_is_found(self):
        self.zones[4 * 4500 + END] = self.zones[END] + 1
        self.assert_fault(Verdict(Answer.CROSS, 0, 4500))

    def test_a_sample_that_crosses_another_over_the_cut_is_found(self):
        self.samples[4 * 4095 + END] = self.samples[4 * 4096 + START]
        self.samples[4 * 4096 + END] += 1
        self.zones = self.zones[:4]
        self.assert_fault(Verdict(Answer.CROSS, 1, 4096))

    def test_a_level_that_is_too_low_after_the_cut_is_found(self):
        self.zones[4 * 4097 + LEVEL] = self.zones[LEVEL]
        self.assert_fault(Verdict(Answer.DEPTH, 0, 4097))

    def test_a_wrong_order_at_the_cut_is_found(self):
        self.zones[4 * 4096:4 * 4097] = self.zones[4 * 4095:4 * 4096]
        self.assert_fault(Verdict(Answer.ORDER, 0, 4096))

    def test_a_zone_and_a_sample_at_odds_in_different_pieces_are_found(self):
        """Lets the last sample end past the first zone, and takes its own zone away."""
        self.samples[-4 + END] = self.zones[END] + 1
        del self.zones[-4:]
        self.assert_fault(Verdict(Answer.JOINT))


class AMissingReadingTakenForZero(unittest.TestCase):
    """A 0 in place of "no reading" sets the seed rate of a field that the lab never looked at."""

    def test_a_zone_without_a_reading_has_no_number(self):
        self.assertIsNone(belfry.zone_range(Z, S, [None, Percent(4.5)], 1))
        self.assertEqual(belfry.zone_range(Z, S, [None, Percent(4.5)], 0), (4.5, 4.5))
        self.assertEqual(belfry.zone_range(Z, S, [Percent(0), Percent(4.5)], 1), (0.0, 0.0))

    def test_a_bare_number_is_no_reading(self):
        for reading in (0, 0.0, 4.5, float("nan"), "", "4.5", (4.5,), [1, 0]):
            with self.subTest(reading=reading):
                with self.assertRaisesRegex(TypeError, "^reading 1 must be Percent, Grams or None"):
                    belfry.zone_range(Z, S, [None, reading], 0)

    def test_a_value_that_is_no_number_is_an_error(self):
        for value in (None, "4.5", b"4", [4.5]):
            for kind in (Percent, Grams):
                with self.assertRaisesRegex(TypeError, "^reading 0 must have a number, not "):
                    belfry.zone_range(Z, S, [kind(value), None], 0)
        with self.assertRaisesRegex(ValueError, "^reading 1 has a number that is no float"):
            belfry.zone_range(Z, S, [None, Grams(10 ** 400)], 0)

    def test_a_lone_reading_is_not_the_readings(self):
        for given in (None, Percent(4.5), Grams(38.0), 4.5, 0):
            for call in (belfry.reading_words, lambda given: belfry.zone_range(Z, S, given, 0)):
                with self.subTest(given=given, call=call):
                    with self.assertRaisesRegex(TypeError, "^readings must be a list of Percent, "):
                        call(given)

    def test_memory_of_floats_is_no_memory_of_readings(self):
        for given in (array("f", [4.5, 3.8]), array("d", [4.5, 3.8]), bytes(16)):
            with self.assertRaisesRegex(TypeError, "^readings must be a buffer of unsigned 32-bit"):
                belfry.zone_range(Z, S, given, 0)

    def test_percent_and_grams_are_not_equal(self):
        self.assertNotEqual(Percent(4.5), Grams(4.5))

    def test_an_index_that_is_no_word_is_an_error(self):
        for zone in (-1, 2 ** 32):
            with self.assertRaisesRegex(ValueError, "^zone must be from 0 to 4294967295, not "):
                belfry.zone_range(Z, S, [None, None], zone)
        with self.assertRaisesRegex(TypeError, "^zone must be a whole number, not "):
            belfry.zone_range(Z, S, [None, None], 0.0)


class ReadingsWithoutAnOrder(unittest.TestCase):
    """A set gave each sample the reading of any other, and a dict gave its keys as the readings."""

    def test_a_set_and_a_dict_are_errors(self):
        by_sample = {None: Percent(4.5), Percent(3.0): None}
        for given in (set(by_sample), frozenset(by_sample), by_sample, OrderedDict(by_sample),
                      MappingProxyType(by_sample), by_sample.keys(), set(), {}):
            kind = type(given).__name__
            message = f"^readings must come in the samples' order, not as {kind}$"
            for call in (belfry.reading_words, lambda given: belfry.zone_range(Z, S, given, 0)):
                with self.subTest(kind=kind, call=call):
                    with self.assertRaisesRegex(TypeError, message):
                        call(given)

    def test_what_has_an_order_is_taken(self):
        readings = [Percent(4.5), Percent(3.0)]
        for given in (readings, tuple(readings), iter(readings), deque(readings),
                      dict(enumerate(readings)).values(), (each for each in readings)):
            with self.subTest(kind=type(given)):
                self.assertEqual(belfry.zone_range(Z, S, given, 0), (3.0, 4.5))


class AValueJudgedBeforeItIsRounded(unittest.TestCase):
    """The float of 32 bits is judged, and not the number that it was rounded from."""

    def test_what_rounds_to_a_limit_is_taken(self):
        for given, rounded in ((Percent(100.000001), 100.0), (Grams(1000.00001), 100.0),
                               (Percent(-1e-60), -0.0), (Grams(-1e-60), -0.0)):
            with self.subTest(given=given):
                found = belfry.zone_range(Z, S, [given, None], 0)
                self.assertEqual(list(map(str, found)), [str(rounded)] * 2)

    def test_what_rounds_to_a_float_beyond_is_refused(self):
        for given in (Percent(100.00001), Grams(1000.0001), Percent(-1e-45), Percent(1e39)):
            with self.subTest(given=given):
                with self.assertRaisesRegex(Refused, "^17 READING, index 1: "):
                    belfry.zone_range(Z, S, [None, given], 0)


class AMissingReadingCountedInASheet(unittest.TestCase):
    """A 0 in place of a missing reading leaves the sum as it is, and every average is too low."""

    def test_a_missing_reading_is_not_present(self):
        self.assertEqual(belfry.sheet(Z, S, [None, 450]), [(2, 1, 450), (1, 0, 0)])
        self.assertEqual(belfry.sheet(Z, S, [0, 450]), [(2, 2, 450), (1, 1, 0)])

    def test_the_word_for_missing_is_no_number_in_a_list(self):
        message = f"^hundredths 1 must be None where the reading is missing, not {NO_HUNDREDTHS}$"
        with self.assertRaisesRegex(ValueError, message):
            belfry.sheet(Z, S, [450, NO_HUNDREDTHS])

    def test_percent_and_other_floats_are_no_hundredths(self):
        for given in (4.5, 450.0, float("nan"), "450", Percent(4.5), (450,)):
            with self.subTest(given=given):
                kind = type(given).__name__
                message = f"^hundredths 1 must be a whole number, not {kind}$"
                with self.assertRaisesRegex(TypeError, message):
                    belfry.sheet(Z, S, [None, given])

    def test_a_number_without_32_bits_is_an_error(self):
        for given in (-1, -65535, 2 ** 32):
            message = f"^hundredths 0 must be from 0 to 4294967295, not {given}$"
            with self.assertRaisesRegex(ValueError, message):
                belfry.sheet(Z, S, [given, None])

    def test_lone_hundredths_are_not_the_samples(self):
        for given in (None, 450, 4.5):
            with self.assertRaisesRegex(TypeError, "^hundredths must be a list of whole numbers"):
                belfry.sheet(Z, S, given)

    def test_memory_of_16_bits_or_of_floats_is_refused(self):
        for given in (array("H", [450, 380]), array("f", [4.5, 3.8]), bytes(8)):
            with self.assertRaisesRegex(TypeError, "^hundredths must be a buffer of unsigned 32-"):
                belfry.sheet(Z, S, given)

    def test_hundredths_without_an_order_are_an_error(self):
        for given in ({450, 380}, frozenset([450]), {450: 380}, {}.keys(), set()):
            message = f"^hundredths must come in the samples' order, not as {type(given).__name__}$"
            with self.subTest(given=given), self.assertRaisesRegex(TypeError, message):
                belfry.sheet(Z, S, given)
        for given in ((450, 380), deque([450, 380]), (each for each in (450, 380))):
            self.assertEqual(belfry.sheet(Z, S, given), [(2, 2, 830), (1, 1, 450)])


class ARefusedQuestionTakenForOneWithoutPairs(unittest.TestCase):
    """Nobody knows which pairs a list has that isn't in the book. An empty list would say none."""

    def test_its_pairs_are_none_and_it_is_not_done(self):
        book = belfry.write_book({2: Z, 3: S, 4: array("I")})
        without, refused, found = belfry.ask(book, [Question(2, tag) for tag in (4, 5, 3)])
        self.assertEqual((without.pairs, without.done), ([], True))
        self.assertEqual((refused.pairs, refused.done), (None, False))
        self.assertEqual(refused.verdict, Verdict(Answer.ABSENT))
        self.assertEqual(len(found.pairs), 3)

    def test_a_loop_over_its_pairs_is_an_error(self):
        [refused] = belfry.ask(BOOK, [Question(2, 5)])
        with self.assertRaises(TypeError):
            list(refused.pairs)


class WhatIsNoQuestion(unittest.TestCase):
    def test_questions_without_an_order_are_an_error(self):
        by_name = {"samples": Question(2, 3), "zones": Question(2, 2)}
        for given in (set(by_name.values()), frozenset(), by_name, by_name.keys(), {}):
            message = f"^questions must come in an order, not as {type(given).__name__}$"
            with self.subTest(given=given), self.assertRaisesRegex(TypeError, message):
                belfry.ask(BOOK, given)
        for given in (by_name.values(), deque(by_name.values()), iter(by_name.values())):
            counts = [len(reply.pairs) for reply in belfry.ask(BOOK, given)]
            self.assertEqual(counts, [3, 1])

    def test_a_lone_question_is_an_error(self):
        for given in (Question(2, 3), None, 2):
            with self.assertRaisesRegex(TypeError, "^questions must be a list of Question, or a "):
                belfry.ask(BOOK, given)

    def test_tags_alone_are_no_question(self):
        for given in ((2, 3), (2, 3, INSIDE), 2, None, "23", INSIDE):
            message = "^question 1 must be of the type Question, not "
            with self.subTest(given=given), self.assertRaisesRegex(TypeError, message):
                belfry.ask(BOOK, [Question(2, 3), given])

    def test_a_relation_or_an_order_is_no_ticket(self):
        for given in (Relation.DIRECTLY, Order.ANCESTOR, None, 1):
            message = "^ticket must be of the type Ticket, not "
            with self.subTest(given=given), self.assertRaisesRegex(TypeError, message):
                Question(2, 3, given)

    def test_a_tag_that_is_no_word_is_an_error(self):
        for what, tags in (("ancestors", (-1, 3)), ("descendants", (2, 2 ** 32))):
            with self.assertRaisesRegex(ValueError, f"^{what} must be from 0 to 4294967295, not "):
                Question(*tags)

    def test_a_fresh_ticket_unless_another_is_given(self):
        self.assertEqual(Question(2, 3), Question(2, 3, INSIDE))


class LinksFromBeforeAnEdit(unittest.TestCase):
    """Such links would lead past zones that hold samples, and the pairs would be lost."""

    def setUp(self):
        self.zones = in_five((2, 30, 2), (3, 7, 3), (9, 20, 3), (10, 15, 4))
        self.samples = in_five((4, 6, 4), (11, 12, 5), (16, 17, 4), (21, 22, 3))
        self.forest = belfry.links(self.zones)

    def move_last_zone(self):
        self.zones[12:] = in_five((23, 25, 3))

    def test_they_are_refused_and_the_ticket_is_still_good(self):
        out = painted(40)
        first = belfry.page(self.zones, self.samples, INSIDE, out[:16], links=self.forest)
        self.assertEqual((first.count, first.done), (2, False))
        self.move_last_zone()
        for wrong in (self.forest, belfry.links(self.samples), array("I")):
            with self.assertRaisesRegex(Refused, "^18 LINKS: "):
                belfry.page(self.zones, self.samples, first.ticket, out, links=wrong)
            self.assertEqual(out, painted(40))
        plain, anew = painted(40), belfry.links(self.zones)
        found = belfry.page(self.zones, self.samples, first.ticket, out, links=anew)
        self.assertEqual((found.count, found.done), (5, True))
        self.assertEqual(belfry.page(self.zones, self.samples, first.ticket, plain), found)
        self.assertEqual(out, plain)

    def test_a_listing_ends_at_its_next_page(self):
        found = belfry.pairs(self.zones, self.samples, links=self.forest, room=2)
        self.assertEqual(starts([next(found), next(found)]), [(2, 4), (3, 4)])
        self.move_last_zone()
        self.assertRaisesRegex(Refused, "LINKS", next, found)

    def test_a_listing_goes_on_where_the_links_follow_the_edit(self):
        found = belfry.pairs(self.zones, self.samples, links=self.forest, room=2)
        self.assertEqual(starts([next(found), next(found)]), [(2, 4), (3, 4)])
        self.move_last_zone()
        self.assertEqual(belfry.links_into(self.zones, self.forest), 4)
        self.assertEqual(starts(found), [(2, 11), (9, 11), (2, 16), (9, 16), (2, 21)])

    def test_an_edit_of_the_samples_needs_no_new_links(self):
        del self.samples[4:8]
        found = belfry.pairs(self.zones, self.samples, links=self.forest)
        self.assertEqual(starts(found), [(2, 4), (3, 4), (2, 16), (9, 16), (2, 21)])


class WhatIsNoLinks(unittest.TestCase):
    def test_empty_links_are_not_the_same_as_none(self):
        self.assertEqual(belfry.listing(Z, S, links=None), belfry.listing(Z, S))
        self.assertRaisesRegex(Refused, "^18 LINKS: ", belfry.listing, Z, S, links=array("I"))

    def test_tuples_are_no_memory(self):
        for given in (list(belfry.node_links(FOREST)), [], (), {}, True):
            with self.subTest(given=given):
                with self.assertRaisesRegex(TypeError, "^links must be a buffer of unsigned 32-"):
                    belfry.listing(Z, S, links=given)

    def test_by_position(self):
        for call in (
            lambda: belfry.pairs(Z, S, FOREST), lambda: belfry.listing(Z, S, FOREST),
            lambda: belfry.page(Z, S, INSIDE, painted(8), FOREST),
        ):
            with self.assertRaisesRegex(TypeError, "positional argument"):
                call()


class APageWithRoomForNoPair(unittest.TestCase):
    """Such a page is never done while a pair remains, so a loop "until done" didn't end."""

    def test_it_is_an_error_and_writes_nothing(self):
        for room in (0, 1, 7):
            out, message = painted(room), f"room for a pair, 8 words, not {room}"
            self.assertRaisesRegex(ValueError, message, belfry.page, Z, S, INSIDE, out)
            self.assertRaisesRegex(ValueError, message, Pieces(Z, S).page, INSIDE, out)
            self.assertRaisesRegex(ValueError, message, belfry.page, Z, S, INSIDE, out,
                                   links=FOREST)
            self.assertEqual(out, painted(room))

    def test_it_is_one_even_where_nothing_is_left(self):
        last = ticket(0, 0, 1, 5, 8, 2)
        self.assertRaisesRegex(ValueError, "room for a pair", belfry.page, Z, S, last, array("I"))

    def test_it_is_one_for_whole_listings(self):
        for room in (0, -1):
            self.assertRaisesRegex(ValueError, "at least 1", belfry.pairs, Z, S, room=room)
            self.assertRaisesRegex(ValueError, "at least 1", Pieces(Z, S).pairs, room=room)
            self.assertRaisesRegex(ValueError, "at least 1", belfry.ask, BOOK, [], room=room)
        self.assertRaises(TypeError, belfry.pairs, Z, S, room=1.5)
        self.assertRaises(TypeError, belfry.ask, BOOK, [], room=1.5)

    def test_small_pages_are_nobodys_default(self):
        """Checks the default room: a page of few pairs costs as much to check as one of 4,096."""
        for call in (belfry.pairs, Pieces.pairs, belfry.ask):
            self.assertEqual(signature(call).parameters["room"].default, 4096)


if __name__ == "__main__":
    unittest.main()
