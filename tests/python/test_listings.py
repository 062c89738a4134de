"""Listings page by page and whole, and their tickets."""
import dataclasses
import pickle
import random
import unittest
from array import array

from support import (
    INSIDE, LISTINGS, S, Z, in_five, listing, model, painted, random_tree, some_of, starts, ticket,
    tuples, words,
)

import belfrychest as belfry
from belfrychest import NONE, Order, Page, Refused, Relation, Ticket


class Listings(unittest.TestCase):
    def test_every_room_gives_the_whole_listing(self):
        rng = random.Random(1)
        for _ in range(12):
            nodes = random_tree(rng, 16)
            zones, samples = some_of(rng, nodes), some_of(rng, nodes)
            for which in LISTINGS:
                self.check_rooms(words(zones), words(samples), which,
                                 listing(zones, samples, **which))

    def check_rooms(self, zones, samples, which, expected):
        whole = belfry.listing(zones, samples, **which)
        self.assertEqual(list(belfry.node_pairs(whole)), expected)
        for room in range(1, len(expected) + 2):
            self.assertEqual(list(belfry.pairs(zones, samples, **which, room=room)), expected)

    def test_a_listing_of_several_pages(self):
        nests = words((5, 1 + level, 200000 - level, 1 + level) for level in range(3))
        samples = words((5, 10 + 2 * at, 10 + 2 * at, 9) for at in range(4096))
        expected = [start for start in range(10, 8202, 2) for _ in range(3)]
        self.assertEqual(belfry.listing(nests, samples)[5::8].tolist(), expected)
        self.assertEqual([pair.descendant.start for pair in belfry.pairs(nests, samples)], expected)

    def test_an_edit_is_seen_by_the_next_page(self):
        zones, samples = array("I", Z), array("I", S)
        found = belfry.pairs(zones, samples, room=1)
        self.assertEqual(starts([next(found)]), [(2, 4)])
        del zones[4:]
        samples.extend(in_five((20, 21, 3)))
        zones.extend(in_five((19, 30, 2)))
        self.assertEqual(starts(found), [(2, 8), (19, 20)])

    def test_an_edit_within_a_page_changes_nothing_of_it(self):
        zones = array("I", Z)
        found = belfry.pairs(zones, S, room=2)
        self.assertEqual(starts([next(found)]), [(2, 4)])
        del zones[4:]
        self.assertEqual(starts(found), [(3, 4), (2, 8)])

    def test_a_refusal_is_raised_at_its_page_and_its_ticket_stays_good(self):
        zones, out = array("I", Z), painted(8)
        found = belfry.pairs(zones, S, room=1)
        next(found)
        reached = belfry.page(zones, S, INSIDE, out).ticket
        zones[6] = 12
        for call in (lambda: next(found), lambda: belfry.page(zones, S, reached, out)):
            with self.assertRaisesRegex(Refused, "^6 CROSS, list 0, index 1"):
                call()
        belfry.faulty(zones, S)[2] = 7
        self.assertEqual(belfry.page(zones, S, reached, out).ticket, ticket(0, 0, 1, 5, 4, 3))

    def test_what_holds_when_lists_are_edited_between_pages(self):
        rng = random.Random(2)
        stood = [self.hold_demand_three(rng, random_tree(rng, 14), **rng.choice(LISTINGS))
                 for _ in range(60)]
        self.assertGreater(sum(stood), 60)

    def test_what_holds_when_links_come_and_go(self):
        rng, self.stale = random.Random(11), 0
        stood = [self.hold_demand_three(rng, random_tree(rng, 14), **rng.choice(LISTINGS),
                                        lend=self.lend)
                 for _ in range(100)]
        self.assertGreater(sum(stood), 100)
        self.assertGreater(self.stale, 100)

    def lend(self, rng, zones, samples, reached, out):
        """Returns a page without links or with those of the zones. Before it, links of other zones
        are refused, and nothing is written.
        """
        before, forest = array("I", out), words(model.links(zones))
        other = words(model.links(some_of(rng, zones)))
        if other != forest:
            self.stale += 1
            with self.assertRaisesRegex(Refused, "^18 LINKS: "):
                belfry.page(words(zones), words(samples), reached, out, links=other)
            self.assertEqual(out, before)
        links = forest if rng.random() < 0.7 else None
        return belfry.page(words(zones), words(samples), reached, out, links=links)

    def hold_demand_three(self, rng, nodes, relation, order, lend=None):
        """Checks that every pair that stood at each page was handed out, that no key came twice,
        and that each pair stood in its own page's lists.
        """
        reached, done, stood, handed = Ticket.fresh(relation=relation, order=order), False, None, []
        kept = some_of(rng, nodes)
        while not done:
            zones = sorted({*kept, *some_of(rng, nodes)})
            samples = sorted({*kept, *some_of(rng, nodes)})
            out = painted(8 * rng.randint(1, 3))
            written = lend(rng, zones, samples, reached, out) if lend else \
                belfry.page(words(zones), words(samples), reached, out)
            now, page = listing(zones, samples, relation, order), tuples(out, written.count)
            self.assertLessEqual(set(page), set(now))
            stood = set(now) if stood is None else stood & set(now)
            handed += page
            reached, done = written.ticket, written.done
        self.assertLessEqual(stood, set(handed))
        self.assertEqual(len({(x[0], x[1], y[1]) for x, y in handed}), len(handed))
        return len(stood)


class Tickets(unittest.TestCase):
    def test_a_stored_ticket_goes_on(self):
        out, stored, seen = painted(8), INSIDE.to_bytes(), []
        for _ in range(3):
            written = belfry.page(Z, S, Ticket.from_bytes(stored), out)
            stored = written.ticket.to_bytes()
            seen.append((out[1], out[5], written.done, stored.hex()))
        fresh = "01000000" "00000000" "00000000" "01000000" "05000000"
        self.assertEqual(seen, [
            (2, 4, False, fresh + "04000000" "02000000"),
            (3, 4, False, fresh + "04000000" "03000000"),
            (2, 8, True, fresh + "08000000" "02000000"),
        ])

    def test_a_stored_ticket_has_its_forms_number_and_28_bytes(self):
        made = Ticket(relation=Relation.DIRECTLY, order=Order.ANCESTOR, placed=True, document=2,
                      first=3, second=NONE)
        stored = made.to_bytes()
        self.assertEqual(stored.hex(), "01000000" "01000000" "01000000" "01000000"
                         "02000000" "03000000" "ffffffff")
        self.assertEqual(Ticket.from_bytes(stored), made)
        for wrong in (b"", stored[4:], stored[:-1], stored + b"\0"):
            message = f"28 bytes, not {len(wrong)}"
            self.assertRaisesRegex(ValueError, message, Ticket.from_bytes, wrong)
        for form in (0, 2, 1 << 24):
            other = form.to_bytes(4, "little") + stored[4:]
            message = f"a ticket of form 1 was expected, and this is {form}$"
            self.assertRaisesRegex(ValueError, message, Ticket.from_bytes, other)

    def test_any_six_words_are_a_ticket(self):
        made = Ticket.from_words([7, NONE, 9, 1, 2, 3])
        self.assertEqual(made, Ticket(relation=Relation.DIRECTLY, order=Order.ANCESTOR, placed=True,
                                      document=1, first=2, second=3))
        self.assertEqual(made.to_words(), (1, 1, 1, 1, 2, 3))
        self.assertEqual(INSIDE.to_words(), (0, 0, 0, 0, 0, 0))
        for wrong, error in (([0] * 5, ValueError), ([0] * 7, ValueError), ([-1] * 6, ValueError),
                             ([1 << 32] * 6, ValueError), ([0.5] * 6, TypeError)):
            self.assertRaises(error, Ticket.from_words, wrong)

    def test_a_made_up_ticket_is_usable(self):
        out = painted(16)
        page = belfry.page(Z, S, ticket(7, 9, 0, 1, 2, 3), out)
        self.assertEqual(page, Page(2, True, ticket(1, 1, 1, 5, 3, 4)))
        self.assertEqual((out[1], out[5], out[9], out[13]), (2, 8, 3, 4))
        page = belfry.page(Z, S, ticket(0, 0, NONE, 5, 4, 2), out[:8])
        self.assertEqual(page, Page(1, False, ticket(0, 0, 1, 5, 4, 3)))
        beyond = ticket(0, 0, NONE, 6)
        self.assertEqual(belfry.page(Z, S, beyond, out), Page(0, True, beyond))

    def test_a_ticket_stays_as_it_is_and_can_be_pickled(self):
        made = ticket(1, 1, 1, 5, 6, 7)
        self.assertEqual(pickle.loads(pickle.dumps(made)), made)
        self.assertRaises(dataclasses.FrozenInstanceError, setattr, made, "placed", False)

    def test_its_numbers_are_of_32_bits(self):
        for wrong, error in (({"document": -1}, ValueError), ({"second": 1 << 32}, ValueError),
                             ({"first": 1.0}, TypeError), ({"placed": 1}, TypeError)):
            with self.subTest(wrong=wrong), self.assertRaises(error):
                Ticket(relation=Relation.INSIDE, order=Order.DESCENDANT, **wrong)


if __name__ == "__main__":
    unittest.main()
