"""Random lists, marks, tables and books, most of them accepted or one number away from it, answered
by the archive as by the naive model.
"""
import random
import unittest
from array import array
from collections import Counter
from itertools import chain

from support import (
    LISTINGS, damaged, figure_books, in_model, listing, model, most_around, painted, random_marks,
    random_tree, some_of, tuples, two_lists, words,
)

import belfrychest as belfry
from belfrychest import Answer, Question, Refused, Ticket


def random_reading(rng):
    """Returns the two words of a reading, now and then of a faulty one."""
    kind = rng.choice((0, 1, 2)) if rng.random() < 0.98 else 3
    bits = rng.choice((0, 1, 0x80000000, 0x40900000, 0x42180000, 0x42C80000))
    if kind == 0 and rng.random() < 0.98:
        bits = 0
    return kind, bits if rng.random() < 0.98 else rng.choice((0x447A0001, 0xBF800000, 0x7FC00000))


def random_hundredths(rng):
    """Returns a sample's word for a sheet, now and then a faulty one."""
    if rng.random() < 0.02:
        return rng.choice((10001, 65534, 65536, belfry.NONE))
    return rng.choice((0, 1, 450, 10000, belfry.NO_HUNDREDTHS))


def faulty_hundredths(hundredths):
    """Returns the indexes of the faulty words."""
    return [index for index, word in enumerate(hundredths)
            if word > 10000 and word != belfry.NO_HUNDREDTHS]


def sheet_answer(samples, hundredths):
    """Returns what a sheet with room enough answers where both lists are accepted."""
    if len(samples) != len(hundredths):
        return "RAGGED"
    return "READING" if faulty_hundredths(hundredths) else "TAKEN"


def subtotal(zone, samples, hundredths):
    """Returns what a sheet says of a zone: every sample is looked at."""
    words_inside = [word for sample, word in zip(samples, hundredths) if model.inside(sample, zone)]
    present = [word for word in words_inside if word != belfry.NO_HUNDREDTHS]
    return len(words_inside), len(present), sum(present)


def random_book(rng):
    """Returns the tags of a book from 2 on and the book, now and then with a faulty list. Mostly it
    has three lists, and now and then more than 16.
    """
    tags = range(2, 2 + (rng.randint(17, 64) if rng.random() < 0.1 else 3))
    tree = random_tree(rng)
    lists = [some_of(rng, tree) for _ in tags]
    if rng.random() < 0.3:
        lists[-1] = damaged(rng, lists[-1])
    return tags, model.book(*zip(tags, lists))


def random_question(rng, tags):
    """Returns a question, now and then for a tag that isn't in the book."""
    tags = [tags[-1] + 1 if rng.random() < 0.08 else rng.choice(tags) for _ in range(2)]
    key = [rng.randint(5, 6), rng.randint(0, 9), rng.randint(0, 9)] if rng.random() < 0.5 else []
    words_ = [rng.randint(0, 1), rng.randint(0, 1), bool(key), *key, 0, 0, 0]
    return Question(*tags, Ticket.from_words(words_[:6]))


def random_ticket(rng):
    key = [rng.randint(5, 7), rng.randint(0, 30), rng.randint(0, 30)]
    placed = rng.random() < 0.5
    return Ticket.from_words([rng.randint(0, 1), rng.randint(0, 1), placed, *key])


def random_links(rng, zones, samples):
    """Returns words to be lent as links of the zones. Half of the time they are these links. Else a
    word is another, some are missing or too many, or they are those of other nodes.
    """
    made = words(model.links(zones))
    if rng.random() < 0.5:
        return made
    wrong = rng.choice(("a word", "a word", "fewer", "more", "others"))
    if wrong == "a word" and made:
        place = rng.randrange(len(made))
        made[place] = rng.choice((0, 1, place // 3, belfry.NONE, 1 << 31, (made[place] + 1) % 9))
    elif wrong == "fewer":
        del made[-rng.randint(1, 3):]
    elif wrong == "more":
        made.extend([belfry.NONE] * rng.randint(1, 3))
    elif wrong == "others":
        return words(model.links(rng.choice((samples, zones[1:], zones[:-1]))))
    return made


def shown(reply):
    """Returns a reply as the model has it."""
    verdict = reply.verdict
    return (verdict.answer.name, verdict.list or 0, verdict.index or 0, reply.pairs or [],
            reply.done, in_model(reply.ticket))


class AgainstTheModel(unittest.TestCase):
    def test_lists(self):
        rng, answers, at_one_end = random.Random(3), set(), Counter()
        for _ in range(1000):
            tree = random_tree(rng)
            zones, samples = damaged(rng, some_of(rng, tree)), damaged(rng, some_of(rng, tree))
            expected = two_lists(zones, samples)
            self.assertEqual(belfry.verdict_two(words(zones), words(samples)), expected)
            answers.add(expected.answer)
            at_one_end[expected.answer] += most_around(zones, samples) >= 3 or any(
                model.odds(x, y) and x[1] != y[1] and x[2] == y[2] for x in zones for y in samples)
            faulty = None if expected.list is None else (zones, samples)[expected.list]
            blamed = [] if faulty is None else faulty[expected.index:]
            part = belfry.faulty(words(zones), words(samples))
            self.assertEqual(part.tolist(), words(blamed).tolist())
            if expected.answer == Answer.TAKEN:
                which = rng.choice(LISTINGS)
                found = belfry.listing(words(zones), words(samples), **which)
                self.assertEqual(list(belfry.node_pairs(found)), listing(zones, samples, **which))
                self.assertEqual(belfry.links(words(zones)), words(model.links(zones)))
        self.assertEqual(answers, {Answer.TAKEN} | set(map(Answer, range(3, 9))))
        self.assertGreater(at_one_end[Answer.TAKEN], 40)
        self.assertGreater(at_one_end[Answer.JOINT], 4)

    def test_links(self):
        rng, answers = random.Random(11), Counter()
        for _ in range(1500):
            tree = random_tree(rng, 14)
            nodes, others = damaged(rng, some_of(rng, tree)), some_of(rng, tree)
            forest = random_links(rng, nodes, others)
            answer, number, index = model.check_links(words(nodes), forest)
            found = self.placed(belfry.check_links, words(nodes), forest)
            self.assertEqual(found[:3], (answer, number, index))
            answers[answer] += 1
        for answer in ("TAKEN", "LEVEL", "SPAN", "ORDER", "CROSS", "DEPTH", "LINKS"):
            self.assertGreater(answers[answer], 10, answer)

    def test_pages_with_links(self):
        """Tries few samples among many zones. What is taken is held against the plain page too."""
        rng, answers = random.Random(12), Counter()
        for _ in range(1500):
            tree = random_tree(rng, 30, rng.choice(((5,), (5, 6), (5, 6, 7))))
            zones = damaged(rng, tree) if rng.random() < 0.4 else some_of(rng, tree)
            share = rng.choice((0.1, 0.1, 0.5))
            samples = [node for node in tree if rng.random() < share]
            if rng.random() < 0.1:
                samples = damaged(rng, samples)
            forest, reached, room = random_links(rng, zones, samples), random_ticket(rng), \
                rng.randint(1, 9)
            *wanted, page = model.linked_page(words(zones), words(samples), forest,
                                              in_model(reached), room)
            out = painted(8 * room)
            *found, written = self.placed(lambda: belfry.page(
                words(zones), words(samples), reached, out, links=forest))
            self.assertEqual(found, wanted)
            answers[wanted[0], page[1], page[0] != []] += 1
            if wanted[0] == "TAKEN":
                shown_page = tuples(out, written.count), written.done, in_model(written.ticket)
                self.assertEqual(shown_page, page)
                plain = painted(8 * room)
                self.assertEqual(belfry.page(words(zones), words(samples), reached, plain), written)
                self.assertEqual(plain, out)
            else:
                self.assertEqual(out, painted(8 * room))
        for key in (("TAKEN", True, True), ("TAKEN", True, False), ("TAKEN", False, True),
                    ("LINKS", False, False), ("JOINT", False, False), ("CROSS", False, False)):
            self.assertGreater(answers[key], 10, key)

    def test_ranges(self):
        rng, answers = random.Random(7), set()
        for _ in range(1000):
            tree = random_tree(rng)
            zones, samples = words(some_of(rng, tree)), words(some_of(rng, tree))
            if rng.random() < 0.1 and samples:
                samples[rng.randrange(len(samples))] += 1
            readings = array("I", chain.from_iterable(
                random_reading(rng) for _ in range(len(samples) // 4)))
            if rng.random() < 0.1:
                readings.append(0)
            zone = rng.randrange(len(zones) // 4 + 2)
            answer, number, index, bits = model.zone_range(zones, samples, readings, zone)
            found = self.placed(belfry.zone_range, zones, samples, readings, zone)
            self.assertEqual(found[:3], (answer, number, index))
            shown = tuple(map(model.bits_of, found[3])) if found[3] else ()
            self.assertEqual(shown, bits)
            answers.add((answer, bits != ()))
        self.assertLessEqual({("TAKEN", True), ("TAKEN", False), ("RAGGED", False),
                              ("READING", False), ("ABSENT", False), ("JOINT", False)}, answers)

    def test_sheets(self):
        rng, answers = random.Random(8), Counter()
        for _ in range(1000):
            tree = random_tree(rng)
            zones, samples = damaged(rng, some_of(rng, tree)), some_of(rng, tree)
            hundredths = [random_hundredths(rng) for _ in samples]
            if rng.random() < 0.1:
                hundredths.append(0)
            expected = two_lists(zones, samples).answer.name
            if expected == "TAKEN":
                expected = sheet_answer(samples, hundredths)
            answer, _, index, found = self.placed(
                belfry.sheet, words(zones), words(samples), array("I", hundredths))
            self.assertEqual(answer, expected)
            answers[answer] += 1
            if answer == "READING":
                self.assertEqual(faulty_hundredths(hundredths)[0], index)
            if answer == "TAKEN":
                self.assertEqual(found, [subtotal(zone, samples, hundredths) for zone in zones])
        self.assertLessEqual({"TAKEN", "CROSS", "JOINT", "RAGGED", "READING"}, set(answers))
        self.assertGreater(answers["TAKEN"], 400)

    def test_questions(self):
        rng, answers, later = random.Random(9), Counter(), 0
        for _ in range(1000):
            (tags, book), room = random_book(rng), rng.randint(1, 20)
            questions = [random_question(rng, tags) for _ in range(rng.randint(0, 5))]
            asked = [(question.ancestors, question.descendants, in_model(question.ticket))
                     for question in questions]
            replies = belfry.ask(book, questions, room=room)
            self.assertEqual(("TAKEN", list(map(shown, replies))), model.ask(book, asked, room))
            for question, reply in zip(questions, replies):
                self.assertEqual(reply.pairs is None, reply.verdict.answer != Answer.TAKEN)
                answers[reply.verdict.answer.name, reply.done] += 1
                # The sixteenth list has the tag 17.
                later += bool(reply.pairs) and max(question.ancestors, question.descendants) > 17
        for key in (("TAKEN", True), ("TAKEN", False), ("ABSENT", False), ("JOINT", False),
                    ("CROSS", False), ("ORDER", False)):
            self.assertGreater(answers[key], 10, key)
        self.assertGreater(later, 10)

    def test_questions_that_are_asked_until_done(self):
        """Follows four listings of one book, of which each has the room that the others leave."""
        rng = random.Random(10)
        for _ in range(100):
            tree = random_tree(rng)
            zones, samples = some_of(rng, tree), some_of(rng, tree)
            book = model.book((2, zones), (3, samples))
            questions = [Question(2, 3, Ticket.fresh(**which)) for which in LISTINGS]
            found, done, room = [[] for _ in LISTINGS], False, rng.randint(1, 9)
            while not done:
                replies = belfry.ask(book, questions, room=room)
                for pairs, reply in zip(found, replies):
                    pairs += reply.pairs
                questions = [Question(2, 3, reply.ticket) for reply in replies]
                done = all(reply.done for reply in replies)
            self.assertEqual(found, [listing(zones, samples, **which) for which in LISTINGS])

    def test_marks(self):
        rng, answers = random.Random(4), set()
        for _ in range(300):
            marks = random_marks(rng, rng.randint(0, 12))
            if rng.random() < 0.5:
                marks[rng.randrange(len(marks))] = rng.choice((0, 1, 65536, 65537))
            answer, rows = model.number(7, marks)
            answers.add(answer)
            found = self.answered(belfry.number, 7, array("I", marks))
            self.assertEqual(found, (answer, words(rows)))
        self.assertEqual(answers, {"TAKEN", "MARK", "STRAY", "UNCLOSED"})

    def test_tables(self):
        rng, answers = random.Random(5), set()
        for _ in range(300):
            rows = [list(row) for row in model.number(7, random_marks(rng, rng.randint(0, 12)))[1]]
            if rng.random() < 0.5:
                rng.choice(rows)[rng.randrange(5)] += rng.choice((1, -1))
            rows = [tuple(row) for row in rows]
            answer, marks = model.unnumber(rows)
            answers.add(answer)
            expected = (rows[0][0], array("I", marks)) if answer == "TAKEN" else array("I")
            self.assertEqual(self.answered(belfry.unnumber, words(rows)), (answer, expected))
            tag = rng.randint(1, 3)
            picked = words(row[:4] for row in rows if row[4] == tag)
            self.assertEqual(belfry.pick(words(rows), tag), picked)
        self.assertEqual(answers, {"TAKEN", "TABLE"})

    def test_books(self):
        rng, seen = random.Random(6), Counter()
        for _ in range(300):
            many = rng.choice((16, 17, 40, 63, 64, 65, 66))
            tags = rng.sample(range(99), many if rng.random() < 0.2 else rng.randint(0, 3))
            lists = {tag: some_of(rng, random_tree(rng, 4)) for tag in tags}
            for tag in rng.sample(tags, min(len(tags), rng.randint(0, 5))):
                lists[tag] = damaged(rng, lists[tag])
            ordered = sorted(lists.items())
            entries = [(tag, len(nodes)) for tag, nodes in ordered]
            nodes = words(node for _, part in ordered for node in part)
            expected = model.write(entries, nodes.tolist())
            self.assertEqual(self.placed(belfry.book_write, words(entries), nodes), expected)
            given = {tag: words(part) for tag, part in lists.items()}
            self.assertEqual(self.placed(belfry.write_book, given), expected)
            self.check_reading(model.book(*ordered), ordered)
            answer, number, *_ = expected
            seen[answer] += 1
            seen["of many lists"] += answer == "TAKEN" and len(tags) > 16
            seen["a later list"] += number > 15
        for key in ("TAKEN", "CONTENTS", "of many lists", "a later list"):
            self.assertGreater(seen[key], 5, key)

    def check_reading(self, book, ordered):
        answer, number, index, _ = model.read(book)
        count = len(ordered) if answer == "TAKEN" else b""
        self.assertEqual(self.placed(belfry.book_check, book), (answer, number, index, count))
        if answer == "TAKEN":
            found = {tag: part.tolist() for tag, part in belfry.book_lists(book).items()}
            self.assertEqual(list(found.items()),
                             [(tag, list(chain.from_iterable(part))) for tag, part in ordered])

    def test_damaged_books(self):
        for name, book in figure_books.CASES.items():
            with self.subTest(book=name):
                answer, number, index, entries = model.read(book)
                count = len(entries) if answer == "TAKEN" else b""
                found = self.placed(belfry.book_check, book)
                self.assertEqual(found, (answer, number, index, count))

    def answered(self, function, *arguments):
        answer, _, _, result = self.placed(function, *arguments)
        return answer, result if answer == "TAKEN" else array("I")

    def placed(self, function, *arguments):
        """Returns the answer's name, list and index, and what the call returned, which is no bytes
        where it was refused. The model says 0 where no place is meant.
        """
        try:
            return "TAKEN", 0, 0, function(*arguments)
        except Refused as refused:
            return refused.name, refused.list or 0, refused.index or 0, b""


if __name__ == "__main__":
    unittest.main()
