"""The command line: each command, both outputs, every exit status, and the place of every fault.

Most of it runs in this process; what only a process can show comes last. Where a fault and its
partner are is worked out here too, naively, from the scope's words.
"""
import csv
import io
import os
import random
import re
import signal
import struct
import sys
import tempfile
import unittest
from collections import Counter
from pathlib import Path
from typing import NamedTuple
from unittest import mock
from xml.etree import ElementTree

from support import (
    LISTINGS, ROOT, damaged, figure_books, listing, model, random_tree, some_of, start_python,
    two_lists,
)

from belfrychest import HINTS, Answer, Order, Relation, __version__, _command
from belfrychest._picture import picture
from belfrychest._show import Spot, join, look_into, marks

FIGURES = ROOT / "crates" / "figures_books"
FARM = (ROOT / "examples" / "farm.book").read_bytes()
FARM_PAIRS = (ROOT / "examples" / "farm.out").read_text()
FARM_CSV = (ROOT / "examples" / "farm.csv").read_text()
REFUSED = ROOT / "examples" / "refused.book"
SVG = "{http://www.w3.org/2000/svg}"


class Result(NamedTuple):
    status: int
    out: str
    err: str


class Stream(io.TextIOWrapper):
    """A standard stream, on a terminal or not."""

    def __init__(self, data=b"", terminal=False):
        super().__init__(io.BytesIO(data), encoding="utf-8", newline="")
        self.terminal = terminal

    def isatty(self):
        return self.terminal

    def text(self):
        self.flush()
        return self.buffer.getvalue().decode()


def run(*arguments, data=b"", out_terminal=False, err_terminal=False):
    """Runs a command in this process."""
    stdin, stdout, stderr = Stream(data), Stream(b"", out_terminal), Stream(b"", err_terminal)
    with mock.patch.multiple(sys, stdin=stdin, stdout=stdout, stderr=stderr):
        status = _command.main(list(map(str, arguments)))
    return Result(status, stdout.text(), stderr.text())


def look_at(book, ancestors=None, descendants=None):
    return join(book, look_into(book), ancestors, descendants)


def in_document(*nodes):
    return [(5, *node) for node in nodes]


# Where a fault is, naively.

def naive_partner(nodes, index, answer):
    """Returns the last earlier node that the faulty one is at odds with."""
    at, earlier = nodes[index], list(enumerate(nodes[:index]))
    if answer == Answer.ORDER:
        return index - 1
    if answer == Answer.CROSS:
        found = [i for i, e in earlier
                 if e[0] == at[0] and e[2] >= at[1] and not model.inside(at, e)]
    else:
        found = [i for i, e in earlier if model.inside(at, e) and e[3] >= at[3]]
    return found[-1] if answer in (Answer.CROSS, Answer.DEPTH) else None


def naive_spots(zones, samples):
    """Returns the faulty node and its partner, each as (list, index)."""
    verdict = two_lists(zones, samples)
    if verdict.answer == Answer.JOINT:
        at_odds = [(s, z) for s, sample in enumerate(samples) for z, zone in enumerate(zones)
                   if model.odds(zone, sample)]
        sample, zone = min(at_odds)
        return Spot(1, sample), Spot(0, zone)
    if verdict.index is None:
        return None, None
    partner = naive_partner((zones, samples)[verdict.list], verdict.index, verdict.answer)
    other = None if partner is None else Spot(verdict.list, partner)
    return Spot(verdict.list, verdict.index), other


def naive_row_fault(entries):
    """Returns the byte of the first tag that doesn't ascend, or of the first count that is too
    great.
    """
    places = [4 + 12 * k for k, (tag, _, _) in enumerate(entries) if k and tag <= entries[k - 1][0]]
    places += [12 + 12 * k for k, (_, _, count) in enumerate(entries) if count > 4096]
    return min(places, default=None)


def naive_byte(book):
    """Returns the byte at which a book's contents are wrong."""
    lists = int.from_bytes(book[:4], "little")
    if len(book) < 4 or lists > model.MOST_LISTS:
        return len(book) if len(book) < 4 else 0
    whole = range(min(lists, (len(book) - 4) // 12))
    entries = [struct.unpack_from("<3I", book, 4 + 12 * k) for k in whole]
    by_row = naive_row_fault(entries)
    if by_row is not None or len(entries) < lists:
        return len(book) if by_row is None else by_row
    ends = [4 + 12 * lists]
    for _, _, count in entries:
        ends.append(ends[-1] + 16 * count)
    wrong = [8 + 12 * k for k, (_, offset, _) in enumerate(entries) if offset != ends[k]]
    return wrong[0] if wrong else min(len(book), ends[-1])


def stored_answers():
    """Returns for each of the figures' books the numbers that it must draw. They are the answer of
    reading it, its list and its index, and the answer of joining its first two lists. The program
    prints the latter, unless the book is too long for it.
    """
    found, name = {}, None
    for line in (FIGURES / "stdout").read_text().splitlines():
        parts = line.split()
        if parts[0] == "==":
            name = parts[1].rstrip(":")
        elif parts[0] == "read":
            read, number, index, lists = (int(parts[place]) for place in (1, 4, 6, 8))
            absent = Answer.ABSENT if read == Answer.TAKEN and lists < 2 else read
            found[name] = read, number, index, absent
        elif parts[0] == "refused" and int(parts[1]) != Answer.LONG:
            found[name] = *found[name][:3], int(parts[1])
    return found


class Check(unittest.TestCase):
    def test_the_figures_books_get_the_programs_status(self):
        for name, (read, number, index, joined) in stored_answers().items():
            with self.subTest(name):
                result = run("check", FIGURES / "data" / name)
                answer = Answer(joined)
                self.assertEqual(result.status, answer)
                self.assertEqual(bool(result.out), answer == Answer.TAKEN)
                told = f"{name}: refused {answer:d} {answer.name}, " if answer else ""
                self.assertIn(told, result.err)
                self.assertEqual(bool(result.err), bool(answer))
                self.assertEqual(result.err.endswith(f". {HINTS[answer]}\n"), bool(answer))
                place = f"list {number} (tag" if 3 <= read <= 7 else ""
                self.assertIn(place, result.err)
                self.assertIn(f" index {index} at byte" if 3 <= read <= 7 else "", result.err)

    def test_a_taken_book(self):
        self.assertEqual(run("check", "-", data=FARM), (0, "0 TAKEN: 3 lists, 40 nodes\n", ""))

    def test_lists_are_joined_by_their_tags(self):
        book = REFUSED.read_bytes()
        self.assertEqual(run("check", "-", data=book).status, Answer.JOINT)
        self.assertEqual(run("check", "-", "--descendants", 2, data=book).status, 0)
        result = run("check", "-", "--ancestors", 3, "--descendants", 2, data=book)
        self.assertEqual(result.status, Answer.JOINT)
        self.assertIn("list 0 (tag 2) index 6 at byte 124, with list 1 (tag 3) index 6", result.err)
        self.assertIn("no list with tag 9", run("check", "-", "--ancestors", 9, data=book).err)
        self.assertEqual(run("check", "-", "--descendants", 9, data=book).status, Answer.ABSENT)


class Places(unittest.TestCase):
    """The library is asked where a fault is; a naive computation must find the same."""

    def test_the_faulty_node_and_its_partner(self):
        rng, seen = random.Random(8), Counter()
        for _ in range(600):
            tree = random_tree(rng, 16)
            zones, samples = damaged(rng, some_of(rng, tree)), damaged(rng, some_of(rng, tree))
            fault = look_at(model.book((2, zones), (3, samples))).fault
            verdict = two_lists(zones, samples)
            self.assertEqual(fault.answer if fault else Answer.TAKEN, verdict.answer)
            if fault:
                expected = naive_spots(zones, samples)
                self.assertEqual((fault.node, fault.partner), expected, (zones, samples))
            seen[verdict.answer] += 1
        self.assertEqual(set(seen), {0, 3, 4, 5, 6, 7, 8})
        self.assertGreater(min(seen.values()), 8)

    def test_the_last_of_several_partners(self):
        nest = in_document((1, 50, 1), (2, 40, 2), (3, 30, 3))
        for node, answer in ((5, 20, 45, 4), Answer.CROSS), ((5, 5, 6, 1), Answer.DEPTH):
            fault = look_at(model.book((2, [*nest, node]), (3, []))).fault
            self.assertEqual((fault.answer, fault.partner), (answer, Spot(0, 2)))

    def test_among_the_most_nodes(self):
        zones = [(5, 10 * i, 10 * i + 9, 1) for i in range(4096)]
        samples = [(5, 10 * i + 2, 10 * i + 5, 2) for i in range(4096)]
        samples[3000] = (5, 30002, 30012, 2)
        samples[3001] = (5, 30013, 30015, 2)
        samples[4000] = (5, 40002, 40010, 2)
        fault = look_at(model.book((2, zones), (3, samples))).fault
        self.assertEqual(fault[:3], (Answer.JOINT, Spot(1, 3000), Spot(0, 3000)))
        zones[4095] = (5, 40949, 40960, 2)
        fault = look_at(model.book((2, zones), (3, samples))).fault
        self.assertEqual(fault[:3], (Answer.CROSS, Spot(0, 4095), Spot(0, 4094)))

    def test_contents_of_the_figures_books(self):
        places = {}
        for name, (read, *_) in stored_answers().items():
            if read == Answer.CONTENTS:
                text = look_into((FIGURES / "data" / name).read_bytes()).fault.text
                places[name.partition(".")[0]] = int(text.split(":")[0].split()[1])
        self.assertEqual(places, {
            "empty-input": 0, "lists-65-empty": 0, "lists-65": 0, "tags-equal": 16,
            "tags-falling": 16,
            "first-offset-one-more": 8, "second-offset-one-less": 20,
            "second-offset-at-contents-end": 20, "count-one-more": 92, "count-greatest": 24,
            "big-endian": 0, "byte-after": 92, "node-after": 92, "last-byte-missing": 91,
            "contents-cut": 27, "three-bytes": 3, "count-4097": 12, "bytes-61441": 61440,
            "lists-64-twelve-bytes-after": 61428, "lists-64-thirteen-bytes-after": 61428,
            "lists-61-byte-after": 61440,
        })

    def test_contents_with_one_byte_changed(self):
        whole = model.book((2, figure_books.Z), (300, []), (301, figure_books.S))
        changes = [(place, whole[place] ^ flip) for place in range(40) for flip in (1, 255)]
        refused = 0
        for place, byte in changes:
            book = whole[:place] + bytes([byte]) + whole[place + 1:]
            fault = look_into(book).fault
            if fault:
                self.assertEqual(fault.answer, Answer.CONTENTS)
                self.assertTrue(fault.text.startswith(f"byte {naive_byte(book)}: "), fault.text)
                refused += 1
        self.assertGreater(refused, 60)

    def test_contents_cut_at_every_byte(self):
        whole = model.book((2, figure_books.Z), (300, []), (301, figure_books.S))
        for size in range(len(whole)):
            fault = look_into(whole[:size]).fault
            self.assertTrue(fault.text.startswith(f"byte {size}: "), fault.text)
            self.assertEqual(naive_byte(whole[:size]), size)


class Show(unittest.TestCase):
    def test_a_taken_book(self):
        self.assertEqual(run("show", "-", data=figure_books.FIGURE), (0, (
            "standard input: 92 bytes\n"
            "list 0: tag 2, 2 nodes from byte 28\n"
            "list 1: tag 3, 2 nodes from byte 60\n"
            "0 TAKEN\n"), ""))

    def test_two_lists_at_odds(self):
        result = run("show", REFUSED)
        place = "list 1 (tag 3) index 6 at byte 268, with list 0 (tag 2) index 6 at byte 124"
        self.assertEqual(result.status, Answer.JOINT)
        self.assertEqual(result.err, f"belfrychest: {REFUSED}: refused 8 JOINT, {place}\n")
        lines = result.out.splitlines()
        self.assertEqual(lines[3:5], [f"refused 8 JOINT, {place}", HINTS[Answer.JOINT]])
        table = [line.split() for line in lines[5:]]
        self.assertEqual(table[:4], [
            [], ["list", "0,", "tag", "2"], ["index", "document", "start", "end", "level"],
            ["4", "12", "100", "130", "3"]])
        self.assertEqual([row for row in table if row[5:]], [
            ["6", "12", "160", "210", "3", "partner"], ["6", "12", "180", "215", "4", "fault"]])
        self.assertEqual([row[0] for row in table[3:8] + table[11:]], list("4567845678"))

    def test_a_partner_far_away(self):
        between = [(i, i, 2) for i in range(1, 9)]
        nodes = in_document((0, 100, 1), *between, (9, 200, 2), (300, 300, 2))
        result = run("show", "-", data=model.book((7, []), (9, nodes)))
        rows = [line.split() for line in result.out.splitlines()[8:]]
        self.assertEqual([row[0] for row in rows], ["0", "1", "2", "...", "7", "8", "9", "10"])
        self.assertEqual([row[5:] for row in rows if row[5:]], [["partner"], ["fault"]])
        self.assertNotIn(" \n", result.out)

    def test_a_faulty_level_has_no_partner(self):
        result = run("show", FIGURES / "data" / "level-65.book")
        self.assertEqual(result.status, Answer.LEVEL)
        self.assertIn("refused 3 LEVEL, list 1 (tag 3) index 0 at byte 60\n", result.out)
        self.assertNotIn("partner", result.out + result.err)

    def test_refused_contents_are_shown_as_far_as_they_go(self):
        result = run("show", FIGURES / "data" / "first-offset-one-more.book")
        self.assertEqual(result.status, Answer.CONTENTS)
        self.assertEqual(result.out.splitlines()[1:], [
            "list 0: tag 2, 2 nodes from byte 29", "list 1: tag 3, 2 nodes from byte 60",
            "refused 15 CONTENTS, byte 8: the offset of list 0 is 29, not 28",
            HINTS[Answer.CONTENTS]])

    def test_as_many_lists_as_a_book_may_have(self):
        lines = [f"list {k}: tag {k + 1}, 0 nodes from byte 772" for k in range(64)]
        result = run("show", FIGURES / "data" / "lists-64-empty.book")
        self.assertEqual((result.status, result.err), (0, ""))
        self.assertEqual(result.out.splitlines()[1:], [*lines, "0 TAKEN"])

    def test_a_list_too_many(self):
        result = run("show", FIGURES / "data" / "lists-65-empty.book")
        self.assertEqual(result.status, Answer.CONTENTS)
        lines = [f"list {k}: tag {k + 1}, 0 nodes from byte 784" for k in range(64)]
        self.assertEqual(result.out.splitlines()[1:], [
            *lines, "refused 15 CONTENTS, byte 0: the number of lists is 65, above 64",
            HINTS[Answer.CONTENTS]])

    def test_a_fault_in_the_last_of_many_lists(self):
        lists = [(tag, figure_books.Z) for tag in range(63)]
        book = model.book(*lists, (63, in_document((2, 10, 2), (3, 11, 3))))
        result = run("show", "-", data=book)
        self.assertEqual(result.status, Answer.CROSS)
        self.assertIn("refused 6 CROSS, list 63 (tag 63) index 1 at byte 2804, "
                      "with list 63 (tag 63) index 0 at byte 2788\n", result.out)

    def test_a_book_with_one_list(self):
        result = run("show", FIGURES / "data" / "one-list.book")
        self.assertEqual(result.status, Answer.ABSENT)
        self.assertIn("the book has 1 of the 2 lists that a listing needs", result.err)


def panels(svg):
    """Returns the nodes of each panel: class, title, left, top, right, bottom and label."""
    found = []
    for block in ElementTree.fromstring(svg).findall(f"{SVG}g"):
        groups = block.findall(f"{SVG}g")
        bars = [group for group in groups if group.find(f"{SVG}title") is not None]
        if bars:
            found.append([bar_of(group) for group in bars])
    return found


def bar_of(group):
    rect, label = group.find(f"{SVG}rect"), group.find(f"{SVG}text")
    left, top, width, height = (float(rect.get(name)) for name in ("x", "y", "width", "height"))
    text = "" if label is None else label.text
    return Bar(group.get("class"), group.find(f"{SVG}title").text, left, top, left + width,
               top + height, text)


class Bar(NamedTuple):
    kind: str
    title: str
    left: float
    top: float
    right: float
    bottom: float
    label: str

    def meets(self, other):
        across = self.left < other.right and other.left < self.right
        return across and self.top < other.bottom and other.top < self.bottom


class Picture(unittest.TestCase):
    def drawn(self, book, document=None):
        wanted = [] if document is None else ["--document", document]
        result = run("show", "-", "--svg", "-", *wanted, data=book)
        return result.out, panels(result.out)

    def test_the_text_of_the_refused_book(self):
        stored = (ROOT / "examples" / "refused.txt").read_text(encoding="utf-8")
        shown = run("show", REFUSED).out
        self.assertEqual(shown.replace(str(REFUSED), "examples/refused.book"), stored)

    def test_the_picture_of_the_refused_book(self):
        result = run("show", REFUSED, "--svg", "-")
        self.assertEqual(result.status, Answer.JOINT)
        stored = ROOT / "docs" / "pictures" / "refused.svg"
        self.assertEqual(result.out, stored.read_text(encoding="utf-8"))

    def test_nodes_lie_as_their_positions_do(self):
        (bars,) = self.drawn(REFUSED.read_bytes())[1]
        self.assertEqual(len(bars), 20)
        self.assertEqual(Counter(bar.kind for bar in bars), {
            "bar zone": 8, "bar sample": 10, "bar fault": 1, "bar partner": 1})
        fault = next(bar for bar in bars if bar.kind == "bar fault")
        partner = next(bar for bar in bars if bar.kind == "bar partner")
        self.assertEqual(fault.title, "fault: sample, list 1, index 6: 180 to 215, level 4")
        self.assertEqual(partner.title, "partner: zone, list 0, index 6: 160 to 210, level 3")
        self.assertTrue(partner.left < fault.left < partner.right < fault.right)
        self.assertLess(partner.bottom, fault.top)
        self.assertEqual((fault.label, partner.label), ("180\u2013215", "160\u2013210"))

    def test_no_two_nodes_of_a_panel_meet(self):
        same = model.book((2, in_document((1, 9, 1), (2, 5, 2))), (3, in_document((2, 5, 2))))
        crossing = model.book((2, in_document((1, 5, 1), (4, 8, 1), (7, 9, 1))), (3, []))
        for book in REFUSED.read_bytes(), same, crossing, FARM:
            (bars,) = self.drawn(book)[1]
            meeting = [(a, b) for a in bars for b in bars if a is not b and a.meets(b)]
            self.assertEqual(meeting, [])

    def test_containing_is_seen_across(self):
        by_size = model.book((2, in_document((1, 9, 1), (4, 6, 2), (7, 9, 2))),
                             (3, in_document((2, 2, 2), (5, 5, 3), (8, 9, 3))))
        for book, document in (FARM, 104), (by_size, 5):
            (bars,) = self.drawn(book, document)[1]
            spans = {tuple(map(int, bar.title.split(": ")[1].split(",")[0].split(" to "))): bar
                     for bar in bars}
            self.assertEqual(len(spans), len(bars))
            for (start, end), bar in spans.items():
                around = {span for span, other in spans.items()
                          if other.left < bar.left and bar.right <= other.right}
                self.assertEqual(around, {(a, b) for a, b in spans if a < start and end <= b})

    def test_levels_and_spans_that_are_refused(self):
        zones = in_document((1, 100, 1), (3, 9, 65), (30, 20, 2), (31, 32, 0), (40, 41, 4294967295))
        svg, (bars,) = self.drawn(model.book((2, zones), (3, [])))
        self.assertEqual(len(bars), 5)
        by_level = {int(bar.title.split()[-1]): bar for bar in bars}
        tops = [by_level[level].top for level in (0, 1, 2, 65, 4294967295)]
        self.assertEqual(tops, sorted(set(tops)))
        self.assertEqual(by_level[2].kind, "bar zone turned")
        self.assertEqual(by_level[65].kind, "bar fault")
        self.assertIn(">4294967295</text>", svg)

    def test_labels_fit_into_their_nodes(self):
        zones = [(5, 10 ** (i // 4) + 10 * i, 10 ** (i // 4) + 10 * i + 9, 1) for i in range(30)]
        (bars,) = self.drawn(model.book((2, zones), (3, in_document((0, 0, 1)))))[1]
        for bar, (_, start, end, _) in zip(bars, zones):
            fitting = [label for label in (f"{start}\u2013{end}", f"{start}\u2026")
                       if len(label) * 6.4 + 4 <= bar.right - bar.left + 1]
            self.assertEqual(bar.label, fitting[0] if fitting else "")
        labels = [bar.label for bar in bars]
        self.assertEqual((labels[0], labels[-1], "" in labels), ("1\u201310", "0", True))
        self.assertIn("\u2026", "".join(labels))

    def test_the_most_nodes(self):
        zones = [(5, 10 * i, 10 * i + 9, 1) for i in range(4096)]
        samples = [(5, 10 * i + 2, 10 * i + (11 if i == 2000 else 5), 2) for i in range(4096)]
        look = look_at(model.book((2, zones), (3, samples)))
        everything, near = panels(picture("many", look, 5))
        self.assertEqual(len(everything), 8192)
        self.assertLess(max(bar.right for bar in everything), 1120)
        kinds = [bar.kind.split()[-1] for bar in everything[-2:]]
        self.assertEqual(sorted(kinds), ["fault", "partner"])
        self.assertTrue(all(bar.right - bar.left >= 4 for bar in everything[-2:]))
        self.assertIn("20002\u201320011", [bar.label for bar in near if bar.kind == "bar fault"])
        self.assertTrue(10 < len(near) < 40)

    def test_nodes_that_overlap_without_end(self):
        crowd = [(5, i, 1000 - i, 1) for i in range(60)]
        everything, near = self.drawn(model.book((2, crowd), (3, [])))[1]
        self.assertEqual(len(everything), 60)
        self.assertEqual(len({bar.top for bar in everything}), 9)
        labelled = [bar for bar in everything if bar.label]
        meeting = [(a, b) for a in labelled for b in labelled if a is not b and a.meets(b)]
        self.assertEqual(meeting, [])

    def test_a_partner_in_another_document(self):
        book = model.book((2, [(9, 1, 9, 1), (5, 2, 5, 2), (5, 7, 8, 2)]), (3, []))
        svg, (bars,) = self.drawn(book)
        self.assertEqual([bar.kind for bar in bars], ["bar zone", "bar fault"])
        self.assertIn("partner: list 0, index 0: 1 to 9, level 1, document 9<", svg)

    def test_a_fault_in_a_third_list(self):
        svg, (bars,) = self.drawn((FIGURES / "data" / "third-list-faulty.book").read_bytes())
        kinds = Counter(bar.kind.split()[-1] for bar in bars)
        self.assertEqual(kinds, {"zone": 2, "sample": 2, "node": 1, "partner": 1, "fault": 1})
        self.assertIn(">nodes: list 2, tag 4<", svg)

    def test_names_are_escaped(self):
        look = look_at(figure_books.FIGURE)
        svg = picture("a&b<c>\"'.book", look, 5)
        title = ElementTree.fromstring(svg).find(f"{SVG}title").text
        self.assertEqual(title, "a&b<c>\"'.book, document 5: 0 TAKEN")
        self.assertLess(len(picture("a" * 500, look, 5)), len(svg) + 200)
        self.assertIn("prefers-color-scheme: dark", svg)

    def test_which_document(self):
        self.assertIn(", document 101: 0 TAKEN<", self.drawn(FARM)[0])
        self.assertIn(", document 104: 0 TAKEN<", self.drawn(FARM, 104)[0])
        absent = run("show", "-", "--svg", "-", "--document", 7, data=FARM)
        self.assertEqual((absent.status, absent.out), (_command.USAGE, ""))
        self.assertIn("no node of document 7 to draw", absent.err)
        empty = run("show", "-", "--svg", "-", data=model.book((2, []), (3, [])))
        self.assertEqual((empty.status, empty.out), (_command.USAGE, ""))
        without = run("show", "-", "--document", 7, data=FARM)
        self.assertEqual((without.status, without.out), (_command.USAGE, ""))

    def test_refused_contents_have_no_picture(self):
        result = run("show", "-", "--svg", "-", data=figure_books.FIGURE[:-1])
        self.assertEqual((result.status, result.out), (Answer.CONTENTS, ""))


class Listings(unittest.TestCase):
    def test_the_pairs_that_the_program_prints(self):
        self.assertEqual(run("list", "-", data=FARM), (0, FARM_PAIRS, ""))

    def test_every_relation_and_order(self):
        rng = random.Random(15)
        for which in LISTINGS * 4:
            tree = random_tree(rng, 30)
            zones, samples = some_of(rng, tree), some_of(rng, tree)
            names = [which[option].name.lower() for option in ("relation", "order")]
            options = "--csv", "--relation", names[0], "--order", names[1]
            result = run("list", "-", *options, data=model.book((2, zones), (3, samples)))
            self.assertEqual((result.status, result.err), (0, ""))
            header, *rows = csv.reader(io.StringIO(result.out))
            self.assertEqual(",".join(header), (
                "document,ancestor_start,ancestor_end,ancestor_level,"
                "descendant_start,descendant_end,descendant_level"))
            expected = [[*zone, *sample[1:]] for zone, sample in listing(zones, samples, **which)]
            self.assertEqual([list(map(int, row)) for row in rows], expected)

    def test_tags_and_documents(self):
        lines = FARM_PAIRS.splitlines()
        one = [line for line in lines if line.startswith("102 ")]
        result = run("list", "-", "--document", 102, data=FARM)
        self.assertEqual(result.out.splitlines(), [*one, f"pairs {len(one)}"])
        self.assertEqual(run("list", "-", "--document", 103, data=FARM).out, "pairs 0\n")
        of_texts = run("list", "-", "--ancestors", 3, "--descendants", 65536, data=FARM)
        self.assertEqual(of_texts.out.splitlines()[-1], "pairs 14")
        with_itself = run("list", "-", "--descendants", 2, data=figure_books.FIGURE)
        self.assertEqual(with_itself.out, "5 2 3\npairs 1\n")
        absent = run("list", "-", "--document", 7, data=FARM)
        self.assertEqual((absent.status, absent.out), (_command.USAGE, ""))
        self.assertIn("neither list has document 7", absent.err)

    def test_a_refused_book_lists_nothing(self):
        result = run("list", REFUSED, "--csv")
        self.assertEqual((result.status, result.out), (Answer.JOINT, ""))
        self.assertIn("index 6 at byte 268, with list 0 (tag 2) index 6 at byte 124. ", result.err)

    def test_more_than_a_page(self):
        book = model.book((2, figure_books.nest(60)), (3, figure_books.points(100)))
        result = run("list", "-", data=book)
        self.assertEqual(result.out.splitlines()[-1], "pairs 6000")
        self.assertEqual(len(set(result.out.splitlines())), 6001)


class WithFiles(unittest.TestCase):
    def setUp(self):
        folder = tempfile.TemporaryDirectory()
        self.addCleanup(folder.cleanup)
        self.folder = Path(folder.name)

    def path(self, name, data=None):
        """Returns the path of a file, which is written if there is data."""
        path = self.folder / name
        if data is not None:
            path.write_bytes(data)
        return path

    def fails(self, status, *arguments, data=b""):
        """Runs a command that must fail, print nothing, and leave all files as they were. Returns
        what it says.
        """
        before = {path: path.read_bytes() for path in self.folder.iterdir() if path.is_file()}
        result = run(*arguments, data=data)
        self.assertEqual((result.status, result.out), (status, ""), result.err)
        after = {path: path.read_bytes() for path in self.folder.iterdir() if path.is_file()}
        self.assertEqual(after, before)
        return result.err


class Csv(WithFiles):
    def test_a_book_unpacked_and_packed_is_the_same(self):
        taken = {name: joined for name, (read, *_, joined) in stored_answers().items()
                 if read == Answer.TAKEN}
        self.assertGreater(len(taken), 15)
        for name, joined in taken.items():
            book = (FIGURES / "data" / name).read_bytes()
            result = run("unpack", "-", "-", data=book)
            status = joined if joined == Answer.JOINT else Answer.TAKEN
            self.assertEqual((result.status, bool(result.err)), (status, bool(status)), name)
            again = self.path(f"again-{name}")
            self.assertEqual(run("pack", "-", again, data=result.out.encode()), (0, "", ""))
            self.assertEqual(again.read_bytes(), book, name)

    def test_the_farm(self):
        table = self.path("farm.csv")
        self.assertEqual(run("unpack", ROOT / "examples" / "farm.book", table), (0, "", ""))
        self.assertEqual(table.read_text(), FARM_CSV)
        book = self.path("farm.book")
        self.assertEqual(run("pack", table, book), (0, "", ""))
        self.assertEqual(book.read_bytes(), FARM)
        self.assertEqual(set(self.folder.iterdir()), {book, table})

    def test_lists_without_nodes_and_books_without_lists(self):
        book = model.book((0, []), (2, figure_books.Z), (4294967295, []))
        text = "tag,document,start,end,level\n0,,,,\n2,5,2,10,2\n2,5,3,7,3\n4294967295,,,,\n"
        self.assertEqual(run("unpack", "-", "-", data=book).out, text)
        self.assertEqual(run("unpack", "-", "-", data=model.book()).out, text.splitlines(True)[0])

    def test_what_other_programs_write(self):
        text = ("\ufefftag, document ,start,end,level\r\n3,5,4,6,4\r\n\r\n2, 5 ,2,10,2\r\n"
                "\"3\",5,008,9,3\r\n2,5,3,7,3\r\n")
        book = self.path("figure.book")
        self.assertEqual(run("pack", "-", book, data=text.encode()), (0, "", ""))
        self.assertEqual(book.read_bytes(), figure_books.FIGURE)

    def test_cells_that_are_no_numbers(self):
        columns = {"tag": 1, "document": 2, "start": 3, "end": 4, "level": 5}
        wrong = "x", "-1", "4294967296", "1.0", "\u0663"
        for (name, column), cell in zip(columns.items(), wrong):
            cells = ["2", "5", "2", "10", "2"]
            cells[column - 1] = cell
            text = f"{','.join(columns)}\n2,5,1,20,1\n{','.join(cells)}\n"
            err = self.fails(_command.BAD_CSV, "pack", "-", self.path("no"), data=text.encode())
            said = f"the {name} must be a number from 0 to 4294967295, not {cell!r}"
            self.assertEqual(err, f"belfrychest: standard input:3:{column}: {said}\n")
        half = b"tag,document,start,end,level\n2,5,,10,2\n"
        self.assertIn(":2:3: the start", self.fails(_command.BAD_CSV, "pack", "-", "-", data=half))
        long = b"tag,document,start,end,level\n2,5,1,1," + b"1" * 5000
        self.assertIn(":2:5: the level", self.fails(_command.BAD_CSV, "pack", "-", "-", data=long))
        no_tag = b"tag,document,start,end,level\n,,,,\n"
        self.assertIn(":2:1: the tag", self.fails(_command.BAD_CSV, "pack", "-", "-", data=no_tag))

    def test_a_cleared_line_is_no_list_without_nodes(self):
        """Tries a line that once lost its node without a word, since its tag has other lines."""
        header, node, cleared = "tag,document,start,end,level\n", "2,5,2,10,2\n", "2,,,,\n"
        for rows, line, other in (
            (node + cleared, 3, 2), (cleared + node, 2, 3), (cleared + cleared, 3, 2),
            (node + "3,,,,\n" + node + cleared + node, 5, 2),
            (cleared + "3,5,4,6,4\n" + node, 2, 4),
        ):
            text = (header + rows).encode()
            err = self.fails(_command.BAD_CSV, "pack", "-", self.path("no"), data=text)
            said = "the node is missing; a tag alone means no nodes, but "
            place = f"belfrychest: standard input:{line}: "
            self.assertEqual(err, f"{place}{said}line {other} has tag 2 too\n")

    def test_lines_that_are_no_rows(self):
        header = b"tag,document,start,end,level\n"
        cases = {
            b"": ":1: the first line must be tag,document,start,end,level",
            b"2,5,2,10,2\n": ":1: the first line must be",
            header + b"2,5,2,10\n": ":2: the line has 4 cells, not 5",
            header + b"2,5,2,10,2\n2,5,3,7,3,1\n": ":3: the line has 6 cells",
            header + b"2,5,2,\"10,2\n": ":2: this is no CSV",
            header + b"2,5,2,10,2\n\xff": ":3: byte 40 of the file isn't UTF-8",
            figure_books.FIGURE: ":1: ",
        }
        for data, place in cases.items():
            table = self.path("a.csv", data)
            err = self.fails(_command.BAD_CSV, "pack", table, self.path("no.book"))
            self.assertTrue(err.startswith(f"belfrychest: {table}{place}"), err)

    def test_refused_nodes_have_their_lines(self):
        cases = {
            Answer.LEVEL: ("2,5,20,30,65", ":5: refused 3 LEVEL, tag 2 index 2. "),
            Answer.SPAN: ("2,5,20,19,2", ":5: refused 4 SPAN, tag 2 index 2. "),
            Answer.ORDER: ("2,5,3,3,3", ":5: refused 5 ORDER, tag 2 index 2, with line 4. "),
            Answer.CROSS: ("2,5,9,12,3", ":5: refused 6 CROSS, tag 2 index 2, with line 2. "),
            Answer.DEPTH: ("2,5,4,5,2", ":5: refused 7 DEPTH, tag 2 index 2, with line 4. "),
        }
        for answer, (row, place) in cases.items():
            text = f"tag,document,start,end,level\n2,5,2,10,2\n1,,,,\n2,5,3,7,3\n{row}\n"
            err = self.fails(answer, "pack", "-", self.path("no"), data=text.encode())
            self.assertEqual(err, f"belfrychest: standard input{place}{HINTS[answer]}\n")

    def test_more_than_a_book_holds(self):
        header = "tag,document,start,end,level\n"
        tags = header + "".join(f"{tag},,,,\n" for tag in range(65, 0, -1))
        err = self.fails(Answer.CONTENTS, "pack", "-", self.path("no"), data=tags.encode())
        self.assertIn(":2: refused 15 CONTENTS, with tag 65 there are 65 lists. ", err)
        rows = header + "2,,,,\n" + "".join(f"3,5,{i},{i},1\n" for i in range(4097))
        err = self.fails(Answer.CONTENTS, "pack", "-", self.path("no"), data=rows.encode())
        self.assertIn(":4099: refused 15 CONTENTS, tag 3 has 4097 nodes. ", err)

    def test_as_many_lists_as_a_book_may_have(self):
        rows = "".join(f"{tag},,,,\n" for tag in range(63)) + "63,5,2,10,2\n63,5,3,7,3\n"
        text = "tag,document,start,end,level\n" + rows
        book = self.path("many.book")
        self.assertEqual(run("pack", "-", book, data=text.encode()), (0, "", ""))
        lists = [(tag, []) for tag in range(63)]
        self.assertEqual(book.read_bytes(), model.book(*lists, (63, figure_books.Z)))
        self.assertEqual(run("unpack", book, "-"), (0, text, ""))

    def test_a_refused_book_is_unpacked_and_repaired(self):
        book = model.book((1, []), (2, figure_books.Z), (3, in_document((4, 6, 4), (6, 9, 5))))
        table = self.path("broken.csv")
        result = run("unpack", "-", table, data=book)
        self.assertEqual((result.status, result.out), (Answer.CROSS, ""))
        self.assertIn("list 2 (tag 3) index 1 at byte 88, with list 2 (tag 3) index 0 at byte 72, "
                      "lines 6 and 5 of the CSV. ", result.err)
        again = self.fails(Answer.CROSS, "pack", table, self.path("no"))
        self.assertIn(":6: refused 6 CROSS", again)
        table.write_text(table.read_text().replace("3,5,6,9,5", "3,5,8,9,3"))
        self.assertEqual(run("pack", table, self.path("good.book")), (0, "", ""))
        result = run("list", self.path("good.book"), "--ancestors", 2, "--descendants", 3)
        self.assertEqual(result.out, "5 2 4\n5 3 4\n5 2 8\npairs 3\n")

    def test_a_book_whose_lists_cant_be_joined_is_unpacked_and_repaired(self):
        book = model.book((2, figure_books.Z), (3, in_document((4, 6, 4), (8, 11, 3))), (4, []))
        table = self.path("broken.csv")
        result = run("unpack", "-", table, data=book)
        self.assertEqual((result.status, result.out), (Answer.JOINT, ""))
        self.assertIn("8 JOINT, list 1 (tag 3) index 1 at byte 88, with list 0 (tag 2) index 0 at "
                      "byte 40, lines 5 and 2 of the CSV. ", result.err)
        lines = table.read_text().splitlines()
        self.assertEqual((lines[4], lines[1]), ("3,5,8,11,3", "2,5,2,10,2"))
        table.write_text(table.read_text().replace("3,5,8,11,3", "3,5,8,9,3"))
        self.assertEqual(run("pack", table, self.path("good.book")), (0, "", ""))
        self.assertEqual(run("check", self.path("good.book")).status, Answer.TAKEN)

    def test_a_node_that_is_wrong_by_itself_has_one_line(self):
        book = model.book((2, figure_books.Z), (3, in_document((4, 6, 65))))
        result = run("unpack", "-", "-", data=book)
        self.assertEqual((result.status, result.out.splitlines()[3]), (Answer.LEVEL, "3,5,4,6,65"))
        self.assertIn(" index 0 at byte 60, line 4 of the CSV. ", result.err)

    def test_refused_contents_are_not_unpacked(self):
        err = self.fails(Answer.CONTENTS, "unpack", "-", self.path("no.csv"), data=FARM[:-1])
        self.assertIn("byte 679: ", err)
        self.assertIn("except for 15 CONTENTS\n", run("unpack", "--help").out)


class Files(WithFiles):
    def test_what_cant_be_read(self):
        none, new = self.path("none"), self.path("new")
        commands = ["show", none], ["check", none], ["list", none], ["check", self.folder]
        for command, place, *rest in [*commands, ["unpack", none, new], ["pack", none, new]]:
            err = self.fails(_command.CANT_READ, command, place, *rest)
            self.assertTrue(err.startswith(f"belfrychest: {place}: can't be read: "), err)
        with mock.patch.multiple(sys, stdin=None, stderr=None, stdout=Stream()):
            self.assertEqual(_command.main(["check", "-"]), _command.CANT_READ)
            self.assertEqual(sys.stdout.text(), "")

    def test_what_cant_be_made(self):
        for place in self.folder, self.folder / "none" / "new":
            err = self.fails(_command.CANT_MAKE, "unpack", "-", place, data=FARM)
            self.assertTrue(err.startswith(f"belfrychest: {place}"), err)
            self.assertIn("can't be made: ", err)

    def test_a_file_that_is_there_stays(self):
        book, table = self.path("a.book", FARM), self.path("a.csv", b"precious")
        packing, unpacking = ["pack", "-", book], ["unpack", book, table]
        for arguments in packing, unpacking, ["show", "--svg", table, book]:
            result = run(*arguments, data=FARM_CSV.encode())
            self.assertEqual(result.status, _command.CANT_MAKE)
            self.assertIn("is there already; --force replaces it", result.err)
        self.assertEqual((book.read_bytes(), table.read_bytes()), (FARM, b"precious"))

    def test_force_replaces_it_and_keeps_its_mode(self):
        book, table = self.path("a.book", FARM), self.path("a.csv", b"precious")
        table.chmod(0o640)
        self.assertEqual(run("unpack", "--force", book, table), (0, "", ""))
        self.assertEqual(table.read_text(), FARM_CSV)
        self.assertEqual(table.stat().st_mode & 0o777, 0o640)
        link = self.path("link.svg")
        link.symlink_to(table)
        self.assertEqual(run("show", "--force", "--svg", link, book).status, 0)
        self.assertTrue(link.is_symlink() and table.read_text().startswith("<svg"))
        self.assertEqual(len(list(self.folder.iterdir())), 3)

    def test_what_is_read_is_never_replaced(self):
        book = self.path("a.book", FARM)
        link = self.path("b.book")
        link.symlink_to(book)
        for place in book, link:
            err = self.fails(_command.CANT_MAKE, "unpack", "--force", book, place)
            self.assertIn("can't be both read and written", err)

    def test_what_cant_be_written(self):
        err = self.fails(_command.CANT_WRITE, "unpack", "-", "/dev/full", data=FARM)
        self.assertIn("/dev/full: can't be written: ", err)
        for arguments in ["names"], ["--help"], ["--version"]:
            with mock.patch.multiple(sys, stdout=None, stderr=Stream()):
                self.assertEqual(_command.main(arguments), _command.CANT_WRITE)
                self.assertIn("standard output can't be written: ", sys.stderr.text())

    def test_a_file_is_written_whole_or_not_at_all(self):
        book, table = self.path("a.book", FARM), self.path("a.csv", b"precious")
        for broken in "os.replace", "shutil.copymode":
            with mock.patch(broken, side_effect=OSError(28, "No space left on device")):
                err = self.fails(_command.CANT_MAKE, "unpack", "--force", book, table)
            self.assertIn("a.csv: can't be made: No space left on device", err)

    def test_names_that_cant_be_printed(self):
        odd = self.path(os.fsdecode(b"a\n\xff.book"), FARM)
        result = run("show", odd)
        self.assertEqual(result.out.splitlines()[0], f"{self.folder}/a??.book: 680 bytes")
        self.assertIn("<title>a??.book, ", run("show", "--svg", "-", odd).out)


class Usage(unittest.TestCase):
    COMMANDS = ("show", "check", "list", "pack", "unpack", "names")

    def test_wrong_usage(self):
        book = str(REFUSED)
        wrong = [
            [], ["look", book], ["show"], ["show", book, book], ["show", "--svg", book],
            ["check", book, "--csv"], ["list", book, "--order", "down"],
            ["list", book, "--ord", "ancestor"], ["list", book, "--document", "-1"],
            ["check", book, "--ancestors", "4294967296"],
            ["check", book, "--ancestors", "9" * 5000], ["pack", book], ["names", book], ["--frob"],
        ]
        for arguments in wrong:
            result = run(*arguments)
            self.assertEqual((result.status, result.out), (_command.USAGE, ""), arguments)
            self.assertIn("usage: python -m belfrychest", result.err)

    def test_help_tells_every_status(self):
        for command in [[], *([name] for name in self.COMMANDS)]:
            result = run(*command, "--help")
            self.assertEqual((result.status, result.err), (0, ""))
            usage = " ".join(["usage: python -m belfrychest", *command])
            self.assertTrue(result.out.startswith(usage))
            told = set(map(int, re.findall(r"\b(\d+), ", result.out.split("exit status")[1])))
            self.assertEqual(told, {0, 1, 64, 65, 66, 73, 74, 130})

    def test_help_tells_every_command_and_option(self):
        self.assertEqual([name for name in self.COMMANDS if name not in run("--help").out], [])
        options = {
            "show": "--ancestors --descendants --svg --document --force BOOK",
            "check": "--ancestors --descendants BOOK",
            "list": "--ancestors --descendants --relation --order --document --csv BOOK",
            "pack": "--force CSV BOOK",
            "unpack": "--force BOOK CSV",
        }
        for command, names in options.items():
            text = run(command, "--help").out
            self.assertEqual([name for name in names.split() if name not in text], [])

    def test_version(self):
        version = (ROOT / "VERSION").read_text().strip()
        self.assertEqual(run("--version"), (0, f"belfrychest {version}\n", ""))
        self.assertEqual(__version__, version)

    def test_names(self):
        rows = [line.split(None, 2) for line in run("names").out.splitlines()]
        self.assertEqual(rows, [[str(n), name, HINTS[n]] for n, name in enumerate(model.NAMES)])

    def test_an_interruption(self):
        with mock.patch.object(_command, "_read", side_effect=KeyboardInterrupt):
            self.assertEqual(run("check", "-"), (_command.INTERRUPTED, "", ""))


class Progress(unittest.TestCase):
    BOOK = model.book((2, figure_books.nest(60)), (3, figure_books.points(100)))

    def test_long_work_is_told_on_a_terminal_and_erased(self):
        table = run("unpack", "-", "-", data=self.BOOK).out.encode()
        cases = {"list": (["list", "-"], self.BOOK, "4096 pairs"),
                 "unpack": (["unpack", "-", "-"], self.BOOK, "161 lines made"),
                 "pack": (["pack", "-", "/dev/null"], table, "160 lines read")}
        for arguments, data, told in cases.values():
            plain = run(*arguments, data=data)
            with mock.patch.object(_command, "PROGRESS_SECONDS", 0):
                result = run(*arguments, data=data, err_terminal=True)
                self.assertEqual(run(*arguments, data=data).err, "")
            self.assertEqual(result[:2], plain[:2])
            self.assertIn(f"\r{told}\033[K", result.err)
            self.assertTrue(result.err.endswith("\r\033[K"))
            self.assertNotIn("\n", result.err)

    def test_short_work_is_not_told(self):
        with mock.patch.object(_command, "PROGRESS_SECONDS", 1000):
            self.assertEqual(run("list", "-", data=self.BOOK, err_terminal=True).err, "")

    def test_pairs_on_a_terminal_are_their_own_progress(self):
        with mock.patch.object(_command, "PROGRESS_SECONDS", 0):
            result = run("list", "-", data=self.BOOK, out_terminal=True, err_terminal=True)
        self.assertEqual(result.err, "")


class Process(unittest.TestCase):
    """What only a process shows. They run at the same time."""

    @classmethod
    def setUpClass(cls):
        read_end, closed = os.pipe()
        os.close(read_end)
        full = os.open("/dev/full", os.O_WRONLY)
        show, missing = ("-m", "belfrychest", "show", REFUSED), ROOT / "no.so"
        cls.started = {
            "refused": start_python(*show), "closed": start_python(*show, stdout=closed),
            "full": start_python(*show, stdout=full),
            "unloaded": start_python(*show, BELFRYCHEST_LIBRARY=str(missing)),
        }
        cls.results = {name: process.communicate() for name, process in cls.started.items()}
        os.close(closed)
        os.close(full)

    def test_a_refused_book(self):
        self.assertEqual(self.started["refused"].returncode, Answer.JOINT)
        out, err = self.results["refused"]
        expected = run("show", REFUSED)
        self.assertEqual((out.decode(), err.decode()), (expected.out, expected.err))

    def test_a_closed_pipe_ends_it_quietly(self):
        self.assertEqual(self.started["closed"].returncode, -signal.SIGPIPE)
        self.assertEqual(self.results["closed"][1], b"")

    def test_a_library_that_cant_be_loaded_is_told_in_a_line(self):
        self.assertEqual(self.started["unloaded"].returncode, 1)
        out, err = self.results["unloaded"]
        self.assertEqual((out, err.count(b"\n")), (b"", 1), err.decode())
        self.assertIn(f"(ImportError: there is no {ROOT / 'no.so'}; ", err.decode())

    def test_a_full_output_is_told_once(self):
        self.assertEqual(self.started["full"].returncode, _command.CANT_WRITE)
        err = self.results["full"][1].decode()
        said = "belfrychest: standard output can't be written: No space left on device\n"
        self.assertEqual(err, said)


if __name__ == "__main__":
    unittest.main()
