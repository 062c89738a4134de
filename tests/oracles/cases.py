#!/usr/bin/env python3
"""Works out what stands below each stored case in tests/cases, from the scope's words alone.

tests/oracles/cases.py           writes the files anew: the cases stay, the answers are worked out
tests/oracles/cases.py --check   writes nothing, and fails where a file holds another answer

The head of each file says how its cases are written. The answers come from scope.py, which calls
nothing of the library.
"""
import sys
from functools import lru_cache

import scope
import stored
from scope import flat

FOLDER = "tests/cases"
# Of longer results the first and the last words or pairs are stored.
MOST_WORDS, SHOWN_WORDS = 60, 10
MOST_PAIRS = 40


# What the files share: words, answers, and where a case stands.

def run_of(text, base):
    """Returns the words of `4096*5 1 3 1 + 0 3 3 0`, of `3*7`, or of plain words."""
    times, star, first = text.rpartition("*")
    first, _, step = first.partition("+")
    first, step = ([int(word, base) for word in part.split()] for part in (first, step))
    step = step or [0] * len(first)
    return [(word + i * more) % 2**32
            for i in range(int(times) if star else 1) for word, more in zip(first, step)]


@lru_cache(maxsize=None)
def words_of(text, base=10):
    return [word for run in text.split(",") for word in run_of(run, base)]


@lru_cache(maxsize=None)
def verdict_of(*texts):
    """Returns the answer, the list and the index of one list or of two, given as texts."""
    return scope.check_two(*(words_of(text) for text in texts), *([[]] if len(texts) == 1 else []))


def named(answer):
    return f"{scope.ANSWER[answer]} {answer}"


def placed(verdict):
    answer, number, index = verdict
    return f"{named(answer)} list {number} index {index}"


def joined(words):
    return " ".join(map(str, words))


def is_case(line):
    """Tells a case's line from comments, empty lines and the answers, which begin with blanks."""
    return bool(line) and not line.startswith(("#", "  "))


def answered(lines, answers):
    """Returns the file with each case's answers below its line, in place of those that it has."""
    made = []
    for line in lines:
        if not line.startswith("  "):
            made.append(line)
        if is_case(line):
            made += ["  " + answer for answer in answers(line)]
    return made


# tests/cases/lists.txt: one list, or two both ways round.

def with_part(texts):
    """Returns the answer to two lists and the part that starts at the faulty node."""
    answer, number, index = verdict = verdict_of(*texts)
    faulty = 3 <= scope.ANSWER[answer] <= 7
    part = words_of(texts[number])[4 * index:] if faulty else []
    shown = " " + joined(part) if part else ""
    return f"{placed(verdict)}, part of {len(part)} words{shown}"


def list_answers(line):
    texts = line.rpartition(":")[2].split("/")
    if len(texts) == 1:
        return [placed(verdict_of(*texts))]
    return [with_part(texts), "swapped: " + with_part(texts[::-1])]


# tests/cases/ranges.txt: a zone's low and high.

def range_answers(line):
    label, _, texts = line.partition(":")
    zones, samples, readings = texts.split("/")
    zone = int(label.split()[1])
    *verdict, bounds = scope.zone_range(
        words_of(zones), words_of(samples), words_of(readings, 16), zone)
    if verdict[0] != "TAKEN":
        return [placed(verdict)]
    shown = "low {:08x} high {:08x}".format(*bounds) if bounds else "no reading"
    return [f"{placed(verdict)}, {shown}"]


# What results that are written into an output share.

def result(kind, parts, words):
    """Returns how a result is stored: how many parts it has, and its words."""
    if len(words) > MOST_WORDS:
        shown = f"{joined(words[:SHOWN_WORDS])} to {joined(words[-SHOWN_WORDS:])}"
    else:
        shown = joined(words)
    return f"{kind} {parts}:" + (" " + shown if shown else "")


def into(room, answer, parts):
    """Returns the answer and the parts; ROOM and none where the output is too short for them."""
    return ("ROOM", []) if len(flat(parts)) > room else (answer, parts)


# tests/cases/sheets.txt: the subtotals of a zone sheet.

def sheet_answers(line):
    label, _, texts = line.partition(":")
    room = int(label.split(",")[0].split()[1])
    answer, number, index, rows = scope.sheet(*map(words_of, texts.split("/")))
    if answer == "TAKEN":
        answer, rows = into(room, answer, rows)
    return [f"{placed((answer, number, index))}, {result('subtotals', len(rows), flat(rows))}"]


# tests/cases/marks.txt: numbering, its way back, picking and links.

def number_answer(document, room, marks):
    answer, rows = into(room, *scope.number(document, marks))
    return f"{named(answer)}, {result('rows', len(rows), flat(rows))}"


def table_answer(room, words):
    answer, marks = scope.check_words(words, 5), []
    if answer == "TAKEN":
        answer, marks = scope.unnumber(scope.cut(words, 5))
        answer, marks = into(room, answer, [(mark,) for mark in marks])
    document = words[0] if answer == "TAKEN" else 0
    return f"{named(answer)}, document {document}, {result('marks', len(marks), flat(marks))}"


def pick_answer(tag, room, words):
    answer, nodes = scope.check_words(words, 5), []
    if answer == "TAKEN":
        picked = [row[:4] for row in scope.cut(words, 5) if row[4] == tag]
        answer, nodes = into(room, answer, picked)
    return f"{named(answer)}, {result('nodes', len(nodes), flat(nodes))}"


def links_answer(room, text):
    answer, number, index = verdict_of(text)
    triples = []
    if answer == "TAKEN":
        answer, triples = into(room, answer, scope.links(scope.cut(words_of(text), 4)))
    links = result("links", len(triples), flat(triples))
    return f"{placed((answer, number, index))}, {links}"


def change_answers(document, marks):
    """Returns a line for each row: what the table answers when each of its words is changed."""
    rows = scope.number(document, marks)[1]
    lines = [f"rows {len(rows)}"]
    for index, row in enumerate(rows):
        columns = ["".join(change_sign(rows, index, column, other)
                           for other in ((word + 1) % 2**32, (word - 1) % 2**32, 0, scope.TEXT))
                   for column, word in enumerate(row)]
        lines.append(f"row {index}: {' '.join(columns)}")
    return lines


def change_sign(rows, index, column, other):
    """Returns `=` for no change, `T` where the changed table is taken, and a dot where it isn't."""
    row = list(rows[index])
    if row[column] == other:
        return "="
    row[column] = other
    changed = [*rows[:index], tuple(row), *rows[index + 1:]]
    return "T" if scope.unnumber(changed)[0] == "TAKEN" else "."


def mark_answers(line):
    head, _, text = line.rpartition(":")
    call, *numbers = [word for word in head.split() if word != "into"]
    numbers = [int(number) for number in numbers]
    if call == "changes":
        return change_answers(*numbers, words_of(text))
    if call == "links":
        return [links_answer(*numbers, text)]
    answer = {"number": number_answer, "table": table_answer, "pick": pick_answer}[call]
    return [answer(*numbers, words_of(text))]


# tests/cases/pairs.txt: runs of page calls.

def ticket_of(line):
    """Returns the ticket that a run's line describes."""
    relation, order, *place = line.rpartition(":")[2].split()
    return relation, order, () if place == ["fresh"] else tuple(map(int, place))


@lru_cache(maxsize=None)
def listing_of(ancestors, descendants, relation, order):
    nodes = [scope.cut(words_of(text), 4) for text in (ancestors, descendants)]
    return scope.listing(*nodes, relation, order)


def pair_text(pair):
    (document, ancestor, _, _), (_, descendant, _, _) = pair
    return ("" if document == 5 else f"{document}:") + f"{ancestor}-{descendant}"


def pairs_text(pairs):
    shown = [pair_text(pair) for pair in pairs]
    if len(shown) > MOST_PAIRS:
        shown = [shown[0], "to", shown[-1]]
    return " ".join(["pairs", str(len(pairs)), *shown])


def page_answer(line, ticket):
    """Returns the answer to a call, the listing if it is accepted, its pairs, and the ticket."""
    room, _, texts = line[1:].partition(":")
    texts = texts.split("/")
    answer, number, index = verdict_of(*texts)
    pairs, written, done = None, [], False
    if answer == "TAKEN":
        pairs = listing_of(*texts, *ticket[:2])
        written, done, ticket = scope.page(pairs, ticket, int(room) // 8)
    relation, order, place = ticket
    said = (f"answer {scope.ANSWER[answer]} list {number} index {index}, {pairs_text(written)}, "
            f"{'done' if done else 'not done'}, ticket {relation} {order} "
            f"{joined(place) or 'fresh'}")
    return said, pairs, written, done, ticket


def run_answers(first, calls):
    """Returns the lines of a run, its calls and their answers, and what became of it in all."""
    ticket = first
    lines, listings, handed_out, dones = [], [], 0, 0
    for call in calls:
        said, pairs, written, done, ticket = page_answer(call, ticket)
        lines += [call, "  " + said]
        listings += [] if pairs is None else [pairs]
        handed_out += len(written)
        dones += done
    always = set.intersection(*map(set, listings)) if listings else set()
    stood = len(scope.remaining(always, first[1], first[2]))
    return [*lines, f"  run: done {dones}, stood {stood}, handed out {handed_out}"]


def with_runs(lines):
    """Returns the file with all its runs worked out anew."""
    made, ticket, calls = [], None, []
    for line in [line for line in lines if not line.startswith("  ")] + [None]:
        if line is not None and line.startswith(">"):
            calls.append(line)
            continue
        if ticket is not None:
            made += run_answers(ticket, calls)
        starts = line is not None and is_case(line)
        ticket, calls = (ticket_of(line) if starts else None), []
        made.append(line)
    return made[:-1]


def files():
    """Returns the files by their paths, as they have to be."""
    makers = {
        "lists.txt": lambda lines: answered(lines, list_answers),
        "marks.txt": lambda lines: answered(lines, mark_answers),
        "ranges.txt": lambda lines: answered(lines, range_answers),
        "sheets.txt": lambda lines: answered(lines, sheet_answers),
        "pairs.txt": with_runs,
    }
    made = {}
    for name, maker in makers.items():
        lines = (stored.ROOT / FOLDER / name).read_text().split("\n")
        made[f"{FOLDER}/{name}"] = "\n".join(maker(lines)).encode()
    return made


if __name__ == "__main__":
    sys.exit(stored.main(files))
