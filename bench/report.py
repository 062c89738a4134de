"""The tables of the bench, as Markdown. bench/run builds what is measured here."""
import datetime
import hashlib
import os
import platform
import subprocess
import sys
from functools import lru_cache, partial
from pathlib import Path

import farms
import join
from figures import (ALL_SHAPES, CODES, EMULATOR, MADE, MOST_LEVELS, MOST_LISTS, MOST_NODES,
                     MOST_QUESTIONS, PRINTED_NODES, QUESTIONS, SHAPES, counted, emulated,
                     instructions, printing_nothing, questions_to, run, sizes, unit_of, units)
from tables import item, progress, say, table

CASES = 100_000
ORDERS = ("descendant", "ancestor")
LISTINGS = ("inside-descendant", "inside-ancestor", "directly-descendant", "directly-ancestor")
LINKED = tuple(f"linked-{listing}" for listing in LISTINGS)
LINKED_CALLS = tuple(f"list_linked, {order} order" for order in ORDERS)
PAGE_ROOMS = (256, MOST_NODES)
GROWTH = (64, 1024, MOST_NODES)
# How many lists the books that are asked questions have, and how these are asked.
BOOKS = (2, 1 + QUESTIONS)
WAYS = {"together": "one call", "each": "a call each", "single": "single calls",
        "found": "lists found once"}
# How many lists the books of empty lists have.
EMPTY_LISTS = (16, MOST_LISTS)
TWINS = CODES[1:]
CODES_HERE = TWINS if EMULATOR else CODES
# Times of the calls are taken where the machine is an x86-64, unless counts alone are wanted.
TIMED = not EMULATOR and "--counts" not in sys.argv
OTHER_SHAPES = ALL_SHAPES[len(SHAPES):]
# A document of the shape `documents` has two nodes only, so it has a bar of its own for the check
# and isn't numbered.
SMALL_DOCUMENTS = "documents"
LARGE_DOCUMENTS = tuple(shape for shape in ALL_SHAPES if shape != SMALL_DOCUMENTS)

# The bars: the most that the archive may take beside a twin, for a node or mark and of the stack.
# No call may take more stack than any twin of it, with three exceptions. One is the sheet, whose
# walk is a recursion. Another is questions, for which all codes keep two lists in words. The third
# is a listing with links.
MOST_RATIOS = {"clang-three": 0.85, "gcc-three": 0.85, "clang-fused": 0.95, "gcc-fused": 1.1}
MOST_SHARP, SHARP_LISTING, SHARP_SHAPES = 0.4, "directly-ancestor", ("nests", "between")
MOST_CHECK, MOST_SMALL_CHECK = 42.0, 47.0
MOST_LINKS, MOST_NUMBER, MOST_BOOK, MOST_STACK = 68.0, 29.1, 37.5, 1.0
MOST_ASKED, MOST_BEYOND, MOST_ASK_STACK = 0.85, 18.8, 1.01
MOST_LINKS_CHECK, MOST_LINKED_STACK = 60.0, 1.03
# Where only the last field holds samples, a listing with links passes over nearly all zones.
MOST_JUMPED, JUMPED_FARM = 0.75, ("fields", 8, "last")

SHAPE_WORDS = {
    "flat": "zones side by side, a sample in each",
    "nests": "65 nests of 63 zones, and 63 samples in the innermost zone of each",
    "between": "32 nests of 63 zones with a sample before and a sample after each inner zone",
    "random": "a random tree, at most 20 deep, half of it zones and half samples",
    "eight-zones": "4,096 zones side by side, eight of which hold all samples",
    "few-samples": "4,096 zones side by side, sixteen of which hold a sample",
    "documents": "4,096 documents of a zone with a sample in it",
    "twice": "the random tree's zones, given as zones and as samples",
    "fields": "63 fields: a zone that holds 64 zones side by side, a sample in each",
    "side": "33 nests of 62 zones; in each zone a small zone with a sample comes before the next "
            "zone, and 62 samples end the innermost",
}


def said_by(*command):
    """Returns the first line that a command prints."""
    return subprocess.run(command, capture_output=True, text=True).stdout.splitlines()[0]


def processor():
    lines = subprocess.run(["lscpu"], capture_output=True, text=True).stdout.splitlines()
    found = [line.split(":")[1].strip() for line in lines if line.startswith("Model name")]
    return found[0] if found else "unknown processor"


@lru_cache(maxsize=None)
def times(measure, shape):
    """Returns the median nanoseconds of each code, all from one run in which they take turns, or
    nothing where times aren't taken.
    """
    if not TIMED:
        return {}
    lines = run("driver", "time", measure, shape, MOST_NODES).splitlines()
    return {code: float(time) for code, time in map(str.split, lines)}


def cell(code, measure, shape):
    """Returns the instructions, and the microseconds where they were taken."""
    taken = times(measure, shape)
    time = f"; {taken[code] / 1000:,.1f}" if taken else ""
    return f"{instructions(code, measure, shape):,}{time}"


def has_many(pairs, nodes):
    """Tells whether there are enough pairs for a figure of one to say something."""
    return 3 * pairs >= nodes


def shared(measure, shape):
    """Returns the archive's instructions for a node, mark, question or pair, or nothing where there
    are few pairs.
    """
    count = units(measure, shape)
    if unit_of(measure) == "pair" and not has_many(count, units("check", shape)):
        return ""
    return f"{instructions('archive', measure, shape) / count:,.1f}"


def measured(title, measure, unit, shapes=ALL_SHAPES):
    """Prints a table of a measure: a row for each shape, a column for each code, and what the
    archive's figure comes to for a unit.
    """
    progress(title)
    print(f"\n### {title}")
    table(("shape", *CODES, f"archive, {unit}"),
          [(shape, *(cell(code, measure, shape) for code in CODES), shared(measure, shape))
           for shape in shapes])


# What is printed before the figures.

def described(path):
    """Returns how long a file is, and its sum."""
    content = Path(path).read_bytes()
    return f"{len(content):,} bytes, SHA-256 {hashlib.sha256(content).hexdigest()[:16]}"


def print_head():
    now = datetime.datetime.now(datetime.timezone.utc)
    compilers = [said_by(name, "--version") for name in ("clang", os.environ["BENCH_COMPILER"])]
    print("# What the archive costs beside an unverified C twin")
    print(f"\nPrinted by `bench/run` on {now:%Y-%m-%d, %H:%M} UTC.\n")
    item(f"Machine: {platform.system()} {platform.machine()}, {processor()}")
    item(f"Archive: {described(os.environ['BENCH_ARCHIVE'])}")
    item(f"Program: {described(f'{MADE}/belfry')}")
    item(f"Twins: {'; '.join(compilers)}; both at -O2")
    if EMULATOR:
        item(f"Instructions counted by: {said_by(EMULATOR, '--version')}, plugin bench/count.c")
        item("Times: none. This machine is no x86-64, and a time under emulation says nothing "
             "about one.")
        return
    item(f"Instructions counted by: {said_by('valgrind', '--version')}, callgrind")
    if TIMED:
        item("Times: microseconds of processor time, medians of 5 to 201 rounds, in each of which "
             f"all {len(CODES)} codes take their turn. A cell is instructions; microseconds.")
    else:
        item("Times: none of the calls. This run was asked for counts alone.")


def print_agreement():
    """Ends the bench where a twin answers or writes anything that the archive doesn't."""
    progress(f"every twin is held against the archive on {CASES} random cases")
    agreed = subprocess.run(emulated("agree", CASES), cwd=MADE, stdout=subprocess.PIPE, text=True)
    if agreed.returncode != 0:
        raise SystemExit(f"{agreed.stdout}the twins don't do what the archive does, so nothing is "
                         "measured")
    print("\n## Do the twins do the same?")
    for line in agreed.stdout.splitlines():
        say(line)


def check_counter():
    """Ends the bench where the plugin doesn't count what single steps do."""
    if not EMULATOR:
        return
    figure = ("archive", "directly-ancestor-all", "random", 256)
    options = ("-singlestep", "-d", "nochain,exec", "-D", "/dev/stdout")
    runs = [subprocess.run(emulated("driver", "count", *figure, made, options=options), cwd=MADE,
                           check=True, stdout=subprocess.PIPE) for made in (1, 0)]
    once, never = (ran.stdout.count(b"Trace") for ran in runs)
    if once - never != instructions(*figure):
        raise SystemExit(f"the plugin counts {instructions(*figure)} instructions, and there are "
                         f"{once - never} single steps")
    say(f"The counter was held against single steps on one figure: {once - never:,} instructions "
        "both ways.")


def print_codes():
    print("\n## Codes")
    say("Every call checks what it is given. The twins differ in how they check lists, list pairs "
        "and link nodes; they find ranges, write sheets, number marks and check books in one way. "
        "A sheet is written without recursion by the twins. A book is written once each of its "
        "lists is checked. Questions are answered by a check of the book, and by a copy and a "
        "listing of two lists for each. The twins check links that are lent in one pass, three and "
        "fused by a stack of open nodes and best by the way up. They jump as the archive does.")
    print()
    item("archive: the proved library")
    item("three: ordinary C that checks two lists in three passes, over each list and then over "
         "both (bench/twin.c)")
    item("fused: the same, with one pass for the good case (bench/twin.c)")
    item("best: the best C that we could write for these shapes, with the algorithms that took "
         f"the fewest instructions on the first {len(SHAPES)}; on others fused may take fewer, as "
         "it does on 4,096 small documents in ancestor order (bench/best.c)")


def print_shapes():
    print("\n## Shapes")
    say(f"Each list has at most {MOST_NODES:,} nodes. Zones are the ancestors and samples the "
        f"descendants. The bars beside the twins are about the first {len(SHAPES)} shapes, the "
        "others about all unless they say otherwise.")
    counts = ("zones", "samples", "inside", "directly")
    table(("shape", "what it is", "zones", "samples", "pairs inside", "directly inside"),
          [(shape, SHAPE_WORDS[shape], *(f"{sizes(shape)[count]:,}" for count in counts))
           for shape in ALL_SHAPES])


# The bars.

@lru_cache(maxsize=None)
def stacks():
    """Returns the most bytes of stack that each call took, by the call's name: a number for each
    code.
    """
    rows = [line.split(";") for line in run("stack").splitlines()]
    return {name: [int(number) for number in taken] for name, *taken in rows}


def stack_ratio(call):
    """Returns the archive's stack of a call to the least of the twins', or 0 where these have none.
    """
    archive, *twins = stacks()[call]
    return archive / min(twins) if all(twins) else 0


def bar_on_stack(title, calls, most):
    taken, call = max((stack_ratio(call), call) for call in calls)
    return title, f"{taken:.3f}", call, f"{most:.3f}", verdict(taken <= most)


def verdict(holds):
    return "pass" if holds else "miss"


def worst(measure, shapes):
    """Returns what the archive takes most for a unit on one of the shapes, and on which."""
    return max((instructions("archive", measure, shape) / units(measure, shape), shape)
               for shape in shapes)


def bar_on_worst(title, measure, most, shapes=ALL_SHAPES):
    taken, shape = worst(measure, shapes)
    return title, f"{taken:.1f}", shape, most, verdict(taken <= most)


def asked(lists, way, shape):
    """Returns the archive's instructions for all questions to a book, asked in a way."""
    return instructions("archive", f"ask-{lists}-{way}", shape)


def to_single(lists, shape):
    """Returns one call with all questions to single calls, in instructions."""
    return asked(lists, "together", shape) / asked(lists, "single", shape)


def beyond_page(lists, shape):
    """Returns what a question takes for a node of its two lists beyond its listing and the check of
    the book. Where the lists are found once, the book is checked as often as it has lists.
    """
    size, checks = sizes(shape), (lists - 1) * instructions("archive", f"book-{lists}", shape)
    questions = questions_to(lists)
    nodes = questions * size["zones"] + questions * size["samples"] // (lists - 1)
    return (asked(lists, "together", shape) - asked(lists, "found", shape) + checks) / nodes


def bar_on_questions(title, figure_of, places, most):
    """Returns the row of a bar about all shapes and both books."""
    taken, shape, lists = max((figure_of(lists, shape), shape, lists)
                              for shape in ALL_SHAPES for lists in BOOKS)
    return (title, f"{taken:.{places}f}", f"{shape}, {lists} lists", f"{most:.{places}f}",
            verdict(taken <= most))


def beyond_list(code, shape):
    """Returns what a check of links takes for a node beyond the check of the list alone."""
    beyond = instructions(code, "links-check", shape) - instructions(code, "check-one", shape)
    return beyond / units("links-check", shape)


def bar_on_links():
    taken, shape = max((beyond_list("archive", shape), shape) for shape in ALL_SHAPES)
    return ("checks of links, beyond the list's, instructions a node", f"{taken:.1f}", shape,
            MOST_LINKS_CHECK, verdict(taken <= MOST_LINKS_CHECK))


def jumped(order):
    """Returns what a listing with links takes without the check of the links, to the plain one."""
    shape = farms.shape_of(JUMPED_FARM)
    plain, linked = farms.both(JUMPED_FARM, f"inside-{order}-all")
    checked = instructions("archive", "links-check", shape)
    return (linked - checked + instructions("archive", "check-one", shape)) / plain


def bar_on_jumps():
    taken, order = max((jumped(order), order) for order in farms.ORDERS)
    return ("listings with links without their check, to plain ones, on fields with 8 samples in "
            "the last", f"{taken:.2f}", f"{order} order", MOST_JUMPED,
            verdict(taken <= MOST_JUMPED))


def print_simple_bars():
    rows = [bar_on_worst(f"checks of two lists, except on {SMALL_DOCUMENTS}, instructions a node",
                         "check", MOST_CHECK, LARGE_DOCUMENTS),
            bar_on_worst(f"checks of two lists on {SMALL_DOCUMENTS}, instructions a node", "check",
                         MOST_SMALL_CHECK, (SMALL_DOCUMENTS,)),
            bar_on_worst("links, instructions a node", "links", MOST_LINKS),
            bar_on_worst("numbering, instructions a mark", "number", MOST_NUMBER,
                         LARGE_DOCUMENTS),
            bar_on_worst("checking a book, instructions a node", "book", MOST_BOOK),
            bar_on_links(),
            bar_on_jumps(),
            bar_on_questions(f"{QUESTIONS} questions in one call, to single calls", to_single, 3,
                             MOST_ASKED),
            bar_on_questions("a question beyond its listing, instructions a node", beyond_page, 1,
                             MOST_BEYOND),
            bar_on_stack("stack, to the least of the twins', except of sheets, questions and links "
                         "lent", stacks().keys() - {"sheet", "ask", *LINKED_CALLS}, MOST_STACK),
            bar_on_stack("stack of questions, to the least of the twins'", ("ask",),
                         MOST_ASK_STACK),
            bar_on_stack("stack of a listing with links, to the least of the twins'", LINKED_CALLS,
                         MOST_LINKED_STACK)]
    table(("bar", "archive", "worst at", "at most", ""), rows)
    return [row[-1] for row in rows]


def ratio(code, listing, shape):
    """Returns the archive's whole call to a twin's, in instructions."""
    measure = f"{listing}-all"
    return instructions("archive", measure, shape) / instructions(code, measure, shape)


def ratio_cell(code, listing, shape):
    taken = times(f"{listing}-all", shape)
    time = f"; {taken['archive'] / taken[code]:.2f}" if taken else ""
    return f"{ratio(code, listing, shape):.3f}{time}"


def holds_beside(code, listing, shape):
    """Tells whether the bar beside a twin holds, if there is one."""
    if code not in MOST_RATIOS:
        return True
    sharp = listing == SHARP_LISTING and shape in SHARP_SHAPES
    return ratio(code, listing, shape) <= (MOST_SHARP if sharp else MOST_RATIOS[code])


def twin_bar(listing, shape):
    missed = [code for code in TWINS if not holds_beside(code, listing, shape)]
    return (listing, shape, *(ratio_cell(code, listing, shape) for code in TWINS),
            "miss: " + ", ".join(missed) if missed else "pass")


def print_twin_bars():
    progress("bars")
    in_what = "in instructions; in time" if TIMED else "in instructions"
    most_words = ", ".join(f"{most:.2f} of {code}'s" for code, most in MOST_RATIOS.items())
    say(f"The archive's whole call, checks included, to each twin's, {in_what}. A bar holds where "
        f"the instructions are at most {most_words}. For {SHARP_LISTING} on "
        f"{' and '.join(SHARP_SHAPES)} they have to be at most {MOST_SHARP} of each of these "
        "twins'.")
    rows = [twin_bar(listing, shape) for listing in LISTINGS for shape in SHAPES]
    table(("listing", "shape", *TWINS, ""), rows)
    say("Beside the best twins there is no bar.")
    return [row[-1] for row in rows]


def print_bars():
    print("\n## Bars")
    held = print_simple_bars() + print_twin_bars()
    say(f"{held.count('pass')} of {len(held)} bars hold.")


def bounds(ratios):
    """Returns the least and the greatest of ratios, to two places or two digits."""
    return tuple(f"{bound:.2f}" if bound >= 0.1 else f"{bound:.2g}"
                 for bound in (min(ratios), max(ratios)))


def bounds_row(name, ratio_of, kinds):
    """Returns the bounds over the first shapes and over the others, of all kinds of listing."""
    found = [bounds([ratio_of(kind, shape) for kind in kinds for shape in shapes])
             for shapes in (SHAPES, OTHER_SHAPES)]
    return name, *found[0], *found[1]


def sqlite_ratio(order, shape):
    return instructions("archive", f"inside-{order}-all", shape) / sqlite_instructions(order, shape)


def print_ratios():
    """Prints the table that README shows after that of the whole calls."""
    progress("ratios")
    print("\n### The archive's whole call to the others'")
    say("The least and the greatest ratio of instructions over all listings, four on each shape. "
        "SQLite lists what is inside only, and checks nothing.")
    rows = [bounds_row(code, partial(ratio, code), LISTINGS) for code in TWINS]
    rows.append(bounds_row("SQLite", sqlite_ratio, ORDERS))
    table(("archive to", f"first {len(SHAPES)} shapes, least", "most",
           f"other {len(OTHER_SHAPES)} shapes, least", "most"), rows)


# The figures.

def title_of(listing):
    relation, order = listing.removeprefix("linked-").split("-")
    lent = " with links" if listing in LINKED else ""
    return f"{'Inside' if relation == 'inside' else 'Directly inside'}, {order} order{lent}"


def print_whole_calls():
    print("\n## Whole calls")
    say("The instructions of one call. A listing checks both lists and has room for all pairs. The "
        "last column is the archive's figure for a node or a pair; it is empty where there is less "
        "than one pair for three nodes.")
    measured("Checks of two lists", "check", "a node")
    for listing in LISTINGS:
        measured(title_of(listing), f"{listing}-all", "a pair")


def print_pages():
    print("\n## Pages")
    say("All pages of a listing, each a call that checks both lists again. A shape whose pairs fit "
        "on one page is left out: there the page is the whole call.")
    for room in PAGE_ROOMS:
        for listing in LISTINGS:
            relation = listing.split("-")[0]
            shapes = [shape for shape in ALL_SHAPES if sizes(shape)[relation] > room]
            if shapes:
                title = f"{title_of(listing)}, pages of {room:,} pairs"
                measured(title, f"{listing}-{room}", "a pair", shapes)


def beyond_check(code, kind, shape):
    """Returns what a range takes for a sample beyond the check of both lists."""
    taken = instructions(code, f"range-{kind}", shape) - instructions(code, "check", shape)
    return f"{taken / MOST_NODES:.1f}"


def print_one_zone():
    progress("Ranges of one zone")
    print("\n### Ranges of one zone")
    say(f"One zone and {MOST_NODES:,} samples, which are all inside it or all after it, with "
        "readings of one kind. These are the instructions for a sample beyond the check of both "
        "lists.")
    table(("samples", "readings", *CODES),
          [(place, kind, *(beyond_check(code, kind, shape) for code in CODES))
           for shape, place in (("holds-all", "inside"), ("holds-none", "after"))
           for kind in ("percent", "grams", "missing")])


def walk_cell(code, shape):
    """Returns what a sheet takes for a zone and a sample alike beyond the check of both lists."""
    taken = instructions(code, "sheet", shape) - instructions(code, "check", shape)
    return f"{taken / units('sheet', shape):.1f}"


def print_walks():
    progress("Sheets beyond the check")
    print("\n### Sheets beyond the check")
    say("The instructions of a sheet for a node of either list, beyond the check of both. The last "
        f"two shapes are one zone and {MOST_NODES:,} samples, which are all inside it or all after "
        "it.")
    table(("shape", *CODES), [(shape, *(walk_cell(code, shape) for code in CODES))
                              for shape in (*ALL_SHAPES, "holds-all", "holds-none")])


def print_others():
    print("\n## Ranges, sheets, links, numbering, books")
    say("A range is that of the first zone, with a reading for each sample: in percent, in grams "
        "and missing, in turn. A sheet has a subtotal for each zone, and every third sample is "
        "missing. Links are those of the zones. What is numbered is a document of the shape's kind "
        f"with at most {MOST_NODES:,} marks; a document of the shape `documents` has two nodes "
        "only and is left out. The book that is checked holds both lists.")
    measured("Ranges", "range", "a node")
    print_one_zone()
    measured("Sheets", "sheet", "a node")
    print_walks()
    measured("Links", "links", "a node")
    measured("Numbering", "number", "a mark", LARGE_DOCUMENTS)
    measured("Checking a book", "book", "a node")


def to_plain(listing, shape):
    """Returns the archive's listing with links to the plain one, in instructions."""
    return (instructions("archive", f"linked-{listing}-all", shape)
            / instructions("archive", f"{listing}-all", shape))


def print_linked():
    print("\n## Listings with links")
    say("The caller lends the links of the zones. The call checks both lists and the links, and "
        "passes over each zone without samples together with everything inside it. The links were "
        "made before, and that isn't measured.")
    measured("Checks of links", "links-check", "a node")
    progress("checks of links beyond the list's")
    print("\n### Checks of links beyond the list's")
    say("The instructions of a check of links for a zone, beyond the check of the zones alone.")
    table(("shape", *CODES),
          [(shape, *(f"{beyond_list(code, shape):.1f}" for code in CODES)) for shape in ALL_SHAPES])
    for listing in LINKED:
        measured(title_of(listing), f"{listing}-all", "a pair")
    print("\n### With links to plain")
    say("The archive's whole call with links to its plain one, in instructions. On most of these "
        "shapes every zone holds a sample, so there is nothing to pass over. In ancestor order the "
        "plain call also guesses where a zone's samples end. The call with links doesn't, which "
        "counts where zones are deep.")
    table(("shape", *LISTINGS), [(shape, *(f"{to_plain(listing, shape):.3f}"
                                           for listing in LISTINGS)) for shape in ALL_SHAPES])
    print("\n### The archive's whole call with links to the twins'")
    say("The least and the greatest ratio of instructions over all listings, four on each shape.")
    rows = [bounds_row(code, partial(ratio, code), LINKED) for code in TWINS]
    table(("archive to", f"first {len(SHAPES)} shapes, least", "most",
           f"other {len(OTHER_SHAPES)} shapes, least", "most"), rows)
    farms.print_farms()


def asked_row(lists, shape):
    ways = (cell("archive", f"ask-{lists}-{way}", shape) for way in WAYS)
    to_found = asked(lists, "together", shape) / asked(lists, "found", shape)
    return (shape, *ways, f"{to_single(lists, shape):.3f}", f"{to_found:.3f}",
            f"{beyond_page(lists, shape):.1f}")


def print_asked(lists):
    progress(f"Questions to a book of {lists} lists")
    print(f"\n### Questions to a book of {lists} lists")
    table(("shape", *WAYS.values(), "to single calls", "to lists found once", "beyond, a node"),
          [asked_row(lists, shape) for shape in ALL_SHAPES])


def print_questions():
    print(f"\n## {QUESTIONS} questions to one book")
    say("The book has the zones as one list. The samples are one list too, or they are dealt to "
        f"{QUESTIONS}. Each question asks for the zones and the samples, or for the zones and a "
        "list of samples of its own. The four listings take turns. The first four questions are "
        "fresh, the next four go on after a page of 256 pairs, and the last four after two such "
        "pages. There is room for all pairs, so every question is done.")
    print()
    item("one call: `belfry_ask` with all questions")
    item("a call each: `belfry_ask` with one question at a time")
    item("single calls: for each question `belfry_book_body` twice, which checks the book each "
         "time, and `belfry_list` on the words that it finds, which aren't copied")
    item("lists found once: `belfry_book_body` for each list of the book, and then `belfry_list` "
         "for each question")
    say("The last columns are one call to single calls, one call to lists found once, and what a "
        "question takes for a node of its two lists beyond its listing and the check of the book. "
        "That is the copy of the lists, and the clearing of 131,072 bytes once for each call, "
        "which counts an instruction for each byte.")
    for lists in BOOKS:
        print_asked(lists)
    for lists in BOOKS:
        measured(f"Questions in one call, {lists} lists", f"ask-{lists}-together", "a question")


def to_find(code, lists):
    """Returns what finding the last of empty lists takes beyond the check of the book."""
    return (instructions(code, f"body-{lists}", "empty")
            - instructions(code, f"book-{lists}", "empty"))


def to_ask(code, lists):
    """Returns what a question about the last of empty lists takes beyond one about the first."""
    last, first = (instructions(code, f"ask-{lists}-{way}", "empty") for way in ("last", "first"))
    return (last - first) // questions_to(lists)


def print_empty_lists():
    progress("Empty lists")
    print("\n### Empty lists")
    say("What lists take by themselves: the instructions for books whose lists are all empty. Tags "
        "are sought from the first list on.")
    costs = {"checking the book": lambda code, lists: instructions(code, f"book-{lists}", "empty"),
             "writing it": lambda code, lists: instructions(code, f"write-{lists}", "empty"),
             "finding the last list, beyond the check": to_find,
             "a question about the last list and itself, beyond one about the first": to_ask}
    table(("what", "lists", *CODES), [(what, lists, *(f"{cost(code, lists):,}" for code in CODES))
                                      for what, cost in costs.items() for lists in EMPTY_LISTS])


def print_many_lists():
    print(f"\n## Books of {MOST_LISTS} lists")
    say(f"The zones are the first list, and the samples are dealt to the {MOST_LISTS - 1} others. "
        f"There are {MOST_QUESTIONS} questions, as many as a call takes. Each asks for the zones "
        "and one list of samples, and these lists are spread over the book. The questions are of "
        "the kinds above in turn, and are asked in the same ways.")
    measured(f"Checking a book of {MOST_LISTS} lists", f"book-{MOST_LISTS}", "a node")
    measured(f"Writing a book of {MOST_LISTS} lists", f"write-{MOST_LISTS}", "a node")
    print_asked(MOST_LISTS)
    measured(f"Questions in one call, {MOST_LISTS} lists", f"ask-{MOST_LISTS}-together",
             "a question")
    print_empty_lists()


def printed_row(shape):
    size = sizes(shape, PRINTED_NODES)
    nodes, pairs = size["zones"] + size["samples"], size["inside"]
    total = instructions("archive", "print", shape)
    beyond = total - printing_nothing()
    one = f"{beyond / pairs:,.1f}" if has_many(pairs, nodes) else ""
    return shape, f"{nodes:,}", f"{pairs:,}", f"{total:,}", f"{beyond:,}", one


def print_printing():
    progress("the printing program")
    print("\n## The printing program")
    say("The program as a process. It reads a book, checks it and prints the pairs inside in "
        f"descendant order. The book is that of a shape with at most {PRINTED_NODES:,} nodes in "
        "each list, which is as much as the program takes. A book of two empty lists takes "
        f"{printing_nothing():,} instructions: those of starting and ending a process and of "
        "clearing the program's buffers"
        f"{', an instruction for each byte as the emulator counts' if EMULATOR else ''}. The last "
        "two columns show what a shape takes beyond that. A few instructions are the C library's, "
        "which may take others on another processor.")
    table(("shape", "nodes", "pairs printed", "process", "beyond an empty book", "a pair"),
          [printed_row(shape) for shape in ALL_SHAPES])


def growth_row(shape, measures):
    each = [instructions("archive", measure, shape, nodes) / units("check", shape, nodes)
            for measure in measures for nodes in GROWTH]
    return shape, *(f"{number:.1f}" for number in each)


def print_growth():
    progress("growth")
    print("\n## How the cost grows")
    say("The archive's instructions for an input node, with at most as many nodes in each list as "
        "the column says. Those of a listing inside are shared by the nodes too, however many "
        "pairs it writes.")
    measures = {"checks": "check", "descendant order": "inside-descendant-all",
                "ancestor order": "inside-ancestor-all", "sheets": "sheet"}
    table(("shape", *(f"{name}, {nodes:,}" for name in measures for nodes in GROWTH)),
          [growth_row(shape, measures.values()) for shape in ALL_SHAPES])


def print_stack():
    print("\n## Stack")
    say("The most bytes of stack that a call took on all shapes and on a nest of "
        f"{MOST_LEVELS} zones, taken and refused, its arguments, its answer and the way back "
        "included. A twin has no such call where there is no number.")
    table(("call", *CODES), [(name, *(f"{number:,}" if number else "" for number in taken))
                             for name, taken in stacks().items()])


# The same join elsewhere.

def lists_of(shape):
    """Returns the two lists as Python's tuples."""
    zones, samples = run("driver", "lists", shape, MOST_NODES).split("\n\n")
    return [[tuple(map(int, line.split())) for line in nodes.splitlines()]
            for nodes in (zones, samples)]


def here(program, *words):
    """Returns what a program for this machine's own processor prints."""
    command = [f"{MADE}/{program}-here", *map(str, words)]
    return subprocess.run(command, check=True, stdout=subprocess.PIPE, text=True).stdout


def sqlite_time(order, shape):
    time, pairs = here("sqlite", "time", order, shape, MOST_NODES).split()
    if int(pairs) != sizes(shape)["inside"]:
        raise SystemExit(f"SQLite found {pairs} pairs on {shape}")
    return float(time)


@lru_cache(maxsize=None)
def sqlite_instructions(order, shape):
    once, never = (counted("sqlite", "count", order, shape, MOST_NODES, made) for made in (1, 0))
    return once - never


def times_here(order, shape):
    """Returns the row of a shape in the table of times."""
    progress(f"SQLite and Python, {order} order, {shape}")
    lines = here("driver", "time", f"inside-{order}-all", shape, MOST_NODES).splitlines()
    codes = dict(map(str.split, lines))
    pairs, (zones, samples) = sizes(shape)["inside"], lists_of(shape)
    row = [float(codes[code]) for code in CODES_HERE] + [sqlite_time(order, shape)]
    row += [join.timed(by, zones, samples, pairs) for by in join.BY_ORDER[order]]
    return shape, *(f"{nanoseconds / 1000:,.0f}" for nanoseconds in row)


def sqlite_version():
    header = next(Path(MADE).glob("sqlite-*/usr/include/sqlite3.h")).read_text()
    return header.split('#define SQLITE_VERSION        "')[1].split('"')[0]


def print_elsewhere():
    print("\n## The same listing in SQLite and in Python")
    say("The whole listing inside. SQLite and Python check nothing; filling SQLite's tables isn't "
        "measured.")
    print(f"\n### Microseconds of processor time: {platform.machine()}, {processor()}; SQLite "
          f"{sqlite_version()}, Python {platform.python_version()}")
    if EMULATOR:
        say("This is the machine's own processor, and the archive has no code for it. The twins, "
            "compiled for it, stand in for the scale.")
    for order in ORDERS:
        by_python = (f"Python, {by.__name__}" for by in join.BY_ORDER[order])
        table((f"{order} order", *CODES_HERE, "SQLite", *by_python),
              [times_here(order, shape) for shape in ALL_SHAPES])
        plan = here("sqlite", "plan", order, "flat", MOST_NODES).splitlines()
        say(f"How SQLite goes about it: {', '.join(plan)}.")


def sqlite_cells(order, shape):
    archive = instructions("archive", f"inside-{order}-all", shape)
    sqlite = sqlite_instructions(order, shape)
    return f"{archive:,}", f"{sqlite:,}", f"{sqlite / archive:,.0f}"


def print_sqlite_instructions():
    progress("SQLite's instructions")
    print("\n### Instructions on x86-64")
    head, rows = ["shape"], [[shape] for shape in ALL_SHAPES]
    for order in ORDERS:
        head += [f"{order} order, archive", "SQLite", "times as many"]
        for row in rows:
            row += sqlite_cells(order, row[0])
    table(head, rows)


def main():
    print_head()
    print_agreement()
    check_counter()
    print_codes()
    print_shapes()
    print_bars()
    print_ratios()
    print_whole_calls()
    print_pages()
    print_others()
    print_questions()
    print_many_lists()
    print_linked()
    print_printing()
    print_growth()
    print_stack()
    print_elsewhere()
    print_sqlite_instructions()


if __name__ == "__main__":
    main()
