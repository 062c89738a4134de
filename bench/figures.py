"""The instructions that a run executes, counted; one figure is printed by this file itself, as
bench/figure says."""
import os
import re
import struct
import subprocess
import sys
from functools import lru_cache

MADE = os.environ["BENCH_MADE"]
EMULATOR = os.environ["BELFRYCHEST_EMULATOR"]
CODES = ("archive", "clang-three", "clang-fused", "clang-best", "gcc-three", "gcc-fused",
         "gcc-best")
SHAPES = ("flat", "nests", "between", "random", "eight-zones", "few-samples")
ALL_SHAPES = (*SHAPES, "documents", "twice", "fields", "side")
MOST_NODES = 4096
MOST_LEVELS = 64
# Questions to a book; to one with the most lists; and how many lists those are.
QUESTIONS, MOST_QUESTIONS, MOST_LISTS = 12, 32, 64

# The program takes a book of BOOK_BYTES, which has room for PRINTED_NODES in each of two lists.
BOOK_BYTES, CONTENTS_BYTES, NODE_BYTES = 61440, 28, 16
PRINTED_NODES = (BOOK_BYTES - CONTENTS_BYTES) // NODE_BYTES // 2
EMPTY_BOOK = struct.pack("<7I", 2, 2, CONTENTS_BYTES, 0, 3, CONTENTS_BYTES, 0)


def emulated(program, *words, options=()):
    """Returns the command that runs a built program for x86-64 from its folder, under the emulator
    where that is needed, with options of it.
    """
    return ([EMULATOR, *options] if EMULATOR else []) + [f"./{program}", *map(str, words)]


def run(program, *words, text=True):
    """Returns what a program for x86-64 prints."""
    return subprocess.run(emulated(program, *words), cwd=MADE, check=True, stdout=subprocess.PIPE,
                          text=text).stdout


def run_counted(program, *words, given=b""):
    """Returns how many instructions a program for x86-64 executes from its start to its end, and
    what it prints. Callgrind counts them where the machine is one, and else bench/count.c under the
    emulator. The environment is empty and the path always the same, since both lie on the stack and
    move what comes after them.
    """
    if EMULATOR:
        command, line = emulated(program, *words, options=("-plugin", "./count.so")), rb"^(\d+)$"
    else:
        callgrind = ("valgrind", "--tool=callgrind", "--callgrind-out-file=/dev/null")
        command = [*callgrind, *emulated(program, *words)]
        line = rb"Collected : (\d+)"
    ran = subprocess.run(command, cwd=MADE, env={}, capture_output=True, input=given)
    found = re.findall(line, ran.stderr, re.M)
    if ran.returncode != 0 or len(found) != 1:
        raise SystemExit(f"{program} {words} was not counted: {ran.stderr.decode()}")
    return int(found[0]), ran.stdout


def counted(program, *words):
    return run_counted(program, *words)[0]


@lru_cache(maxsize=None)
def printing_nothing():
    """Returns the instructions of the printing program on a book of two empty lists: those of
    starting and ending a process and of clearing the program's buffers.
    """
    return run_counted("belfry", given=EMPTY_BOOK)[0]


def printing(shape, nodes):
    """Returns the instructions of the printing program, from its start to its end, on a shape's
    book.
    """
    taken, printed = run_counted("belfry", given=run("driver", "book", shape, nodes, text=False))
    if not printed.endswith(b"\npairs %d\n" % sizes(shape, nodes)["inside"]):
        raise SystemExit(f"the program printed something else of {shape}: {printed[-40:]}")
    return taken


@lru_cache(maxsize=None)
def instructions(code, measure, shape, nodes=MOST_NODES):
    """Returns the instructions of a measure: those of a run that makes it once, less those of a run
    that doesn't make it.
    """
    if measure == "print":
        return printing(shape, min(int(nodes), PRINTED_NODES))
    once, never = (counted("driver", "count", code, measure, shape, nodes, made) for made in (1, 0))
    return once - never


@lru_cache(maxsize=None)
def sizes(shape, nodes=MOST_NODES):
    """Returns the shape's sizes by what they count."""
    counts = map(int, run("driver", "sizes", shape, nodes).split())
    return dict(zip(("zones", "samples", "inside", "directly", "marks"), counts))


def without_kind(measure):
    """Returns the measure's name: a range's without the kind of its readings, a book's without the
    number of lists, and that of questions without the book and the way. A listing has it without
    its links.
    """
    name = measure.split("-")[0]
    if name in ("range", "book", "body", "write", "ask"):
        return name
    return measure.removeprefix("linked-")


def unit_of(measure):
    return {"check": "node", "check-one": "node", "range": "node", "sheet": "node", "book": "node",
            "body": "node", "write": "node", "links": "node", "links-check": "node",
            "number": "mark", "ask": "question"}.get(without_kind(measure), "pair")


def questions_to(lists):
    """Returns how many questions a book of that many lists is asked."""
    return MOST_QUESTIONS if lists == MOST_LISTS else QUESTIONS


def units(measure, shape, nodes=MOST_NODES):
    """Returns how many nodes, marks, questions or pairs the measure's cost is shared by."""
    if measure == "print":
        return sizes(shape, min(int(nodes), PRINTED_NODES))["inside"]
    if measure.startswith("ask-"):
        return questions_to(int(measure.split("-")[1]))
    measure, size = without_kind(measure), sizes(shape, nodes)
    both = size["zones"] + size["samples"]
    counts = {"check": both, "check-one": size["zones"], "range": both, "sheet": both, "book": both,
              "body": both, "write": both, "links": size["zones"], "links-check": size["zones"],
              "number": size["marks"]}
    if measure in counts:
        return counts[measure]
    pairs = size[measure.split("-")[0]]
    return pairs // 4 if measure.endswith("-late") else pairs


def main(code, measure, shape, nodes=MOST_NODES):
    total, count = instructions(code, measure, shape, nodes), units(measure, shape, nodes)
    each = f", {total / count:.2f} for each {unit_of(measure)}" if count else ""
    print(f"{total} instructions{each}")


if __name__ == "__main__":
    main(*sys.argv[1:])
