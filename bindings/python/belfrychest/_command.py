"""The commands of `python -m belfrychest`.

They judge nothing themselves: the library says whether a book is refused, and why.
"""
import argparse
import errno
import os
import shutil
import sys
import time
from itertools import islice
from pathlib import Path
from typing import (
    IO, Any, BinaryIO, Callable, Dict, Iterable, Iterator, List, NoReturn, Optional, Sequence,
    TextIO,
)

from . import (
    HINTS, MOST, NONE, PAGE_PAIRS, Answer, Node, Order, Pair, Refused, Relation, __version__, nodes,
    pairs, words, write_book,
)
from . import name as answer_name
from ._csv_books import CsvFault, CsvList, line_of, number_of, read_lists, write_lists
from ._picture import document_of, picture
from ._show import (
    TO_JOIN, Entry, Fault, Look, faulty_entry, join, look_into, partner, report, where,
)

USAGE, BAD_CSV, CANT_READ, CANT_MAKE, CANT_WRITE, INTERRUPTED = 64, 65, 66, 73, 74, 130

PROGRESS_SECONDS = 0.5  # how long work takes until it is told, and until it is told again

_STANDARD = "-"
_DASH = "A - stands for standard input, or for standard output where a file is written."
_ABOUT = f"Looks into field books, lists their pairs, and turns them into CSV and back.\n{_DASH}"
_TASKS = {
    "show": "say what a book holds and, if it is refused, why and where",
    "check": "say whether a book is taken and its two lists can be joined",
    "list": "list the pairs of two lists of a book",
    "pack": "make a book of a CSV",
    "unpack": "make a CSV of a book, even of a refused one, except for "
              f"{Answer.CONTENTS:d} {Answer.CONTENTS.name}",
    "names": "list the answers: number, name, what to do",
}
_STATUSES = f"""\
The exit status is 0, or the number of the answer that refuses the book (see "names"). Others:
{USAGE}, wrong usage; {BAD_CSV}, a CSV with something in it that can't be read;
{CANT_READ}, a file can't be read; {CANT_MAKE}, a file can't be made, or is there already;
{CANT_WRITE}, output can't be written; {INTERRUPTED}, interrupted;
1, Python can't load the library."""
_PAIR_COLUMNS = ["document"] + [
    f"{side}_{field}" for side in ("ancestor", "descendant") for field in Node._fields[1:]]


class Failure(Exception):
    """What ends a command: its exit status, and what is said on standard error."""

    def __init__(self, status: int, text: str) -> None:
        super().__init__(status, text)
        self.status = status
        self.text = text


def main(arguments: Sequence[str]) -> int:
    """Runs a command. Returns its exit status."""
    try:
        _run(arguments)
    except Failure as failure:
        if sys.stderr is not None:
            print(f"belfrychest: {failure.text}", file=sys.stderr)
        return failure.status
    except KeyboardInterrupt:
        return INTERRUPTED
    return 0


def _run(arguments: Sequence[str]) -> None:
    """Runs a command. The parser answers --help and --version itself, and ends."""
    try:
        options = _parser().parse_args(arguments)
    except SystemExit:
        return
    options.run(options)


# The commands.

def _show(options: argparse.Namespace) -> None:
    if options.document is not None and options.svg is None:
        raise Failure(USAGE, "--document goes with --svg")
    book = _read(options.book)
    look = join(book, look_into(book), options.ancestors, options.descendants)
    if options.svg != _STANDARD:
        _put(report(_named(options.book), book, look))
    if options.svg is not None and (look.lists or look.fault is None):
        _write(options.svg, _drawn(options, look).encode(), options.book, options.force)
    if look.fault is not None:
        text = f"{_named(options.book)}: refused {where(look, look.fault)}"
        raise Failure(look.fault.answer, text)


def _drawn(options: argparse.Namespace, look: Look) -> str:
    """Returns the picture that `show` was asked for."""
    name = _named(os.path.basename(options.book))
    document = document_of(look) if options.document is None else options.document
    drawn = None if document is None else picture(name, look, document)
    if drawn is None:
        which = "" if document is None else f" of document {document}"
        raise Failure(USAGE, f"{_named(options.book)}: no node{which} to draw")
    return drawn


def _check(options: argparse.Namespace) -> None:
    look = _taken(options)
    count = sum(entry.count for entry in look.entries)
    _put(f"{Answer.TAKEN:d} {Answer.TAKEN.name}: {len(look.lists)} lists, {count} nodes\n")


def _list(options: argparse.Namespace) -> None:
    look = _taken(options)
    joined = [look.lists[number] for number in look.joined if number is not None]
    if options.document is not None:
        joined = [_of_document(given, options.document) for given in joined]
    if options.document is not None and not any(joined):
        text = f"{_named(options.book)}: neither list has document {options.document}"
        raise Failure(USAGE, text)
    relation, order = Relation[options.relation.upper()], Order[options.order.upper()]
    _put(f"{','.join(_PAIR_COLUMNS)}\n" if options.csv else "")
    count = _put_pairs(pairs(*joined, relation=relation, order=order), options.csv)
    _put("" if options.csv else f"pairs {count}\n")


def _pack(options: argparse.Namespace) -> None:
    data = _read(options.csv)
    try:
        with _Progress() as progress:
            lists = read_lists(data, progress.tell)
        book = write_book({tag: found.words for tag, found in lists.items()})
    except CsvFault as fault:
        column = "" if fault.column is None else f"{fault.column}:"
        text = f"{_named(options.csv)}:{fault.line}:{column} {fault.text}"
        raise Failure(BAD_CSV, text) from None
    except Refused as refused:
        text = f"{_named(options.csv)}:{_csv_place(lists, refused)}. {refused.hint}"
        raise Failure(refused.number, text) from None
    _write(options.book, book, options.csv, options.force)


def _unpack(options: argparse.Namespace) -> None:
    book = _read(options.book)
    look = look_into(book)
    if look.fault is None and len(look.lists) >= TO_JOIN:
        look = join(book, look, None, None)
    fault = look.fault
    if fault is not None and fault.node is None:
        raise _refusal(options.book, look, fault)
    with _Progress() as progress:
        tags = (entry.tag for entry in look.entries)
        text = write_lists(dict(zip(tags, look.lists)), progress.tell)
    _write(options.csv, text.encode(), options.book, options.force)
    if fault is not None:
        raise _refusal(options.book, look, fault, f", {_csv_lines(look, fault)} of the CSV")


def _names(options: argparse.Namespace) -> None:
    for answer in Answer:
        _put(f"{answer:2d} {answer_name(answer):8} {HINTS[answer]}\n")


# What they share.

def _taken(options: argparse.Namespace) -> Look:
    """Returns the look into a book that is taken, with two lists joined. Refuses any other book."""
    book = _read(options.book)
    look = join(book, look_into(book), options.ancestors, options.descendants)
    if look.fault is not None:
        raise _refusal(options.book, look, look.fault)
    return look


def _refusal(path: str, look: Look, fault: Fault, also: str = "") -> Failure:
    """Returns what ends a command whose book is refused."""
    text = f"{_named(path)}: refused {where(look, fault)}{also}. {HINTS[fault.answer]}"
    return Failure(fault.answer, text)


def _csv_place(lists: Dict[int, CsvList], refused: Refused) -> str:
    """Returns the line of a CSV whose lists were refused, the answer, and the partner's line."""
    answer, tags = f"refused {refused.number:d} {refused.name}", sorted(lists)
    if refused.list is None or refused.index is None:
        entries = [Entry(tag, 0, len(lists[tag].nodes)) for tag in tags]
        number, by_tag = faulty_entry(entries)
        tag, found = tags[number], lists[tags[number]]
        if by_tag:
            return f"{found.line}: {answer}, with tag {tag} there are {number + 1} lists"
        return f"{found.lines[MOST]}: {answer}, tag {tag} has {len(found.nodes)} nodes"
    tag, found = tags[refused.list], lists[tags[refused.list]]
    other = partner(memoryview(found.words), refused.index, refused.number)
    with_line = "" if other is None else f", with line {found.lines[other]}"
    return f"{found.lines[refused.index]}: {answer}, tag {tag} index {refused.index}{with_line}"


def _csv_lines(look: Look, fault: Fault) -> str:
    """Returns the lines of the nodes at fault in the CSV of a book's lists."""
    spots = [spot for spot in (fault.node, fault.partner) if spot is not None]
    lines = [str(line_of(look.lists, spot.list, spot.index)) for spot in spots]
    return f"line{'s' * (len(lines) > 1)} {' and '.join(lines)}"


def _of_document(given: memoryview, document: int) -> memoryview:
    """Returns the nodes of one document as a list."""
    return memoryview(words(node for node in nodes(given) if node.document == document))


def _put_pairs(found: Iterable[Pair], as_csv: bool) -> int:
    """Prints pairs. Returns how many there are."""
    line, count = _csv_line if as_csv else _plain_line, 0
    with _Progress(sys.stdout) as progress:
        for some in _pages(found):
            _put("".join(map(line, some)))
            count += len(some)
            progress.tell(f"{count} pairs")
    return count


def _pages(found: Iterable[Pair]) -> Iterator[List[Pair]]:
    """Yields pairs a page at a time."""
    rest = iter(found)
    return iter(lambda: list(islice(rest, PAGE_PAIRS)), [])


def _plain_line(pair: Pair) -> str:
    """Returns the line that the printing program prints of a pair."""
    return f"{pair.ancestor.document} {pair.ancestor.start} {pair.descendant.start}\n"


def _csv_line(pair: Pair) -> str:
    """Returns a line with all that is known of a pair."""
    return ",".join(map(str, (*pair.ancestor, *pair.descendant[1:]))) + "\n"


class _Progress:
    """A line on a terminal's standard error that tells how far long work is, and is erased at its
    end. Nothing is told where it isn't a terminal, or where the result itself goes to one.
    """

    def __init__(self, result: Optional[TextIO] = None) -> None:
        hidden = result is not None and result.isatty()
        self._shown = not hidden and sys.stderr is not None and sys.stderr.isatty()
        self._told = False
        self._next = time.monotonic() + PROGRESS_SECONDS

    def tell(self, text: str) -> None:
        """Tells how far the work is, unless it was told just now."""
        if self._shown and time.monotonic() >= self._next:
            self._say(text)
            self._told = True
            self._next = time.monotonic() + PROGRESS_SECONDS

    def __enter__(self) -> "_Progress":
        return self

    def __exit__(self, *raised: object) -> None:
        if self._told:
            self._say("")

    def _say(self, text: str) -> None:
        sys.stderr.write(f"\r{text}\033[K")
        sys.stderr.flush()


# Reading and writing.

def _named(path: str) -> str:
    """Returns the name of what is read or written, as it is told."""
    if path == _STANDARD:
        return "standard input"
    return "".join(letter if letter.isprintable() else "?" for letter in path)


def _read(path: str) -> bytes:
    """Returns the bytes of a file, or of standard input."""
    try:
        return _bytes_of(sys.stdin).read() if path == _STANDARD else Path(path).read_bytes()
    except OSError as error:
        raise Failure(CANT_READ, f"{_named(path)}: can't be read: {error.strerror}") from None


def _put(text: str) -> None:
    """Writes a text to standard output."""
    _put_bytes(text.encode(errors="backslashreplace"))


def _put_bytes(data: bytes) -> None:
    """Writes bytes to standard output, at once."""
    try:
        stream = _bytes_of(sys.stdout)
        stream.write(data)
        stream.flush()
    except OSError as error:
        raise Failure(CANT_WRITE, f"standard output can't be written: {error.strerror}") from None


def _bytes_of(stream: Optional[TextIO]) -> BinaryIO:
    """Returns the bytes under a standard stream, which is None if it was closed from the start."""
    if stream is None:
        raise OSError(errno.EBADF, os.strerror(errno.EBADF))
    return stream.buffer


def _write(path: str, data: bytes, read: str, force: bool) -> None:
    """Writes a file or standard output. A file that is there is replaced only where that is asked
    for, and never the one that was read.
    """
    if path == _STANDARD:
        return _put_bytes(data)
    if not os.path.exists(path):
        return _replace(os.path.realpath(path), data)
    if not os.path.isfile(path):
        return _fill(path, "wb", data)
    if read != _STANDARD and os.path.samefile(path, read):
        raise Failure(CANT_MAKE, f"{_named(path)}: can't be both read and written")
    if not force:
        raise Failure(CANT_MAKE, f"{_named(path)}: is there already; --force replaces it")
    _replace(os.path.realpath(path), data)


def _replace(path: str, data: bytes) -> None:
    """Writes a file whole. If that fails, what was there stays."""
    part = f"{path}.{os.getpid()}.part"
    try:
        _fill(part, "xb", data)
        if os.path.exists(path):
            shutil.copymode(path, part)
        os.replace(part, path)
    except OSError as error:
        raise Failure(CANT_MAKE, f"{_named(path)}: can't be made: {error.strerror}") from None
    finally:
        if os.path.exists(part):
            os.remove(part)


def _fill(path: str, mode: str, data: bytes) -> None:
    """Opens a file and writes it."""
    try:
        stream = open(path, mode)
    except OSError as error:
        raise Failure(CANT_MAKE, f"{_named(path)}: can't be made: {error.strerror}") from None
    try:
        with stream:
            stream.write(data)
    except OSError as error:
        raise Failure(CANT_WRITE, f"{_named(path)}: can't be written: {error.strerror}") from None


# The arguments.

class _Parser(argparse.ArgumentParser):
    """A parser whose help tells all statuses, and which prints and fails as the commands do."""

    def __init__(self, **given: Any) -> None:
        raw = argparse.RawDescriptionHelpFormatter
        super().__init__(epilog=_STATUSES, allow_abbrev=False, formatter_class=raw, **given)

    def error(self, message: str) -> NoReturn:
        raise Failure(USAGE, f"{message}\n{self.format_usage().rstrip()}")

    def _print_message(self, message: str, file: Optional[IO[str]] = None) -> None:
        _put(message)


def _parser() -> _Parser:
    """Returns the parser of all commands."""
    parser = _Parser(prog="python -m belfrychest", description=_ABOUT)
    parser.add_argument("--version", action="version", version=f"belfrychest {__version__}")
    commands = parser.add_subparsers(title="commands", metavar="COMMAND", required=True)

    def command(run: Callable[[argparse.Namespace], None], name: str, *files: str) -> _Parser:
        task = _TASKS[name]
        added: _Parser = commands.add_parser(name, help=task, description=f"{task}\n{_DASH}")
        added.set_defaults(run=run)
        for file in files:
            added.add_argument(file.lower(), metavar=file)
        return added

    _add_picture(_add_tags(command(_show, "show", "BOOK")))
    _add_tags(command(_check, "check", "BOOK"))
    _add_listing(_add_tags(command(_list, "list", "BOOK")))
    _add_force(command(_pack, "pack", "CSV", "BOOK"))
    _add_force(command(_unpack, "unpack", "BOOK", "CSV"))
    command(_names, "names")
    return parser


def _add_tags(parser: _Parser) -> _Parser:
    """Adds the options that say which lists are joined. Returns the parser."""
    for side, default in ("ancestors", "first"), ("descendants", "second"):
        text = f"the tag of the {side}' list (default: the {default} list)"
        parser.add_argument(f"--{side}", type=_number, metavar="TAG", help=text)
    return parser


def _add_picture(parser: _Parser) -> None:
    """Adds the options of a picture."""
    text = "the document to draw (default: that of the fault, or else the first)"
    parser.add_argument("--svg", metavar="FILE", help="draw a document of the book into FILE")
    parser.add_argument("--document", type=_number, metavar="N", help=text)
    _add_force(parser)


def _add_listing(parser: _Parser) -> None:
    """Adds the options of a listing. The first choice of each is the default."""
    for option, kinds in ("--relation", Relation), ("--order", Order):
        choices = [kind.name.lower() for kind in kinds]
        text = "default: %(default)s"
        parser.add_argument(option, choices=choices, default=choices[0], help=text)
    text = "print CSV: a header line, then both nodes of each pair"
    parser.add_argument("--document", type=_number, metavar="N", help="list its pairs alone")
    parser.add_argument("--csv", action="store_true", help=text)


def _add_force(parser: _Parser) -> None:
    """Adds the option that lets a file be replaced."""
    text = "replace the file to be written if it is there"
    parser.add_argument("--force", action="store_true", help=text)


def _number(text: str) -> int:
    """Returns the number that an argument tells."""
    found = number_of(text)
    if found is None:
        raise argparse.ArgumentTypeError(f"{text!r} is no number from 0 to {NONE}")
    return found
