"""The package: its names and types, the archive's layouts, and the shared object that it takes."""
import _ctypes
import ctypes
import importlib.util
import inspect
import os
import platform
import re
import shutil
import sys
import tempfile
import unittest
from pathlib import Path
from typing import get_type_hints
from unittest import mock

from support import PYTHON, start_python

import belfrychest as belfry
from belfrychest import Pieces, Refused, Ticket, _archive

PACKAGE = PYTHON / "belfrychest"
SHARED = "libbelfrychest.so"


class Names(unittest.TestCase):
    def test_layouts_are_those_of_the_archive(self):
        verdict = [("verdict", 0)]
        six = ("relation", "order", "placed", "document", "first", "second")
        for struct_, size, fields in (
            (_archive.VerdictStruct, 12, [("answer", 0), ("list", 4), ("index", 8)]),
            (_archive.PartStruct, 32, verdict + [("start", 16), ("words", 24)]),
            (_archive.TicketStruct, 24, [(field, 4 * at) for at, field in enumerate(six)]),
            (_archive.PageStruct, 48, verdict + [("done", 12), ("count", 16), ("ticket", 24)]),
            (_archive.PagesStruct, 1544, [("answer", 0), ("questions", 4), ("pages", 8)]),
            (_archive.RangeStruct, 24, verdict + [("present", 12), ("low", 16), ("high", 20)]),
            (_archive.WrittenStruct, 24, verdict + [("count", 16)]),
            (_archive.UnnumberedStruct, 16, [("answer", 0), ("document", 4), ("count", 8)]),
            (_archive.BookStruct, 16, verdict + [("lists", 12)]),
            (_archive.BodyStruct, 32, verdict + [("start", 16), ("bytes", 24)]),
        ):
            with self.subTest(struct=struct_):
                self.assertEqual(ctypes.sizeof(struct_), size)
                found = [(field, getattr(struct_, field).offset) for field, _ in struct_._fields_]
                self.assertEqual(found, fields)

    def public_functions(self):
        values = [vars(belfry)[name] for name in belfry.__all__]
        return [value for value in values if inspect.isfunction(value)]

    def test_every_public_function_has_type_hints_and_says_what_it_does(self):
        own = [Refused.__init__, Refused.__str__, Ticket.__init__, Pieces.__init__]
        methods = [method for class_ in (Ticket, Pieces) for name, method in
                   inspect.getmembers(class_, inspect.isroutine) if not name.startswith("_")]
        self.assertEqual((len(self.public_functions()), len(methods)), (36, 11))
        for function in self.public_functions() + methods:
            self.assertGreater(len(function.__doc__ or ""), 0, function)
        for function in self.public_functions() + methods + own:
            with self.subTest(function=function):
                wanted = {*inspect.signature(function).parameters, "return"} - {"self"}
                self.assertEqual(set(get_type_hints(function)), wanted)

    def test_all_names_what_is_public(self):
        public = {name for name, value in vars(belfry).items()
                  if not name.startswith("_") and not inspect.ismodule(value)}
        self.assertEqual(public | {"__version__"}, set(belfry.__all__))
        self.assertEqual(len(set(belfry.__all__)), len(belfry.__all__))
        self.assertTrue((PACKAGE / "py.typed").is_file())


def header(wide=2, little=1, machine=62):
    """Returns the first bytes of an ELF file: an x86-64 one unless another is asked for."""
    order = "little" if little == 1 else "big"
    return b"\x7fELF" + bytes([wide, little, 1]) + bytes(9) + (3).to_bytes(2, order) + \
        machine.to_bytes(2, order) + bytes(44)


class SharedObjects(unittest.TestCase):
    """A copy of the package is loaded, as a module of another name, in a folder like the
    repository's.
    """

    def setUp(self):
        folder = tempfile.TemporaryDirectory()
        self.addCleanup(folder.cleanup)
        self.root = Path(folder.name).resolve()
        self.package = self.root / "bindings" / "python" / "belfrychest"
        shutil.copytree(PACKAGE, self.package, ignore=shutil.ignore_patterns("*.so", "__pycache__"))
        self.shared = Path(os.environ["BELFRYCHEST_LIBRARY"])
        cleared = mock.patch.dict(os.environ)
        cleared.start()
        self.addCleanup(cleared.stop)
        del os.environ["BELFRYCHEST_LIBRARY"]

    def load(self):
        """Loads the copy and returns the path of its shared object."""
        name = "copied_belfrychest"
        spec = importlib.util.spec_from_file_location(
            name, self.package / "__init__.py", submodule_search_locations=[str(self.package)])
        module = sys.modules[name] = importlib.util.module_from_spec(spec)
        try:
            spec.loader.exec_module(module)
            return sys.modules[f"{name}._archive"].library._name
        finally:
            for loaded in [key for key in sys.modules if key.startswith(name)]:
                del sys.modules[loaded]

    def refuse(self, *wanted):
        """Loads the copy, which fails with a message that says each of these."""
        with self.assertRaises(ImportError) as raised:
            self.load()
        for said in wanted:
            self.assertIn(str(said), str(raised.exception))

    def put(self, *place):
        """Copies the shared object to a place in the folder."""
        path = self.root.joinpath(*place, SHARED)
        path.parent.mkdir(parents=True, exist_ok=True)
        shutil.copy(self.shared, path)
        return path

    def test_where_it_is_looked_for(self):
        outside = self.root / "target" / "outside" / SHARED
        self.refuse(self.package / SHARED, outside, "bin/shared makes it",
                    "the package in dist/ has it in place", "BELFRYCHEST_LIBRARY")
        self.put("target", "outside")
        self.assertEqual(self.load(), str(outside))
        beside = self.put("bindings", "python", "belfrychest")
        self.assertEqual(self.load(), str(beside))
        named = self.put("elsewhere")
        os.environ["BELFRYCHEST_LIBRARY"] = str(named)
        self.assertEqual(self.load(), str(named))
        named.unlink()
        self.refuse(f"there is no {named};")

    def test_one_of_another_version(self):
        beside, table = self.put("bindings", "python", "belfrychest"), self.package / "_table.py"
        version = f'__version__ = "{belfry.__version__}"\n'
        self.assertIn(version, table.read_text())
        table.write_text(table.read_text().replace(version, '__version__ = "77"\n'))
        found = f"is version {belfry.__version__}, and the package is version 77;"
        self.refuse(beside, found, "both must come from one build, as they do in dist/")

    def test_one_that_tells_no_version(self):
        """Loads a shared object of Python's own, as if it were built before versions were."""
        os.environ["BELFRYCHEST_LIBRARY"] = _ctypes.__file__
        self.refuse(f"{Path(_ctypes.__file__).resolve()} tells no version",
                    f"the package is version {belfry.__version__};",
                    "both must come from one build, as they do in dist/")

    def test_one_for_another_processor(self):
        made = self.root / "made.so"
        os.environ["BELFRYCHEST_LIBRARY"] = str(made)
        for bytes_, machine in (
            (header(machine=183), 183), (header(wide=1, machine=3), 3), (header(wide=1), 62),
            (header(little=2, machine=22), 22),
        ):
            made.write_bytes(bytes_)
            self.refuse(made, f"is for another processor (ELF machine {machine})",
                        "the archive is for x86-64 Linux and nothing else")

    def test_a_file_that_is_none(self):
        made = self.root / "made.so"
        os.environ["BELFRYCHEST_LIBRARY"] = str(made)
        for bytes_ in (b"", b"\x7fELF\2\1", b"!<arch>\n" + bytes(60)):
            made.write_bytes(bytes_)
            self.refuse(f"{made} is no shared object; bin/shared makes it", "the package in dist/")
        made.write_bytes(header())
        self.refuse(f"{made} can't be loaded: ")

    def test_a_machine_of_another_kind(self):
        self.put("bindings", "python", "belfrychest")
        for system, machine in (("linux", "aarch64"), ("linux", "i686"), ("darwin", "x86_64"),
                                ("win32", "AMD64")):
            with mock.patch.object(sys, "platform", system), \
                    mock.patch.object(platform, "machine", lambda: machine):
                self.refuse("the archive is for x86-64 Linux and nothing else",
                            f"this Python runs on {system}, {machine}")


class Readme(unittest.TestCase):
    """Runs the programs of README as they stand there."""

    def blocks(self, language):
        text = (PYTHON / "README.md").read_text()
        return re.findall(rf"^```{language}\n(.*?)^```$", text, re.M | re.S)

    def assert_prints(self, text, expected):
        with tempfile.TemporaryDirectory() as folder:
            program = Path(folder) / "program.py"
            program.write_text(text)
            started = start_python(program)
            out, err = started.communicate()
        self.assertEqual((started.returncode, out.decode(), err), (0, expected, b""))

    def test_the_program_that_lists_by_order_and_size(self):
        listing, *_ = self.blocks("python")
        printed, *_ = self.blocks("text")
        self.assert_prints(listing, printed)

    def test_the_program_that_joins_in_several_processes(self):
        """Runs it on the lists of test_mistakes."""
        _, joining, *_ = self.blocks("python")
        self.assert_prints(joining, "9000 pairs\n")

    def test_the_program_that_lends_links(self):
        _, _, lending, *_ = self.blocks("python")
        _, printed, *_ = self.blocks("text")
        self.assert_prints(lending, printed)

    def test_the_program_that_asks_for_a_zone_without_a_reading(self):
        _, _, _, asking, *_ = self.blocks("python")
        _, _, printed, *_ = self.blocks("text")
        self.assert_prints(asking, printed)

    def test_the_program_that_adds_up_a_sheet(self):
        _, _, _, _, adding, _ = self.blocks("python")
        _, _, _, printed, _ = self.blocks("text")
        self.assert_prints(adding, printed)

    def test_the_program_that_asks_several_questions(self):
        *_, asking = self.blocks("python")
        *_, printed = self.blocks("text")
        self.assert_prints(asking, printed)


if __name__ == "__main__":
    unittest.main()
