"""The example model: what it prints of its CSV, and that it tells of what it can't place."""
import io
import tempfile
import unittest
from contextlib import redirect_stdout
from pathlib import Path
from unittest import mock

from support import ROOT

import model as rates
from belfrychest import Pieces

EXAMPLES = ROOT / "examples"
FIELD = ["id,parent,kind,name,organic_matter", "f,,field,Field,"]


def printed(path):
    out = io.StringIO()
    with redirect_stdout(out):
        rates.main(path)
    return out.getvalue()


def columns(text):
    """Returns the numbers of samples, of readings and the rate of each zone."""
    return [tuple(line.split()[-3:]) for line in text.splitlines()[1:]]


class Model(unittest.TestCase):
    def setUp(self):
        folder = tempfile.TemporaryDirectory()
        self.addCleanup(folder.cleanup)
        self.path = Path(folder.name) / "farm.csv"

    def write(self, *lines):
        self.path.write_text("\n".join([*FIELD, *lines]) + "\n")
        return self.path

    def test_it_prints_what_is_stored(self):
        self.assertEqual(printed(EXAMPLES / "model.csv"), (EXAMPLES / "model.out").read_text())

    def test_a_missing_reading_is_none_and_never_0(self):
        path = self.write("z,f,zone,Zone,", "y,z,zone,Inner,", "s,y,sample,S,4", "t,z,sample,T,",
                          "x,f,zone,Other,", "u,x,sample,U,", "w,f,zone,Last,", "v,w,sample,V,0")
        rows = rates.read(path)
        self.assertEqual([rows[id_].reading for id_ in "stuv"], [4.0, None, None, 0.0])
        self.assertEqual(columns(printed(path)), [
            ("2", "1", "300"), ("1", "1", "300"), ("1", "0", "none"), ("1", "1", "380"),
        ])

    def test_more_zones_and_samples_than_a_call_takes(self):
        """Makes six fields of 750 zones and 750 samples each, two of either in a nest."""
        lines = [f"{name},,field,{name}," for name in "ghijk"]
        for at in range(2250):
            field = "fghijk"[at // 375]
            lines += [f"a{at},{field},zone,A,", f"b{at},a{at},zone,B,",
                      f"s{at},a{at},sample,S,1", f"t{at},b{at},sample,T,3"]
        with mock.patch.object(Pieces, "check", autospec=True, side_effect=Pieces.check) as checked:
            found = columns(printed(self.write(*lines)))
        self.assertEqual(found, [("2", "2", "340"), ("1", "1", "320")] * 2250)
        self.assertEqual(checked.call_count, 1)

    def test_a_field_that_is_too_large_is_told(self):
        path = self.write(*(f"{at},f,zone,Zone,1" for at in range(2048)))
        with self.assertRaisesRegex(rates.Wrong, "line 2: a field of 2049 rows: 2 LONG: "):
            rates.main(path)
        path = self.write(*(f"{at},{at - 1 if at else 'f'},zone,Zone,1" for at in range(64)))
        with self.assertRaisesRegex(rates.Wrong, "line 2: a field of 65 rows: 12 DEEP: "):
            rates.main(path)

    def test_a_line_that_cannot_be_placed_is_told(self):
        for lines, message in (
            (["z,f,zone,Zone,", "z,f,sample,S,1"], "line 4: line 3 has the id 'z' too"),
            (["s,g,sample,S,1"], "line 3: a sample can't have the parent 'g'"),
            (["s,f,sample,S,1", "t,s,sample,T,1"], "line 4: a sample can't have the parent 's'"),
            (["g,f,field,G,"], "line 3: a field can't have the parent 'f'"),
            (["z,,zone,Zone,"], "line 3: a zone can't have the parent ''"),
            (["y,z,zone,Y,", "z,y,zone,Z,"], "line 3: its parents lead round in a circle"),
            (["s,f,probe,S,1"], "line 3: the kind 'probe' is none of field, zone, sample"),
            (["s,f,sample,S,none"], "line 3: the organic matter 'none' is no number"),
            (["s,f,sample,S,nan"], "line 3: the organic matter 'nan' is no number"),
            (["s,f,sample,S, 1,2"], "line 3: it has 6 columns"),
            (["s,f,sample,S"], "line 3: it has 4 columns"),
        ):
            with self.subTest(lines=lines), self.assertRaisesRegex(rates.Wrong, message):
                rates.main(self.write(*lines))
        self.path.write_text("id,parent,kind,name\n")
        with self.assertRaisesRegex(rates.Wrong, "line 1: the columns must be"):
            rates.main(self.path)


if __name__ == "__main__":
    unittest.main()
