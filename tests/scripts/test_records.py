"""docs/records.py: records byte for byte, mistakes by file and line, warnings beside `sweep`."""

import random
import struct
import tempfile
import unittest
from fractions import Fraction
from pathlib import Path

from common import ROOT, run, swept

import contents
import limits
import records

NUMBERS = {"ribbon": 1, "tube": 2, "capsule": 3, "torus": 4, "closed cylinder": 5, "seamless torus": 6}
LARGEST = struct.unpack("<f", b"\xff\xff\x7f\x7f")[0]


class Numbers(unittest.TestCase):
    def test_middles(self):
        """In the middle between two floats the even one, and beside the middle the nearer one."""
        drawn = random.Random(1)
        for _ in range(3000):
            word = drawn.randrange(0x7F7FFFFF)
            low, high = (struct.unpack("<f", struct.pack("<I", w))[0] for w in (word, word + 1))
            middle = (Fraction(low) + Fraction(high)) / 2
            beside = middle / 10**30
            for value, expected in ((middle - beside, low), (middle + beside, high),
                                    (middle, low if word % 2 == 0 else high)):
                self.assertEqual(records.single(decimal(value)), expected)
                self.assertEqual(records.single("-" + decimal(value)), -expected)

    def test_plain(self):
        plain = {"12": 12, "-0.5": -0.5, "+3.": 3, ".25": 0.25, "1e3": 1000, "1E3": 1000,
                 "1e-99999999999999999999": 0}
        for text, value in plain.items():
            self.assertEqual(records.single(text), value)
        self.assertEqual(str(records.single("-0")), "-0.0")
        self.assertEqual(records.single("340282346638528859811704183484516925440"), LARGEST)

    def test_no_numbers(self):
        for text in ("nan", "inf", "1_0", "0x10", "1,5", "--1", "1e", ".", "", "\u0663"):
            self.assertRaises(ValueError, records.single, text)
        for text in ("3.4028236e38", "-1e39", "1e999999999999999999999"):
            self.assertRaisesRegex(ValueError, "too large", records.finite, text)


def decimal(value):
    """A fraction whose denominator has no other factors than 2 and 5, in all its digits."""
    places = 0
    while value.denominator != 1:
        value, places = value * 10, places + 1
    return "%de-%d" % (value.numerator, places)


class Example(unittest.TestCase):
    def test_bytes(self):
        """The stored records are made by Rust, tests/src/record_files/harness.rs."""
        stored = (ROOT / "tests/records/harness.records").read_bytes()
        for name, given in ((ROOT / "examples/harness.txt", b""),
                            (None, (ROOT / "examples/harness.txt").read_bytes())):
            done = run("records.py", *[name] if name else [], given=given)
            self.assertEqual((done.returncode, done.stderr), (0, b""))
            self.assertEqual(done.stdout, stored)
        self.assertEqual(swept(stored), (ROOT / "examples/harness.set").read_bytes())

    def test_seam(self):
        done = run("records.py", ROOT / "examples/seam.txt")
        self.assertEqual((done.returncode, done.stderr), (0, b""))
        self.assertEqual(swept(done.stdout), (ROOT / "examples/seam.set").read_bytes())


# A text, the line of its mistake, and what is said.
MISTAKES = [
    ("hose radius 2", 1, "unknown body 'hose': expected ribbon, tube, capsule, torus, closed cylinder, "
     "seamless torus, or a point"),
    ("tube radius 1 divisions 3\nO 0 10", 2, "unknown body 'O'"),
    ("# none\n\ncylinder radius 2", 3, "unknown body 'cylinder'"),
    ("closed", 1, "unknown body 'closed'"),
    ("seamless divisions 3 radius 1", 1, "unknown body 'seamless'"),
    ("seamless torus radius 1", 1, "this seamless torus lacks divisions"),
    ("seamless torus divisions 3 radius 1 length 2", 1, "a seamless torus has no size 'length': expected"),
    ("1 2 3", 1, "a point before the first body"),
    ("tube divisions 14", 1, "this tube lacks radius"),
    ("tube", 1, "this tube lacks divisions and radius"),
    ("tube divisions 14 radius 2 length 3", 1, "a tube has no size 'length': expected divisions, radius"),
    ("ribbon width 2 width 3", 1, "width is given twice"),
    ("ribbon width", 1, "width has no value"),
    ("ribbon width wide", 1, "width: 'wide' is not a number"),
    ("ribbon width nan", 1, "width: 'nan' is not a number"),
    ("ribbon width 1e39", 1, "width: '1e39' is too large"),
    ("tube radius 1 divisions 4294967296", 1, "divisions: '4294967296' is too large"),
    ("Tube Radius 1 divisions 1O", 1, "divisions: '1O' is not a whole number such as 12"),
    ("tube radius 1 divisions=12", 1, "'divisions=12': write divisions 12"),
    ("tube, radius 1, divisions 3", 1, "separated by spaces, not by commas"),
    ("tube radius 1 divisions -3", 1, "divisions: '-3' is not a whole number"),
    ("tube radius 1 divisions 3.5", 1, "divisions: '3.5' is not a whole number"),
    ("tube radius 1 divisions 3\n 1 2", 2, "a point has three coordinates, x y z; here are 2"),
    ("tube radius 1 divisions 3\n 1 2 3 4", 2, "here are 4"),
    ("tube radius 1 divisions 3\n 1 2 z", 2, "'z' is not a number"),
    ("tube radius 1 divisions 3\n 1,5 2,5 3", 2, "separated by spaces, not by commas"),
    ("tube radius 1 divisions 3\n 0 0 0\n 1e40 0 0", 3, "'1e40' is too large"),
    ("closed cylinder divisions 3 layers 1 radius 1 length 1\n0 0 0", 2, "has no points"),
    ("closed cylinder divisions 3 layers 1 radius 1 length 1 centred 1", 1, "centred: '1' is neither yes nor no"),
    ("ribbon width 1\n" + "0 0 1\n" * 513, 514, "a body has at most 512 points"),
    ("\x01", 1, "a point before the first body"),
]


class Mistakes(unittest.TestCase):
    def test_mistakes(self):
        with tempfile.TemporaryDirectory() as folder:
            name = Path(folder) / "text.txt"
            for text, line, said in MISTAKES:
                # Behind a body without a mistake, which is not written either.
                for before in ("", "ribbon width 1\n0 0 0\n0 0 1\n")[:1 if "before" in said else 2]:
                    name.write_text(before + text)
                    done = run("records.py", name)
                    start = "%s:%d: " % (name, line + before.count("\n"))
                    told = done.stderr.decode()
                    self.assertEqual((done.returncode, done.stdout), (1, b""), text)
                    self.assertTrue(told.startswith(start) and said in told, told)
                    self.assertEqual(told.count("\n"), 1, told)

    def test_no_bodies(self):
        """A text without a body is a mistake: `sweep` would make an empty set of it."""
        for text, said in ((b"", "there is no body in this text"), (b"# none\r\n", "there is no body in this text"),
                           ("tube radius 1".encode("utf-16"), "this is not a text in UTF-8")):
            done = run("records.py", given=text)
            self.assertEqual((done.returncode, done.stdout), (1, b""), text)
            self.assertEqual(done.stderr.decode(), "standard input: %s\n" % said)

    def test_no_file(self):
        done = run("records.py", "no/such/file.txt")
        self.assertEqual((done.returncode, done.stdout), (1, b""))
        self.assertEqual(done.stderr, b"no/such/file.txt: No such file or directory\n")


def drawn_sizes(drawn, kind):
    """Sizes, most of them permitted."""
    sizes = {
        "divisions": drawn.choice([2, 3, 4, 5, 12, 16, 256, 257]),
        "longitudes": drawn.choice([0, 0, 1, 2, 3, 256, 257]),
        "layers": drawn.choice([0, 1, 2, 5, 4096, 4097]),
        "radius": drawn.choice(["0", "-1", "1e-60", "2.5", ".125", "8", "1e3"]),
        "width": drawn.choice(["0", "-1e-3", "2.5", "18"]),
        "length": drawn.choice(["0", "100", "0.5"]),
        "centred": drawn.choice(["yes", "no"]),
    }
    if drawn.random() < 0.7:
        sizes.update(divisions=drawn.randint(3, 12), longitudes=drawn.randint(1, 4),
                     layers=drawn.randint(1, 8), radius="2.5", width="18", length="60")
    names = [name for name in records.SIZES[kind] if name != "centred" or drawn.random() < 0.7]
    return {name: sizes[name] for name in drawn.sample(names, len(names))}


# Lengths just inside and just outside the bounds of a segment (12), with room for the rounding.
NEAR_BOUNDS = [bound * factor for bound in (2**-20, 2**40) for factor in (1 - 1e-5, 1 + 1e-5)]
# Seven times a unit vector.
SEVENS = [(7, 0, 0), (0, -7, 0), (2, 3, 6), (-6, 2, 3)]


def drawn_points(drawn):
    """Up to 20 steps, a few of which stand still, go back, go very far or are near a bound (12)."""
    at, step, points = [0.0, 0.0, 0.0], [10.0, 0.0, 0.0], []
    for _ in range(drawn.choice([0, 1, 2, 2, 3, 4, 9, 20])):
        points.append(" ".join("%.9g" % x for x in at))
        # From the origin alone: anywhere else the sum would round a short step away.
        if not any(at) and drawn.random() < 0.1:
            length = drawn.choice(NEAR_BOUNDS)
            step = [length * x / 7 for x in drawn.choice(SEVENS)]
        elif drawn.random() < 0.04:
            step = drawn.choice([[0.0] * 3, [-x for x in step], [2e12, 0.0, 0.0]])
        else:
            step = [10 + 4 * drawn.random(), 6 * drawn.random(), 6 * drawn.random()]
        at = [a + b for a, b in zip(at, step)]
    return points


def drawn_body(drawn):
    """The lines of a body's text, and its record as it ought to be."""
    kind = drawn.choice(list(NUMBERS))
    sizes = drawn_sizes(drawn, kind)
    points = [] if kind == "closed cylinder" else drawn_points(drawn)
    text = [kind + "".join("  %s %s" % size for size in sizes.items())] + ["    " + p for p in points]
    head = [NUMBERS[kind], sizes.get("divisions", 0), sizes.get("longitudes", sizes.get("layers", 0)),
            sizes.get("centred") == "yes"]
    floats = sizes.get("radius", sizes.get("width")), sizes.get("length", 0)
    expected = struct.pack("<4I2fI", *head, *map(float, floats), len(points))
    expected += b"".join(struct.pack("<3f", *map(float, point.split())) for point in points)
    return text, expected


class Warnings(unittest.TestCase):
    def compared(self, bodies):
        """The bodies without a warning are those that `sweep` takes, one by one; the warnings."""
        warnings = dict(limits.warnings(bodies))
        with tempfile.NamedTemporaryFile() as file:
            file.write(swept(b"".join(map(records.record, bodies))))
            file.flush()
            shown = contents.read(file.name).bodies
        told = [b for b in bodies if b.line not in warnings]
        self.assertEqual([(NUMBERS[b.kind],) + limits.counts(b) for b in told],
                         [(b.kind, b.vertices, b.triangles) for b in shown])
        return warnings

    def test_drawn(self):
        drawn, warned, taken, numbers = random.Random(2), 0, 0, set()
        for _ in range(400):
            lines, expected = [], b""
            for _ in range(drawn.choice([1, 5, 30, 120])):
                text, record = drawn_body(drawn)
                lines += text + drawn.choice([[], ["# a comment"], [""]])
                expected += record
            bodies = records.parse(lines)
            self.assertEqual(b"".join(map(records.record, bodies)), expected)
            warnings = self.compared(bodies)
            warned, taken = warned + len(warnings), taken + len(bodies) - len(warnings)
            numbers.update(why.split("(")[-1] for why in warnings.values())
        print("%d bodies taken, %d with a warning" % (taken, warned))
        self.assertEqual(numbers, {n + ")" for n in ("2", "3", "4", "10", "12", "13", "20", "21", "22")})

    def test_room(self):
        """Bodies that fill the 4,096 vertices exactly, and a body that would exceed them by one."""
        ribbon, tube = "ribbon width 1", "tube divisions 3 radius 1"
        most = [(ribbon, 512)] * 3 + [(ribbon, 508)]  # 4,088 vertices, 4,080 triangles
        for last, total in (([(ribbon, 4), (ribbon, 2)], 4100), ([(tube, 3)], 4097)):
            lines = []
            for head, points in most + last:
                lines += [head] + ["%d 0 0" % x for x in range(points)]
            bodies = records.parse(lines)
            why = "the set would have %d vertices, and has room for 4096 (3)" % total
            self.assertEqual(self.compared(bodies), {bodies[-1].line: why})

    def test_told(self):
        """A warning names file and line, and the record is written."""
        done = run("records.py", given=b"ribbon width 1\n0 0 0\n0 0 1\n\ntube radius 1 divisions 2\n0 0 0\n0 0 1")
        self.assertEqual((done.returncode, len(done.stdout)), (0, 2 * (28 + 24)))
        self.assertEqual(done.stderr.decode(), "standard input:5: warning: `sweep` will skip this body: "
                         "its divisions are outside 3 to 256 (20)\n")

    def test_lines(self):
        """What is wrong with a curve is told by the line of its point."""
        ribbon, torus, a, b = "ribbon width 1", "torus divisions 3 radius 1", "0 0 0", "0 0 9"
        seamless = "seamless " + torus
        for lines, said in (
            ([ribbon, a], "it has 1 point, and needs at least 2 (10)"),
            ([ribbon], "it has 0 points, and needs at least 2 (10)"),
            ([torus, a, b], "it has 2 points, and needs at least 3 (10)"),
            ([seamless, a, b], "it has 2 points, and needs at least 3 (10)"),
            ([ribbon, a, "# none", b, b], "its points of the lines 4 and 5 are the same (12)"),
            ([torus, a, b, "9 0 9", a], "its last point, line 5, repeats its first, to which it is joined anyway (12)"),
            ([torus, a, a, "9 0 9"], "its points of the lines 2 and 3 are the same (12)"),
            ([seamless, a, b, "9 0 9", a], "its last point, line 5, repeats its first, to which it is joined "
             "anyway (12)"),
            ([ribbon, a, "", b, "0 0 1"], "its curve folds back on itself at its point of line 4 (13)"),
            ([ribbon, a, b, "0 0 2e12"], "the segment from its point of line 3 is 2e+12 long: "
             "about 9.54e-07 to 1.1e+12 is permitted (12)"),
        ):
            self.assertEqual(list(limits.warnings(records.parse(lines))), [(1, said)])

    def test_closing_fold(self):
        """A fold where the curve closes is told of a seamless torus alone, at its first point."""
        loop = ["0 0 0", "0 0 9", "9 0 9", "0 0 3"]
        for kind, expected in (("torus", {}), ("seamless torus", {
                1: "its curve folds back on itself at its point of line 2 (13)"})):
            bodies = records.parse(["%s divisions 3 radius 1" % kind] + loop)
            self.assertEqual(self.compared(bodies), expected, kind)

    def test_told_to_nobody(self):
        """With standard error closed, a warning does not get among the records."""
        done = run("records.py", given=b"tube radius 1 divisions 2\n0 0 0\n0 0 1", streams="2>&-")
        self.assertEqual((done.returncode, len(done.stdout)), (0, 28 + 24))

    def test_overflow(self):
        """Vertices that overflow (23) get no warning, and the texts that promise one say so."""
        bodies = records.parse(["tube divisions 3 radius 3e38", "3e38 0 0", "3e38 0 9"])
        self.assertEqual(list(limits.warnings(bodies)), [])
        self.assertEqual(swept(records.record(bodies[0])), (ROOT / "tests/records/empty.set").read_bytes())
        said = "unless the body's vertices overflow (23)"
        for text in (records.__doc__, (ROOT / "README.md").read_text()):
            self.assertTrue(said in " ".join(text.split()), said)


if __name__ == "__main__":
    unittest.main()
