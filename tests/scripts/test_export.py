"""docs/export.py: what it writes, read back by readers.py, by assimp and by admesh.

Also what the scripts that read a set say when a file cannot be read or written.
"""

import operator
import random
import struct
import tempfile
import unittest
from array import array
from pathlib import Path

import outside
import readers
from common import HARNESS, ROOT, SETS, run

import contents
import export

FORMATS = ["ply", "obj", "stl"]
CLOSED = {3: "capsule", 4: "torus", 5: "closed cylinder", 6: "seamless torus"}


def floats(rows):
    """All coordinates of rows of points."""
    return [x for row in rows for point in row for x in point]


def words(rows):
    """The bits of all coordinates."""
    return array("f", floats(rows)).tobytes()


def objects_of(shown):
    """The name and the triangles of each body, straight from the set's numbers."""
    for place, body in enumerate(shown.bodies):
        name = "body_%d_%s" % (place, contents.KINDS[body.kind].replace(" ", "_"))
        rows = shown.triangles[body.first_triangle:body.first_triangle + body.triangles]
        yield name, [tuple(shown.vertices[index] for index in row) for row in rows]


class Written(unittest.TestCase):
    def setUp(self):
        self.folder = tempfile.TemporaryDirectory()
        self.addCleanup(self.folder.cleanup)

    def written(self, name, ending, *body):
        output = Path(self.folder.name) / ("set." + ending)
        done = run("export.py", name, output, *body)
        self.assertEqual((done.returncode, done.stdout, done.stderr), (0, b"", b""))
        return output

    def same(self, found, expected):
        self.assertEqual([name for name, _ in found], [name for name, _ in expected])
        for (_, triangles), (_, others) in zip(found, expected):
            self.assertEqual(words(triangles), words(others))


class Readers(Written):
    def test_sets(self):
        bodies, sets = 0, 0
        for name in SETS:
            shown = contents.read(name)
            if not shown.bodies:
                continue
            for ending in FORMATS:
                text = self.written(name, ending).read_text()
                found, vertices = getattr(readers, ending)(text)
                self.same(found, list(objects_of(shown)))
                if ending != "stl":
                    self.assertEqual(words([vertices]), words([shown.vertices]))
            bodies, sets = bodies + len(shown.bodies), sets + 1
        print("%d bodies of %d sets read back in %s" % (bodies, sets, ", ".join(FORMATS)))

    def test_any_floats(self):
        """Zeros of both signs, subnormals and the largest numbers come back as the same bits."""
        drawn = random.Random(1)
        patterns = [0, 1 << 31, 1, 0x7FFFFF, 0x800000, 0x7F7FFFFF, 0xFF7FFFFF]
        patterns += [drawn.randrange(0x7F800000) | drawn.choice([0, 1 << 31]) for _ in range(30000 - 7)]
        vertices = list(struct.iter_unpack("<3f", struct.pack("<30000I", *patterns)))
        triangles = [(i, i + 1, i + 2) for i in range(0, 9999, 3)]
        body = contents.Body(2, 3, 0, 10000, 0, len(triangles))
        shown = contents.Set([body], vertices, triangles)
        for ending in FORMATS:
            lines = export.FORMATS[ending](list(export.parts(shown)))
            found, _ = getattr(readers, ending)("\n".join(lines))
            self.same(found, list(objects_of(shown)))

    def test_one_body(self):
        expected = list(objects_of(contents.read(HARNESS)))
        for ending in FORMATS:
            for place in range(len(expected)):
                text = self.written(HARNESS, ending, place).read_text()
                self.same(getattr(readers, ending)(text)[0], expected[place:place + 1])

    def test_normals(self):
        """Each has length 1 and lies on the side that sees the corners anticlockwise."""
        objects, normals = readers.stl(self.written(HARNESS, "stl").read_text())
        triangles = [triangle for _, own in objects for triangle in own]
        for (a, b, c), normal in zip(triangles, normals, strict=True):
            to_b, to_c = ([x - y for x, y in zip(end, a)] for end in (b, c))
            turned = [to_b[i - 2] * to_c[i - 1] - to_b[i - 1] * to_c[i - 2] for i in range(3)]
            self.assertGreater(sum(x * y for x, y in zip(turned, normal)), 0)
            self.assertAlmostEqual(sum(x * x for x in normal), 1, places=6)

    def test_refused(self):
        for arguments in ([], [HARNESS], [HARNESS, "x.txt"], [HARNESS, "ply"], [HARNESS, "x.stl", "10"],
                          [HARNESS, "x.stl", "1", "2"], [ROOT / "examples/harness.txt", "x.stl"],
                          [ROOT / "tests/records/empty.set", "x.ply"]):
            done = run("export.py", *arguments)
            self.assertEqual((done.returncode, done.stdout), (1, b""), arguments)
            self.assertEqual(done.stderr.count(b"\n"), 1, arguments)

    def test_no_set(self):
        for script, *output in (["contents.py"], ["picture.py"], ["export.py", "no/such/set.ply"]):
            for name, why in (("no/such/file.set", "No such file or directory"), (ROOT, "Is a directory")):
                done = run(script, name, *output)
                self.assertEqual((done.returncode, done.stdout), (1, b""), script)
                self.assertEqual(done.stderr.decode(), "%s: %s\n" % (name, why))

    def test_no_output(self):
        """The output cannot be opened, or opens and cannot be written."""
        full = Path(self.folder.name) / "full.ply"
        full.symlink_to("/dev/full")
        for output, why in (("no/such/set.ply", "No such file or directory"), (full, "No space left on device")):
            done = run("export.py", HARNESS, output)
            self.assertEqual((done.returncode, done.stdout), (1, b""), output)
            self.assertEqual(done.stderr.decode(), "%s: %s\n" % (output, why))


@unittest.skipUnless(outside.HAS_ASSIMP, "assimp is not installed: its reading was not compared")
class Assimp(Written):
    def test_sets(self):
        """The objects, their faces and every corner in order, as near as assimp reads decimals."""
        compared, exact = 0, 0
        for name in SETS:
            shown = contents.read(name)
            if not shown.bodies:
                continue
            expected = list(objects_of(shown))
            for ending in FORMATS:
                output = self.written(name, ending)
                sizes = [(name, len(triangles)) for name, triangles in expected]
                if ending == "ply":
                    sizes = [("", len(shown.triangles))]
                self.assertEqual(outside.assimp_objects(output), sizes, name)
                found = floats(outside.assimp_triangles(output))
                others = floats(triangle for _, own in expected for triangle in own)
                for one, other in zip(found, others, strict=True):
                    self.assertLessEqual(abs(one - other), max(2**-23 * abs(other), 2**-149))
                compared += len(found)
                exact += sum(map(operator.eq, found, others))
        print("%d floats compared with assimp's reading, %d of them equal" % (compared, exact))


@unittest.skipUnless(outside.HAS_ADMESH, "admesh is not installed: its reading was not compared")
class Admesh(Written):
    FAULTS = ["Total disconnected facets", "Backwards edges", "Facets reversed", "Degenerate facets",
              "Normals fixed"]

    def test_closed_bodies(self):
        """Closed, all facets one way and outwards, in one part, with a volume."""
        compared = 0
        for place, body in enumerate(contents.read(HARNESS).bodies):
            if body.kind in CLOSED:
                told = outside.admesh(self.written(HARNESS, "stl", place))
                self.assertEqual(told["Number of facets"], body.triangles)
                self.assertEqual(told["Number of parts"], 1)
                self.assertEqual([told[fault] for fault in self.FAULTS], [0] * len(self.FAULTS))
                self.assertGreater(told["Volume"], 0)
                compared += 1
        print("%d closed bodies read by admesh" % compared)
        self.assertEqual(compared, 6)

    def test_turned_bodies(self):
        """Turned inside out, a body is one whose facets admesh has to reverse."""
        shown = contents.read(HARNESS)
        part, *_ = export.parts(shown)
        turned = part._replace(triangles=[row[::-1] for row in part.triangles])
        output = Path(self.folder.name) / "turned.stl"
        output.write_text("\n".join(export.stl([turned])) + "\n")
        self.assertEqual(outside.admesh(output)["Facets reversed"], len(part.triangles))


if __name__ == "__main__":
    unittest.main()
