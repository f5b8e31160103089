"""docs/contents.py: a file that no set has is refused, by every script that reads sets."""

import struct
import tempfile
import time
import unittest
from pathlib import Path

from common import ROOT, run

import contents
import export
import picture

# Two ribbons of four vertices and two triangles, as the words of their set's file.
HEAD = [1, 2, 8, 4]
TABLE = [1, 0, 0, 4, 0, 2] + [1, 0, 4, 4, 2, 2]
FLOATS = list(struct.unpack("<24I", struct.pack("<24f", *(i * i for i in range(24)))))
CORNERS = [0, 1, 2, 2, 1, 3] + [4, 5, 6, 6, 5, 7]
GOOD = HEAD + TABLE + FLOATS + CORNERS
FLOATS_AT, CORNERS_AT = 16, 40

# The place of a word, a wrong value, and what is said of it.
WRONG_WORDS = [
    (0, 0, "its edition is 0, not 1"),
    (0, 2, "its edition is 2, not 1"),
    (1, 1, "it has 208 bytes, and its head asks for 184"),
    (1, 65, "it has 65 bodies, and a set has at most 64"),
    (2, 7, "it has 208 bytes, and its head asks for 196"),
    (3, 2**32 - 1, "it has 208 bytes, and its head asks for 51539607700"),
    (4, 0, "body 0 has the kind 0"),
    (10, 7, "body 1 has the kind 7"),
    (6, 1, "body 0 begins at vertex 1 and triangle 0, not at 0 and 0"),
    (12, 3, "body 1 begins at vertex 3 and triangle 2, not at 4 and 2"),
    (14, 3, "body 1 begins at vertex 4 and triangle 3, not at 4 and 2"),
    (7, 5, "body 1 begins at vertex 4 and triangle 2, not at 5 and 2"),
    (13, 3, "it has 8 vertices and 4 triangles, and its bodies have 7 and 4"),
    (15, 3, "it has 8 vertices and 4 triangles, and its bodies have 8 and 5"),
    (FLOATS_AT, 0x7F800000, "vertex 0 has a coordinate that is not finite"),
    (FLOATS_AT + 4, 0xFF800000, "vertex 1 has a coordinate that is not finite"),
    (CORNERS_AT - 1, 0x7FC00000, "vertex 7 has a coordinate that is not finite"),
    (CORNERS_AT + 2, 4, "body 0 has a triangle 0 1 4, and the vertices 0 to 3"),
    (CORNERS_AT + 9, 3, "body 1 has a triangle 3 5 7, and the vertices 4 to 7"),
    (CORNERS_AT + 11, 2**32 - 1, "body 1 has a triangle 6 5 4294967295, and the vertices 4 to 7"),
]
ANY_WORDS = [0, 1, 2, 3, 5, 6, 7, 64, 2**23, 0x7F7FFFFF, 0x7F800000, 2**31 + 1, 2**32 - 1]


def file_of(words):
    return struct.pack("<%dI" % len(words), *words)


def with_word(place, value):
    return file_of(GOOD[:place] + [value] + GOOD[place + 1:])


class Refused(unittest.TestCase):
    def refused(self, data, said):
        with self.assertRaises(ValueError, msg=said) as raised:
            contents.set_of(data)
        self.assertEqual(str(raised.exception), said)

    def test_words(self):
        for place, value, said in WRONG_WORDS:
            self.refused(with_word(place, value), said)

    def test_lengths(self):
        for length in (0, 15):
            self.refused(file_of(GOOD)[:length], "it has %d bytes, and its head alone would have 16" % length)
        for length in (16, 17, 207):
            self.refused(file_of(GOOD)[:length], "it has %d bytes, and its head asks for 208" % length)
        self.refused(file_of(GOOD) + b"\0", "it has 209 bytes, and its head asks for 208")

    def test_totals(self):
        """Totals that are not the sums, in a file of the right length."""
        said = "it has 7 vertices and 5 triangles, and its bodies have 8 and 4"
        self.refused(file_of([1, 2, 7, 5] + GOOD[4:]), said)

    def test_bodies(self):
        """64 bodies are a set's, in a file of the right length, and 65 are not."""
        of_none = [1, 0, 0, 0, 0, 0]
        self.assertEqual(len(contents.set_of(file_of([1, 64, 0, 0] + 64 * of_none)).bodies), 64)
        said = "it has 65 bodies, and a set has at most 64"
        self.refused(file_of([1, 65, 0, 0] + 65 * of_none), said)

    def test_scripts(self):
        """Each script says so in one line that names the file, and writes nothing."""
        with tempfile.TemporaryDirectory() as folder:
            name, output = Path(folder) / "wrong.set", Path(folder) / "wrong.ply"
            for place, value, said in WRONG_WORDS[::4]:
                name.write_bytes(with_word(place, value))
                for script, *more in (["contents.py"], ["picture.py"], ["export.py", output]):
                    done = run(script, name, *more)
                    told = "%s: this is not the file of a set: %s\n" % (name, said)
                    self.assertEqual((done.returncode, done.stdout), (1, b""), said)
                    self.assertEqual(done.stderr.decode(), told)
            self.assertFalse(output.exists())

    def test_standard_input(self):
        done = run("contents.py")
        self.assertEqual((done.returncode, done.stdout), (1, b""))
        told = b"standard input: this is not the file of a set: it has 0 bytes, "
        self.assertTrue(done.stderr.startswith(told), done.stderr)


class Taken(unittest.TestCase):
    def test_any_word(self):
        """Whatever word is changed, the file is refused, or every script can take it."""
        taken = 0
        for place in range(len(GOOD)):
            for value in ANY_WORDS:
                try:
                    shown = contents.set_of(with_word(place, value))
                except ValueError:
                    continue
                texts = [contents.lines(shown), picture.picture(shown), picture.picture(shown, [0, 1])]
                texts += [form(list(export.parts(shown))) for form in export.FORMATS.values()]
                for text in texts:
                    written = "".join(text)
                    self.assertFalse("nan" in written or "inf" in written, (place, value))
                taken += 1
        print("%d of %d altered files taken" % (taken, len(GOOD) * len(ANY_WORDS)))

    def test_empty(self):
        """An empty set is a set: picture.py says that it is empty."""
        done = run("picture.py", ROOT / "tests/records/empty.set")
        self.assertEqual((done.returncode, done.stdout, done.stderr), (1, b"", b"the set is empty\n"))

    def test_large(self):
        """A set of 100,000 triangles is read in a fraction of a second."""
        words = [1, 1, 50000, 100000] + [2, 200, 0, 50000, 0, 100000]
        words += [0] * 3 * 50000 + [0, 1, 49999] * 100000
        began = time.perf_counter()
        contents.set_of(file_of(words))
        taken = time.perf_counter() - began
        print("100,000 triangles read in %.2f s" % taken)
        self.assertLess(taken, 5)


if __name__ == "__main__":
    unittest.main()
