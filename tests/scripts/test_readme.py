"""README.md: its text of bodies makes the set that is shown, and so does the example; the pictures
are those that its commands draw."""

import re
import textwrap
import unittest

from common import HARNESS, ROOT, run, swept

README = (ROOT / "README.md").read_text()


class Shown(unittest.TestCase):
    def printed(self, script, *arguments, given=b""):
        """What a script prints: it succeeds, prints something and says nothing else."""
        done = run(script, *arguments, given=given)
        self.assertEqual((done.returncode, done.stderr), (0, b""), script)
        self.assertNotEqual(done.stdout, b"", script)
        return done.stdout

    def shown(self, set_file):
        """README.md has, indented as a block, what contents.py prints of a set's file."""
        printed = self.printed("contents.py", given=set_file).decode()
        self.assertIn("\n" + textwrap.indent(printed, "    "), README)

    def test_own_set(self):
        text, = re.findall("^```text\n(.*?)^```$", README, re.MULTILINE | re.DOTALL)
        self.shown(swept(self.printed("records.py", given=text.encode())))

    def test_example(self):
        self.shown(HARNESS.read_bytes())

    def test_pictures(self):
        """The stored pictures are those that README.md's commands, and the example's, draw."""
        drawn = set()
        for text in (README, (ROOT / "example").read_text()):
            found = re.findall(r"docs/picture\.py (--stripes=\S+) \w+/(\w+)\.set >", text)
            for option, name in found:
                picture = self.printed("picture.py", option, ROOT / "examples" / (name + ".set"))
                stored = (ROOT / "docs" / (name + ".svg")).read_bytes()
                self.assertTrue(picture == stored, "docs/%s.svg is not what picture.py draws" % name)
                drawn.add((text == README, name))
        self.assertEqual(drawn, {(True, "harness"), (True, "seam"), (False, "harness")})
        for name in ("harness", "seam"):
            self.assertIn("](docs/%s.svg)" % name, README)

    def test_upright(self):
        """A picture fits into a square of 960, however slender what it shows."""
        text = b"closed cylinder divisions 8 layers 1 radius 1 length 1000"
        drawn = self.printed("picture.py", given=swept(self.printed("records.py", given=text)))
        (width, height), = re.findall(rb'viewBox="0 0 (\d+) (\d+)"', drawn)
        self.assertTrue(24 < int(width) < 40 and int(height) == 960, (width, height))


if __name__ == "__main__":
    unittest.main()
