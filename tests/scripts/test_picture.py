"""docs/picture.py: stripes lie where the corners of the triangles say; and what the stripes of the
examples show, that a torus is twisted where it closes and a seamless torus nowhere."""

import math
import re
import unittest
from itertools import groupby

from common import HARNESS, ROOT, SEAM, SETS, run

import contents
import picture

RIBBON, CAPPED = 1, (3, 5)


def corners_of(body, triangle):
    """Which corners of their rings a triangle of a body has; the poles of its caps are no corners."""
    local = [index - body.first_vertex for index in triangle]
    if body.kind in CAPPED:
        local = [index - 1 for index in local if 0 < index < body.vertices - 1]
    return {index % body.n for index in local}


def paths(drawn):
    """The shape and the colour of each face of a picture."""
    return sorted((shape, fill) for fill, shape in re.findall(r'<path fill="(.*?)" .*? d="(.*?)"/>', drawn))


class Stripes(unittest.TestCase):
    def test_divisions(self):
        """A triangle of division i has the corners i and i + 1 of a ring, whatever its kind."""
        compared, kinds = 0, set()
        for name in SETS:
            shown = contents.read(name)
            for body in shown.bodies:
                first = body.first_triangle
                for place, row in enumerate(shown.triangles[first:first + body.triangles]):
                    if body.kind != RIBBON:
                        at = picture.division(body, place)
                        self.assertEqual(corners_of(body, row), {at, (at + 1) % body.n}, (name, body))
                        compared, kinds = compared + 1, kinds | {body.kind}
        print("%d triangles have the division of their corners" % compared)
        self.assertEqual(kinds, {2, 3, 4, 5, 6})

    def test_widths(self):
        """Four stripes, or as many as a ring of few corners has room for, nearly of one width, and
        the ground between them likewise."""
        for n in range(3, 257):
            body = contents.Body(2, n, 0, 2 * n, 0, 2 * n)
            colours = [picture.striped_colour(body, place) for place in range(0, 2 * n, 2)]
            runs = [(colour, len(list(run))) for colour, run in groupby(colours)]
            expected = [picture.GROUND, picture.STRIPE] * min(4, n // 2)
            self.assertEqual([colour for colour, _ in runs], expected, n)
            widths = [width for _, width in runs]
            self.assertLessEqual(max(widths) - min(widths), 1, n)

    def test_bodies(self):
        """The bodies that are named lose their colours, and nothing else is drawn otherwise."""
        shown = contents.read(HARNESS)
        plain = picture.picture(shown)
        for place, body in enumerate(shown.bodies):
            striped = picture.picture(shown, [place])
            self.assertEqual([shape for shape, _ in paths(striped)], [shape for shape, _ in paths(plain)])
            changed = sum(one != other for one, other in zip(paths(striped), paths(plain)))
            if body.kind == RIBBON:
                self.assertEqual(striped, plain)
            else:
                self.assertTrue(body.triangles / 3 < changed <= body.triangles, (place, changed))

    def test_two_bodies(self):
        """Each of two bodies has stripes, as if it were named alone."""
        shown = contents.read(SEAM)
        plain, first, second, both = (paths(picture.picture(shown, striped)) for striped in ([], [0], [1], [0, 1]))
        merged = [a if a != p else b for p, a, b in zip(plain, first, second)]
        self.assertEqual(merged, both)
        self.assertTrue(first != plain and second != plain and both not in (first, second))

    def test_no_such_body(self):
        for stripes, said in (("10", "10"), ("0,10", "10"), ("", ""), ("0,", ""), ("00", "00"), ("x", "x"),
                              ("-1", "-1")):
            done = run("picture.py", "--stripes=" + stripes, HARNESS)
            self.assertEqual((done.returncode, done.stdout), (1, b""), stripes)
            self.assertEqual(done.stderr.decode(), "%s has no body '%s'\n" % (HARNESS, said))
        done = run("picture.py", "--stripes=1", given=(ROOT / "tests/records/sample.set").read_bytes())
        self.assertEqual((done.returncode, done.stderr), (1, b"standard input has no body '1'\n"))


def rings(shown, body):
    """The vertices of a body without caps, ring after ring."""
    vertices = shown.vertices[body.first_vertex:body.first_vertex + body.vertices]
    return [vertices[at:at + body.n] for at in range(0, len(vertices), body.n)]


def middle(ring):
    return [sum(axis) / len(ring) for axis in zip(*ring)]


def twists(shown, body):
    """By how many degrees each piece of a torus is twisted about its middle line."""
    loop = rings(shown, body)
    for ring, after in zip(loop, loop[1:] + loop[:1]):
        along = picture.minus(middle(after), middle(ring))
        along = picture.scaled(along, 1 / math.hypot(*along))
        arms = [picture.minus(one[0], middle(one)) for one in (ring, after)]
        arms = [picture.minus(arm, picture.scaled(along, picture.dot(arm, along))) for arm in arms]
        sine = picture.dot(picture.cross(*arms), along)
        yield math.degrees(math.atan2(sine, picture.dot(*arms)))


class Twists(unittest.TestCase):
    def test_seam(self):
        """The closing piece of the torus takes up a third of a turn. No piece of the seamless torus
        takes up much more than its share, 3 degrees."""
        shown = contents.read(SEAM)
        *others, closing = twists(shown, shown.bodies[0])
        self.assertLess(max(map(abs, others)), 2)
        self.assertAlmostEqual(closing, 120, delta=1)
        shares = list(twists(shown, shown.bodies[1]))
        self.assertEqual(len(shares), 40)
        self.assertTrue(1 < min(shares) and max(shares) < 5, shares)

    def test_harness(self):
        """The tie, the last body of the harness, is a seamless torus too."""
        shown = contents.read(HARNESS)
        tie = shown.bodies[-1]
        self.assertEqual(contents.KINDS[tie.kind], "seamless torus")
        self.assertLess(max(map(abs, twists(shown, tie))), 10)


if __name__ == "__main__":
    unittest.main()
