#!/usr/bin/env python3
"""Draws a set's file as an SVG picture: bodies in nine colours, seen from above and one side.

    python3 docs/picture.py examples/harness.set > plain.svg
    python3 docs/picture.py --stripes=9 examples/harness.set > docs/harness.svg
    crates/sweep/out/sweep < tests/records/sample.records | python3 docs/picture.py > sample.svg

--stripes=0,3 draws the bodies 0 and 3 with stripes in place of a colour of their own. A stripe
joins the same corners of all rings, so that it shows how a body is twisted. A ribbon has no rings,
and no stripes.
"""

import math
import sys

import command
from contents import KINDS, read

# The viewer's place: degrees round the vertical axis y, then upwards.
ROUND, UP = 28, 24
# What the picture fits into, and a margin within.
WIDTH, HEIGHT = 960, 960
MARGIN = 12
LIGHT = (-0.42, 0.78, 0.46)
# Bodies without an opening: nobody sees their inner side.
CLOSED = {"capsule", "torus", "closed cylinder", "seamless torus"}
# Bodies whose list of triangles begins and ends with a cap, of one triangle for each division.
CAPPED = {"capsule", "closed cylinder"}
# Middling colours, legible on a white page and on a dark one.
COLOURS = [
    (164, 172, 182), (226, 92, 64), (66, 140, 222), (240, 178, 56), (80, 178, 120),
    (166, 124, 214), (112, 130, 156), (224, 122, 168), (204, 206, 200),
]
# The colours of stripes and of what is between them, and how many stripes there are at most.
STRIPE, GROUND = (240, 234, 216), (24, 128, 136)
STRIPES = 4


def minus(a, b):
    return a[0] - b[0], a[1] - b[1], a[2] - b[2]


def dot(a, b):
    return a[0] * b[0] + a[1] * b[1] + a[2] * b[2]


def cross(a, b):
    return a[1] * b[2] - a[2] * b[1], a[2] * b[0] - a[0] * b[2], a[0] * b[1] - a[1] * b[0]


def scaled(a, factor):
    return a[0] * factor, a[1] * factor, a[2] * factor


def seen(point):
    """Right, upwards, and towards the viewer."""
    x, y, z = point
    cos, sin = math.cos(math.radians(ROUND)), math.sin(math.radians(ROUND))
    x, z = x * cos - z * sin, x * sin + z * cos
    cos, sin = math.cos(math.radians(UP)), math.sin(math.radians(UP))
    return x, y * cos - z * sin, y * sin + z * cos


def brightness(normal):
    """Of a face with this unit normal, which looks at the viewer: dull light, and a gloss."""
    light = scaled(LIGHT, 1 / math.sqrt(dot(LIGHT, LIGHT)))
    half = light[0], light[1], light[2] + 1
    half = scaled(half, 1 / math.sqrt(dot(half, half)))
    dull = 0.55 + 0.5 * max(0, dot(normal, light))
    return dull, 0.45 * max(0, dot(normal, half)) ** 24


def shade(colour, normal):
    # In few steps, so that neighbours share their colour.
    dull, gloss = brightness(normal)
    dull, gloss = round(dull * 32) / 32, round(gloss * 16) / 16
    mixed = (min(255, part * dull) * (1 - gloss) + 255 * gloss for part in colour)
    return "#%02x%02x%02x" % tuple(int(part) for part in mixed)


def division(body, place):
    """Between which two corners of a ring a triangle lies, by its place in its body's list."""
    cap = body.n if KINDS[body.kind] in CAPPED else 0
    top = body.triangles - cap
    if place < cap:
        return place
    if place >= top:
        return place - top
    # Two triangles for each division, and all divisions of a ring before the next ring.
    return (place - cap) // 2 % body.n


def striped_colour(body, place):
    """The colour of a triangle of a striped body, by its place in its body's list."""
    stripes = min(STRIPES, body.n // 2)
    band = division(body, place) * 2 * stripes // body.n
    return STRIPE if band % 2 else GROUND


def depth(corners, kind, inside):
    """How near the viewer a face is painted: by its middle. A tube's inner side goes by its
    farthest corner, so that it never lies over the outer side before it."""
    heights = [corner[2] for corner in corners]
    return min(heights) if kind == "tube" and inside else sum(heights) / 3


def faces(shown, body, colour, points):
    """The depth, the colour and the corners of each face of a body that can be seen.

    `colour` is that of the body, or None where it has stripes.
    """
    kind = KINDS[body.kind]
    first = body.first_triangle
    for place, triangle in enumerate(shown.triangles[first:first + body.triangles]):
        a, b, c = corners = tuple(points[index] for index in triangle)
        normal = cross(minus(b, a), minus(c, a))
        length = math.sqrt(dot(normal, normal))
        # Faces look outwards: one that looks away from the viewer shows its inner side.
        inside = normal[2] < 0
        if length == 0 or inside and kind in CLOSED:
            continue
        normal = scaled(normal, math.copysign(1 / length, normal[2]))
        shown_colour = shade(colour or striped_colour(body, place), normal)
        yield depth(corners, kind, inside), shown_colour, corners


def text(number):
    """One decimal, as short as it can be."""
    written = ("%.1f" % number).rstrip("0").rstrip(".")
    return "0" if written == "-0" else written


def path(corners, scale, left, top):
    """A triangle: its first corner, then the steps to the others."""
    spots = [(round((x - left) * scale, 1), round((top - y) * scale, 1)) for x, y, _ in corners]
    (x0, y0), (x1, y1), (x2, y2) = spots
    steps = (text(step) for step in (x1 - x0, y1 - y0, x2 - x1, y2 - y1))
    return "M%s %sl%s %s %s %sz" % ((text(x0), text(y0)) + tuple(steps))


def colour_of(body, place, striped):
    """The colour of a body, by its place in the set; None for one with stripes."""
    if place in striped and body.n > 0:
        return None
    return COLOURS[place % len(COLOURS)]


def picture(shown, striped=()):
    """The picture of a set. The places of bodies that have stripes are in `striped`."""
    if not shown.triangles:
        sys.exit("the set is empty")
    points = [seen(vertex) for vertex in shown.vertices]
    left, top = min(p[0] for p in points), max(p[1] for p in points)
    across, down = max(p[0] for p in points) - left, top - min(p[1] for p in points)
    scale = min((WIDTH - 2 * MARGIN) / (across or 1), (HEIGHT - 2 * MARGIN) / (down or 1))
    width, height = round(across * scale) + 2 * MARGIN, down * scale + 2 * MARGIN
    left, top = left - MARGIN / scale, top + MARGIN / scale
    # The farthest faces are painted first.
    painted = sorted(
        face
        for place, body in enumerate(shown.bodies)
        for face in faces(shown, body, colour_of(body, place, striped), points)
    )
    lines = ['<svg xmlns="http://www.w3.org/2000/svg" viewBox="0 0 %d %d">' % (width, height)]
    # A thin stroke in the face's own colour, so that no seam shows between two faces.
    lines.append('<g stroke-width=".7" stroke-linejoin="round">')
    for _, colour, corners in painted:
        line = '<path fill="%s" stroke="%s" d="%s"/>'
        lines.append(line % (colour, colour, path(corners, scale, left, top)))
    return "\n".join(lines + ["</g>", "</svg>", ""])


def main():
    stripes, name = command.arguments(__doc__, "[--stripes=BODIES] [SET]")
    shown = read(name)
    bodies = [str(place) for place in range(len(shown.bodies))]
    asked = [] if stripes is None else stripes.split(",")
    for body in asked:
        if body not in bodies:
            sys.exit("%s has no body '%s'" % (name or "standard input", body))
    command.write(picture(shown, list(map(int, asked))).encode())


if __name__ == "__main__":
    main()
