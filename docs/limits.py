"""Which bodies `sweep` will skip, and why: for the warnings of docs/records.py.

The numbers are those of document 01's refusals, in the order in which an addition tries them.
`sweep` alone decides. It works in 32-bit floats, and these tests in 64-bit ones, so that a segment
or a fold within a rounding of its bound may be judged otherwise here. A vertex that overflows (23)
is not looked for: that would take the vertices themselves.
"""

import math
from itertools import chain

# What a set of `sweep` has room for, and the refusal's number.
ROOM = [("bodies", 64, 2), ("vertices", 4096, 3), ("triangles", 4096, 4)]

RANGES = {"divisions": (3, 256, 20), "longitudes": (0, 256, 21), "layers": (1, 4096, 21)}
LEAST_POINTS = {"ribbon": 2, "tube": 2, "capsule": 2, "torus": 3, "closed cylinder": 0,
                "seamless torus": 3}
# The kinds whose curve runs on from its last point to its first.
LOOPS = {"torus", "seamless torus"}


def counts(body):
    """How many vertices and triangles a body has."""
    points, get = len(body.points), body.sizes.get
    if body.kind == "ribbon":
        return 2 * points, 2 * (points - 1)
    divisions = get("divisions")
    if body.kind == "tube":
        return divisions * points, 2 * divisions * (points - 1)
    if body.kind in LOOPS:
        return divisions * points, 2 * divisions * points
    if body.kind == "capsule":
        rings = 2 * get("longitudes") + points - 2
    else:
        rings = get("layers") + 1
    return divisions * rings + 2, 2 * divisions * rings


def wrong_numbers(body):
    """What is wrong with the numbers of a body."""
    points, least = len(body.points), LEAST_POINTS[body.kind]
    if points < least:
        told = "it has %d point%s, and needs at least %d (10)"
        yield told % (points, "" if points == 1 else "s", least)
    for name, (least, most, number) in RANGES.items():
        if not least <= body.sizes.get(name, least) <= most:
            yield "its %s are outside %d to %d (%d)" % (name, least, most, number)
    if body.kind == "capsule" and 2 * body.sizes["longitudes"] + len(body.points) < 4:
        yield "without longitudes a capsule needs 4 points (21)"
    for name in ("width", "radius", "length"):
        if body.sizes.get(name, 1) <= 0:
            yield "its %s is not above 0 (22)" % name


def segments(body):
    """From each point to the next, and from the last to the first where the curve is a loop."""
    after = body.points[1:] + (body.points[:1] if body.kind in LOOPS else [])
    return [tuple(b - a for a, b in zip(*ends)) for ends in zip(body.points, after)]


def wrong_length(body, place, length):
    """What is wrong with the segment from a point, counted from 0, to the next."""
    line = body.lines[place]
    if length == 0 and place == len(body.points) - 1:
        return "its last point, line %d, repeats its first, to which it is joined anyway (12)" % line
    if length == 0:
        return "its points of the lines %d and %d are the same (12)" % (line, body.lines[place + 1])
    told = "the segment from its point of line %d is %.3g long: %s (12)"
    return told % (line, length, "about 9.54e-07 to 1.1e+12 is permitted")


def corners(body, units):
    """The points at which a fold is looked for, counted from 0, each with the unit vectors of the
    segments that meet there. A torus is not looked at where it closes; a seamless one is."""
    yield from enumerate(zip(units, units[1:]), 1)
    if body.kind == "seamless torus":
        yield 0, (units[-1], units[0])


def wrong_curve(body):
    """What is wrong with the curve of a body."""
    lengths = [math.hypot(*segment) for segment in segments(body)]
    for place, length in enumerate(lengths):
        if not 2**-20 <= length <= 2**40:
            yield wrong_length(body, place, length)
            return
    units = [[x / length for x in segment] for segment, length in zip(segments(body), lengths)]
    for place, (u, w) in corners(body, units):
        if 1 + sum(a * b for a, b in zip(u, w)) < 2**-12:
            yield "its curve folds back on itself at its point of line %d (13)" % body.lines[place]


def no_room(body, totals):
    """What a set has no room for; `totals` are its bodies, vertices and triangles so far."""
    for (name, most, number), total, more in zip(ROOM, totals, (1,) + counts(body)):
        if total + more > most:
            told = "the set would have %d %s, and has room for %d (%d)"
            yield told % (total + more, name, most, number)


def warnings(bodies):
    """The line of each body that `sweep` will skip, and the first reason."""
    totals = 0, 0, 0
    for body in bodies:
        # One after the other: a test looks only at what the tests before it have let pass.
        tests = chain(wrong_numbers(body), wrong_curve(body), no_room(body, totals))
        reason = next(tests, None)
        if reason:
            yield body.line, reason
        else:
            totals = tuple(a + b for a, b in zip(totals, (1,) + counts(body)))
