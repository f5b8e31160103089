#!/usr/bin/env python3
"""Prints what a set's file holds: its counts, and a line for each body of its table of contents.

    python3 docs/contents.py examples/harness.set
    crates/sweep/out/sweep < tests/records/sample.records | python3 docs/contents.py
"""

import math
import struct
import sys
from collections import namedtuple

import command

MOST_BODIES = 64
KINDS = {1: "ribbon", 2: "tube", 3: "capsule", 4: "torus", 5: "closed cylinder",
         6: "seamless torus"}

Body = namedtuple("Body", "kind n first_vertex vertices first_triangle triangles")

# Vertices are triples of floats, triangles triples of numbers of vertices.
Set = namedtuple("Set", "bodies vertices triangles")


def head_of(data):
    """The first words of a set's file: its numbers of bodies, vertices and triangles."""
    if len(data) < 16:
        raise ValueError("it has %d bytes, and its head alone would have 16" % len(data))
    edition, bodies, vertices, triangles = struct.unpack_from("<4I", data)
    if edition != 1:
        raise ValueError("its edition is %d, not 1" % edition)
    if bodies > MOST_BODIES:
        raise ValueError("it has %d bodies, and a set has at most %d" % (bodies, MOST_BODIES))
    length = 16 + 24 * bodies + 12 * vertices + 12 * triangles
    if len(data) != length:
        raise ValueError("it has %d bytes, and its head asks for %d" % (len(data), length))
    return bodies, vertices, triangles


def check_table(shown):
    """Each body has a kind and begins where the one before it ends, and the set ends with them."""
    at = 0, 0
    for place, body in enumerate(shown.bodies):
        if body.kind not in KINDS:
            raise ValueError("body %d has the kind %d" % (place, body.kind))
        first = body.first_vertex, body.first_triangle
        if first != at:
            told = "body %d begins at vertex %d and triangle %d, not at %d and %d"
            raise ValueError(told % (place, *first, *at))
        at = at[0] + body.vertices, at[1] + body.triangles
    total = len(shown.vertices), len(shown.triangles)
    if total != at:
        told = "it has %d vertices and %d triangles, and its bodies have %d and %d"
        raise ValueError(told % (*total, *at))


def check_numbers(shown):
    """Coordinates are finite, and the corners of a triangle are vertices of its own body."""
    for place, vertex in enumerate(shown.vertices):
        if not all(map(math.isfinite, vertex)):
            raise ValueError("vertex %d has a coordinate that is not finite" % place)
    for place, body in enumerate(shown.bodies):
        first, last = body.first_vertex, body.first_vertex + body.vertices - 1
        for row in shown.triangles[body.first_triangle:body.first_triangle + body.triangles]:
            if min(row) < first or max(row) > last:
                told = "body %d has a triangle %d %d %d, and the vertices %d to %d"
                raise ValueError(told % (place, *row, first, last))


def set_of(data):
    """The set in the bytes of its file. A ValueError says what no set's file has."""
    bodies, vertices, _ = head_of(data)
    vertices_at = 16 + 24 * bodies
    triangles_at = vertices_at + 12 * vertices
    shown = Set(
        [Body(*body) for body in struct.iter_unpack("<6I", data[16:vertices_at])],
        list(struct.iter_unpack("<3f", data[vertices_at:triangles_at])),
        list(struct.iter_unpack("<3I", data[triangles_at:])),
    )
    check_table(shown)
    check_numbers(shown)
    return shown


def read(name=None):
    """The set in the named file, or on standard input."""
    try:
        return set_of(command.read(name))
    except ValueError as why:
        name = name or "standard input"
        sys.exit("%s: this is not the file of a set: %s" % (name, why))


def lines(shown):
    """What is printed of a set."""
    counts = len(shown.bodies), len(shown.vertices), len(shown.triangles)
    bodies = "body" if counts[0] == 1 else "bodies"
    yield "%d %s, %d vertices, %d triangles\n" % (counts[0], bodies, *counts[1:])
    titles = "", "kind", "n", "first vertex", "vertices", "first triangle", "triangles"
    yield "%3s  %-15s %4s %13s %9s %15s %10s\n" % titles
    for place, body in enumerate(shown.bodies):
        row = (place, KINDS[body.kind]) + body[1:]
        yield "%3d  %-15s %4d %13d %9d %15d %10d\n" % row


def main():
    name, = command.arguments(__doc__, "[SET]")
    command.write("".join(lines(read(name))).encode())


if __name__ == "__main__":
    main()
