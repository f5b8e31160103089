#!/usr/bin/env python3
"""Writes a set's file, or one body of it, as PLY, OBJ or STL, by the ending of the output's name.

    python3 docs/export.py examples/harness.set harness.ply
    python3 docs/export.py examples/harness.set post.stl 0      # body 0 alone

OBJ has an object for each body, and STL a solid, with names such as body_3_tube. PLY has no
objects: the vertices of each body have a colour of their own, and each face has the number of its
body. A program that reads only one solid of an STL file, as admesh does, takes one body at a time.
All three formats are text, in which a number of nine digits gives the same 32-bit float again.
"""

import math
import sys
from collections import namedtuple
from pathlib import Path

import command
from contents import KINDS, read
from picture import COLOURS, cross, minus, scaled

# A body by itself: its place in the set, and triangles that count from its own first vertex.
Part = namedtuple("Part", "place name vertices triangles")


def parts(shown):
    """The bodies of a set."""
    for place, body in enumerate(shown.bodies):
        name = "body_%d_%s" % (place, KINDS[body.kind].replace(" ", "_"))
        first, last = body.first_triangle, body.first_triangle + body.triangles
        triangles = [[i - body.first_vertex for i in row] for row in shown.triangles[first:last]]
        vertices = shown.vertices[body.first_vertex:body.first_vertex + body.vertices]
        yield Part(place, name, vertices, triangles)


def xyz(point):
    return "%.9g %.9g %.9g" % tuple(point)


def numbered(chosen, first):
    """Each body with its triangles, counted from the first vertex of all, number `first`."""
    for part in chosen:
        yield part, [tuple(i + first for i in row) for row in part.triangles]
        first += len(part.vertices)


def ply(chosen):
    yield "ply\nformat ascii 1.0"
    yield from ("comment %s" % part.name for part in chosen)
    yield "element vertex %d" % sum(len(part.vertices) for part in chosen)
    yield from ("property float %s" % axis for axis in "xyz")
    yield from ("property uchar %s" % colour for colour in ("red", "green", "blue"))
    yield "element face %d" % sum(len(part.triangles) for part in chosen)
    yield "property list uchar int vertex_indices\nproperty int body\nend_header"
    for part in chosen:
        colour = "%d %d %d" % COLOURS[part.place % len(COLOURS)]
        yield from ("%s %s" % (xyz(vertex), colour) for vertex in part.vertices)
    for part, triangles in numbered(chosen, 0):
        yield from ("3 %d %d %d %d" % (row + (part.place,)) for row in triangles)


def obj(chosen):
    for part, triangles in numbered(chosen, 1):
        yield "o %s" % part.name
        yield from ("v %s" % xyz(vertex) for vertex in part.vertices)
        yield from ("f %d %d %d" % row for row in triangles)


def normal_of(a, b, c):
    """The unit normal on the side that sees the corners anticlockwise; 0 if there is no area."""
    normal = cross(minus(b, a), minus(c, a))
    length = math.hypot(*normal)
    return scaled(normal, 1 / length) if length > 0 else (0, 0, 0)


def stl(chosen):
    for part in chosen:
        yield "solid %s" % part.name
        for triangle in part.triangles:
            corners = [part.vertices[i] for i in triangle]
            yield "facet normal %s\nouter loop" % xyz(normal_of(*corners))
            yield from ("vertex %s" % xyz(corner) for corner in corners)
            yield "endloop\nendfacet"
        yield "endsolid %s" % part.name


FORMATS = {"ply": ply, "obj": obj, "stl": stl}


def main():
    name, output, place = command.arguments(__doc__, "SET OUTPUT [BODY]")
    ending = Path(output).suffix[1:].lower()
    if ending not in FORMATS:
        sys.exit("%s: the output's name must end in .ply, .obj or .stl" % output)
    chosen = list(parts(read(name)))
    if not chosen:
        sys.exit("%s: the set is empty" % name)
    if place:
        chosen = [part for part in chosen if str(part.place) == place]
        if not chosen:
            sys.exit("%s has no body %s" % (name, place))
    command.write("".join(line + "\n" for line in FORMATS[ending](chosen)).encode(), output)


if __name__ == "__main__":
    main()
