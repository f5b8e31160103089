"""Readers of PLY, OBJ and STL text, written for the tests from the formats' descriptions alone.

Each gives a list of objects: a name, and triangles of three corners of three 32-bit floats.
"""

from common import single


def corner(words):
    assert len(words) == 3, words
    return tuple(map(single, words))


def stl(text):
    objects, loop, normals = [], [], []
    for words in (line.split() for line in text.splitlines()):
        if words[0] == "solid":
            objects.append((words[1], []))
        elif words[0] == "facet":
            normals.append(tuple(map(float, words[2:])))
        elif words[0] == "vertex":
            loop.append(corner(words[1:]))
        elif words[0] == "endloop":
            assert len(loop) == 3, loop
            objects[-1][1].append(tuple(loop))
            loop = []
        elif words[0] == "endsolid":
            assert words[1] == objects[-1][0], words
        else:
            assert words in (["outer", "loop"], ["endfacet"]), words
    return objects, normals


def obj(text):
    objects, vertices = [], []
    for word, *words in (line.split() for line in text.splitlines()):
        if word == "o":
            objects.append((words[0], []))
        elif word == "v":
            vertices.append(corner(words))
        else:
            assert word == "f" and len(words) == 3, (word, words)
            objects[-1][1].append(tuple(vertices[int(index) - 1] for index in words))
    return objects, vertices


def ply_header(lines):
    """The comments, and for each element its name, its count and its properties."""
    comments, elements = [], []
    assert [next(lines), next(lines)] == ["ply", "format ascii 1.0"]
    for line in iter(lambda: next(lines), "end_header"):
        word, *words = line.split()
        if word == "comment":
            comments.append(words[0])
        elif word == "element":
            elements.append((words[0], int(words[1]), []))
        else:
            assert word == "property", line
            elements[-1][2].append(" ".join(words))
    return comments, elements


PLY_VERTEX = ["float x", "float y", "float z", "uchar red", "uchar green", "uchar blue"]
PLY_FACE = ["list uchar int vertex_indices", "int body"]


def ply(text):
    lines = iter(text.splitlines())
    names, [vertex, face] = ply_header(lines)
    assert (vertex[0], vertex[2]) == ("vertex", PLY_VERTEX), vertex
    assert (face[0], face[2]) == ("face", PLY_FACE), face
    rows = [next(lines).split() for _ in range(vertex[1])]
    vertices = [corner(row[:3]) for row in rows]
    colours = [tuple(map(int, row[3:])) for row in rows]
    objects = {int(name.split("_")[1]): (name, []) for name in names}
    shades = {place: set() for place in objects}
    for _ in range(face[1]):
        count, a, b, c, body = map(int, next(lines).split())
        assert count == 3
        objects[body][1].append((vertices[a], vertices[b], vertices[c]))
        shades[body].update(colours[index] for index in (a, b, c))
    assert not list(lines), "lines after the last face"
    assert all(len(shade) == 1 for shade in shades.values()), "a body of several colours"
    return list(objects.values()), vertices
