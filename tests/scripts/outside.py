"""Programs that others wrote, where they are installed: admesh and assimp."""

import re
import shutil
import struct
import subprocess
import tempfile
from pathlib import Path

HAS_ADMESH = shutil.which("admesh") is not None
HAS_ASSIMP = shutil.which("assimp") is not None


def output(*command):
    done = subprocess.run(list(map(str, command)), capture_output=True, text=True, timeout=60)
    assert done.returncode == 0, "%s: %s%s" % (command, done.stdout, done.stderr)
    return done.stdout


def admesh(path):
    """The numbers that admesh prints, by their titles; of two columns the file as it was."""
    found = re.findall(r"([A-Z][a-z0-9 ]*[a-z])\s*:\s+(-?[0-9.]+)", output("admesh", path))
    return {title: float(number) for title, number in found}


def assimp_objects(path):
    """The name and the number of faces of each mesh that assimp finds."""
    pattern = r"^ +\d+ \((.*)\): \[\d+ / 0 / (\d+) \| triangle\]$"
    found = re.findall(pattern, output("assimp", "info", path, "-r"), re.MULTILINE)
    return [(name, int(faces)) for name, faces in found]


def assimp_triangles(path):
    """The triangles as assimp reads them, mesh after mesh, by way of its own binary PLY."""
    with tempfile.TemporaryDirectory() as folder:
        copy = Path(folder) / "copy.ply"
        output("assimp", "export", path, copy, "-fplyb", "-r")
        header, data = copy.read_bytes().split(b"end_header\n", 1)
    vertices, faces = (int(n) for n in re.findall(rb"element (?:vertex|face) (\d+)", header))
    # A face has 13 bytes. A vertex begins with its place; its colour takes more bytes than the
    # header says (assimp 5.2), so the length of the whole tells how many a vertex has.
    faces_at = len(data) - 13 * faces
    step = faces_at // vertices
    points = [struct.unpack_from("<3f", data, step * place) for place in range(vertices)]
    rows = struct.iter_unpack("<B3I", data[faces_at:])
    return [tuple(points[index] for index in row[1:]) for row in rows]
