#!/usr/bin/env python3
"""Turns a text of bodies and their curves into records for `sweep`, on standard output.

    python3 docs/records.py examples/harness.txt > ../harness.records &&
      crates/sweep/out/sweep < ../harness.records > ../harness.set

A line names a body and its sizes, in any order. The lines after it are the points of its curve,
each x y z, in the unit of the sizes. A comment runs from # to the end of its line.

    tube  divisions 14  radius 2.5
        0 0 0
        0 0 50

    ribbon           width
    tube             divisions, radius
    capsule          divisions, longitudes, radius
    torus            divisions, radius; the last point is joined to the first
    closed cylinder  divisions, layers, radius, length; no points, for its axis is y. It stands on
                     y = 0, or has its middle there where `centred yes` is given
    seamless torus   divisions, radius; a torus that is not twisted where it closes

A mistake in the text is reported with its line, and then nothing is written. A body that `sweep`
will skip is written all the same. A warning says why, unless the body's vertices overflow (23) or
a mere rounding decides.
"""

import math
import re
import struct
import sys
from collections import namedtuple
from decimal import Decimal
from io import BytesIO, TextIOWrapper
from itertools import zip_longest

import command
from contents import KINDS
from limits import warnings

# The sizes of each kind. All must be given, save `centred`.
SIZES = {
    "ribbon": ["width"],
    "tube": ["divisions", "radius"],
    "capsule": ["divisions", "longitudes", "radius"],
    "torus": ["divisions", "radius"],
    "closed cylinder": ["divisions", "layers", "radius", "length", "centred"],
    "seamless torus": ["divisions", "radius"],
}
MOST_POINTS = 512  # `sweep` stops reading at a record of more.
LARGEST_WORD = 2**32 - 1
NUMBER = re.compile(r"[+-]?([0-9]+\.?[0-9]*|\.[0-9]+)([eE][+-]?[0-9]+)?")

# The number of its line, its kind, its sizes by name, its points (triples of floats), and the
# numbers of their lines.
Body = namedtuple("Body", "line kind sizes points lines")


class Mistake(Exception):
    """A line of the text that cannot be read, and what is wrong with it."""


def single(text):
    """The 32-bit float that is nearest to a decimal number; ties go to the even one.

    The 64-bit float between is rounded to odd, so that rounding twice is as good as rounding once.
    """
    if not NUMBER.fullmatch(text):
        raise ValueError("'%s' is not a number such as 12, -0.5 or 1e-3" % text)
    between = float(text)
    if 0 < abs(between) < math.inf and Decimal(text) != between:
        is_even = struct.pack("<d", between)[0] % 2 == 0
        towards = math.inf if Decimal(text) > between else -math.inf
        between = math.nextafter(between, towards) if is_even else between
    try:
        return struct.unpack("<f", struct.pack("<f", between))[0]
    except OverflowError:
        return math.copysign(math.inf, between)


def finite(text):
    value = single(text)
    if math.isinf(value):
        raise ValueError("'%s' is too large for a 32-bit float" % text)
    return value


def whole(text):
    if not re.fullmatch("[0-9]+", text):
        raise ValueError("'%s' is not a whole number such as 12" % text)
    if int(text) > LARGEST_WORD:
        raise ValueError("'%s' is too large" % text)
    return int(text)


def yes_or_no(text):
    if text.lower() not in ("yes", "no"):
        raise ValueError("'%s' is neither yes nor no" % text)
    return text.lower() == "yes"


VALUES = {"divisions": whole, "longitudes": whole, "layers": whole, "centred": yes_or_no}


def kind_of(words):
    """The kind that a line begins with."""
    for kind in SIZES:
        if [word.lower() for word in words[:len(kind.split())]] == kind.split():
            return kind
    told = "unknown body '%s': expected %s, or a point x y z"
    raise ValueError(told % (words[0], ", ".join(SIZES)))


def sizes_of(kind, words):
    """The sizes in the words behind a kind: names and values in turn."""
    sizes = {}
    for name, value in zip_longest(map(str.lower, words[::2]), words[1::2]):
        if "=" in name:
            raise ValueError("'%s': write %s" % (name, " ".join(name.split("="))))
        if name not in SIZES[kind]:
            expected = ", ".join(SIZES[kind])
            raise ValueError("a %s has no size '%s': expected %s" % (kind, name, expected))
        if name in sizes:
            raise ValueError("%s is given twice" % name)
        if value is None:
            raise ValueError("%s has no value" % name)
        try:
            sizes[name] = VALUES.get(name, finite)(value)
        except ValueError as why:
            raise ValueError("%s: %s" % (name, why)) from None
    missing = [name for name in SIZES[kind] if name not in sizes and name != "centred"]
    if missing:
        raise ValueError("this %s lacks %s" % (kind, " and ".join(missing)))
    return sizes


def add_point(body, words, line):
    if body is None:
        raise ValueError("a point before the first body: expected %s" % ", ".join(SIZES))
    if body.kind == "closed cylinder":
        raise ValueError("a closed cylinder has no points: it stands along the axis y")
    if len(words) != 3:
        raise ValueError("a point has three coordinates, x y z; here are %d" % len(words))
    if len(body.points) == MOST_POINTS:
        raise ValueError("a body has at most %d points: `sweep` reads no more" % MOST_POINTS)
    body.points.append(tuple(finite(word) for word in words))
    body.lines.append(line)


def parse(lines):
    """The bodies of a text."""
    bodies = []
    for line, text in enumerate(lines, 1):
        text = text.split("#")[0]
        words = text.split()
        try:
            if "," in text:
                raise ValueError("words and numbers are separated by spaces, not by commas")
            if words and words[0][0].isalpha():
                kind = kind_of(words)
                bodies.append(Body(line, kind, sizes_of(kind, words[len(kind.split()):]), [], []))
            elif words:
                add_point(bodies[-1] if bodies else None, words, line)
        except ValueError as why:
            raise Mistake("%d: %s" % (line, why)) from None
    return bodies


def record(body):
    """The bytes of a body's record. What its kind lacks is 0."""
    number = next(number for number, kind in KINDS.items() if kind == body.kind)
    get = body.sizes.get
    steps = get("longitudes", get("layers", 0))
    size = get("radius", get("width"))
    head = number, get("divisions", 0), steps, get("centred", False), size, get("length", 0)
    points = b"".join(struct.pack("<3f", *point) for point in body.points)
    return struct.pack("<4I2fI", *head, len(body.points)) + points


def main():
    name, = command.arguments(__doc__, "[TEXT]")
    data = command.read(name)
    name = name or "standard input"
    if b"\0" in data:
        sys.exit("%s: this is not a text in UTF-8" % name)
    try:
        bodies = parse(TextIOWrapper(BytesIO(data), encoding="utf-8-sig", errors="replace"))
    except Mistake as mistake:
        sys.exit("%s:%s" % (name, mistake))
    if not bodies:
        sys.exit("%s: there is no body in this text" % name)
    for line, why in warnings(bodies):
        command.warn("%s:%d: warning: `sweep` will skip this body: %s" % (name, line, why))
    command.write(b"".join(map(record, bodies)))


if __name__ == "__main__":
    main()
