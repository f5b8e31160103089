#!/usr/bin/env python3
"""Brings the definitions and lemmas of this repository to the present spelling: words in snake
case, where the older one had humps. `sumBelow` is `sum_below`, `getD-block` is `get_or-block`.

Run once, at the top of a copy of the older state, on what the toolchain's port.py left there:
docs/PORT.md has the commands. It reads which names specs/ and proofs/ declare, and turns these
alone, in .antt, .rt and .edit files; types, modules, functions of src/ and what stands between
quotation marks keep their names. The lemmas of OTHERWISE get names of their own, most because a
definition has that name. Edits (.edit) get the new names of what port.py turned, too, since it
leaves them alone. Where two names would fall together, the script says so and writes nothing. It
prints each name that it turned beside the new one.
"""

import os
import re
import sys

DECLARED = re.compile(
    r"\s*(?:(?:abbrev|opaque|unfoldable|pub|instance)\s+)*(?:(?:record|data|ruleset)\s+)?"
    r"([^\s:(){},.=|∷⟨⟩]+)(?:\s+[^=]*?)?\s*:(?:\s|$)"
)
# A name: letters, digits, _ and ', with hyphens inside.
NAME = re.compile(r"[A-Za-z_][A-Za-z0-9_']*(?:-[A-Za-z0-9_']+)*")
# Lemmas: the first four would be called as a definition is, the others stand in laws/ beside those
# that port.py left in another form.
OTHERWISE = {
    "carried_on": "carried_on-next",
    "in_order": "same_order",
    "kind_fits": "kind_fits-topology",
    "point_at": "read-points_of",
    "get_d_map": "get_or-map",
    "get_d_part": "get_or-part",
    "get_d_past": "get_or-past",
}
STRING = re.compile(r'"(?:\\.|[^"\\])*"')


def files(endings):
    for folder, folders, names in os.walk("crates"):
        folders[:] = sorted(f for f in folders if f not in ("out", "target"))
        for name in sorted(names):
            if name.endswith(endings):
                yield os.path.join(folder, name)


def read(path):
    with open(path, encoding="utf-8") as file:
        return file.read()


def turned(name):
    """The name in the present spelling. The library's `getD` is its `get_or`."""
    if name in OTHERWISE or not name[0].islower():
        return OTHERWISE.get(name, name)
    words = ["get_or" if word == "getD" else word for word in name.split("-")]
    snake = lambda word: re.sub(r"(?<=[a-z0-9'])([A-Z])", r"_\1", word).lower()
    return "-".join(snake(word) if word[:1].islower() else word for word in words)


def declared():
    names = set()
    for path in files((".antt",)):
        for line in read(path).split("\n"):
            found = DECLARED.match(line)
            if found and NAME.fullmatch(found[1]):
                names.add(found[1])
    return names


def rename(text, table):
    """The text with the names of the table replaced, but for what stands in quotation marks."""
    out, at = [], 0
    replace = lambda part: NAME.sub(lambda name: table.get(name[0], name[0]), part)
    for quoted in STRING.finditer(text):
        out += [replace(text[at : quoted.start()]), quoted[0]]
        at = quoted.end()
    return "".join(out) + replace(text[at:])


def main():
    names = declared()
    table = {name: turned(name) for name in sorted(names) if turned(name) != name}
    together = [old for old, new in table.items() if new in names - OTHERWISE.keys()]
    if together or len(set(table.values())) < len(table):
        print("names that fall together:", ", ".join(together) or "two of the table")
        return 1
    known = names | set(table.values())
    for path in files((".antt", ".rt", ".edit")):
        before = read(path)
        turn = table
        if path.endswith(".edit"):
            turn = {name: turned(name) for name in NAME.findall(before) if turned(name) in known}
        after = rename(before, turn)
        if after != before:
            with open(path, "w", encoding="utf-8") as file:
                file.write(after)
    for old, new in table.items():
        print(old, new)
    return 0


sys.exit(main())
