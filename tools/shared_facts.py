#!/usr/bin/env python3
"""Lists what the functions of crates/NAME/src/*.rt share, so that one sees what a type could carry.

    python3 tools/shared_facts.py [FOLDER]

FOLDER is a checkout of this repository (the present folder, if none is given). Two lists are
printed, the most frequent first:

- facts that stand in the `requires` of three or more functions, each with these functions;
- three parameters or more that three or more functions take together, by their names.

Both are found in the text alone: what differs in spelling counts as different, and parameters of
the same names may have different types. docs/DESIGN-PASS.md cites the counts.
"""
import collections
import itertools
import pathlib
import re
import sys

LEAST = 3
CLAUSE = re.compile(r"\b(requires|ensures)\b\s*(\w+)?\s*\{")
FUNCTION = re.compile(r"\bfn (\w+)(?:<[^>]*>)?\(")


def closing(text, start, opening, end):
    """Returns the place behind the bracket that closes the one before `start`."""
    depth = 1
    while depth:
        depth += {opening: 1, end: -1}.get(text[start], 0)
        start += 1
    return start


def functions(text):
    """Yields the name, the parameters and the `requires` of each function."""
    for found in FUNCTION.finditer(text):
        behind = closing(text, found.end(), "(", ")")
        facts, place = [], behind
        while place < len(text) and text[place] not in "{;":
            clause = CLAUSE.match(text, place)
            if clause is None:
                place += 1
                continue
            place = closing(text, clause.end(), "{", "}")
            if clause.group(1) == "requires":
                facts.append(" ".join(text[clause.end():place - 1].split()))
        yield found.group(1), text[found.end():behind - 1], facts


def names(parameters):
    """Returns the names of the parameters."""
    parts = re.split(r",(?![^<\[(]*[>\])])", parameters)
    return [part.split(":")[0].strip() for part in parts if part.split(":")[0].strip()
            and ":" in part]


def main(folder):
    facts = collections.defaultdict(list)
    groups = collections.defaultdict(list)
    for file in sorted(pathlib.Path(folder).glob("crates/*/src/*.rt")):
        text = re.sub(r"//[^\n]*", "", file.read_text())
        for name, parameters, required in functions(text):
            where = f"{file.parts[-3]}::{file.stem}::{name}"
            for fact in required:
                facts[fact.replace(".old", "").replace(".now", "")].append(where)
            for size in range(LEAST, 9):
                for group in itertools.combinations(names(parameters), size):
                    groups[group].append(where)

    print("facts that three or more functions require:")
    for fact, where in sorted(facts.items(), key=lambda item: -len(item[1])):
        if len(where) >= LEAST:
            print(f"{len(where)}  {fact}  |  {', '.join(where)}")

    print("parameters that three or more functions take together:")
    shown = []
    for group, where in sorted(groups.items(), key=lambda item: (-len(item[1]), -len(item[0]))):
        covered = any(set(group) <= set(other) and set(where) <= set(at) for other, at in shown)
        if len(where) >= LEAST and not covered:
            shown.append((group, where))
            print(f"{len(where)}  {' '.join(group)}  |  {', '.join(where)}")


if __name__ == "__main__":
    main(sys.argv[1] if len(sys.argv) > 1 else ".")
