"""What the scripts share as commands: their arguments, and bytes in and out.

Whatever fails ends the script with one line on standard error and exit status 1.
"""

import sys
from pathlib import Path


def taken(given, option):
    """Takes the first argument that begins with an option, such as "--first=", and returns the
    rest of it. A second one is left among the arguments."""
    for place, word in enumerate(given):
        if word.startswith(option):
            return given.pop(place)[len(option):]
    return None


def arguments(about, expected):
    """The arguments of a script that expects, for example, "[--first=NUMBER] SET OUTPUT [BODY]".

    None stands for one in brackets that is left out. Options are the first of those expected; the
    user may put them anywhere. `about` is what --help prints.
    """
    given, names = sys.argv[1:], expected.split()
    if "-h" in given or "--help" in given:
        write(about.encode())
        sys.exit()
    options = [name[1:].split("=")[0] + "=" for name in names if name.startswith("[--")]
    values, names = [taken(given, option) for option in options], names[len(options):]
    least = sum(not name.startswith("[") for name in names)
    odd = any(word[:1] in ("", "-") for word in given)
    if odd or not least <= len(given) <= len(names):
        sys.exit("usage: %s %s (--help says more)" % (Path(sys.argv[0]).name, expected))
    return values + given + [None] * (len(names) - len(given))


def read(name=None):
    """All bytes of the named file, or of standard input."""
    try:
        with open(name or 0, "rb") as file:
            return file.read()
    except OSError as why:
        sys.exit("%s: %s" % (name or "standard input", why.strerror))


def write(data, name=None):
    """Writes bytes to the named file, or to standard output."""
    try:
        # Not through sys.stdout, which would try again at the end to write what it could not.
        with open(name or 1, "wb") as file:
            file.write(data)
    except BrokenPipeError:
        sys.exit(1)  # Without a word: the reader wants no more, as `head -1` does.
    except OSError as why:
        sys.exit("%s: %s" % (name or "standard output", why.strerror))


def warn(line):
    """Prints a line on standard error. If that is closed, `print` would use standard output."""
    if sys.stderr:
        print(line, file=sys.stderr)
