"""What the tests of the scripts in docs/ share: where things are, and how a script is run."""

import struct
import subprocess
import sys
from pathlib import Path

ROOT = Path(__file__).resolve().parents[2]
HARNESS = ROOT / "examples/harness.set"
SEAM = ROOT / "examples/seam.set"
SETS = sorted((ROOT / "tests/records").glob("*.set")) + [HARNESS, SEAM]
SWEEP = ROOT / "crates/sweep/out/sweep"

sys.path.insert(0, str(ROOT / "docs"))


def single(number):
    """The nearest 32-bit float."""
    return struct.unpack("<f", struct.pack("<f", float(number)))[0]


def command_line(script, *arguments):
    return [sys.executable, "-B", str(ROOT / "docs" / script), *map(str, arguments)]


def run(script, *arguments, given=b"", streams=""):
    """Runs a script of docs/ with bytes as its standard input.

    `streams` are redirections as the shell writes them, such as "> /dev/full" or "2>&-".
    """
    command = ["sh", "-c", 'exec "$@" ' + streams, "sh", *command_line(script, *arguments)]
    return subprocess.run(command, input=given, capture_output=True, timeout=60)


def swept(records):
    """What `sweep` writes for these records."""
    done = subprocess.run([SWEEP], input=records, capture_output=True, timeout=60, check=True)
    return done.stdout
