"""docs/command.py: arguments, and input and output that fail, of every script alike."""

import os
import subprocess
import unittest

from common import HARNESS, ROOT, command_line, run

import contents
import export
import picture
import records

# The scripts that print, and what each reads.
PRINTING = {"records.py": ROOT / "examples/harness.txt", "contents.py": HARNESS, "picture.py": HARNESS}
USAGE = {"records.py": "[TEXT]", "contents.py": "[SET]", "picture.py": "[--stripes=BODIES] [SET]",
         "export.py": "SET OUTPUT [BODY]"}


class Arguments(unittest.TestCase):
    def test_help(self):
        for module in (records, contents, picture, export):
            for arguments in (["-h"], [HARNESS, "--help"]):
                done = run(module.__name__ + ".py", *arguments)
                self.assertEqual((done.returncode, done.stderr), (0, b""), module)
                self.assertEqual(done.stdout.decode(), module.__doc__)

    def test_usage(self):
        """Too many arguments or too few, an empty one, one that begins with `-` and is no option,
        an option without a value, of another script, or given twice."""
        wrong = [(script, odd) for script in USAGE for odd in (["--x"], ["-"], [""])]
        wrong += [(script, [name, name]) for script, name in PRINTING.items()]
        wrong += [(script, [HARNESS, "--stripes"]) for script in PRINTING]
        wrong += [(script, [HARNESS, "--stripes=0"]) for script in ("records.py", "contents.py")]
        for odd in (["--stripes=0", "--stripes=1"], ["--stripes=0", HARNESS, "--stripes=0"],
                    ["--stripes=0", HARNESS, HARNESS], ["--stripe=0"], ["-stripes=0"]):
            wrong.append(("picture.py", odd))
        wrong.append(("export.py", ["--stripes=0", HARNESS, "x.stl"]))
        for odd in ([], [HARNESS], [HARNESS, "x.stl", "-1"], [HARNESS, "x.stl", "1", "2"]):
            wrong.append(("export.py", odd))
        for script, arguments in wrong:
            done = run(script, *arguments)
            told = "usage: %s %s (--help says more)\n" % (script, USAGE[script])
            self.assertEqual((done.returncode, done.stdout), (1, b""), (script, arguments))
            self.assertEqual(done.stderr.decode(), told)


    def test_option(self):
        """An option stands before the other arguments or after them."""
        before, after = run("picture.py", "--stripes=9", HARNESS), run("picture.py", HARNESS, "--stripes=9")
        self.assertEqual((before.returncode, before.stdout), (0, after.stdout))
        self.assertNotEqual(before.stdout, run("picture.py", HARNESS).stdout)


class Streams(unittest.TestCase):
    def fails(self, command, streams, said):
        done = run(*command, streams=streams)
        self.assertEqual((done.returncode, done.stdout), (1, b""), (command, streams))
        self.assertEqual(done.stderr.decode(), said + "\n", (command, streams))

    def test_output(self):
        """Standard output that is full, closed or open for reading alone."""
        for command in [*PRINTING.items(), ("export.py", "--help")]:
            self.fails(command, "> /dev/full", "standard output: No space left on device")
            self.fails(command, ">&-", "standard output: Bad file descriptor")
            self.fails(command, "1< /dev/null", "standard output: Bad file descriptor")

    def test_input(self):
        """Standard input that is closed or open for writing alone."""
        for script in PRINTING:
            for streams in ("<&-", "0> /dev/null", "<&- >&-"):
                self.fails([script], streams, "standard input: Bad file descriptor")

    def test_broken_pipe(self):
        """A pipe whose reader has gone ends a script without a word."""
        for command in PRINTING.items():
            reader, writer = os.pipe()
            os.close(reader)
            done = subprocess.run(command_line(*command), stdout=writer, stderr=subprocess.PIPE, timeout=60)
            os.close(writer)
            self.assertEqual((done.returncode, done.stderr), (1, b""), command)

    def test_named(self):
        """A named file is read though standard input is closed, and printed as from there."""
        for script, name in PRINTING.items():
            done = run(script, name, streams="<&-")
            self.assertEqual((done.returncode, done.stderr), (0, b""), script)
            self.assertEqual(done.stdout, run(script, given=name.read_bytes()).stdout)


if __name__ == "__main__":
    unittest.main()
