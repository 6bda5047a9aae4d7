"""What the tests of the command share: its call, and folders of their own."""
import os
import subprocess
import tempfile
import unittest

ROOT = os.path.dirname(os.path.dirname(os.path.dirname(os.path.abspath(__file__))))
COMMAND = os.path.join(ROOT, "hutsvida")
# the program that ./hutsvida runs, and that is installed
PROGRAM = os.path.join(ROOT, "target/command/release/hutsvida")

A = "p cnf 2 2\na 1 0\ne 2 0\n1 2 0\n1 -2 0\n"
PROOF = "x 1 0 2 0 -1 0\no 1 2 0\ne 1 0\ne -1 0\n0\n"
ACCEPTED = "accepted,0,0,0,2,1,0\n"
# the same refutation in FERP, with the same verdict
RESOLUTION = "x 1 0 2 0 -1 0\n1 1 0 1 0\n2 -1 0 2 0\n3 0 1 2 0\n"


def text_of(path):
    with open(os.path.join(ROOT, path), encoding="utf-8") as file:
        return file.read()


class Case(unittest.TestCase):
    """Each test has a folder of its own, which is removed after it."""

    def setUp(self):
        folder = tempfile.TemporaryDirectory()
        self.addCleanup(folder.cleanup)
        self.folder = folder.name

    def write(self, name, data):
        """A file in the folder; answers its name, which is looked for there."""
        data = data.encode() if isinstance(data, str) else data
        with open(os.path.join(self.folder, name), "wb") as file:
            file.write(data)
        return name

    def run_in(self, words, **more):
        """Status, standard output and standard error of a program."""
        more = {"cwd": self.folder, "stdin": subprocess.DEVNULL, "stdout": subprocess.PIPE} | more
        done = subprocess.run(words, stderr=subprocess.PIPE, check=False, **more)
        out = done.stdout.decode() if done.stdout is not None else None
        return done.returncode, out, done.stderr.decode()

    def check(self, formula, certificate, verb="ferat"):
        """Status and output of a verb on two files `f` and `c`."""
        names = [self.write("f", formula), self.write("c", certificate)]
        status, out, err = self.run_in([PROGRAM, verb, *names])
        self.assertEqual(err, "")
        return status, out
