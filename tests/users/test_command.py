"""The verbs, standard input and output, lists, memory."""
import os
import subprocess
import unittest

from common import A, ACCEPTED, COMMAND, PROGRAM, PROOF, RESOLUTION, ROOT, Case

# Without an `o` line, an `e` line of 500,000 literals is compared with each of 8,192 clauses, and fails at the last copy's annotation.
SLOW = "p cnf 2 8192\na 1 0\ne 2 0\n" + "1 2 0\n" * 8192
SLOW_PROOF = "x 1 0 2 0 -1 0\nx 2 0 2 0 0\ne " + "1 " * 500_000 + "2 0\n"


class Verbs(Case):
    def test_help_and_version(self):
        for words in [["help"], ["--help"], ["help", "ferat"], ["help", "ferp"], ["help", "help"], ["help", "version"], ["--help", "ferp"]]:
            status, out, err = self.run_in([COMMAND, *words])
            self.assertEqual((status, err), (0, ""))
            self.assertTrue(out.startswith(f"usage: hutsvida {(words[1:] or ['VERB'])[0]}"), out)
        for words in [["version"], ["--version"]]:
            status, out, err = self.run_in([COMMAND, *words])
            self.assertEqual((status, err), (0, ""))
            self.assertRegex(out, r"\Ahutsvida \d+\.\d+\.\d+\nsources [0-9a-f]{64}\n\Z")

    def test_every_verb_has_help(self):
        _, out, _ = self.run_in([COMMAND, "help"])
        verbs = {line.split()[0] for line in out.splitlines() if line.startswith("  ")}
        texts = {name[:-4] for name in os.listdir(os.path.join(ROOT, "command/help"))} - {"main"}
        self.assertEqual(verbs, texts)

    def test_sources_are_named(self):
        """`version` prints the sum that its help says how to make."""
        _, text, _ = self.run_in([COMMAND, "help", "version"])
        line = next(line for line in text.splitlines() if "sha256sum" in line)
        _, made, _ = self.run_in(["bash", "-c", line], cwd=ROOT)
        _, out, _ = self.run_in([COMMAND, "version"])
        self.assertEqual(out.split()[-1], made.split()[0])

    def test_wrong_usage(self):
        f, c = self.write("f", A), self.write("c", PROOF)
        wrong = [[], [f, c], ["help", "x"], ["help", "ferat", "x"], ["version", "x"], ["FERP", f, c]]
        for words in wrong + [[verb, *names] for verb in ["ferat", "ferp"] for names in [[], [f], [f, c, f], ["--help"]]]:
            status, out, err = self.run_in([COMMAND, *words])
            with self.subTest(words):
                self.assertEqual((status, out), (2, ""))
                self.assertGreater(len(err), 20)
                if words and words[0] in ["ferat", "ferp"]:
                    self.assertIn(f"usage: hutsvida {words[0]} FORMULA CERTIFICATE", err)

    def test_each_verb_checks_its_kind(self):
        """A list with a certificate of either kind: the other one is malformed, and the list goes on."""
        f, ferat, ferp = self.write("f", A), self.write("c.ferat", PROOF), self.write("c.ferp", RESOLUTION)
        for verb, own, other in [("ferat", ferat, ferp), ("ferp", ferp, ferat)]:
            self.assertEqual(self.run_in([COMMAND, verb, f, own, f, own]), (0, ACCEPTED * 2, ""))
            status, out, err = self.run_in([COMMAND, verb, f, own, f, other, f, own])
            verdicts = [line for line in out.splitlines(True) if not line.startswith(" ")]
            self.assertEqual((status, verdicts, err), (1, [ACCEPTED, "refused,2,2,2,0,0,0\n", ACCEPTED], ""))


class Streams(Case):
    def test_standard_input(self):
        f, c, ferp = self.write("f", A), self.write("c", PROOF), self.write("c.ferp", RESOLUTION)
        self.write("-", "neither")
        for words, data in [(["ferat", "-", c], A), (["ferat", f, "-"], PROOF), (["ferp", "-", ferp], A), (["ferp", f, "-"], RESOLUTION)]:
            done = subprocess.run([COMMAND, *words], cwd=self.folder, input=data.encode(), capture_output=True, check=False)
            self.assertEqual((done.returncode, done.stdout.decode()), (0, ACCEPTED))
        done = subprocess.run([COMMAND, "ferat", f, "-"], cwd=self.folder, input=b"5", capture_output=True, check=False)
        self.assertEqual(done.stdout.decode(), "refused,2,2,1,0,0,0\n  -:1: malformed: 5\n    the line ends without its 0\n")

    def test_standard_input_once(self):
        status, out, err = self.run_in([COMMAND, "ferat", "-", "-"])
        self.assertEqual((status, out), (2, ""))
        self.assertIn("standard input", err)
        self.assertEqual(self.run_in([COMMAND, "ferat", "./f", self.write("f", "")])[0], 1)

    def test_closed_streams(self):
        """Closed output, closed input that is asked for, output that no one reads, and no room for it: status 2 and a message."""
        self.write("f", A), self.write("c", PROOF)
        for program in [COMMAND, PROGRAM]:
            for line in ['"$0" ferat f c >&-', '"$0" help >&-', '"$0" ferat f - <&-', '"$0" ferat f c >/dev/full', '{ sleep 0.2; "$0" ferat f c; echo $? >status; } | true; sleep 0.1; until [ -s status ]; do sleep 0.1; done; exit "$(cat status)"']:
                status, _, err = self.run_in(["bash", "-c", line, program])
                with self.subTest(line):
                    self.assertEqual(status, 2)
                    self.assertRegex(err, r"\Ahutsvida: cannot (print|read)")
        # input that is not asked for may be closed
        self.assertEqual(self.run_in(["bash", "-c", '"$0" ferat f c <&-', COMMAND])[:2], (0, ACCEPTED))

    def test_verdicts_when_known(self):
        """The verdict on a pair is printed while the next one is being checked."""
        names = [self.write(name, data) for name, data in [("f", A), ("c", PROOF), ("slow", SLOW), ("slow proof", SLOW_PROOF)]]
        with subprocess.Popen([COMMAND, "ferat", *names], cwd=self.folder, stdout=subprocess.PIPE) as running:
            try:
                self.assertEqual(running.stdout.readline().decode(), ACCEPTED)
                with self.assertRaises(subprocess.TimeoutExpired):
                    running.wait(0.5)
            finally:
                running.kill()

    def test_trouble_before_any_check(self):
        """A file of the last pair that is not there: no pair is checked."""
        names = [self.write(name, data) for name, data in [("f", A), ("c", PROOF), ("slow", SLOW), ("slow proof", SLOW_PROOF)]]
        status, out, err = self.run_in([COMMAND, "ferat", *names, "f", "missing"])
        self.assertEqual((status, out), (2, ""))
        self.assertIn("missing", err)


class Memory(Case):
    def test_memory_that_cannot_be_had(self):
        """Under every limit of memory: the verdict, or status 2 with a message."""
        self.write("f", A), self.write("c", PROOF)
        short = 0
        for kib in [*range(4_000, 40_000, 1_000), 200_000]:
            status, out, err = self.run_in(["sh", "-c", f'ulimit -v {kib} && exec "$0" ferat f c', PROGRAM])
            with self.subTest(kib):
                if status == 0:
                    self.assertEqual((out, err), (ACCEPTED, ""))
                else:
                    self.assertEqual((status, out), (2, ""))
                    self.assertRegex(err, r"\Ahutsvida: (not enough memory|cannot start the check: .*)\n\Z")
                    short += 1
        self.assertEqual(status, 0)
        self.assertGreater(short, 5)


if __name__ == "__main__":
    unittest.main()
