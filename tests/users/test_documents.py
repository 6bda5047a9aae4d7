"""README.md and docs/FORMAT.md: what they show is run, word for word."""
import os
import re
import shutil
import unittest

from common import A, COMMAND, PROGRAM, ROOT, Case, text_of


def table(text, header):
    """The rows of the Markdown table with this header."""
    lines = text.split(header + "\n")[1].split("\n")[1:]
    rows = []
    for line in lines:
        if not line.startswith("|"):
            break
        rows.append([cell.strip() for cell in line.strip("|").split("|")])
    return rows


def blocks(text):
    """The fenced blocks: language and contents."""
    return re.findall(r"^```(\w*)\n(.*?)^```$", text, re.M | re.S)


def files_of_checkout():
    """All but what builds make: target, and the folders crates/*/out of rt."""
    found, crates = [], os.path.join(ROOT, "crates")
    for folder, folders, names in os.walk(ROOT):
        made = ["target", ".git"] if folder == ROOT else ["out"] if os.path.dirname(folder) == crates else []
        folders[:] = [name for name in folders if name not in made]
        found += [os.path.join(folder, name) for name in names]
    return sorted(found)


def with_solver(folder):
    """An environment with `cadical`, a stand-in if it is not installed."""
    if shutil.which("cadical") is None:
        os.symlink(os.path.join(ROOT, "tests/users/solver"), os.path.join(folder, "cadical"))
    return os.environ | {"PATH": f"{os.environ['PATH']}:{folder}"}


class Numbers(Case):
    def test_tables_agree(self):
        """The tables of numbers of both documents and of the library."""
        full = table(text_of("docs/FORMAT.md"), "| Number | Word | When | Line |")
        short = table(text_of("README.md"), "| Number | Word | When |")
        words = re.findall(r'^    "([a-z ]+)",$', text_of("command/src/lib.rs"), re.M)
        self.assertEqual([row[:2] for row in full], [[str(number), words[number]] for number in range(1, 18)])
        self.assertEqual([row[:2] for row in short], [row[:2] for row in full])
        # README says more of 15
        self.assertEqual([row[2] for row in short if row[0] != "15"], [row[2] for row in full if row[0] != "15"])

    def assert_pairs(self, verb, header, expected):
        """A table of small pairs, with and without a last byte 10: the verdicts, the words printed, and the numbers met."""
        text = text_of("docs/FORMAT.md")
        words = {row[0]: row[1] for row in table(text, "| Number | Word | When | Line |")}
        numbers = set()
        for row in table(text, header):
            formula, certificate, verdict = [cell.strip("`").replace(" / ", "\n") for cell in row]
            for end in ["", "\n"]:
                _, out = self.check(formula + end, certificate + end, verb)
                first, *rest = out.splitlines()
                self.assertEqual(first, verdict, row)
                number = verdict.split(",")[1]
                numbers.add(int(number))
                if rest:
                    self.assertRegex(rest[0], rf"\A  [fc]:\d+: {words[number]}")
        self.assertEqual(numbers, expected)

    def test_pairs(self):
        self.assert_pairs("ferat", "| Formula | Certificate | Verdict |", {0, *range(2, 15)})

    def test_ferp_pairs(self):
        self.assert_pairs("ferp", "| Formula | FERP certificate | Verdict |", {0, 2, 3, 5, 7, 8, 9, 11, 14, 16, 17})


class Readme(Case):
    def test_commands(self):
        """The commands in order, in one shell; what each block prints; and no file is left behind in the checkout."""
        before, environment = files_of_checkout(), with_solver(self.folder)
        shown = blocks(text_of("README.md"))
        script, expected = "cd \"$1\" || exit 1\n", []
        for (language, commands), (other, output) in zip(shown, shown[1:]):
            if language == "sh":
                self.assertEqual(other, "")
                script += commands + "echo -----\n"
                expected.append(output)
        self.assertGreater(len(expected), 3)
        _, out, err = self.run_in(["bash", "-c", script, "readme", ROOT], env=environment)
        # the additions and deletions of an acceptance are the solver's choice
        same = lambda text: re.sub(r"(accepted,0,0,0,\d+),.*", r"\1", text)
        self.assertEqual([same(part) for part in out.split("-----\n")], [same(part) for part in expected] + [""], err)
        self.assertEqual(files_of_checkout(), before)

    def test_calls(self):
        """Each call that README names is declared: in the header, in the package, in its crate."""
        header, package = text_of("c/hutsvida.h"), text_of("command/src/lib.rs")
        rows = table(text_of("README.md"), "| Call | C and C++ | Rust | Rattle |")
        self.assertEqual(sorted(row[1].strip("`") for row in rows), sorted(re.findall(r"^void (\w+)\(", header, re.M)))
        self.assertEqual(sorted(row[2].strip("`") for row in rows), sorted(re.findall(r"^pub fn (\w+)\(", package, re.M)))
        for row in rows:
            crate, name = row[3].strip("`").split("::")
            sources = os.path.join(ROOT, "crates", crate, "src")
            found = [re.search(rf"^pub fn {name}\b", text_of(os.path.join(sources, file)), re.M) for file in os.listdir(sources)]
            self.assertTrue(any(found), row)

    def test_rust_package(self):
        """The package that README shows, built against the checkout."""
        shown = dict(blocks(text_of("README.md")))
        os.mkdir(os.path.join(self.folder, "src"))
        self.write("src/main.rs", shown["rust"])
        self.write("Cargo.toml", '[package]\nname = "user"\nversion = "0.1.0"\nedition = "2021"\n' + shown["toml"].replace("HUTSVIDA", ROOT))
        names = [os.path.join(ROOT, "examples", name) for name in ["mode.qdimacs", "mode.ferat"]]
        environment = {key: value for key, value in os.environ.items() if key != "CARGO_TARGET_DIR"}
        status, out, err = self.run_in(["cargo", "run", "--offline", "--quiet", "--", *names], env=environment)
        self.assertEqual((status, out), (0, "true 0 0 0\n"), err)

    def test_install(self):
        """README's lines, with a home of the test's; the command runs without the checkout."""
        lines = [line.strip() for line in text_of("README.md").splitlines() if line.startswith("    install -D")]
        self.assertEqual(len(lines), 3)
        status, _, err = self.run_in(["bash", "-ec", "\n".join(lines)], cwd=ROOT, env=os.environ | {"HOME": self.folder})
        self.assertEqual(status, 0, err)
        names = [os.path.join(ROOT, "examples", name) for name in ["mode.qdimacs", "mode.ferat"]]
        found = self.run_in([os.path.join(self.folder, ".local/bin/hutsvida"), "ferat", *names], env={})
        self.assertEqual(found, (0, "accepted,0,0,0,4,3,0\n", ""))

    def test_verdict(self):
        """`verdict` reads the current folder, ends with status 0, and README's test tells acceptance."""
        program = os.path.join(ROOT, "target/bin/verdict")
        self.assertIn("case $(verdict) in accepted,*) .. esac", text_of("README.md"))
        test = f'case $("{program}") in accepted,*) echo yes ;; *) echo no ;; esac'
        self.assertEqual(self.run_in([program])[:2], (0, "refused,2,1,0,0,0,0\n"))
        self.assertEqual(self.run_in(["sh", "-c", test])[1], "no\n")
        self.write("formula.qdimacs", "p cnf 0 1\n0\n")
        self.write("proof.ferat", "e 0\n")
        self.assertEqual(self.run_in(["sh", "-c", test])[1], "yes\n")

    def test_stack(self):
        """The stack that the documents name is enough for `verdict`, and half of it is not."""
        program = os.path.join(ROOT, "target/bin/verdict")
        self.assertIn("It takes about 2.6 MiB of stack.", text_of("README.md"))
        self.write("formula.qdimacs", text_of("examples/mode.qdimacs"))
        self.write("proof.ferat", text_of("examples/mode.ferat"))
        self.assertEqual(self.run_in(["sh", "-c", f'ulimit -s 2700 && exec "{program}"'])[0], 0)
        self.assertNotEqual(self.run_in(["sh", "-c", f'ulimit -s 1350 && exec "{program}"'])[0], 0)

    def test_many(self):
        """README's lines for many certificates: a refused pair shows in the status."""
        text = text_of("README.md")
        line = re.search(r"^    (find runs .*\n.*check)$", text, re.M)[1]
        makefile = re.search(r"^    (all: .*\n(?:    .*\n)+)", text, re.M)[1]
        self.write("Makefile", re.sub(r"^        (?=\S)", "\t", re.sub(r"^    ", "", makefile, flags=re.M), flags=re.M))
        os.symlink(COMMAND, os.path.join(self.folder, "hutsvida"))
        os.mkdir(os.path.join(self.folder, "runs"))
        for name in ["one", "two"]:
            self.write(f"runs/{name}.qdimacs", "p cnf 0 1\n0\n")
            self.write(f"runs/{name}.ferat", "e 0\n")
        self.assertEqual(self.run_in(["sh", "-c", line])[0], 0)
        self.write("runs/two.ferat", "0\n")
        self.assertEqual(self.run_in(["sh", "-c", line])[0], 123)
        if shutil.which("make"):
            shutil.rmtree(os.path.join(self.folder, "runs"), ignore_errors=False)
            os.mkdir(os.path.join(self.folder, "runs"))
            self.write("runs/two.qdimacs", "p cnf 0 1\n0\n")
            self.write("runs/two.ferat", "0\n")
            status, out, _ = self.run_in(["make", "-k", "-j", "8"])
            self.assertEqual((status, "refused,12,2,1,0,0,0" in out), (2, True))


class Expand(Case):
    """examples/expand with `cadical`, or its stand-in, and always with the stand-in."""

    def expand(self, formula, *options):
        words = [os.path.join(ROOT, "examples/expand"), *options, formula, "made.ferat"]
        return self.run_in(words, env=self.environment)

    def setUp(self):
        super().setUp()
        tools = os.path.join(self.folder, "tools")
        os.mkdir(tools)
        self.environment = with_solver(tools)

    def solvers(self):
        return [[], ["--solver", os.path.join(ROOT, "tests/users/solver")]]

    def test_examples(self):
        for name in ["mode", "quantified"]:
            for options in self.solvers():
                formula = os.path.join(ROOT, f"examples/{name}.qdimacs")
                self.assertEqual(self.expand(formula, *options), (0, "", ""))
                status, out, _ = self.run_in([PROGRAM, "ferat", formula, "made.ferat"])
                self.assertEqual((status, out.split(",")[0]), (0, "accepted"))

    def test_stored_formulas(self):
        """Small stored formulas with universals."""
        data = os.path.join(ROOT, "tests/outside/data")
        for name in ["equality-1", "equality-2", "qparity-2", "qparity-3", "figure-2"]:
            formula = os.path.join(data, name + ".qdimacs")
            for options in self.solvers():
                self.assertEqual(self.expand(formula, *options), (0, "", ""), name)
                self.assertEqual(self.run_in([PROGRAM, "ferat", formula, "made.ferat"])[0], 0, name)

    def test_a_true_formula(self):
        self.write("made.ferat", "kept")
        for options in self.solvers():
            status, out, err = self.expand(self.write("f", A.replace("1 -2", "-1 -2")), *options)
            self.assertEqual((status, out), (1, ""))
            self.assertIn("true", err)
        with open(os.path.join(self.folder, "made.ferat"), encoding="utf-8") as file:
            self.assertEqual(file.read(), "kept")

    def test_trouble(self):
        free = self.write("free", "p cnf 1 1\n1 0\n")
        many = self.write("many", "p cnf 16 1\na " + " ".join(map(str, range(1, 16))) + " 0\ne 16 0\n16 0\n")
        for formula, options in [("missing", []), (free, []), (many, []), (self.write("f", A), ["--solver", "./missing"])]:
            status, out, err = self.expand(formula, *options)
            self.assertEqual((status, out), (2, ""), formula)
            self.assertGreater(len(err), 10)
        self.assertFalse(os.path.exists(os.path.join(self.folder, "made.ferat")))


if __name__ == "__main__":
    unittest.main()
