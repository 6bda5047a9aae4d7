"""When ./hutsvida builds: a copy of the checkout with three of its crates, and with `rt` and `cargo` that only write down that they were called.
`rt` also makes folders out, as it does in each crate that it proves, and the library there."""
import os
import shutil
import subprocess
import unittest

from common import ROOT, Case

RT = '''#!/bin/sh
echo "rt $*" >>"$CALLS"
echo "rt: chose --jobs 2 for lines"
echo "rt: something else"
mkdir -p out ../lines/out
[ ! -e "$CALLS.broken" ] || { echo "a proof that fails"; exit 1; }
echo >out/libferat_c.a
'''
CARGO = '''#!/bin/sh
echo "cargo $HUTSVIDA_SOURCES" >>"$CALLS"
'''
SOURCE = "crates/lines/src/lib.rt"


class Built(Case):
    def setUp(self):
        super().setUp()
        self.copy = os.path.join(self.folder, "a copy")
        os.makedirs(os.path.join(self.copy, "target/command/release"))
        for name in ["crates/lines", "crates/rules", "crates/ferat_c", "command"]:
            shutil.copytree(os.path.join(ROOT, name), os.path.join(self.copy, name), ignore=shutil.ignore_patterns("out"))
        for name in ["hutsvida", "crates.txt", "target/command/release/hutsvida", "target/command/release/fresh"]:
            shutil.copy2(os.path.join(ROOT, name), os.path.join(self.copy, name))
        tools = os.path.join(self.folder, "tools")
        os.mkdir(tools)
        for name, text in [("rt", RT), ("cargo", CARGO)]:
            self.write(f"tools/{name}", text)
            os.chmod(os.path.join(tools, name), 0o755)
        self.calls = os.path.join(self.folder, "calls")
        self.more = {"env": os.environ | {"PATH": f"{tools}:{os.environ['PATH']}", "CALLS": self.calls}}

    def hutsvida(self, *words):
        """Status, output, messages and the calls of `rt` and `cargo`."""
        if os.path.exists(self.calls):
            os.remove(self.calls)
        status, out, err = self.run_in([os.path.join(self.copy, "hutsvida"), *words], **self.more)
        calls = []
        if os.path.exists(self.calls):
            with open(self.calls, encoding="utf-8") as file:
                calls = [line.split()[0] for line in file]
        return status, out, err, calls

    def assert_builds(self):
        """It builds, says so with the name of the log, and does not build again."""
        status, out, err, calls = self.hutsvida("version")
        self.assertEqual((status, calls), (0, ["rt", "cargo"]), err)
        self.assertTrue(out.startswith("hutsvida "))
        self.assertIn(os.path.join(self.copy, "target/command.log"), err)
        self.assertIn("hutsvida: proving lines\n", err)
        self.assertNotIn("something else", err)
        self.assertEqual(self.hutsvida("version"), (0, out, "", []))

    def test_changes_are_noticed(self):
        self.assert_builds()
        path = os.path.join(self.copy, SOURCE)
        old = os.stat(path)
        with open(path, "a", encoding="utf-8") as file:
            file.write("\n")
        self.assert_builds()
        # the same size, and older than all
        with open(path, "r+", encoding="utf-8") as file:
            file.write("#")
        os.utime(path, ns=(old.st_atime_ns, old.st_mtime_ns - 10**15))
        self.assert_builds()
        added = os.path.join(self.copy, "crates/rules/specs/More.antt")
        with open(added, "w", encoding="utf-8"):
            pass
        self.assert_builds()
        os.remove(added)
        self.assert_builds()
        # a part that goes, and one that comes
        part = os.path.join(self.copy, "crates/rules/proofs")
        os.rename(part, os.path.join(self.folder, "proofs"))
        self.assert_builds()
        os.rename(os.path.join(self.folder, "proofs"), part)
        self.assert_builds()
        os.utime(os.path.join(self.copy, "crates.txt"))
        self.assert_builds()
        shutil.rmtree(os.path.join(self.copy, "target/command"))
        self.assertEqual(self.hutsvida("version")[3], ["rt", "cargo"])

    def test_what_rt_writes_is_no_change(self):
        """Folders crates/*/out come, change and go; the library is where README says."""
        self.assert_builds()
        self.assertTrue(os.path.exists(os.path.join(self.copy, "target/staticlib/libferat_c.a")))
        os.makedirs(os.path.join(self.copy, "crates/rules/out/incremental"))
        with open(os.path.join(self.copy, "crates/lines/out/more"), "w", encoding="utf-8"):
            pass
        shutil.rmtree(os.path.join(self.copy, "crates/ferat_c/out"))
        self.assertEqual(self.hutsvida("version")[3], [])

    def test_a_failed_build(self):
        """Status 2, the log's end and its name; and it is tried again."""
        self.write("calls.broken", "")
        for _ in range(2):
            status, out, err, calls = self.hutsvida("ferat", "f", "c")
            self.assertEqual((status, out, calls), (2, "", ["rt"]))
            self.assertIn("a proof that fails\n", err)
            self.assertIn(os.path.join(self.copy, "target/command.log"), err)
        os.remove(os.path.join(self.folder, "calls.broken"))
        self.assert_builds()

    def test_calls_side_by_side(self):
        program = os.path.join(self.copy, "hutsvida")
        silent = {"stdout": subprocess.DEVNULL, "stderr": subprocess.DEVNULL}
        running = [subprocess.Popen([program, "version"], **silent, **self.more) for _ in range(4)]
        self.assertEqual([process.wait() for process in running], [0] * 4)
        with open(self.calls, encoding="utf-8") as file:
            self.assertEqual(len(file.readlines()), 2)

    def test_help_before_any_build(self):
        for words, status in [(["help"], 0), (["--help"], 0), (["help", "ferat"], 0), (["help", "ferp"], 0), ([], 2)]:
            found, out, err, calls = self.hutsvida(*words)
            self.assertEqual((found, calls), (status, []))
            self.assertTrue((out + err).startswith("usage: hutsvida "))

    def test_tools_are_asked_for(self):
        os.symlink("/bin/sh", os.path.join(self.folder, "tools/sh"))
        for name in ["bash", "dirname", "readlink", "env"]:
            os.symlink(shutil.which(name), os.path.join(self.folder, "tools", name))
        os.remove(os.path.join(self.folder, "tools/cargo"))
        self.more["env"]["PATH"] = os.path.join(self.folder, "tools")
        status, _, err, calls = self.hutsvida("version")
        self.assertEqual((status, calls), (2, []))
        self.assertIn("cargo is needed", err)


if __name__ == "__main__":
    unittest.main()
