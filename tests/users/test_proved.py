"""command/proved: when it builds over what the gate's `rt ci` left, and when by `rt`. `rt` and `rattle` only write down that they were called, and make a file."""
import os
import shutil
import unittest

from common import ROOT, Case

RT = '''#!/bin/sh
[ "$1" = doc ] && echo "$KIT/START-HERE.md" && exit
echo "rt $1 ${PWD##*/}" >>"$CALLS"
mkdir -p out
[ "$1" = lib ] && echo "by rt" >out/libferat_c.a
[ "$1" = run ] && echo "by rt" >out/verdict
exit 0
'''
RATTLE = '''#!/bin/sh
echo "rattle $1 ${PWD##*/}" >>"$CALLS"
[ ! -e "$CALLS.broken" ] || exit 1
for made; do :; done
echo "by rattle" >"$made"
'''
LIBRARY = "crates/lines/out/rlib/lines.rlib/format"


class Proved(Case):
    def setUp(self):
        super().setUp()
        self.copy, kit = os.path.join(self.folder, "a copy"), os.path.join(self.folder, "kit")
        os.makedirs(os.path.join(self.copy, "command"))
        for name in ["command/proved", "crates.txt"]:
            shutil.copy2(os.path.join(ROOT, name), os.path.join(self.copy, name))
        for name in ["crates/lines/src/lib.rt", "crates/ferat_c/src/lib.rt", "crates/verdict/src/main.rt", LIBRARY, "crates/verdict/out/verdict"]:
            self.put(name, "by rt ci\n")
        for name, text in [("tools/rt", RT), ("kit/bin/rattle", RATTLE)]:
            os.makedirs(os.path.join(self.folder, os.path.dirname(name)))
            self.write(name, text)
            os.chmod(os.path.join(self.folder, name), 0o755)
        self.calls = os.path.join(self.folder, "calls")
        path = f"{os.path.join(self.folder, 'tools')}:{os.environ['PATH']}"
        self.more = {"env": os.environ | {"PATH": path, "CALLS": self.calls, "KIT": kit}}

    def put(self, name, text):
        path = os.path.join(self.copy, name)
        os.makedirs(os.path.dirname(path), exist_ok=True)
        with open(path, "w", encoding="utf-8") as file:
            file.write(text)

    def proved(self, name, made):
        """Has `name` proved; answers the calls, and what stands where README says."""
        self.write("calls", "")
        status, _, err = self.run_in([os.path.join(self.copy, "command/proved"), name], **self.more)
        self.assertEqual(status, 0, err)
        with open(self.calls, encoding="utf-8") as file:
            calls = file.read().splitlines()
        if made is None:
            return calls, None
        with open(os.path.join(self.copy, "target", made), encoding="utf-8") as file:
            return calls, file.read().strip()

    def library(self):
        return self.proved("ferat_c", "staticlib/libferat_c.a")

    def program(self):
        return self.proved("verdict", "bin/verdict")

    def test_without_a_note(self):
        self.assertEqual(self.library(), (["rt lib ferat_c"], "by rt"))
        self.assertEqual(self.program(), (["rt run verdict"], "by rt"))

    def test_over_what_rt_ci_left(self):
        self.assertEqual(self.proved("--note", None)[0], [])
        for _ in range(2):
            self.assertEqual(self.library(), (["rattle build ferat_c"], "by rattle"))
            self.assertEqual(self.program(), ([], "by rt ci"))

    def test_a_build_that_fails(self):
        self.proved("--note", None)
        self.write("calls.broken", "")
        self.assertEqual(self.library(), (["rattle build ferat_c", "rt lib ferat_c"], "by rt"))

    def test_changes_are_noticed(self):
        """A source, a file more, the list of crates, a library, the program: changed, and then put back."""
        changes = ["crates/lines/src/lib.rt", "crates/lines/proofs/More.antt", "crates.txt", LIBRARY, "crates/verdict/out/verdict"]
        self.proved("--note", None)
        for name in changes:
            path = os.path.join(self.copy, name)
            old = None
            if os.path.exists(path):
                with open(path, encoding="utf-8") as file:
                    old = file.read()
            with self.subTest(name):
                self.put(name, "another")
                self.assertEqual(self.library(), (["rt lib ferat_c"], "by rt"))
                if old is None:
                    os.remove(path)
                else:
                    self.put(name, old)
                self.assertEqual(self.library(), (["rattle build ferat_c"], "by rattle"))


if __name__ == "__main__":
    unittest.main()
