"""tools/edtloc and tools/edtcheck: what they build, when, and what they add to a run. An `rt` of the test's own stands on the path, which
proves nothing and builds a script; so nothing is said of what the programs do."""
import contextlib
import os
import pty
import re
import shutil
import signal
import subprocess
import time
import unittest

from running import TOOLS, TOP, ToolTest

CRATES = "# names\nlow:\nmiddle: low\nedtloc: middle low\nedtcheck: low\n"
# the program ends with its first word, after its words on both outputs
PROGRAM = '#!/bin/sh\n[ "$1" != sleep ] || exec sleep 60\necho "out $*"; echo "edtloc: $*" >&2; exit "${1:-0}"\n'
RT = """#!/bin/bash
echo "$* in $PWD" >>"$FAKE/calls"
echo "rt: chose --jobs 4 for low"
echo "so far: 1 of 2 functions checked"
. "$FAKE/between"
echo "rt: chose --jobs 1 for middle"
. "$FAKE/between"
mkdir -p out
name=$(basename "$PWD")
printf '#!/bin/sh\\nexit 99\\n' >"out/$name"
chmod 755 "out/$name"
. "$FAKE/then"
cp "$FAKE/program" "out/$name"
chmod 755 "out/$name"
echo proved >"out/$name.stamp"
"out/$name" 2
"""
BUILDS = "tools/edtloc: proves and builds edtloc from its 3 crates; from nothing this takes many minutes\n"
STAGES = "tools/edtloc: crate 1 of 3: low, 0:00\ntools/edtloc: crate 2 of 3: middle, 0:00\ntools/edtloc: built after 0:00\n"


def heed_interrupts():
    signal.signal(signal.SIGINT, signal.SIG_DFL)


class Programs(ToolTest):
    """Runs in a small repository with the tools and the documents of this one."""

    def setUp(self):
        super().setUp()
        for name in "tools/edtloc", "tools/edtcheck", "tools/edt_tools/program.sh", "docs/MESSAGES.md", "CHANGELOG.md":
            os.makedirs(os.path.dirname(self.path(name)), exist_ok=True)
            shutil.copy(os.path.join(TOP, name), self.path(name))
        self.write("crates.txt", CRATES)
        for name in "low/src/lib.rt", "low/specs/Lib.antt", "low/proofs/Lib.antt", "edtloc/src/main.rt", "edtcheck/src/main.rt":
            self.write("crates/" + name, "")
        self.write("fake/between", "")
        self.write("fake/then", "")
        self.write("fake/program", PROGRAM)
        os.chmod(self.write("fake/rt", RT), 0o755)
        self.environment = dict(os.environ, PATH="%s:%s" % (self.path("fake"), os.environ["PATH"]), FAKE=self.path("fake"))

    def start(self, *words, tool="edtloc", **how):
        """Starts a tool in a process group of its own. A test that runs in the background ignores SIGINT, and so would the tool."""
        how = {"stdout": subprocess.PIPE, "stderr": subprocess.PIPE, "preexec_fn": heed_interrupts, **how}
        return subprocess.Popen(
            [self.path("tools", tool), *words], cwd=self.folder, env=self.environment, start_new_session=True, text=True, **how
        )

    def run_program(self, *words, tool="edtloc"):
        """The status, the output and the error text of a tool; times of a build are as if it took no time."""
        run = self.start(*words, tool=tool)
        out, error = run.communicate(timeout=60)
        return run.returncode, out, re.sub(r"[0-9]+:[0-9]{2}$", "0:00", error, flags=re.M)

    def calls(self):
        """How often rt was called."""
        return len(self.read("fake/calls").splitlines()) if os.path.exists(self.path("fake/calls")) else 0

    def wait_for(self, path):
        """Waits until there is a file."""
        until = time.monotonic() + 30
        while not os.path.exists(self.path(path)) and time.monotonic() < until:
            time.sleep(0.02)
        self.assertTrue(os.path.exists(self.path(path)), path)

    def newer(self, path):
        """Makes a file newer than a program that was built just now."""
        later = time.time() + 5
        os.utime(self.path(path), (later, later))

    def test_help_builds_nothing(self):
        version = re.search(r"^## ([0-9.]+)$", self.read("CHANGELOG.md").decode(), re.M)[1]
        for tool, commands in ("edtloc", ["locate CONTROL", "solve PROBLEM", "demo SEED SIDE"]), ("edtcheck", ["CONTROL REPORT"]):
            status, text, error = self.run_program("help", tool=tool)
            self.assertEqual((status, error), (0, ""))
            self.assertTrue(text.startswith("%s %s: " % (tool, version)), text)
            for command in commands:
                self.assertIn("\n  tools/%s %s " % (tool, command), text)
            for word in "--help", "-h":
                self.assertEqual(self.run_program(word, tool=tool), (0, text, ""))
            self.assertEqual(self.run_program(tool=tool), (2, "", text))
        self.assertEqual(self.calls(), 0)
        self.assertFalse(os.path.exists(self.path("out")))

    def test_a_first_build_and_none_after_it(self):
        self.assertEqual(self.run_program("0", "a b"), (0, "out 0 a b\n", BUILDS + STAGES + "edtloc: 0 a b\n"))
        self.assertEqual(self.run_program("0"), (0, "out 0\n", "edtloc: 0\n"))
        self.assertEqual(self.run_program("build"), (0, "", ""))
        self.assertEqual(self.read("fake/calls").decode().replace(self.folder, ""), "run in /crates/edtloc\n")

    def test_each_program_has_crates_of_its_own(self):
        status, _, error = self.run_program("build", tool="edtcheck")
        self.assertEqual((status, error.splitlines()[0]), (0, BUILDS.replace("edtloc", "edtcheck").replace("3", "2").strip()))
        self.assertEqual(sorted(os.listdir(self.path("out"))), ["build.lock", "edtcheck", "edtcheck.begun", "edtcheck.log"])

    def test_what_makes_a_program_stale(self):
        self.run_program("build")
        table = [
            ("crates/low/proofs/Lib.antt", 1), ("crates/edtcheck/src/main.rt", 1), ("crates/low/src/lib.rt", 2),
            ("crates/low/specs/Lib.antt", 3), ("crates.txt", 4),
        ]
        for path, calls in table:
            self.newer(path)
            self.run_program("build")
            self.assertEqual(self.calls(), calls, path)
            os.utime(self.path(path), (1, 1))
        # an edit during the build
        self.newer("crates.txt")
        self.write("fake/then", 'touch -d "1 hour" "$FAKE/../crates/low/src/lib.rt"\n')
        for calls in 5, 6:
            self.run_program("build")
            self.assertEqual(self.calls(), calls)

    def test_sources_that_are_newer_and_the_same(self):
        self.run_program("build")
        self.newer("crates.txt")
        self.write("fake/rt", "#!/bin/sh\necho 'rt: nothing has changed since the last proved build, by out/edtloc.stamp'\n")
        status, out, error = self.run_program("0")
        self.assertEqual((status, out, error), (0, "out 0\n", BUILDS + "tools/edtloc: built after 0:00\nedtloc: 0\n"))

    def test_a_build_that_fails_keeps_the_last_program(self):
        self.run_program("build")
        before = self.read("out/edtloc")
        self.newer("crates.txt")
        self.write("fake/then", "echo not proved; exit 1\n")
        for _ in range(2):
            status, out, error = self.run_program("0")
            self.assertEqual((status, out), (125, ""))
            self.assertTrue(error.startswith(BUILDS), error)
            self.assertTrue(error.endswith("not proved\ntools/edtloc: no program was built, or sources changed meanwhile\n"), error)
            self.assertEqual(self.read("out/edtloc"), before)

    def test_no_rt(self):
        self.environment["PATH"] = "/usr/bin:/bin"
        if not shutil.which("rt", path=self.environment["PATH"]):
            line = "tools/edtloc: edtloc isn't built, and rt, the Rattle toolchain, isn't on the path\n"
            self.assertEqual(self.run_program("0"), (125, "", line))

    def test_a_build_that_is_broken_off(self):
        for kept in None, PROGRAM.encode():
            for sent in signal.SIGINT, signal.SIGTERM, signal.SIGKILL:
                with self.subTest(kept=kept, sent=sent):
                    with contextlib.suppress(FileNotFoundError):
                        os.unlink(self.path("fake/half"))
                    self.write("fake/then", 'echo $$ >"$FAKE/half.new"; mv "$FAKE/half.new" "$FAKE/half"; exec sleep 60\n')
                    run = self.start("0")
                    self.wait_for("fake/half")
                    rt = int(self.read("fake/half"))
                    os.killpg(run.pid, sent)
                    out, error = run.communicate(timeout=60)
                    self.assertIn((run.returncode, out), [(-sent, ""), (128 + sent, "")])
                    if sent != signal.SIGKILL:
                        self.assertIn("broken off after 0:0", error)
                        with self.assertRaises(ProcessLookupError):
                            os.kill(rt, 0)
                    self.assertEqual(os.path.exists(self.path("out/edtloc")), bool(kept))
                    self.assertFalse(kept and self.read("out/edtloc") != kept)
            self.write("fake/then", "")
            self.assertEqual(self.run_program("0")[:2], (0, "out 0\n"))
            self.newer("crates.txt")

    def test_two_at_once(self):
        self.write("fake/then", 'until [ -e "$FAKE/go" ]; do sleep 0.05; done\n')
        first = self.start("0", "first")
        self.wait_for("out/edtloc.begun")
        second = self.start("0", "second")
        told = second.stderr.readline()
        self.write("fake/go", "")
        results = [run.communicate(timeout=60) + (run.returncode,) for run in (first, second)]
        if shutil.which("flock"):
            self.assertEqual(told, "tools/edtloc: another build is under way here; waiting for it\n")
            self.assertEqual(self.calls(), 1)
        self.assertEqual([(out, status) for out, _, status in results], [("out 0 first\n", 0), ("out 0 second\n", 0)])

    def test_where_messages_are_pointed_to(self):
        self.run_program("build")
        table = [(0, None), (1, None), (2, "`tools/edtloc help` shows the words that it takes"), (3, "Status 3: the control file"),
                 (4, "Status 4: the phase file, or the problem file"), (5, "Status 5: the time grids"), (6, "Status 6: memory"),
                 (7, "Status 7: a file that can't be read"), (8, "Status 8: the output"), (9, "Status 9: a file that isn't there"),
                 (10, "Status 10: the report"), (11, None), (99, None)]
        for status, section in table:
            own = "edtloc: %d\n" % status
            if status > 2 and section:
                section = "docs/MESSAGES.md says what to mend, under '%s'" % section
            line = "tools/edtloc: %s\n" % section if section else ""
            self.assertEqual(self.run_program(str(status)), (status, "out %d\n" % status, own + line))

    def test_a_signal_goes_on_to_the_program(self):
        self.run_program("build")
        for sent in signal.SIGINT, signal.SIGTERM:
            run = self.start("sleep")
            time.sleep(0.5)
            programs = subprocess.run(["ps", "-o", "pid=", "--ppid", str(run.pid)], capture_output=True, text=True, check=False).stdout.split()
            run.send_signal(sent)
            self.assertIn((run.wait(timeout=30), *run.communicate()), [(-sent, "", ""), (128 + sent, "", "")])
            for program in programs:
                with self.assertRaises(ProcessLookupError):
                    os.kill(int(program), 0)

    def test_inputs_reach_the_program(self):
        self.write("fake/program", "#!/bin/sh\ncat\n")
        self.run_program("build")
        run = self.start("x", stdin=subprocess.PIPE)
        self.assertEqual(run.communicate("text", timeout=30), ("text", ""))
        closed = subprocess.run(
            ["bash", "-c", "exec <&-; %s x" % self.path("tools/edtloc")], env=self.environment, capture_output=True, check=False
        )
        self.assertEqual((closed.returncode, closed.stdout, closed.stderr), (0, b"", b""))

    def test_one_line_on_a_terminal(self):
        self.write("fake/between", "sleep 2\n")
        ours, theirs = pty.openpty()
        run = self.start("0", stderr=theirs)
        os.close(theirs)
        text = b""
        with contextlib.suppress(OSError):
            while piece := os.read(ours, 4096):
                text += piece
        os.close(ours)
        self.assertEqual((run.wait(timeout=30), run.stdout.read()), (0, "out 0\n"))
        run.stdout.close()
        lines = text.decode().replace("\r\n", "\n").split("\n")
        self.assertEqual(lines[0] + "\n", BUILDS)
        self.assertIn("\r\x1b[Ktools/edtloc: crate 1 of 3: low, 1 of 2 functions, 0:0", lines[1])
        self.assertIn("\r\x1b[Ktools/edtloc: crate 2 of 3: middle, 0:0", lines[1])
        self.assertRegex(lines[1], r"\r\x1b\[Ktools/edtloc: built after 0:0[0-9]$")
        self.assertEqual(lines[2:], ["edtloc: 0", ""])

    def test_by_a_link(self):
        self.run_program("build")
        os.symlink(self.path("tools/edtloc"), self.path("fake/edtloc"))
        run = subprocess.run([self.path("fake/edtloc"), "0"], env=self.environment, capture_output=True, check=False, text=True)
        self.assertEqual((run.returncode, run.stdout), (0, "out 0\n"))


if __name__ == "__main__":
    unittest.main()
