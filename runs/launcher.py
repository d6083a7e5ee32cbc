#!/usr/bin/env python3
"""Tests the launcher `capsched` at the top, in a folder of its own, with a stand-in for the kit that proves nothing.

The stand-in has what the launcher uses of the kit: the command `rt`, its module for crates, and a prover. This one
writes down which crate it was given, takes any text for proved that has no line `wrong`, and writes a library, or a
program that prints its own name and its words. It stops in a crate that the file `stops` in its folder names, as a long
proof does, until the launcher ends. The crates are

    low <- middle <- top <- capsched
    low <- side <- top
    middle <- capsched_offline
"""
import os
import select
import shutil
import signal
import subprocess
import sys
import tempfile
import time
import unittest

TOP = os.path.dirname(os.path.dirname(os.path.abspath(__file__)))
PROGRAMS = ("capsched", "capsched_offline")
BELOW = {"low": "", "middle": "low", "side": "low", "top": "middle side", **dict(zip(PROGRAMS, ("top", "middle")))}
WHOLE = ["low", "middle", "side", "top", "capsched"]  # what the whole program stands on, and it
SECONDS = 15  # how long one run of the launcher may take, on a busy machine too
RT = """\
import os, sys
if __name__ == "__main__":
    print("stand-in")
    sys.exit()
sys.path.insert(0, os.path.dirname(os.path.realpath(__file__)))
import rtlib
Crate = rtlib.Crate

def handles_of(top):
    return open(f"{top}/HANDLES").read().split()
"""
RTLIB = """\
import hashlib, os, shutil, subprocess
KIT = os.path.dirname(os.path.dirname(os.path.realpath(__file__)))
RATTLE = f"{KIT}/bin/rattle"

def guarded():
    return []

def files_of(folder):
    yield from sorted(f"{folder}/src/{name}" for name in os.listdir(f"{folder}/src"))

def sum_of(file):
    return hashlib.sha256(open(file, "rb").read()).hexdigest()

class Crate:
    allowed = ()

    def __init__(self, folder, top, known):
        self.folder, self.name = folder, os.path.basename(folder)
        rows = dict(line.split(":") for line in open(f"{top}/crates.txt"))
        self.said = {"deps": rows[self.name].split()}
        self.deps = [known.get(it) or Crate(f"{top}/crates/{it}", top, known) for it in self.said["deps"]]
        self.is_program = os.path.exists(f"{folder}/src/main.rt")
        known[self.name] = self

    def below(self):
        found = []
        for dep in self.deps:
            found += [it for it in [*dep.below(), dep] if it not in found]
        return found

    def words(self, flags, keeps):
        return [self.name, *flags]

    def prove(self, words):
        # (the prover that stops reads its input, which ends with the launcher)
        how = {"stdin": subprocess.PIPE, "stdout": self.out, "stderr": self.out}
        return subprocess.Popen([RATTLE, *words], cwd=self.folder, **how).wait()

    def link(self, made, program):
        shutil.copy(made, f"{self.folder}/{program}")
        os.chmod(f"{self.folder}/{program}", 0o755)
        return 0
"""
RATTLE = """\
#!/bin/sh
kit=$(dirname "$0")/..
crate=$2
while [ "$1" != -o ]; do shift; done
if grep -qx "$crate" "$kit/stops" 2>/dev/null; then echo "$crate" >"$kit/stopped"; read -r _; exit 1; fi
echo "$crate" >>"$kit/given"
if grep -qx wrong src/*; then echo "src/lib.rt:1:1: error: it is not proved"; exit 1; fi
case $crate in
  capsched*) printf '#!/bin/sh\\necho %s "$@"\\n' "$crate" >"$2" ;;
  *) mkdir "$2" ;;
esac
"""


def write(path, text, mode=0o644):
    os.makedirs(os.path.dirname(path), exist_ok=True)
    with open(path, "w", encoding="utf-8") as file:
        file.write(text)
    os.chmod(path, mode)


def write_kit(folder, what):
    """A stand-in for the kit, which differs from others by this text."""
    write(f"{folder}/WHAT", what)
    write(f"{folder}/bin/rt", f"#!{sys.executable}\n{RT}", 0o755)
    write(f"{folder}/bin/rtlib.py", RTLIB)
    write(f"{folder}/bin/rattle", RATTLE, 0o755)
    os.mkfifo(f"{folder}/stopped")


def begin(cores):
    """What the launcher begins with: an interrupt ends it, also where these tests run behind a shell that ignores them."""
    signal.signal(signal.SIGINT, signal.SIG_DFL)
    if cores:
        os.sched_setaffinity(0, sorted(os.sched_getaffinity(0))[:cores])


class Launcher(unittest.TestCase):
    def setUp(self):
        room = tempfile.TemporaryDirectory(prefix="launcher-")
        self.addCleanup(room.cleanup)
        self.top, self.kit, self.tools = f"{room.name}/top", f"{room.name}/kit", ":/usr/bin:/bin"
        write_kit(self.kit, "the kit")
        write(f"{self.top}/HANDLES", "Handles allowed: Threads.\n")
        write(f"{self.top}/crates.txt", "".join(f"{name}: {below}\n" for name, below in BELOW.items()))
        for name in BELOW:
            write(f"{self.top}/crates/{name}/src/{'main' if name in PROGRAMS else 'lib'}.rt", "fn f()\n")
        shutil.copy(f"{TOP}/capsched", self.top)

    def start(self, *words, cores=None):
        within = {**os.environ, "PATH": f"{self.kit}/bin{self.tools}"}
        how = {"stdout": subprocess.PIPE, "stderr": subprocess.PIPE, "text": True, "env": within}
        started = subprocess.Popen([sys.executable, f"{self.top}/capsched", *words], preexec_fn=lambda: begin(cores), **how)
        for end in (started.stderr.close, started.stdout.close, started.wait, started.kill):
            self.addCleanup(end)
        return started

    def run_it(self, *words):
        """Runs the launcher: its status, what it printed, what it said, and which crates were given to the prover."""
        started = self.start(*words)
        printed, said = started.communicate(timeout=SECONDS)
        return started.returncode, printed, said, self.given()

    def given(self):
        """The crates that the prover was given since this was called last, in the order of their names."""
        path = f"{self.kit}/given"
        if not os.path.exists(path):
            return []
        with open(path, encoding="utf-8") as file:
            names = file.read().split()
        os.remove(path)
        return sorted(names)

    def expect(self, words, printed, given):
        """The launcher does what the words say, after proofs of these crates alone."""
        status, seen, said, proved = self.run_it(*words)
        self.assertEqual((status, seen, proved), (0, f"{printed} {' '.join(words)}\n", sorted(given)), said)
        return said

    def write_program(self):
        """The program as `rt ci` leaves it, later than what was written before and earlier than what is written next."""
        path = f"{self.top}/crates/capsched/out/capsched"
        self.wait_for_clock()
        write(path, "#!/bin/sh\necho by another command\n", 0o755)
        self.wait_for_clock()

    def wait_for_clock(self):
        """Waits until a file that is written now is later than one that was written before."""
        path, times = f"{self.top}/clock", set()
        for _ in range(1000):
            write(path, "")
            times.add(os.stat(path).st_mtime_ns)
            if len(times) > 1:
                return
            time.sleep(0.001)
        self.fail("the clock of the files stands")

    def edit(self, crate, text):
        write(f"{self.top}/crates/{crate}/src/lib.rt", text)

    def test_built_from_nothing_and_then_not_again(self):
        said = self.expect(["serve", "--port", "1"], "capsched", WHOLE)
        self.assertIn("building: 5 crates", said)
        self.assertEqual(self.expect(["replay"], "capsched", []), "")

    def test_what_needs_no_daemon_is_built_without_it(self):
        self.expect(["check"], "capsched_offline", ["low", "middle", "capsched_offline"])
        self.assertEqual(self.expect(["explain"], "capsched_offline", []), "")
        self.expect(["serve"], "capsched", ["side", "top", "capsched"])
        self.assertEqual(self.expect(["check"], "capsched", []), "")

    def test_a_changed_file_proves_its_crate_and_those_above(self):
        self.expect(["serve"], "capsched", WHOLE)
        self.edit("side", "fn g()\n")
        self.expect(["serve"], "capsched", ["side", "top", "capsched"])
        self.edit("low", "fn g()\n")
        self.expect(["serve"], "capsched", WHOLE)
        self.edit("low", "fn g()\n")
        self.assertIn("building", self.expect(["serve"], "capsched", []))

    def test_a_proof_that_fails_is_told(self):
        self.expect(["serve"], "capsched", WHOLE)
        self.edit("middle", "wrong\n")
        status, printed, said, given = self.run_it("serve")
        self.assertEqual((status, printed, given), (1, "", ["middle"]))
        self.assertIn("capsched: middle is not proved; the log is crates/capsched/out/rlib/middle.log", said)
        self.assertIn("src/lib.rt:1:1: error: it is not proved", said)
        self.assertIn("the kit here is stand-in", said)
        self.assertEqual(self.run_it("serve")[::3], (1, ["middle"]))
        self.edit("middle", "fn g()\n")
        self.expect(["serve"], "capsched", ["middle", "top", "capsched"])

    def test_an_interrupted_build_goes_on_where_it_was(self):
        """On one core, where `side` is not yet begun: what was proved of it before over another `low` counts for
        nothing."""
        for interrupt, status in ((signal.SIGINT, 130), (signal.SIGKILL, -signal.SIGKILL)):
            with self.subTest(interrupt):
                self.edit("low", f"fn of_{status}()\n")
                started = self.start_and_stop("middle", cores=1)
                started.send_signal(interrupt)
                _, said = started.communicate(timeout=SECONDS)
                self.assertEqual((started.returncode, self.given()), (status, ["low"]), said)
                os.remove(f"{self.kit}/stops")
                self.expect(["serve"], "capsched", ["middle", "side", "top", "capsched"])

    def start_and_stop(self, crate, cores=None):
        """The launcher, once its prover has stopped in a crate."""
        write(f"{self.kit}/stops", f"{crate}\n")
        started = self.start("serve", cores=cores)
        stopped = os.open(f"{self.kit}/stopped", os.O_RDONLY | os.O_NONBLOCK)
        self.addCleanup(os.close, stopped)
        self.assertTrue(select.select([stopped], [], [], SECONDS)[0], f"the prover is not given {crate}")
        self.assertEqual(os.read(stopped, 100), f"{crate}\n".encode())
        return started

    def test_one_build_at_a_time(self):
        started = self.start_and_stop("top")
        status, _, said, _ = self.run_it("serve")
        self.assertEqual((status, said), (1, "capsched: another build runs here\n"))
        started.kill()
        started.communicate(timeout=SECONDS)

    def test_another_kit_proves_all_anew(self):
        self.expect(["serve"], "capsched", WHOLE)
        first, self.kit = self.kit, f"{self.kit}-of-another-day"
        write_kit(self.kit, "another kit")
        self.expect(["serve"], "capsched", WHOLE)
        self.expect(["serve"], "capsched", [])
        self.kit = first
        self.expect(["serve"], "capsched", WHOLE)

    def test_other_handles_prove_all_anew(self):
        self.expect(["serve"], "capsched", WHOLE)
        write(f"{self.top}/HANDLES", "Handles allowed: none.\n")
        os.utime(f"{self.top}/HANDLES", (0, 0))
        self.expect(["serve"], "capsched", WHOLE)

    def test_without_a_kit(self):
        shutil.rmtree(f"{self.kit}/bin")
        self.tools = ""
        status, printed, said, _ = self.run_it("serve")
        self.assertEqual((status, printed), (1, ""))
        self.assertIn("whose command rt is not installed", said)
        self.write_program()
        self.assertEqual(self.run_it("serve")[:3], (0, "by another command\n", ""))

    def test_what_the_kit_has_made_by_itself_is_run(self):
        self.write_program()
        self.assertEqual(self.run_it("serve")[:2], (0, "by another command\n"))
        self.kit += "-of-another-day"
        write_kit(self.kit, "another kit")
        self.expect(["serve"], "capsched", WHOLE)
        self.write_program()
        self.assertEqual(self.run_it("serve")[:2], (0, "by another command\n"))


if __name__ == "__main__":
    unittest.main()
