"""A copy of the front door in a folder of its own, with stand-ins for the programs and for the toolchain."""

import os
import shutil
import subprocess
import tempfile
import unittest
from pathlib import Path

ROOT = Path(__file__).resolve().parent.parent
PROGRAMS = ("bounds", "pack", "show")
# Replies of the three programs that stand for an answer.
YES = b"verdict yes evaluations 1\n1 bound 5 deadline 5\n"
NO = b"verdict no evaluations 0\n1 none deadline 5\n"
TABLE = bytes([1, 1, 0, 0, 5, 0, 0, 0, 0, 0, 0, 0, 5, 0, 0, 0, 5, 0, 0, 0, 3])
TEXT = b"# A task table\ntask 1\n"
# An input that is a text.
TASK = b"task 1 setting 0 sleeps 0 run 5 sleep 0 deadline 5 period 5\n"
ANSWERS = {"bounds": YES, "pack": TABLE, "show": TEXT}
# How long a call may take before it counts as hanging.
PATIENCE = 30

# A stand-in for a program: it keeps what it reads, prints a reply, and ends as it is told.
PROGRAM = """#!/bin/sh
cat >'{root}/read.{name}'
cat '{root}/reply.{name}'
{ending}
"""

# A stand-in for the toolchain: it notes its word and the crate in whose folder it is called, and leaves a stamp, and the program where it is one,
# which it has print what it should or what it is told; or it fails at one crate.
TOOLCHAIN = """#!/bin/sh
[ "$1" != doc ] || exec echo '{root}/kit/START-HERE.md'
crate=$(basename "$PWD")
echo "$1 $crate" >>'{root}/toolchain'
[ "$crate" != '{failing}' ] || {{ echo "rt: $crate NOT PROVED"; exit 1; }}
case $1 in
lib)
  mkdir -p out/rlib
  : >out/rlib/stamp
  ;;
run)
  [ -f src/main.rt ] || exit 2
  mkdir -p out
  cp '{root}/program.'"$crate" "out/$crate"
  : >"out/$crate.stamp"
  cat >/dev/null
  cat {prints}
  ;;
*) exit 2 ;;
esac
{meanwhile}
"""


# What came of a call.
class Outcome:
    # Keep the parts of a process that has ended.
    def __init__(self, done):
        self.status = done.returncode
        self.out = done.stdout
        self.told = done.stderr.decode() if done.stderr is not None else ""


# A front door in a folder of its own.
class Door(unittest.TestCase):
    # A folder with the scripts, empty crates, programs that answer and the toolchain's stand-in.
    def setUp(self):
        self.folder = Path(tempfile.mkdtemp())
        self.addCleanup(shutil.rmtree, self.folder)
        self.root = self.folder / "house"
        (self.root / "door").mkdir(parents=True)
        shutil.copy(ROOT / "quasdrom", self.root)
        shutil.copy(ROOT / "door/prove", self.root / "door")
        shutil.copy(ROOT / "crates.txt", self.root)
        for name in self.crates():
            crate = self.root / "crates" / name
            (crate / "src").mkdir(parents=True)
            (crate / "src" / ("main.rt" if name in PROGRAMS else "lib.rt")).touch()
            if name in PROGRAMS:
                (crate / "stdin").touch()
                (crate / "stdout").write_bytes(ANSWERS[name])
        self.tools = self.folder / "tools"
        self.tools.mkdir()
        self.toolchain()
        for name in PROGRAMS:
            self.program(name, ANSWERS[name])
        self.spare = self.folder / "spare"
        self.spare.mkdir()

    # Begin anew in another folder.
    def fresh(self):
        self.tearDown()
        self.doCleanups()
        self.setUp()

    # What each crate stands on, of those that crates.txt lists.
    def crates(self):
        lines = (ROOT / "crates.txt").read_text().splitlines()
        pairs = [line.split(":") for line in lines if line and not line.startswith("#")]
        below = {name.split()[0]: words.split() for name, words in pairs}
        return {name: [word for word in words if word in below] for name, words in below.items()}

    # The crates that these stand on, and they themselves.
    def needed(self, *names):
        below = self.crates()
        found, wanted = set(), list(names)
        while wanted:
            name = wanted.pop()
            wanted += below[name] if name not in found else []
            found.add(name)
        return found

    # Put a stand-in for the toolchain on the path.
    def toolchain(self, failing="", meanwhile="", prints="stdout"):
        self.script(self.tools / "rt", TOOLCHAIN.format(root=self.folder, failing=failing, meanwhile=meanwhile, prints=prints))

    # Make a stand-in for a program, which the toolchain's stand-in builds.
    def program(self, name, reply, ending="exit 0"):
        (self.folder / f"reply.{name}").write_bytes(reply)
        self.script(self.folder / f"program.{name}", PROGRAM.format(root=self.folder, name=name, ending=ending))
        if self.built_at(name).exists():
            shutil.copy(self.folder / f"program.{name}", self.built_at(name))

    # Where the toolchain builds a program.
    def built_at(self, name):
        return self.root / "crates" / name / "out" / name

    # A path with nothing on it but the toolchain's stand-in, if it is there, and these tools.
    def bare_path(self, *tools):
        for tool in tools:
            (self.tools / tool).symlink_to(shutil.which(tool))
        return str(self.tools)

    # Write a script that can be run.
    def script(self, path, text):
        path.write_text(text)
        path.chmod(0o755)

    # Put all programs where they are built, marked as proved, so that calls prove nothing.
    def built(self):
        (self.root / "target/door").mkdir(parents=True)
        for name in PROGRAMS:
            self.built_at(name).parent.mkdir()
            shutil.copy(self.folder / f"program.{name}", self.built_at(name))
            self.mark(name)

    # Mark a program as proved just now.
    def mark(self, name):
        parts = (path.relative_to(self.root) for path in self.root.glob("crates/*/*") if path.name != "out")
        (self.root / "target/door" / name).write_text("".join(f"{part}\n" for part in sorted(map(str, parts))))

    # Forget what the programs and the toolchain noted.
    def forget(self):
        for note in [*self.folder.glob("read.*"), self.folder / "toolchain"]:
            note.unlink(missing_ok=True)

    # The environment of a call.
    def around(self, **more):
        return os.environ | {"PATH": f"{self.tools}:{os.environ['PATH']}", "TMPDIR": str(self.spare)} | more

    # Call the door with words, on data or with other descriptors.
    def call(self, *words, data=None, door=None, around=None, **ways):
        ways.setdefault("stdout", subprocess.PIPE)
        ways.setdefault("stderr", subprocess.PIPE)
        if data is not None:
            ways["input"] = data
        elif "stdin" not in ways:
            ways["stdin"] = subprocess.DEVNULL
        return Outcome(subprocess.run([str(door or self.root / "quasdrom"), *words], env=around or self.around(), timeout=PATIENCE, **ways))

    # Call the door by a line of the shell, which has the door as $door.
    def shell(self, line, **ways):
        return Outcome(subprocess.run(["bash", "-c", line], env=self.around(door=str(self.root / "quasdrom")), capture_output=True,
                                      stdin=subprocess.DEVNULL, timeout=PATIENCE, **ways))

    # What a program read, or nothing where it was not run.
    def read_by(self, name):
        note = self.folder / f"read.{name}"
        return note.read_bytes() if note.exists() else None

    # The programs that were run.
    def ran(self):
        return [name for name in PROGRAMS if self.read_by(name) is not None]

    # The words with which the toolchain was called, and the crates.
    def proved(self):
        note = self.folder / "toolchain"
        return [line.split() for line in note.read_text().splitlines()] if note.exists() else []

    # A file with these bytes, in a folder outside the house.
    def file(self, data, name="input"):
        path = self.folder / name
        path.write_bytes(data)
        return path

    # See to it that a call had no answer: status 2, nothing printed, this reason.
    def assert_trouble(self, outcome, reason):
        self.assertEqual((outcome.status, outcome.out), (2, b""))
        self.assertIn(reason, outcome.told)
        self.assertTrue(outcome.told.startswith("quasdrom: "), outcome.told)

    # See to it that a call was answered.
    def assert_answer(self, outcome, status, out):
        self.assertEqual((outcome.status, outcome.out, outcome.told), (status, out, ""))

    # Nothing is left behind in the folder for temporary files.
    def tearDown(self):
        self.assertEqual(list(self.spare.iterdir()), [])


# A front door with all programs built, which proves nothing.
class Built(Door):
    # Put the programs there.
    def setUp(self):
        super().setUp()
        self.built()
