"""What the front door has proved before it answers, and what it tells of that."""

import fcntl
import os
import pty
import re
import shutil
import signal
import subprocess
import threading
import unittest

from fixtures import NO, PATIENCE, TABLE, TASK, YES, Door

LINE = re.compile(r"quasdrom: proving (\w+), (\d+) left")


# The crate that each line tells, and how many it says are left.
def told(lines):
    matches = [LINE.fullmatch(line) for line in lines]
    assert all(matches), lines
    return [(match[1], int(match[2])) for match in matches]


# Proving on first use and later.
class Proving(Door):
    # See to it that lines tell each crate once, behind those that it stands on, and how many are left.
    def assert_told(self, lines, crates):
        seen = set()
        for name, left in told(lines):
            self.assertLessEqual(set(self.crates()[name]) & crates, seen)
            seen.add(name)
            self.assertEqual(left, len(crates) - len(seen))
        self.assertEqual(seen, crates)

    # On first use all crates of the programs are proved, told as plain lines; the next call proves nothing and tells nothing.
    def test_first_use(self):
        for command, data, programs in ("bounds", TASK, ["pack", "bounds"]), ("bounds", TABLE, ["bounds"]), ("pack", TASK, ["pack"]), \
                ("show", TABLE, ["show"]):
            with self.subTest(command=command, data=data):
                self.fresh()
                outcome = self.call(command, data=data)
                self.assertEqual(outcome.status, 0)
                crates = self.needed(*programs)
                first, *lines, last = outcome.told.splitlines()
                self.assertEqual(first, f"quasdrom: {len(crates)} crates are to be proved first: a few minutes, once")
                self.assert_told(lines, crates)
                self.assertRegex(last, r"^quasdrom: proved in \d+ s$")
                self.assertEqual(self.proved()[-len(programs):], [["run", name] for name in programs])
                self.forget()
                self.assert_answer(self.call(command, data=data), 0, outcome.out)
                self.assertEqual(self.proved(), [])

    # Crates are proved one after the other, each in its own folder: libraries are built, programs built and tried.
    def test_one_after_the_other(self):
        outcome = self.call("bounds", data=TASK)
        names = [name for name, _ in told(outcome.told.splitlines()[1:-1])]
        programs = ["pack", "bounds"]
        self.assertEqual(self.proved(), [["run" if name in programs else "lib", name] for name in names + programs])

    # What is proved already isn't told again: another program needs what is new to it.
    def test_rest(self):
        self.call("bounds", data=TABLE)
        outcome = self.call("bounds", data=TASK)
        self.assertNotIn("minutes", outcome.told)
        self.assert_told(outcome.told.splitlines()[:-1], self.needed("pack") - self.needed("bounds"))

    # After an edit the crate and those above it are proved again, in fewer than minutes.
    def test_edit(self):
        self.call("bounds", data=TABLE)
        (self.root / "crates/analysis/src/lib.rt").touch()
        outcome = self.call("bounds", data=TABLE)
        self.assertNotIn("minutes", outcome.told)
        self.assert_told(outcome.told.splitlines()[:-1], {name for name in self.needed("bounds") if "analysis" in self.needed(name)})
        self.assert_answer(self.call("bounds", data=TABLE), 0, YES)

    # An edit of another crate, or of crates.txt, is looked into once; where nothing is to be proved, nothing is told.
    def test_other_edit(self):
        self.call("bounds", data=TABLE)
        for path in "crates/timing/src/lib.rt", "crates.txt":
            self.forget()
            (self.root / path).touch()
            self.assert_answer(self.call("bounds", data=TABLE), 0, YES)
            self.assertEqual(self.proved(), [["run", "bounds"]])
            self.forget()
            self.assert_answer(self.call("bounds", data=TABLE), 0, YES)
            self.assertEqual(self.proved(), [])

    # A file that is taken away is an edit.
    def test_taken_away(self):
        self.call("bounds", data=TABLE)
        (self.root / "crates/lines/src/lib.rt").unlink()
        above = {name for name in self.needed("bounds") if "lines" in self.needed(name)}
        self.assert_told(self.call("bounds", data=TABLE).told.splitlines()[:-1], above)

    # So is a whole part of a crate that is taken away, or put there.
    def test_part_taken_away(self):
        self.call("bounds", data=TABLE)
        shutil.move(self.root / "crates/lines/src", self.spare)
        self.toolchain(failing="bounds")
        outcome = self.call("bounds", data=TABLE)
        self.assertEqual((outcome.status, outcome.out), (2, b""))
        shutil.move(self.spare / "src", self.root / "crates/lines")
        self.toolchain()
        self.assert_answer(self.call("bounds", data=TABLE), 0, YES)
        self.forget()
        (self.root / "crates/lines/proofs").mkdir()
        self.call("bounds", data=TABLE)
        self.assertEqual(self.proved()[-1], ["run", "bounds"])

    # An edit while the proofs run is seen by the next call.
    def test_edit_meanwhile(self):
        self.toolchain(meanwhile="sleep 0.02; touch ../table/src/lib.rt")
        self.call("bounds", data=TABLE)
        self.toolchain()
        self.forget()
        self.call("bounds", data=TABLE)
        self.assertEqual(self.proved()[-1], ["run", "bounds"])

    # A program that is gone is built again.
    def test_program_gone(self):
        self.call("bounds", data=TABLE)
        self.built_at("bounds").unlink()
        self.assert_answer(self.call("bounds", data=TABLE), 0, YES)

    # Where all stands proved, though no mark says so, nothing is told.
    def test_without_marks(self):
        self.call("bounds", data=TABLE)
        for mark in (self.root / "target/door").iterdir():
            mark.unlink()
        self.assert_answer(self.call("bounds", data=TABLE), 0, YES)

    # What is not proved is not run, now and at the next call, though a program of that name was built.
    def test_not_proved(self):
        self.toolchain(failing="lines")
        self.call("bounds", data=TABLE)
        self.built_at("bounds").parent.mkdir(exist_ok=True)
        self.script(self.built_at("bounds"), (self.folder / "program.bounds").read_text())
        outcome = self.call("bounds", data=TABLE)
        reason = f"quasdrom: lines cannot be proved; {self.root.resolve()}/target/door/log has all that was said\n"
        self.assert_trouble(outcome, f"rt: lines NOT PROVED\n{reason}")
        self.assertEqual(self.ran(), [])
        self.assertIn("rt: lines NOT PROVED", (self.root / "target/door/log").read_text())
        self.toolchain()
        self.assertEqual(self.call("bounds", data=TABLE).out, YES)

    # A program that prints on its own input what it should not is not run.
    def test_failed_trial(self):
        for prints in "/dev/null", "stdout stdout":
            self.toolchain(prints=prints)
            outcome = self.call("bounds", data=TABLE)
            self.assertEqual((outcome.status, outcome.out, self.ran()), (2, b"", []))
            self.assertIn("quasdrom: bounds cannot be proved; ", outcome.told)
        self.toolchain()
        self.assertEqual(self.call("bounds", data=TABLE).out, YES)

    # Without the toolchain: trouble, and no folder is made; but what is built already answers.
    def test_no_toolchain(self):
        (self.tools / "rt").unlink()
        tools = ("bash", "cat", "env", "find", "head", "mkdir", "mktemp", "od", "readlink", "rm", "tail", "tr", "uname")
        around = self.around(PATH=self.bare_path(*tools))
        self.assert_trouble(self.call("bounds", data=TABLE, around=around), "the Rattle toolchain's command rt is not on the PATH")
        self.assertFalse((self.root / "target").exists())
        self.built()
        self.assert_answer(self.call("bounds", data=TABLE, around=around), 0, YES)

    # A copy of the door outside its house.
    def test_copied(self):
        alone = self.folder / "alone"
        alone.mkdir()
        shutil.copy(self.root / "quasdrom", alone)
        self.assert_trouble(self.call("bounds", data=TABLE, door=alone / "quasdrom"), "alone has no crates beside quasdrom: link to it")
        self.assertEqual(list(alone.iterdir()), [alone / "quasdrom"])

    # A house in which nothing can be written.
    def test_not_writable(self):
        (self.root / "target").write_bytes(b"no folder")
        outcome = self.call("bounds", data=TABLE)
        self.assertEqual((outcome.status, outcome.out), (2, b""))
        self.assertIn("target cannot be written", outcome.told)

    # Two calls don't prove at once: the second waits, and then has nothing left to prove.
    def test_one_at_a_time(self):
        (self.root / "target/door").mkdir(parents=True)
        with open(self.root / "target/door/turn", "wb") as turn:
            fcntl.flock(turn, fcntl.LOCK_EX)
            call = subprocess.Popen([self.root / "quasdrom", "bounds", self.file(TABLE)], env=self.around(), stdout=subprocess.PIPE,
                                    stderr=subprocess.PIPE, start_new_session=True)
            ending = threading.Timer(PATIENCE, os.killpg, (call.pid, signal.SIGKILL))
            ending.start()
            self.addCleanup(ending.cancel)
            self.assertEqual(call.stderr.readline(), b"quasdrom: waiting for another ./quasdrom, which is proving\n")
            self.assertEqual((call.poll(), self.proved()), (None, []))
            self.built_at("bounds").parent.mkdir()
            self.script(self.built_at("bounds"), (self.folder / "program.bounds").read_text())
            self.mark("bounds")
        self.assertEqual(call.communicate(timeout=PATIENCE), (YES, b""))
        self.assertEqual(self.proved(), [])

    # That nothing can be told doesn't alter an answer.
    def test_untold(self):
        with open("/dev/full", "wb") as full:
            outcome = self.call("bounds", data=TASK, stderr=full)
        self.assertEqual((outcome.status, outcome.out), (0, YES))

    # Commands that stand behind each other in a pipe, on first use.
    def test_piped_commands(self):
        path = self.file(TASK)
        outcome = self.shell(f'"$door" pack "{path}" | "$door" show')
        self.assertEqual((outcome.status, self.read_by("show")), (0, TABLE))
        self.assertNotIn("waiting", outcome.told)


# What is told on a terminal.
class Terminal(Door):
    # Call the door with a terminal as standard error, and tell what came there.
    def on_terminal(self, *words, data=TABLE, stdin=None):
        ours, theirs = pty.openpty()
        self.addCleanup(os.close, ours)
        ways = {"stdin": stdin} if stdin else {"data": data}
        outcome = self.call(*words, stderr=theirs, **ways)
        os.close(theirs)
        text = b""
        while True:
            try:
                part = os.read(ours, 65536)
            except OSError:
                break
            text += part
            if not part:
                break
        return outcome, text.decode().replace("\r\n", "\n")

    # What an old terminal shows of a text in which carriage returns write over what stood there.
    def shown(self, text):
        rows = []
        for row in text.split("\n"):
            cells = []
            for part in row.split("\r"):
                cells[:len(part)] = part
            rows.append("".join(cells).rstrip())
        return rows

    # One line is written over: at the end it says how long it took.
    def test_written_over(self):
        outcome, text = self.on_terminal("bounds")
        self.assertEqual((outcome.status, outcome.out), (0, YES))
        first, last, rest = self.shown(text)
        crates = self.needed("bounds")
        self.assertEqual(first, f"quasdrom: {len(crates)} crates are to be proved first: a few minutes, once")
        self.assertRegex(last, r"^quasdrom: proved in \d+ s$")
        self.assertEqual(rest, "")
        parts = [part.rstrip() for part in text.split("\n")[1].split("\r") if part.strip()]
        self.assertEqual({name for name, _ in told(parts[:-1])}, crates)
        self.assertNotIn("\x1b", text)

    # What fails is told on lines of its own.
    def test_failed(self):
        self.toolchain(failing="lines")
        outcome, text = self.on_terminal("bounds")
        self.assertEqual((outcome.status, outcome.out), (2, b""))
        reason = f"quasdrom: lines cannot be proved; {self.root.resolve()}/target/door/log has all that was said"
        self.assertEqual(self.shown(text)[2:], ["rt: lines NOT PROVED", reason, ""])

    # Where nothing is to be proved nothing is told.
    def test_nothing(self):
        self.built()
        self.assertEqual(self.on_terminal("bounds")[1], "")

    # Who is to type an input is told so.
    def test_typed(self):
        self.built()
        ours, theirs = pty.openpty()
        os.write(ours, b"task 1\n\x04")
        outcome, text = self.on_terminal("bounds", stdin=theirs)
        os.close(theirs)
        os.close(ours)
        self.assertEqual((outcome.out, self.read_by("pack")), (YES, b"task 1\n"))
        self.assertEqual(text, "quasdrom: reading what is typed, up to Ctrl-D at the start of a line\n")

    # An answer stands behind what was told, also where both come to one terminal.
    def test_one_terminal(self):
        self.program("bounds", NO)
        ours, theirs = pty.openpty()
        done = subprocess.run([self.root / "quasdrom", "bounds", self.file(TABLE)], env=self.around(), stdin=subprocess.DEVNULL,
                              stdout=theirs, stderr=theirs, timeout=PATIENCE)
        os.close(theirs)
        text = os.read(ours, 65536).decode().replace("\r\n", "\n")
        os.close(ours)
        self.assertEqual(done.returncode, 3)
        self.assertTrue(text.endswith(" s\n" + NO.decode()), text)


if __name__ == "__main__":
    unittest.main()
