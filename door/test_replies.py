"""What the front door makes of an input's kind and of the programs' replies: which are run, what is printed, with which status it ends."""

import os
import shutil
import unittest

from fixtures import ANSWERS, NO, PROGRAMS, TABLE, TASK, TEXT, YES, Built, Door

REFUSED = b"refused 6 at 48\n"
FAULT = b"line 4: deadline 30 is above the period 20\n"
# First bytes on both sides of each step from one kind to another.
FIRST = (0, 1, 2, 3, 4, 8, 9, 10, 11, 12, 13, 14, 31, 32, 33, 48, 127, 128, 160, 238, 239, 240, 254, 255)
# Replies of the programs, with their statuses.
STATUSES = [("bounds", YES, 0), ("bounds", NO, 3), ("bounds", REFUSED, 1), ("show", TEXT, 0), ("show", REFUSED, 1), ("pack", TABLE, 0),
            ("pack", FAULT, 1)]
# What is no program's reply.
NOTHING = (b"", b"verdict", b"verdict\n", b"verdict yesterday\n", b"verdict none\n", b"refused", b"line")
# How a program fails, and what is told of that.
ENDINGS = {"exit 1": "failed with status 1", "exit 3": "failed with status 3", "echo no >&2; exit 4": "failed with status 4: no",
           "kill -SEGV $$": "was ended by signal 11", "kill -KILL $$": "was ended by signal 9"}
# The system's tools that the scripts call.
TOOLS = ("cat", "cmp", "cp", "find", "flock", "head", "mkdir", "mktemp", "od", "readlink", "rm", "sed", "tail", "tr", "uname")
# For each command an input that its program is run on.
INPUTS = {"bounds": TABLE, "pack": TASK, "show": TABLE}


# Inputs of each kind.
class Kinds(Built):
    # The programs that a command runs on an input.
    def runs(self, command, data):
        self.forget()
        return self.call(command, data=data), self.ran()

    # By its first byte an input is a text, which is packed first, or else a table.
    def test_first_bytes(self):
        for first in FIRST:
            text = first in b"\t\n\r" or first >= 32
            for rest in b"", b"\x01 more", b" more":
                with self.subTest(first=first, rest=rest):
                    outcome, ran = self.runs("bounds", bytes([first]) + rest)
                    self.assertEqual(ran, ["bounds", "pack"] if text else ["bounds"])
                    self.assert_answer(outcome, 0, YES)

    # A text is no table to show, and a table no text to pack; what begins like neither is told by the program.
    def test_wrong_kinds(self):
        for first in FIRST:
            with self.subTest(first=first):
                data = bytes([first]) + b" more"
                outcome, ran = self.runs("show", data)
                if first in b"\t\n\r" or 32 <= first < 128:
                    self.assert_trouble(outcome, "standard input begins like a text, and show takes a table")
                else:
                    self.assertEqual((outcome.status, ran), (0, ["show"]))
                outcome, ran = self.runs("pack", data)
                if first in (1, 2, 3):
                    self.assert_trouble(outcome, "standard input begins like a table, and pack takes a text")
                else:
                    self.assertEqual((outcome.status, ran), (0, ["pack"]))

    # Whatever is asked for, a byte-order mark and wide characters are named.
    def test_wide(self):
        for code in "utf-8-sig", "utf-16", "utf-16-le", "utf-16-be", "utf-32", "utf-32-le":
            reason = "begins with a byte-order mark" if code == "utf-8-sig" else "looks like UTF-16"
            for text in [first + TASK.decode() for first in ("", "\t", "# ", "\N{BYTE ORDER MARK}", "\n")]:
                if code == "utf-16-be" and text[0] in "\t\n":
                    continue
                for command in PROGRAMS:
                    with self.subTest(code=code, text=text, command=command):
                        path = self.file(text.encode(code), "wide")
                        self.forget()
                        outcome = self.call(command, "wide", cwd=self.folder)
                        self.assert_trouble(outcome, f"quasdrom: {path.name} {reason}")
                        self.assertEqual(self.ran(), [])

    # A table whose bytes merely have a zero among the first is a table.
    def test_tables_with_zeros(self):
        for data in b"\x01\x20\x00\x20", b"\x01\x00", b"\x00", b"\x00\x05\x00\x20", b"\x00\x32\x00\x02", b"\x03\x00\x00":
            with self.subTest(data=data):
                outcome, ran = self.runs("bounds", data)
                self.assert_answer(outcome, 0, YES)
                self.assertEqual(ran, ["bounds"])

    # A text that merely has a zero in its first comment is a text.
    def test_texts_with_zeros(self):
        for data in b"#\x00", b"#\x00 \n", b"# \x00\n", b"#\x00ab\x00":
            with self.subTest(data=data):
                outcome, ran = self.runs("bounds", data)
                self.assert_answer(outcome, 0, YES)
                self.assertEqual(ran, ["bounds", "pack"])

    # A wrong kind is told before anything is proved.
    def test_told_first(self):
        for name in PROGRAMS:
            (self.root / "target/door" / name).unlink()
        self.assert_trouble(self.call("show", data=TASK), "begins like a text")
        self.assertEqual(self.proved(), [])


# Replies, and what is none.
class Replies(Built):
    # A reply is printed as it is, with its status.
    def test_statuses(self):
        for command, reply, status in STATUSES:
            with self.subTest(command=command, reply=reply):
                self.program(command, reply)
                self.assert_answer(self.call(command, data=INPUTS[command]), status, reply)

    # A table of any bytes comes out as it is.
    def test_any_bytes(self):
        reply = b"\x01" + bytes(range(256)) * 18
        self.program("pack", reply)
        for locale in "C", "C.UTF-8":
            self.assert_answer(self.call("pack", data=INPUTS["pack"], around=self.around(LC_ALL=locale)), 0, reply)

    # Of a text at fault the fault is told, and no bounds are sought.
    def test_fault_of_bounds(self):
        self.program("pack", FAULT)
        self.assert_answer(self.call("bounds", data=TASK), 1, FAULT)
        self.assertEqual(self.ran(), ["pack"])

    # Of a text that is packed the reply is that of the bounds program.
    def test_bounds_of_text(self):
        for reply, status in (YES, 0), (NO, 3), (REFUSED, 1):
            self.program("bounds", reply)
            self.assert_answer(self.call("bounds", data=TASK), status, reply)

    # A program that fails, by a status or by a signal, gives no answer, whatever it printed.
    def test_failed(self):
        for program in PROGRAMS:
            for ending, told in ENDINGS.items():
                for reply in ANSWERS[program], b"":
                    with self.subTest(program=program, ending=ending, reply=reply):
                        self.program(program, reply, ending)
                        self.assert_trouble(self.call(program, data=INPUTS[program]), f"quasdrom: {program} {told}\n")
            self.program(program, ANSWERS[program])

    # A pack that fails gives no bounds, and none are sought.
    def test_failed_pack(self):
        for ending in "exit 1", "kill -SEGV $$":
            self.program("pack", TABLE, ending)
            self.forget()
            self.assert_trouble(self.call("bounds", data=TASK), "quasdrom: pack ")
            self.assertEqual(self.ran(), ["pack"])

    # A program that ends well without a reply of its own form gives no answer.
    def test_no_reply(self):
        others = {"bounds": (TABLE, TEXT, FAULT), "pack": (YES, REFUSED, TEXT, b"\x02", b"\n"), "show": (YES, TABLE, FAULT)}
        for program in PROGRAMS:
            for reply in NOTHING + (b"\x00" + ANSWERS[program],) + others[program]:
                with self.subTest(program=program, reply=reply):
                    self.program(program, reply)
                    self.assert_trouble(self.call(program, data=INPUTS[program]), f"quasdrom: {program} ended without an answer\n")
            self.program(program, ANSWERS[program])

    # On another machine a program is run by the toolchain's emulator; without the toolchain it gives no answer.
    def test_emulated(self):
        tools = self.folder / "kit/on/aarch64/toolchain"
        (tools / "bin").mkdir(parents=True)
        self.script(self.tools / "uname", "#!/bin/sh\necho aarch64\n")
        words = f"{tools}/lib/ld-linux-x86-64.so.2 --library-path {tools}/lib"
        self.script(tools / "bin/qemu-x86_64", f'#!/bin/sh\n[ "$1 $2 $3" = "{words}" ] && exec "$4"\n')
        self.assert_answer(self.call("bounds", data=INPUTS["bounds"]), 0, YES)
        self.assertEqual(self.read_by("bounds"), INPUTS["bounds"])
        self.script(self.tools / "rt", "#!/bin/sh\nexit 2\n")
        outcome = self.call("bounds", data=INPUTS["bounds"])
        self.assertEqual((outcome.status, outcome.out), (2, b""))

    # A program that isn't one, is empty, or is gone since it was looked for, gives no answer.
    def test_no_program(self):
        for data in b"", b"\x7fELF no program\n", b"#!/nothing\n":
            with self.subTest(data=data):
                self.built_at("bounds").write_bytes(data)
                outcome = self.call("bounds", data=TABLE)
                self.assertEqual((outcome.status, outcome.out), (2, b""))
                self.assertIn("quasdrom: bounds ", outcome.told)


# Answers that can't be written.
class Outputs(Built):
    # To a full device, a pipe that nobody reads, a closed descriptor: trouble, whatever the answer is.
    def test_unwritten(self):
        for command, data in INPUTS.items():
            with self.subTest(command=command), open("/dev/full", "wb") as full:
                ours, theirs = os.pipe()
                os.close(ours)
                for out, reason in (full, ": No space left on device"), (theirs, ""):
                    outcome = self.call(command, data=data, stdout=out)
                    self.assertEqual(outcome.status, 2)
                    self.assertRegex(outcome.told, f"^quasdrom: the answer cannot be written{reason}")
                os.close(theirs)
                self.assert_trouble(self.shell(f'"$door" {command} "{self.file(data)}" >&-'), "standard output is closed")

    # No room for what a program prints is trouble, though the program ends well.
    def test_no_room(self):
        self.program("bounds", YES * 400)
        path = self.file(TABLE)
        outcome = self.shell(f'ulimit -f 4; "$door" bounds "{path}" 2>&1 >"{self.folder}/out"')
        self.assertEqual(outcome.status, 2)
        self.assertIn(b"there is no room for what bounds prints", outcome.out)
        self.assertEqual((self.folder / "out").read_bytes(), b"")

    # A closed standard error doesn't alter an answer.
    def test_nobody_told(self):
        path = self.file(TABLE)
        self.assert_answer(self.shell(f'"$door" bounds "{path}" 2>&-'), 0, YES)
        self.program("bounds", REFUSED)
        self.assert_answer(self.shell(f'"$door" bounds "{path}" 2>&-'), 1, REFUSED)


# The system's tools that the scripts call, each failing.
class Tools(Door):
    # With a tool that fails there is the right answer or none: with all programs built, with an edit since, and with nothing proved.
    def test_failing(self):
        for tool in TOOLS:
            for state in "built", "edited", "new":
                with self.subTest(tool=tool, state=state):
                    self.fresh()
                    if state != "new":
                        self.built()
                    if state == "edited":
                        for name in PROGRAMS:
                            os.utime(self.root / "target/door" / name, (1, 1))
                    self.script(self.tools / tool, "#!/bin/bash\nexit 1\n")
                    outcome = self.call("bounds", data=TASK)
                    for left in self.spare.iterdir():
                        shutil.rmtree(left)
                    self.assertIn((outcome.status, outcome.out), ((0, YES), (2, b"")))
                    if outcome.status == 0:
                        self.assertEqual((self.read_by("pack"), self.read_by("bounds")), (TASK, TABLE))
                        self.assertTrue(state == "built" or self.proved())


if __name__ == "__main__":
    unittest.main()
