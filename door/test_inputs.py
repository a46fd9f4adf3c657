"""What the front door is given to read: files, pipes, devices, closed descriptors, and none that can be read or copied."""

import os
import resource
import signal
import subprocess
import time
import unittest

from fixtures import PATIENCE, TABLE, YES, Built

# One byte more than the longest text.
MOST = 262145
COMMENTED = b"#task 9\ntask 1\n"


# Inputs that can be read.
class Readable(Built):
    # The programs read every byte of a pipe: pack the input, bounds what pack printed.
    def test_pipe_as_file(self):
        path = self.file(COMMENTED)
        for line in f'"$door" bounds <(cat "{path}")', f'cat "{path}" | "$door" bounds', f'cat "{path}" | "$door" bounds /dev/stdin', \
                f'"$door" bounds <"{path}"', f'"$door" bounds - <"{path}"', f'"$door" bounds "{path}" <&-':
            with self.subTest(line=line):
                self.forget()
                self.assert_answer(self.shell(line), 0, YES)
                self.assertEqual((self.read_by("pack"), self.read_by("bounds")), (COMMENTED, TABLE))

    # Each command takes a pipe as it takes a file.
    def test_pipe_for_each_command(self):
        for command, data in ("pack", COMMENTED), ("show", TABLE), ("bounds", TABLE):
            with self.subTest(command=command):
                self.forget()
                path = self.file(data)
                self.assertEqual(self.shell(f'"$door" {command} <(cat "{path}")').status, 0)
                self.assertEqual((self.read_by(command), self.ran()), (data, [command]))

    # A pipe with a name is read as it comes, in parts.
    def test_named_pipe(self):
        os.mkfifo(self.folder / "pipe")
        line = f'(printf "#task"; sleep 0.2; printf " 9\\ntask 1\\n") >"{self.folder}/pipe" & "$door" bounds "{self.folder}/pipe"'
        self.assert_answer(self.shell(line), 0, YES)
        self.assertEqual(self.read_by("pack"), COMMENTED)

    # Standard input is read from where it stands.
    def test_from_where_it_stands(self):
        path = self.file(b"once\n" + COMMENTED)
        self.assert_answer(self.shell(f'{{ read -r _; "$door" bounds; }} <"{path}"'), 0, YES)
        self.assertEqual(self.read_by("pack"), COMMENTED)

    # Of an input without an end so much is read as decides; the programs see that and no more.
    def test_endless(self):
        self.assert_answer(self.shell('"$door" bounds </dev/zero'), 0, YES)
        self.assertEqual(self.read_by("bounds"), bytes(MOST))
        self.assert_answer(self.shell('yes task | "$door" bounds'), 0, YES)
        self.assertEqual(self.read_by("pack"), (b"task\n" * MOST)[:MOST])

    # What decides is not cut.
    def test_longest(self):
        data = b"#" + b"x" * (MOST - 1)
        for length in MOST - 1, MOST:
            self.assertEqual(self.call("pack", data=data[:length]).status, 0)
            self.assertEqual(self.read_by("pack"), data[:length])

    # Every byte goes through as it is.
    def test_all_bytes(self):
        data = b"# " + bytes(range(256)) * 9
        self.assertEqual(self.call("pack", data=data).status, 0)
        self.assertEqual(self.read_by("pack"), data)

    # An input without bytes is one too.
    def test_empty(self):
        for command in "bounds", "pack", "show":
            with self.subTest(command=command):
                self.forget()
                self.assertEqual(self.call(command, data=b"").status, 0)
                self.assertEqual((self.read_by(command), self.ran()), (b"", [command]))

    # Nothing reads what stands behind a file's call.
    def test_input_left(self):
        path = self.file(TABLE)
        (self.root / "target/door/bounds").unlink()
        self.toolchain(meanwhile="cat")
        outcome = self.shell(f'printf "left" | {{ "$door" bounds "{path}" 2>"{self.folder}/told"; cat; }}')
        self.assert_answer(outcome, 0, YES + b"left")


# Inputs that can't be read, and no room for a copy: status 2, and no program is run.
class Unreadable(Built):
    # See to it that nothing was run.
    def tearDown(self):
        self.assertEqual((self.ran(), self.proved()), ([], []))
        super().tearDown()

    # A folder, as a file and as standard input.
    def test_folder(self):
        for command in "bounds", "pack", "show":
            self.assert_trouble(self.call(command, "."), ". cannot be copied: Is a directory")
            self.assert_trouble(self.shell(f'"$door" {command} <.'), "standard input cannot be copied: Is a directory")

    # A closed descriptor; standard error may be closed, too.
    def test_closed(self):
        for words in "bounds", "pack -", "show":
            self.assert_trouble(self.shell(f'"$door" {words} <&-'), "standard input is closed")
            outcome = self.shell(f'"$door" {words} <&- 2>&-')
            self.assertEqual((outcome.status, outcome.out), (2, b""))

    # No such file, no name at all, a link to nothing.
    def test_missing(self):
        os.symlink("nothing", self.folder / "link")
        for name, told in ("nothing", "nothing"), ("", "''"), ("link", "link"), ("nothing/x", "nothing/x"):
            self.assert_trouble(self.call("bounds", name, cwd=self.folder), f"quasdrom: {told} cannot be read: No such file or directory\n")

    # No folder for the copy.
    def test_no_folder(self):
        around = self.around(TMPDIR=str(self.folder / "nothing"))
        self.assert_trouble(self.call("bounds", data=TABLE, around=around), "there is no room for a copy of the input: No such file")

    # No room for the copy, told by an error or by a signal.
    def test_no_room(self):
        for way in signal.SIG_IGN, signal.SIG_DFL:
            outcome = self.call("bounds", data=TABLE * 400, preexec_fn=lambda: (signal.signal(signal.SIGXFSZ, way), limit(4096)))
            self.assertEqual((outcome.status, outcome.out), (2, b""))
            self.assertIn("standard input cannot be copied", outcome.told)

    # A call that is ended while it reads leaves nothing behind, and isn't answered.
    def test_ended(self):
        for number in signal.SIGTERM, signal.SIGINT, signal.SIGHUP:
            call = subprocess.Popen([self.root / "quasdrom", "bounds"], stdin=subprocess.PIPE, stdout=subprocess.PIPE,
                                    stderr=subprocess.DEVNULL, env=self.around(), start_new_session=True,
                                    preexec_fn=lambda: signal.signal(number, signal.SIG_DFL))
            end = time.monotonic() + PATIENCE
            while not list(self.spare.glob("*/input")) and time.monotonic() < end:
                time.sleep(0.01)
            os.killpg(call.pid, number)
            self.assertEqual(call.communicate(timeout=PATIENCE), (b"", None))
            self.assertNotIn(call.returncode, (0, 1, 3))


# Let no file grow past so many bytes.
def limit(most):
    resource.setrlimit(resource.RLIMIT_FSIZE, (most, most))


if __name__ == "__main__":
    unittest.main()
