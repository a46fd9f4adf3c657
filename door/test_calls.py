"""How the front door is called: commands, help, names of files, links to it."""

import os
import unittest

from fixtures import TABLE, TASK, TEXT, YES, Built, Door


# Calls with the wrong words, and calls for help.
class Words(Door):
    # Words that are no call: the fault and the usage on standard error, status 2, and no folder is made.
    def test_misused(self):
        for words, reason in ((), "a command is missing"), (("",), "a command is missing"), (("bound",), "there is no command bound"), \
                (("a b",), "there is no command a\\ b"), (("bounds", "x", "y"), "bounds takes one FILE at most"), \
                (("test", "x"), "test takes no FILE"), (("--", "bounds"), "there is no command --"):
            with self.subTest(words=words):
                outcome = self.call(*words)
                self.assert_trouble(outcome, f"quasdrom: {reason}\nusage: ./quasdrom bounds [FILE]")
                self.assertFalse((self.root / "target").exists())

    # Help, also after a command: the usage with the statuses on standard output, status 0, and nothing is made or read.
    def test_help(self):
        page = self.call("help")
        statuses = page.out.partition(b"\nExit status: ")[2].splitlines()
        for line, words in zip(statuses, (b"0  answered; bounds: the verdict is yes", b"1  the input is refused", b"2  there is no answer",
                                          b"3  bounds: the verdict is no"), strict=True):
            self.assertTrue(line.strip().startswith(words), line)
        for line in "help", "--help", "-h", "help bounds", "bounds help", "pack --help", "show -h", "test --help", "bounds --help":
            words = line.split()
            with self.subTest(words=words):
                self.assert_answer(self.call(*words), 0, page.out)
        self.assertFalse((self.root / "target").exists())

    # A page that can't be written is trouble.
    def test_help_unwritten(self):
        with open("/dev/full", "wb") as full:
            self.assertEqual(self.call("help", stdout=full).status, 2)

    # The gate is run by its own script, wherever the call is made, and its status is told.
    def test_gate(self):
        (self.root / ".ci").mkdir()
        (self.root / ".ci/run").write_text("echo gate; exit 3\n")
        self.assert_answer(self.call("test", cwd="/"), 3, b"gate\n")

    # The gate without one of its tools is trouble.
    def test_gate_without_tools(self):
        around = self.around(PATH=self.bare_path("bash", "env", "readlink"))
        self.assert_trouble(self.call("test", around=around), "test needs the command python3")
        (self.tools / "rt").unlink()
        self.assert_trouble(self.call("test", around=around), "test needs the command rt")


# Files by whatever name, and the door by whatever path.
class Names(Built):
    # A file is read whatever its name is.
    def test_odd_names(self):
        for name in "-x", "--", "-", "--help", "help", "a b", "a\nb", "$(x)", "*", "'", "naïve":
            with self.subTest(name=name):
                self.forget()
                self.file(TABLE, name)
                self.assert_answer(self.call("bounds", f"./{name}", cwd=self.folder), 0, YES)
                self.assertEqual(self.read_by("bounds"), TABLE)

    # A name that begins with a dash is a name, and after two dashes any is, save the one for standard input.
    def test_dashes(self):
        for words, name in (("-x",), "-x"), (("--", "-x"), "-x"), (("--", "--help"), "--help"), (("--", "help"), "help"):
            with self.subTest(words=words):
                self.forget()
                self.file(TABLE, name)
                self.assert_answer(self.call("show", *words, cwd=self.folder), 0, TEXT)
                self.assertEqual(self.read_by("show"), TABLE)

    # Standard input is read without a file, and for a dash, which is no file's name then.
    def test_standard_input(self):
        self.file(b"another", "-")
        for words in (), ("-",), ("--",), ("--", "-"):
            with self.subTest(words=words):
                self.forget()
                self.assert_answer(self.call("bounds", *words, data=TABLE, cwd=self.folder), 0, YES)
                self.assertEqual(self.read_by("bounds"), TABLE)

    # The caller's shell options, and the name of the folder for temporary files, alter nothing.
    def test_caller(self):
        (self.folder / "-x").mkdir()
        for more in {"POSIXLY_CORRECT": "1"}, {"SHELLOPTS": "errexit:noclobber:posix"}, {"TMPDIR": "-x"}:
            with self.subTest(more=more):
                around = self.around(**more)
                (self.root / "crates/table/src/lib.rt").touch()
                outcome = self.call("bounds", data=TASK, around=around, cwd=self.folder)
                self.assertEqual((outcome.status, outcome.out), (0, YES))
                for name, reason in ("nothing", "read: No such file or directory"), ("/", "copied: Is a directory"):
                    self.assert_trouble(self.call("bounds", name, around=around, cwd=self.folder), f"{name} cannot be {reason}")

    # A name is told so that it can be read.
    def test_told_names(self):
        self.assert_trouble(self.call("bounds", "a\n\x1b[2Jb", cwd=self.folder), "quasdrom: $'a\\n\\E[2Jb' cannot be read: No such file")

    # The door is found through links, from any folder, and with CDPATH set.
    def test_links(self):
        (self.folder / "bin").mkdir()
        os.symlink(self.root / "quasdrom", self.folder / "bin/first")
        os.symlink("first", self.folder / "bin/second")
        os.symlink("../house", self.folder / "bin/house")
        path = self.file(TASK)
        around = self.around(CDPATH=f"{self.spare}:/", PATH=f"{self.folder}/bin:{self.tools}:{os.environ['PATH']}")
        for door, folder in (self.folder / "bin/first", "/"), ("bin/second", self.folder), ("./second", self.folder / "bin"), \
                ("second", "/"), ("house/quasdrom", self.folder / "bin"), ("house/quasdrom", self.folder), ("./quasdrom", self.root):
            with self.subTest(door=door):
                self.forget()
                self.assert_answer(self.call("bounds", str(path), door=door, cwd=folder, around=around), 0, YES)
                self.assertEqual((self.read_by("pack"), self.read_by("bounds")), (TASK, TABLE))

    # With CDPATH set, the folder in which programs are proved is the door's own.
    def test_proved_at_home(self):
        (self.root / "target/door/bounds").unlink()
        self.toolchain(meanwhile=f"pwd >'{self.folder}/where'")
        (self.spare / "house/door").mkdir(parents=True)
        around = self.around(CDPATH=str(self.spare))
        self.assertEqual(self.call("bounds", data=TABLE, door="house/quasdrom", cwd=self.folder, around=around).status, 0)
        self.assertEqual((self.folder / "where").read_text(), f"{self.root.resolve()}/crates/bounds\n")
        (self.spare / "house/door").rmdir()
        (self.spare / "house").rmdir()


if __name__ == "__main__":
    unittest.main()
