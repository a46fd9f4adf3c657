"""What the gate does with what the toolchain's own gate says, and what the front door makes of a gate that was passed."""

import shutil
import unittest

from fixtures import PROGRAMS, ROOT, TABLE, TASK, YES, Door

OK = "rt: ok; handles allowed: none; must-fail edits: 3 refused{bad}; every proof and must-fail edit was done in this run\n3 passed, 0 failed\n"
STEPS = ["python3 -B -m unittest discover -s second", "python3 -B -m unittest discover -s door", "second/vectors --check",
         "second/examples --check", "rt ci", "door/answers"]
# A stand-in for a step: it notes how it is called, does something, and ends with a status.
STEP = """#!/bin/sh
echo "{name}${{1+ $*}}" >>'{root}/steps'
{body}
exit {status}
"""


# The gate in a house with stand-ins for its steps.
class Gate(Door):
    # Put them there, each of which is passed.
    def setUp(self):
        super().setUp()
        (self.root / ".ci").mkdir()
        shutil.copy(ROOT / ".ci/run", self.root / ".ci")
        (self.root / "second").mkdir()
        for name in "python3", "second/vectors", "second/examples", "door/answers":
            self.step(name)
        self.gate_says(OK.format(bad=""))

    # Put a step there: a tool on the path, or a script of the house.
    def step(self, name, body="", status=0):
        path = self.root / name if "/" in name else self.tools / name
        self.script(path, STEP.format(name=name, root=self.folder, body=body, status=status))

    # Have the toolchain's gate build the programs, say this and end with a status.
    def gate_says(self, text, status=0, meanwhile="true"):
        (self.folder / "said").write_text(text)
        builds = "; ".join(f"mkdir -p crates/{name}/out; cp '{self.folder}/program.{name}' crates/{name}/out/{name}" for name in PROGRAMS)
        self.step("rt", f"{builds}; {meanwhile}; cat '{self.folder}/said'", status)

    # The steps that were called.
    def steps(self):
        note = self.folder / "steps"
        return note.read_text().splitlines() if note.exists() else []

    # Call the gate, wherever.
    def gate(self):
        return self.call(door=self.root / ".ci/run", cwd="/")

    # A gate that is passed prints what the toolchain says, last of all; the programs that it built answer then, and nothing is proved again.
    def test_passed(self):
        self.assert_answer(self.gate(), 0, OK.format(bad="").encode())
        self.assertEqual(self.steps(), STEPS)
        self.toolchain()
        self.assert_answer(self.call("bounds", data=TASK), 0, YES)
        self.assertEqual(self.proved(), [])

    # A step that fails is a gate that fails, and no step is called behind it.
    def test_failed_step(self):
        for number, name in (2, "second/vectors"), (3, "second/examples"), (5, "door/answers"):
            with self.subTest(name=name):
                self.fresh()
                self.step(name, status=1)
                self.assertEqual(self.gate().status, 1)
                self.assertEqual(self.steps(), STEPS[:number + 1])
        for number, folder in enumerate(("second", "door")):
            self.fresh()
            self.step("python3", f'[ "$6" != {folder} ] || exit 1')
            self.assertEqual(self.gate().status, 1)
            self.assertEqual(self.steps(), STEPS[:number + 1])

    # See to it that a gate fails, and that its programs are not run unless they are proved.
    def assert_not_passed(self):
        self.assertEqual(self.gate().status, 1)
        self.assertEqual(self.steps(), STEPS[:5])
        self.toolchain(failing="bounds")
        self.assertEqual((self.call("bounds", data=TABLE).status, self.ran()), (2, []))

    # So is a toolchain's gate that fails.
    def test_failed_gate(self):
        self.gate_says("rt: FAILED: table\n2 passed, 1 failed\n", status=1)
        self.assert_not_passed()

    # And one that passes with edits that are bad.
    def test_bad_edits(self):
        for bad in ", 1 bad", ", 1 of them only by a limit, 20 bad":
            self.fresh()
            self.gate_says(OK.format(bad=bad))
            self.assert_not_passed()

    # An edit while the gate runs is seen by the next call.
    def test_edit_meanwhile(self):
        self.gate_says(OK.format(bad=""), meanwhile="sleep 0.02; touch crates/table/src/lib.rt")
        self.assertEqual(self.gate().status, 0)
        self.toolchain()
        self.call("bounds", data=TABLE)
        self.assertEqual(self.proved()[-1], ["run", "bounds"])


if __name__ == "__main__":
    unittest.main()
