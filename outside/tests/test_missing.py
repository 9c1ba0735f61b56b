"""What is missing is noticed: a test file by the gate, and a tool by each command, in one line before any work.

So is a test that fails, and an edit that `rt ci` calls bad: the gate's status and its last line tell it.
"""

import os
import shutil
import subprocess
import sys
import tempfile
from pathlib import Path

sys.dont_write_bytecode = True
OUTSIDE = Path(__file__).resolve().parent.parent
sys.path.insert(0, str(OUTSIDE))

import gate
from report import report

# A command, the tools that it finds, and the one that it has to name.
LACKING = (
    ("gate.py", (), "rt"),
    ("gate.py", ("rt", "cargo", "rustc", "cc"), "nm"),
    ("gate.py", ("rt", "cargo", "rustc", "nm"), "cc"),
    ("gate.py", ("rt", "rustc", "cc", "nm"), "cargo"),
    ("bench.py", ("rt", "cc"), "cargo"),
    ("bench.py", ("rt", "cargo", "rustc"), "cc"),
    ("tests/test_firmware.py", ("rt", "cargo", "rustc", "nm"), "cc"),
    ("tests/test_reference.py", ("rt", "cc"), "cargo"),
    ("run.py", (), "rt"),
    ("firmware/archive.py", (), "rt"),
)
SECONDS = 60
PASSES = 'print("1 passed, 0 failed")\n'
# What rt ci says where all is well, and where an edit is bad beside that.
WELL = "rt: ok; handles allowed: none; must-fail edits: 9 refused; all is done"
BAD_EDIT = "rt: ok; handles allowed: none; must-fail edits: 8 refused, 1 of them only by a limit, 1 bad; all is done"


def files(names):
    """What the gate says of a folder with those test files."""
    with tempfile.TemporaryDirectory() as folder:
        for name in names:
            (Path(folder) / name).touch()
        return gate.unexpected(Path(folder))


def noticed_files():
    """Each expected file is missed, and one that is not expected is found."""
    each = [(f"{name} deleted", files(set(gate.EXPECTED) - {name}) == [f"{name} is gone"]) for name in gate.EXPECTED]
    more = files({*gate.EXPECTED, "test_more.py"})
    return [("all test files there", files(gate.EXPECTED) == []), *each,
            ("no test file left", len(files(())) == len(gate.EXPECTED)),
            ("a test file more", more == ["test_more.py is not named in outside/gate.py"])]


def lay_tools(folder, tools):
    """Tools that do nothing."""
    for tool in tools:
        (Path(folder) / tool).symlink_to(shutil.which("true"))


def noticed_tool(script, tools, missing):
    """The command ends badly with one line that names the tool; the tools that it finds do nothing."""
    with tempfile.TemporaryDirectory() as folder:
        lay_tools(folder, tools)
        try:
            done = subprocess.run([sys.executable, str(fresh(folder) / script)], env=dict(os.environ, PATH=folder),
                                  capture_output=True, text=True, timeout=SECONDS, check=False)
        except subprocess.TimeoutExpired:
            return False
    said = (done.stdout + done.stderr).splitlines()
    return done.returncode != 0 and len(said) == 1 and said[0].startswith("not found on the path: ") and f"{missing} (" in said[0]


def fresh(folder):
    """A project where nothing is built yet: the scripts and the list of crates alone."""
    project = Path(folder) / "project"
    shutil.copytree(OUTSIDE, project / "outside")
    shutil.copy(OUTSIDE.parent / "crates.txt", project)
    (project / "crates").mkdir()
    return project / "outside"


def gated(bad, said=WELL, counts="1 passed, 0 failed", status=0):
    """The gate's status and last line where rt and all test files pass, but for what is given: texts of test files, what rt says, its end."""
    with tempfile.TemporaryDirectory() as folder:
        lay_tools(folder, ("cargo", "rustc", "cc", "nm"))
        (Path(folder) / "rt").write_text(f"#!/bin/sh\necho '{said}'\necho '{counts}'\nexit {status}\n")
        (Path(folder) / "rt").chmod(0o755)
        outside = fresh(folder)
        for name in gate.EXPECTED:
            (outside / "tests" / name).write_text(bad.get(name, PASSES))
        done = subprocess.run([sys.executable, str(outside / "gate.py")], env=dict(os.environ, PATH=folder),
                              capture_output=True, text=True, timeout=SECONDS, check=False)
    return done.returncode, done.stdout.splitlines()[-1]


def noticed_failures():
    """A test that fails, one that ends badly, one that breaks off and one that tests nothing are in the gate's sum."""
    first, second, third, *_, last = gate.EXPECTED
    bad = {first: 'print("1 passed, 2 failed")', second: PASSES + "raise SystemExit(3)", third: "raise SystemExit(3)", last: ""}
    count = len(gate.EXPECTED) + 1
    return [("all tests pass", gated({}) == (0, f"{count} passed, 0 failed")),
            ("four tests fail", gated(bad) == (1, f"{count - 2} passed, 5 failed")),
            ("an edit is bad", gated({}, BAD_EDIT) == (1, f"{count} passed, 1 failed")),
            ("rt ci does not say that all is well", gated({}, "rt: well") == (1, f"{count} passed, 1 failed")),
            ("a crate fails", gated({}, "rt: FAILED: wire", "2 passed, 1 failed", 1) == (1, f"{count + 1} passed, 2 failed")),
            ("rt ci ends badly", gated({}, status=2) == (1, f"{count} passed, 1 failed"))]


def main():
    return report(noticed_files() + noticed_failures() + [
        (f"{script} without {missing}", noticed_tool(script, tools, missing)) for script, tools, missing in LACKING])


if __name__ == "__main__":
    sys.exit(main())
