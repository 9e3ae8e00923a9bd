"""Runs the built program and compares what it does with what is wanted, byte for byte.

The program is out/rdlpp, or what RDLPP names.
"""

import os
import pathlib
import shutil
import subprocess
import sys

ROOT = pathlib.Path(__file__).resolve().parent.parent
PROGRAM = os.environ.get("RDLPP", str(ROOT / "out" / "rdlpp"))


class Outcome:
    """What a run wrote, and its status."""

    def __init__(self, output, faults, status):
        self.output, self.faults, self.status = output, faults, status

    def __eq__(self, other):
        return (self.output, self.faults, self.status) == (other.output, other.faults, other.status)


def run(words, folder, given=b"", **more):
    """Runs the program in a folder; its standard input has these bytes."""
    done = subprocess.run(
        [PROGRAM, *words], cwd=folder, input=given, capture_output=True, timeout=60, **more
    )
    return Outcome(done.stdout, done.stderr, done.returncode)


def run_from(words, folder, path):
    """Runs the program in a folder, with a file of it as its standard input."""
    with open(pathlib.Path(folder, path), "rb") as given:
        done = subprocess.run([PROGRAM, *words], cwd=folder, stdin=given, capture_output=True, timeout=60)
    return Outcome(done.stdout, done.stderr, done.returncode)


def difference(wanted, got):
    """How two parts of an outcome differ; texts by what stands around their first difference."""
    if not isinstance(wanted, bytes):
        return f"wanted {wanted}, got {got}"
    ends = [at for at, (a, b) in enumerate(zip(wanted, got)) if a != b]
    at = ends[0] if ends else min(len(wanted), len(got))
    around = slice(max(0, at - 40), at + 40)
    return f"at byte {at} wanted {wanted[around]!r}, got {got[around]!r}"


class Tally:
    """Counts what passed, failed and was skipped, and reports each failure and each skip."""

    def __init__(self, name):
        self.name, self.passed, self.failed, self.skipped = name, 0, 0, 0

    def hold(self, name, holds, why=""):
        """Counts a fact that has to hold."""
        if holds:
            self.passed += 1
        else:
            self.failed += 1
            print(f"{self.name}: {name}: failed {why}")

    def skip(self, name, why):
        """Counts a check for which something is missing here, and says what."""
        self.skipped += 1
        print(f"{self.name}: {name}: skipped, {why}")

    def finds(self, name, *tools):
        """Whether each of these tools is there; where one isn't, the check of this name is skipped."""
        missing = [tool for tool in tools if not shutil.which(tool)]
        if missing:
            self.skip(name, f"no {' and no '.join(missing)} here")
        return not missing

    def compare(self, name, wanted, got):
        """Counts an outcome that has to be the wanted one."""
        parts = [
            f"\n  {part}: {difference(getattr(wanted, part), getattr(got, part))}"
            for part in ("output", "faults", "status")
            if getattr(wanted, part) != getattr(got, part)
        ]
        self.hold(name, not parts, "".join(parts))

    def add(self, other):
        """Counts what another one counted."""
        self.passed += other.passed
        self.failed += other.failed
        self.skipped += other.skipped

    def close(self):
        """Prints the counts as the last line, and ends with status 1 where a check failed."""
        skipped = f", {self.skipped} skipped" if self.skipped else ""
        print(f"{self.name}: {self.passed} passed, {self.failed} failed{skipped}")
        sys.exit(1 if self.failed else 0)
