"""Runs programs whose growths of memory are counted, and refused where that is asked for, by c/growths.c, which is loaded in front of
the C library."""

import os
import pathlib
import struct
import subprocess

from running import ROOT, Outcome

COMPILER = os.environ.get("CC", "gcc")
COUNTS = struct.Struct("=3Q")


class Growths:
    """Runs programs whose growths are counted, and refused where that is asked for."""

    def __init__(self, folder):
        self.library, self.counts = pathlib.Path(folder, "growths.so"), pathlib.Path(folder, "counts")
        self.counts.write_bytes(bytes(COUNTS.size))
        flags = ["-shared", "-fPIC", "-std=c99", "-Wall", "-Wextra", "-Werror", "-o", str(self.library)]
        source = ROOT / "checks" / "c" / "growths.c"
        self.made = subprocess.run([COMPILER, *flags, str(source), "-ldl"], capture_output=True, text=True)

    def run(self, words, folder, given, first=0, last=0):
        """The outcome, and how many growths were asked for, how many refused, and how many blocks were kept."""
        more = {"LD_PRELOAD": str(self.library), "GROWTHS": str(self.counts), "REFUSED": f"{first} {last}"}
        done = subprocess.run(
            words, cwd=folder, input=given, capture_output=True, timeout=60, env={**os.environ, **more}
        )
        return Outcome(done.stdout, done.stderr, done.returncode), COUNTS.unpack(self.counts.read_bytes())
