"""The cases of examples/.

A folder has its sources, and in `about` what it shows, in one line. A case is `NAME.words`, the words of
its command line, one a line, with the main file last; `NAME.expected`, the output; and where it ends in a
fault `NAME.fault`, the line on standard error, and `NAME.status`.
"""

from running import ROOT, Outcome

EXAMPLES = ROOT / "examples"
# how the names of the files end that are no sources
OF_CASES = (".words", ".expected", ".fault", ".status")


def read_or(file, missing):
    return file.read_bytes() if file.exists() else missing


class Case:
    """One command line of an example, and what has to come of it."""

    def __init__(self, file):
        self.folder, self.name = file.parent, f"{file.parent.name}/{file.stem}"
        self.about = read_or(file.parent / "about", b"").decode()
        self.words = file.read_text().split("\n")[:-1]
        self.wanted = Outcome(
            file.with_suffix(".expected").read_bytes(),
            read_or(file.with_suffix(".fault"), b""),
            int(read_or(file.with_suffix(".status"), b"0")),
        )

    def main_text(self):
        return (self.folder / self.words[-1]).read_text()


def cases():
    """Each case of each example."""
    return [Case(file) for file in sorted(EXAMPLES.glob("*/*.words"))]


def sources():
    """Each source of the examples with its path below its own example's folder."""
    for folder in sorted(EXAMPLES.glob("*/")):
        for file in sorted(folder.rglob("*")):
            if file.is_file() and file.name != "about" and file.suffix not in OF_CASES:
                yield str(file.relative_to(folder)), file
