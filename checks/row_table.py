"""The rows of crates/rdlpp_rows/data: texts, the words of a command line, and what must come of them.

A row's lines are `row NAME`, `words WORD ..`, `file PATH TEXT` with the main text first, `files COUNT PATH TEXT` for
numbered ones, `output TEXT`, `fault LINE`, and `memory`, which says that the row is one of texts in memory alone. Texts
are spelled as `spelled` reads them. What an engine holds and asks for is looked at where the rows are run over devices of
their own (`crates/rdlpp_rows`), and so is each row with such devices.
"""

import pathlib
import re

DATA = pathlib.Path(__file__).resolve().parent.parent / "crates" / "rdlpp_rows" / "data"
SIGNS = {"n": b"\n", "r": b"\r", "t": b"\t"}
FIELDS = {"line": "line_bytes", "source": "source_bytes", "argument": "argument_bytes", "output": "output_bytes"}
REPORT = re.compile(rb"(.*):([0-9]+): error F([0-9]+): ([^']*?)(?: '(.*)')?", re.S)


def field_of(limit):
    """The field of a limit that an option sets, of which this is the rest after `--max-`."""
    field = limit.replace("-", "_")
    return FIELDS.get(field, field)


class Asked:
    """What the words of a row ask for: limits by their fields, definitions and folders in order."""

    def __init__(self, words):
        self.limits, self.defines, self.folders = {}, [], []
        self.origins = "--origins" in words
        given = iter(word for word in words if word != "--origins")
        for option, value in zip(given, given):
            if option == "-D":
                name, _, text = value.partition("=")
                self.defines.append((name, text))
            elif option == "-I":
                self.folders.append(value)
            else:
                self.limits[field_of(option[len("--max-") :])] = int(value)


def numbered(text, number):
    """A text with `{#}` as this number and `{+}` as the next one."""
    return text.replace("{#}", str(number)).replace("{+}", str(number + 1))


def unescaped(text):
    """A text without runs: `\\n`, `\\r`, `\\t`, `\\x` with two digits, and a backslash before any other byte."""
    parts = re.findall(r"\\x([0-9a-f]{2})|\\(.)|([^\\]+)", text)
    return b"".join(
        bytes.fromhex(code) if code else SIGNS.get(sign, sign.encode()) + rest.encode() for code, sign, rest in parts
    )


def spelled(text):
    """The bytes of a text, in which `{{5:ab}}` is `ab` five times."""
    parts = re.split(r"\{\{(\d+):(.*?)\}\}", text)
    runs = zip(parts[1::3], parts[2::3], parts[3::3])
    told = [unescaped(parts[0])]
    for count, run, rest in runs:
        if "{" in run:
            told += [unescaped(numbered(run, number)) for number in range(int(count))]
        else:
            told.append(unescaped(run) * int(count))
        told.append(unescaped(rest))
    return b"".join(told)


class Row:
    """A row. `fault` is the line on standard error, without its line end."""

    def __init__(self, lines):
        self.name, self.words, self.files, self.output, self.fault = "", [], {}, b"", b""
        self.is_in_memory = self.has_devices = False
        for line in lines:
            field, _, rest = line.partition(" ")
            getattr(self, "read_" + field)(rest)
        self.main = next(iter(self.files))

    def read_row(self, rest):
        self.name = rest

    def read_words(self, rest):
        self.words = [spelled(word).decode() for word in rest.split(" ")]

    def read_file(self, rest):
        path, _, text = rest.partition(" ")
        self.files.setdefault(spelled(path).decode(), spelled(text))

    def read_files(self, rest):
        count, _, file = rest.partition(" ")
        for number in range(int(count)):
            self.read_file(numbered(file, number))

    def read_output(self, rest):
        self.output = spelled(rest)

    def read_fault(self, rest):
        self.fault = spelled(rest)

    def read_held(self, rest):
        """What an engine holds at the end."""

    def read_piece(self, rest):
        """What an engine holds at a piece."""

    def read_asked(self, rest):
        """How often sources and a writer are asked."""

    def read_found(self, rest):
        self.has_devices = True

    def read_devices(self, rest):
        self.has_devices = True

    def read_memory(self, rest):
        self.is_in_memory = True

    def status(self):
        """1 where the row has a fault: none is one of a device."""
        return 1 if self.fault else 0

    def fault_parts(self):
        """The shown name, the line, the number, the text of the kind and the word of its fault."""
        return REPORT.fullmatch(self.fault).groups(b"")

    def includes_itself(self):
        """Whether one of its texts may include the main one, so that standard input can't stand for it."""
        return any(b'"%s"' % self.main.encode() in text for text in self.files.values())


def read_rows(file):
    """The rows of a file: blank lines stand between them, and a line that begins with `#` is a comment."""
    for part in file.read_text().split("\n\n"):
        lines = [line for line in part.split("\n") if line and not line.startswith("#")]
        if lines:
            yield Row(lines)


# Each row, and those that need no devices of their own, which the scripts run.
ALL_ROWS = [row for file in sorted(DATA.glob("*.rows")) for row in read_rows(file)]
ROWS = [row for row in ALL_ROWS if not row.has_devices]
