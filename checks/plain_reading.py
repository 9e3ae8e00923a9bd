"""A plain reading of the language, by the rules of docs/PROFILE.md and apart from the engine.

It reads whole texts into lists of tokens, substitutes whole lists, and gives the output with the place of each of its
bytes, the fault if there is one, and the macros that are defined at the end. It is slow, and bounds nothing that it holds.
"""

import os
import re
import sys

from plain_tokens import BLANKS, WHITE, source_tokens, text_tokens

sys.setrecursionlimit(1_000_000)

STANDARD = {
    "depth": 256, "includes": 16, "line_bytes": 65536, "source_bytes": 1 << 30, "argument_bytes": 65536,
    "definition_bytes": 1 << 20, "definitions": 4096, "conditions": 256, "output_bytes": (1 << 64) - 1,
}
RESERVED = {b"define", b"undef", b"ifdef", b"ifndef", b"elsif", b"else", b"endif", b"include", b"line"}
BRANCHES = {b"elsif", b"else", b"endif"}
PASSED = {"blank", "line_end", "line_comment", "block_comment"}
EMPTY = {"blank", "line_end"}
NAME = re.compile(rb"[A-Za-z_][A-Za-z0-9_]*")
WHITE_SPACE = re.compile(rb"[ \t\r\v\f\n]*")
GIVEN_LINE = re.compile(
    rb'[ \t\r\v\f]*([0-9]+)[ \t\r\v\f]*"((?:\\[^\n]|[^"\\\n])*)"[ \t\r\v\f]*[012][ \t\r\v\f]*\n?', re.S
)
TEXTS = {
    1: b"embedded Perl", 2: b"string not closed", 3: b"comment not closed", 4: b"line too long",
    5: b"source too long", 6: b"backquote without a name", 7: b"undefined macro", 8: b"recursive macro",
    9: b"directive in macro text", 10: b"arguments missing", 11: b"arguments not closed",
    12: b"argument bytes passed", 13: b"wrong number of arguments", 14: b"depth passed", 15: b"name expected",
    16: b"reserved name", 17: b"name too long", 18: b"bad formal list", 19: b"formal given twice",
    20: b"too many formals", 21: b"definition bytes passed", 22: b"too many definitions",
    23: b"branch or endif without conditional", 24: b"branch after else", 25: b"conditional not closed",
    26: b"too many open conditionals", 27: b"include name expected", 28: b"source not found",
    29: b"too many open includes", 30: b"bad line directive", 31: b"path too long",
    35: b"output bytes passed",
}


class Fault(Exception):
    """A fault of a text: its number, its shown name and line, and the word that it is about."""

    def __init__(self, number, name, line, word=b""):
        self.number, self.name, self.line, self.word = number, name, line, word[:128]

    def told(self):
        """The line on standard error, without its line end."""
        name = self.name[:1024].decode(errors="ignore").encode()
        word = b" '%s'" % self.word if self.word else b""
        return b"%s:%d: error F%d: %s%s" % (name, self.line, self.number, TEXTS[self.number], word)


class Refusal(Exception):
    """A definition that is refused: the number of its fault, and its word."""

    def __init__(self, number, word=b""):
        self.number, self.word = number, word


class Macro:
    """The formals, each with its default text, or none where there is no list; and the body."""

    def __init__(self, formals, body):
        self.formals, self.body = formals, body
        self.places = {name: at for at, (name, _) in enumerate(formals or [])}
        self.items = text_tokens(body)

    def __eq__(self, other):
        return (self.formals, self.body) == (other.formals, other.body)

    def size(self, name):
        formals = self.formals or []
        lists = sum(len(formal) + 1 + (len(default) + 1 if default else 0) for formal, default in formals)
        return len(name) + lists + len(self.body)


class Table:
    """The macros that are defined, oldest first."""

    def __init__(self, limits):
        self.limits, self.macros, self.bytes = limits, {}, 0

    def remove(self, name):
        if name in self.macros:
            self.bytes -= self.macros.pop(name).size(name)

    def put(self, name, macro):
        """Puts a macro last, in the place of the one of that name."""
        old = self.macros.get(name)
        size = self.bytes - (old.size(name) if old else 0) + macro.size(name)
        if size > self.limits["definition_bytes"]:
            raise Refusal(21)
        if len(self.macros) + (0 if old else 1) > self.limits["definitions"]:
            raise Refusal(22)
        self.remove(name)
        self.macros[name], self.bytes = macro, size

    def set(self, name, text):
        """Defines a macro without a list, as an option does."""
        if not NAME.fullmatch(name):
            raise Refusal(15)
        check_name(name)
        self.put(name, Macro(None, body_of(text)))

    def read_define(self, line):
        """Defines the macro of a logical line, from after the word `define`; its LF, if one ends it, is there."""
        is_ended = re.search(rb"(?<!\\)(?<!\\\r)\n\Z", line)
        text = re.sub(rb"\\\r?\n", b"\n", line)
        text = text[:-1] if is_ended else text
        header = NAME.match(text, WHITE_SPACE.match(text).end())
        if not header:
            raise Refusal(15)
        check_name(header[0])
        formals, at = None, header.end()
        if text[at : at + 1] == b"(":
            formals, at = read_formals(text, at + 1)
        self.put(header[0], Macro(formals, body_of(text[at:])))


def check_name(name):
    if name in RESERVED:
        raise Refusal(16, name)
    if len(name) > 128:
        raise Refusal(17)


def body_of(text):
    """A body: a text without its `//` comments, and then without blanks at both ends."""
    tokens = text_tokens(text)
    for token in tokens:
        if token.fault:
            raise Refusal(token.fault)
    return b"".join(token.text for token in tokens if token.kind != "line_comment").strip(BLANKS)


def read_formals(text, at):
    """The formals of a list, from after its `(`, and where its `)` ends."""
    formals = []
    at = WHITE_SPACE.match(text, at).end()
    if text[at : at + 1] == b")":
        return formals, at + 1
    while True:
        formal, at = read_formal(text, at, formals)
        formals.append(formal)
        if text[at : at + 1] == b")":
            return formals, at + 1
        if text[at : at + 1] != b",":
            raise Refusal(18)
        at += 1


def read_formal(text, at, before):
    """A formal with its default text, and where what follows it begins."""
    name = NAME.match(text, WHITE_SPACE.match(text, at).end())
    if not name:
        raise Refusal(18)
    if len(name[0]) > 128:
        raise Refusal(17)
    if name[0] in [other for other, _ in before]:
        raise Refusal(19)
    if len(before) == 255:
        raise Refusal(20)
    default, at = b"", WHITE_SPACE.match(text, name.end()).end()
    if text[at : at + 1] == b"=":
        default, at = read_default(text, at + 1)
    return (name[0], default), at


def read_default(text, at):
    """A default text, and where the `,` or `)` after it stands."""
    level, kept = 0, []
    for token in text_tokens(text[at:]):
        if token.fault:
            break
        if level == 0 and (token.kind == "comma" or token.text == b")"):
            return b"".join(kept).strip(WHITE), at
        level = level_after(token, level)
        at += len(token.text)
        if token.kind != "line_comment":
            kept.append(token.text)
    raise Refusal(18)


def level_after(token, level):
    if token.kind == "opener":
        return level + 1
    return level - 1 if token.kind == "closer" and level > 0 else level


class Mark:
    """A list of items that was substituted as one text, and the names of the macros in whose text it was written."""

    kind, text, fault = "mark", b"", None

    def __init__(self, inside, items):
        self.inside, self.items = inside, items


class File:
    """An open source: its tokens, where the reading stands, and under which name and numbers its lines are shown."""

    def __init__(self, path, text, limits):
        self.tokens, self.at = source_tokens(text, limits), 0
        self.path, self.name, self.first, self.number, self.text = path, path, 1, 1, text

    def shown(self, line):
        return self.number + line - self.first

    def peek(self):
        return self.tokens[self.at] if self.at < len(self.tokens) else None

    def take(self):
        self.at += 1
        return self.tokens[self.at - 1]

    def run(self):
        """The tokens up to the next directive, or to the end."""
        begin = self.at
        while self.at < len(self.tokens) and not directive(self.tokens[self.at]):
            self.at += 1
        return self.tokens[begin : self.at]


def directive(token):
    """The word of a directive."""
    word = token.text[1:] if token.kind == "back" else {"define": b"define", "line": b"line"}.get(token.kind, b"")
    return word if word in RESERVED else None


class Reading:
    """What comes of a main text, with the words of a command line (`row_table.Asked`), from the macros of a table.

    `pieces` is the output: texts, each with the shown name and line of its first byte, and by how much the line grows
    after each of its LF bytes. `fault` is what ended it, `table` has the macros, and `opened` the path of each source that
    was opened, in order, once; a file is one source, by the first of its paths, which differ in `.` and `..` alone.
    """

    def __init__(self, files, main, asked=None, table=None):
        self.limits = {**STANDARD, **(asked.limits if asked else {})}
        self.files, self.main, self.folders = files, main.encode(), asked.folders if asked else []
        self.origins, defines = bool(asked and asked.origins), asked.defines if asked else []
        self.table, self.pieces, self.written, self.fault = table or Table(self.limits), [], 0, None
        self.open_files, self.conditions, self.opened = [], 0, []
        try:
            self.define_options(defines)
            self.main_text()
        except Fault as fault:
            self.fault = fault

    def output(self):
        return b"".join(text for text, _, _, _ in self.pieces)

    def line_places(self):
        """For each line of the output the place of its first byte."""
        is_start = True
        for text, name, line, step in self.pieces:
            for part in re.findall(rb"[^\n]*\n|[^\n]+", text):
                if is_start:
                    yield name, line
                is_start = part.endswith(b"\n")
                line += step if is_start else 0

    # the texts

    def define_options(self, defines):
        for place, (name, text) in enumerate(defines, 1):
            try:
                self.table.set(name.encode(), text.encode())
            except Refusal as refusal:
                raise Fault(refusal.number, b"-D", place, refusal.word) from None

    def main_text(self):
        path, text = self.search([self.main], self.main, 0)
        self.open_files.append(File(path, text, self.limits))
        self.origin(path, 1)
        self.whole_file()

    def search(self, candidates, name, line):
        """The first candidate that is there, and its text."""
        for path in candidates:
            if len(path) > 1024:
                raise Fault(31, name, line)
            if b"\n" not in path and path.decode() in self.files:
                self.note(path)
                return path, self.files[path.decode()]
        raise Fault(28, name, line)

    def note(self, path):
        if os.path.normpath(path) not in map(os.path.normpath, self.opened):
            self.opened.append(path)

    def whole_file(self):
        """Reads the innermost file to its end."""
        file = self.open_files[-1]
        if self.live(file):
            raise self.at(23, file.peek())

    def live(self, file):
        """Reads live text up to a branch or an `endif` that belongs to what stands around it, which is answered."""
        while True:
            self.expand(file.run(), self.limits["depth"], frozenset(), None)
            token = file.peek()
            word = token and directive(token)
            if word in BRANCHES or not word:
                return word
            getattr(self, word.decode())(file)

    def skip(self, file):
        """Passes skipped text up to a branch or an `endif` that belongs to what stands around it, which is answered."""
        level = 0
        while token := file.peek():
            word = directive(token)
            if level == 0 and word in BRANCHES:
                return word
            level += {b"ifdef": 1, b"ifndef": 1, b"endif": -1}.get(word, 0)
            self.line_ends(file, token)
            if token.fault:
                raise self.broken(file, token)
            file.take()
        return None

    # the output

    def write(self, text, name, line, step):
        room = self.limits["output_bytes"] - self.written
        self.written += len(text[:room])
        if text[:room]:
            self.pieces.append((text[:room], name, line, step))
        if len(text) > room:
            raise Fault(35, self.main, 0)

    def line_ends(self, file, token):
        """Writes the LF bytes of a token, each on its own line."""
        for number in range(token.text.count(b"\n")):
            self.write(b"\n", file.name, file.shown(token.line + number), 0)

    def origin(self, name, line):
        if self.origins:
            self.write(b"// origin: %s:%d\n" % (name, line), name, line, 0)

    def at(self, number, token, word=b""):
        """A fault at the line of a token of the innermost file."""
        file = self.open_files[-1]
        return Fault(number, file.name, file.shown(token.line), word)

    def broken(self, file, token):
        return Fault(token.fault, file.name, file.shown(token.fault_line))

    # directives

    def define(self, file):
        token = file.peek()
        if token.fault:
            raise self.broken(file, token)
        try:
            self.table.read_define(token.text[len("`define") :])
        except Refusal as refusal:
            raise self.at(refusal.number, token, refusal.word) from None
        self.line_ends(file, file.take())

    def undef(self, file):
        self.table.remove(self.name_after(file, file.take()))

    def name_after(self, file, token):
        """The name that a directive takes, on its line."""
        if file.peek() and file.peek().kind == "blank":
            file.take()
        if not file.peek() or file.peek().kind != "name":
            raise self.at(15, token)
        if file.peek().text in RESERVED:
            raise self.at(16, token, file.peek().text)
        return file.take().text

    def ifdef(self, file):
        token = file.take()
        self.conditional(file, token, self.is_defined(self.name_after(file, token)))

    def ifndef(self, file):
        token = file.take()
        self.conditional(file, token, not self.is_defined(self.name_after(file, token)))

    def is_defined(self, name):
        return name in self.table.macros

    def conditional(self, file, token, holds):
        """Reads a conditional from after its first test."""
        if self.conditions == self.limits["conditions"]:
            raise self.at(26, token)
        self.conditions += 1
        line, is_taken, is_closing = file.shown(token.line), False, False
        while True:
            word = self.live(file) if holds else self.skip(file)
            if not word:
                raise Fault(25, file.name, line)
            token, is_taken = file.take(), is_taken or holds
            if word == b"endif":
                break
            if is_closing:
                raise self.at(24, token)
            is_closing = word == b"else"
            holds = not is_taken and (is_closing or self.is_defined(self.name_after(file, token)))
        self.conditions -= 1

    def include(self, file):
        token = file.take()
        if file.peek() and file.peek().kind == "blank":
            file.take()
        given = file.peek()
        if not given or given.kind != "string" or given.fault or b"\n" in given.text:
            raise self.at(27, token)
        name = file.take().text[1:-1]
        if not name or not is_utf_8(name):
            raise self.at(27, token)
        if len(self.open_files) > self.limits["includes"]:
            raise self.at(29, token)
        line = file.shown(token.line)
        path, text = self.search(self.candidates(file.path, name), file.name, line)
        self.open_files.append(File(path, text, self.limits))
        self.origin(path, 1)
        self.whole_file()
        self.open_files.pop()
        if text and not text.endswith(b"\n"):
            self.write(b"\n", file.name, line, 0)
        self.origin(file.name, line)

    def candidates(self, path, name):
        if name.startswith(b"/"):
            return [name]
        folders = [path[: path.rfind(b"/") + 1], *(folder.encode() for folder in self.folders)]
        return [folder + (b"" if not folder or folder.endswith(b"/") else b"/") + name for folder in folders]

    def line(self, file):
        token = file.peek()
        line_start = file.text.rfind(b"\n", 0, token.offset) + 1
        given = GIVEN_LINE.fullmatch(token.text, len("`line"))
        if file.text[line_start : token.offset].strip(BLANKS) or not given or not is_utf_8(given[2]):
            raise self.at(30, token)
        if not 1 <= int(given[1]) <= 2147483647 or not 1 <= len(given[2]) <= 1024:
            raise self.at(30, token)
        file.take()
        after = file.name, file.shown(token.line)
        file.name, file.first, file.number = given[2], token.line + 1, int(given[1])
        self.write(b"\n" * token.text.count(b"\n"), *after, 0)
        self.origin(file.name, file.number)

    # usages

    def expand(self, items, depth, inside, place):
        """Writes the expansion of items. `inside` has the macros in whose text they are written, and `place` the place of
        the usage in a source from which they come, or none where they are the source's own."""
        at = 0
        while at < len(items):
            item = items[at]
            if item.kind == "back":
                at = self.usage(items, at, depth, inside, place)
                continue
            if item.kind == "mark":
                if depth == 0:
                    raise Fault(14, *place)
                self.expand(item.items, depth - 1, item.inside, place)
            elif item.kind == "bare":
                raise Fault(6, *(place or self.place_of(item)))
            else:
                self.write_token(item, place)
            at += 1

    def place_of(self, token):
        return self.open_files[-1].name, self.open_files[-1].shown(token.line)

    def write_token(self, token, place):
        if place:
            self.write(token.text, *place, 0)
            return
        self.write(token.text, *self.place_of(token), 1)
        if token.fault:
            raise self.broken(self.open_files[-1], token)

    def usage(self, items, at, depth, inside, outermost):
        """Writes the expansion of the usage at a place among items, and answers the place after it."""
        name, place = items[at].text[1:], outermost or self.place_of(items[at])
        if name in RESERVED:
            raise Fault(9, *place, name)
        macro = self.table.macros.get(name)
        if not macro or name in inside:
            raise Fault(8 if macro else 7, *place, name)
        actuals, after = None, at + 1
        if macro.formals is not None:
            actuals, after = self.actuals(items, at, Call(name, place, outermost is None))
            if not macro.formals and actuals == [[]]:
                actuals = []
            if len(actuals) != len(macro.formals):
                raise Fault(13, *place, name)
        if depth == 0:
            raise Fault(14, *place)
        self.expand(substituted(name, macro, actuals, inside), depth - 1, inside | {name}, place)
        return after

    def actuals(self, items, at, call):
        """The actuals of the call of the usage at a place among items, and the place after its `)`."""
        at = self.call_start(items, at + 1, call)
        level, kept, parts = 0, 0, [[]]
        for at in range(at, len(items)):
            item = items[at]
            if level == 0 and item.text == b")":
                return [stripped(part) for part in parts], at + 1
            if call.is_in_source and item.kind != "line_comment":
                kept += len(item.text)
                if kept > self.limits["argument_bytes"]:
                    raise Fault(12, *call.place, call.name)
            if item.fault:
                raise self.broken(self.open_files[-1], item)
            level = level_after(item, level)
            if level == 0 and item.kind == "comma":
                parts.append([])
            elif item.kind != "line_comment":
                parts[-1].append(item)
        raise Fault(11, *call.place, call.name)

    def call_start(self, items, at, call):
        """The place after the `(` of a call."""
        while at < len(items) and items[at].kind in PASSED and not items[at].fault:
            at += 1
        if at < len(items) and items[at].fault and items[at].kind != "string":
            raise self.broken(self.open_files[-1], items[at])
        if at == len(items) or items[at].text != b"(":
            raise Fault(10, *call.place, call.name)
        return at + 1


class Call:
    """A call that is read: its macro's name, its place, and whether it stands in a source."""

    def __init__(self, name, place, is_in_source):
        self.name, self.place, self.is_in_source = name, place, is_in_source


def is_utf_8(name):
    try:
        name.decode()
    except UnicodeDecodeError:
        return False
    return True


def stripped(items):
    """Items without blanks and line ends at both ends."""
    begin, end = 0, len(items)
    while begin < end and items[begin].kind in EMPTY:
        begin += 1
    while begin < end and items[end - 1].kind in EMPTY:
        end -= 1
    return items[begin:end]


def substituted(name, macro, actuals, inside):
    """The items of a body, with a mark in the place of each formal."""
    if not macro.places:
        return macro.items
    marks = {}
    for (formal, default), actual in zip(macro.formals, actuals):
        marks[formal] = Mark(inside, actual)
        if default and not actual:
            marks[formal] = Mark(inside | {name}, text_tokens(default))
    return [marks.get(item.text, item) if item.kind == "name" else item for item in macro.items]
