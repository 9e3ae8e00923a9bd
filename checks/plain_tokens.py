"""The tokens of a text, by the table of docs/PROFILE.md ('Texts and tokens')."""

import re

BLANKS = b" \t\r\v\f"
WHITE = BLANKS + b"\n"
# The first alternative that matches gives the token. A string that isn't closed ends before `<%`, or with its text.
TOKEN = re.compile(
    rb"""(?P<perl><%)
    |(?P<line_end>\n)
    |(?P<blank>[ \t\r\v\f]+)
    |(?P<line_comment>//[^\n]*)
    |(?P<block_comment>/\*.*?\*/)
    |(?P<open_comment>/\*.*)
    |(?P<string>"(?:[^"\\<]|<(?!%)|\\.)*")
    |(?P<open_string>"(?:[^"\\<]|<(?!%)|\\.)*\\?)
    |(?P<name>[A-Za-z_][A-Za-z0-9_]*)
    |(?P<word>[0-9][A-Za-z0-9_]*|['\\][A-Za-z0-9_]+)
    |(?P<back>`[A-Za-z_][A-Za-z0-9_]*)
    |(?P<bare>`)
    |(?P<opener>[(\[{])
    |(?P<closer>[)\]}])
    |(?P<comma>,)
    |(?P<other>.)""",
    re.S | re.X,
)
LOGICAL_END = re.compile(rb"(?<!\\)(?<!\\\r)\n")
OPEN = {"open_comment": ("block_comment", 3), "open_string": ("string", 2)}


class Token:
    """A token: its kind, its bytes, the physical line and the offset at which it begins.

    A broken one ends its text: `fault` is the number of its fault, and `fault_line` the physical line of that.
    """

    __slots__ = ("kind", "text", "line", "offset", "fault", "fault_line")

    def __init__(self, kind, text, line, offset, fault=None, fault_line=0):
        self.kind, self.text, self.line, self.offset = kind, text, line, offset
        self.fault, self.fault_line = fault, fault_line


def text_tokens(text):
    """The tokens of a body, an actual or a default text."""
    return list(tokens_before(text, Front(len(text), None, 0, len(text)), False))


def source_tokens(text, limits):
    """The tokens of a source; `define` and `line` are tokens with the lines that they take."""
    front = front_of(text, limits)
    return list(tokens_before(text, front, limits["line_bytes"]))


class Front:
    """The part of a text before its first breaking line: where it ends, with which fault, and where that line ends."""

    def __init__(self, end, fault, fault_line, breaking_end):
        self.end, self.fault, self.fault_line, self.breaking_end = end, fault, fault_line, breaking_end


def front_of(text, limits):
    at, line = 0, 1
    while at < len(text):
        end = text.find(b"\n", at) + 1 or len(text)
        if end - at > limits["line_bytes"]:
            return Front(at, 4, line, end)
        if end > limits["source_bytes"]:
            return Front(at, 5, line, end)
        at, line = end, line + 1
    return Front(len(text), None, 0, len(text))


def tokens_before(text, front, line_bytes):
    """The tokens of a front; where `line_bytes` isn't 0, those of a source. A broken one is the last."""
    at, line = 0, 1
    while at < front.end:
        match = TOKEN.match(text, at, front.end)
        token = Token(match.lastgroup, match[0], line, at)
        if token.kind in OPEN or token.kind == "perl":
            yield from broken_tokens(token, match.end(), front)
            return
        if line_bytes and token.kind == "back" and token.text in (b"`define", b"`line"):
            token = opaque(text, token, front, line_bytes)
        yield token
        if token.fault:
            return
        at += len(token.text)
        line += token.text.count(b"\n")
    if front.fault:
        yield Token("early", b"", front.fault_line, front.end, front.fault, front.fault_line)


def broken_tokens(token, end, front):
    """The token that ends a text: one that is open there, or `<%`."""
    if token.kind == "perl":
        yield Token("perl", b"", token.line, token.offset, 1, token.line)
        return
    kind, fault = OPEN[token.kind]
    fault_line = token.line
    if end < front.end:  # a string that ends before `<%`
        fault, fault_line = 1, token.line + token.text.count(b"\n")
    elif front.fault:
        fault, fault_line = front.fault, front.fault_line
    yield Token(kind, token.text, token.line, token.offset, fault, fault_line)


def opaque(text, token, front, line_bytes):
    """The token of a `define` or a `line` with the lines that it takes."""
    kind = token.text[1:].decode()
    if kind == "line":
        end = text.find(b"\n", token.offset) + 1 or len(text)
        return Token(kind, text[token.offset : min(end, front.end)], token.line, token.offset)
    found = LOGICAL_END.search(text, token.offset)
    end = found.end() if found else len(text)
    if end > front.end:
        length = min(end, front.breaking_end) - token.offset
        return Token(kind, b"", token.line, token.offset, 4 if length > line_bytes else 5, token.line)
    if end - token.offset > line_bytes:
        return Token(kind, b"", token.line, token.offset, 4, token.line)
    return Token(kind, text[token.offset : end], token.line, token.offset)
