"""The works that bench/compare measures: texts made anew at each run, always the same.

A text is written once, for the program and `ivlpp`; bench/languages.py says it in the languages of the other tools.
"""

import random

from languages import with_defaults, without_defaults

FIELD = b"    field { sw = rw; hw = r; reset = 0x0; } enable[%d:%d] = 1;\n"
SMALL = b"addrmap block { reg { field {} a; } r; };\n"


class Work:
    """A name and a text.

    `says` are the languages in which the work is measured; `others` has texts that can't be made of the first one, by
    language; `files` are further sources, `options` those of the program. Where `over_output` is set, `cat` is timed
    over the output.
    """

    def __init__(self, name, text, says=("verilog", "c", "m4"), others=None, files=None, options=(), over_output=False):
        self.name, self.text, self.says, self.others = name, text, says, others or {}
        self.files, self.options, self.over_output = files or {}, options, over_output


def repeated(line, size):
    """Lines up to about this size."""
    block = b"".join(line(number) for number in range(1000))
    return block * max(1, size // len(block))


def plain(size):
    """Ordinary lines of register descriptions, without a usage, a string or a comment."""
    return repeated(lambda i: FIELD % (i % 32, i % 16), size)


def usages(size, macros):
    """A usage without arguments on every line, of so many macros in turn."""
    head = b"".join(b"@define WIDTH_%d %d\n" % (number, number) for number in range(macros))
    lines = [b"    field { sw = rw; hw = r; } count[@WIDTH_%d] = 1;\n" % (i * 1531 % macros) for i in range(4000)]
    block = b"".join(lines)
    return head + block * max(1, (size - len(head)) // len(block))


def fifth_lines(size):
    """A usage on every fifth line, of a macro without arguments and of one with two in turn."""
    head = b"@define WIDTH 31:0\n@define BITS(high, low) high:low\n"
    used = (b"    field { sw = rw; } first[@WIDTH] = 0;\n", b"    field { sw = rw; } second[@BITS(%d, 0)] = 0;\n")
    lines = [FIELD % (i % 32, i % 16) if i % 5 else used[i % 2].replace(b"%d", b"%d" % (i % 32)) for i in range(1000)]
    block = b"".join(lines)
    return head + block * max(1, size // len(block))


def comments_and_strings(size):
    """Lines of which the greater part are comments and strings, with names of macros in them."""
    lines = (
        b"    // WIDTH is the width of the counter, one of the values that the next table lists\n",
        b'    desc = "The count is WIDTH bits wide; it wraps to 0, and then the flag (overflow) is set.";\n',
        b"    /* software may write it at any time: the WIDTH least bits are taken, others are dropped */\n",
        b'    name = "Count"; count = @WIDTH; // in cycles\n',
    )
    return b"@define WIDTH 32\n" + repeated(lambda i: lines[i % 4], size)


def random_usages(macros, count):
    """Definitions of so many macros, and usages of them in random order."""
    chosen = random.Random(1)
    head = b"".join(b"@define REG_%d %d\n" % (number, 4 * number) for number in range(macros))
    return head + b"".join(b"    reset = @REG_%d;\n" % chosen.randrange(macros) for _ in range(count))


def definitions(macros):
    """Definitions alone, each with a body of a line."""
    lines = [FIELD.strip() % (number % 32, number % 16) for number in range(macros)]
    return b"".join(b"@define FIELD_%d %b\n" % (number, line) for number, line in enumerate(lines))


def calls(size):
    """A call with two arguments on every line, three macros deep."""
    head = (b"@define FIELD(w, r) field { reset = r; } f[w];\n@define PAIR(w, r) @FIELD(w, r) @FIELD(w, 0)\n"
            b"@define BLOCK(w, r) reg { @PAIR(w, r) };\n")
    return head + repeated(lambda i: b"@BLOCK(%d, %d)\n" % (i % 32, i), size)


def calls_of_six(size):
    """A call of six formals on every line, four macros deep, with braces, parentheses and calls in actuals."""
    head = (
        b"@define SUM(a, b) (a + b)\n"
        b"@define FIELD(word, width, access, hard, value, more) field { sw = access; hw = hard; reset = value; more } word[width];\n"
        b"@define PAIR(word, width, access, hard, value, more) @FIELD(word, width, access, hard, value, more)"
        b" @FIELD(shadow, @SUM(width, 1), r, hard, (0), {more})\n"
        b"@define ROW(word, width, access, hard, value, more) reg { @PAIR(word, width, access, {hard}, value, more) } word;\n"
        b"@define BLOCK(word, width, access, hard, value, more) @ROW(word, width, access, hard, @SUM(value, (1)), more)\n"
    )
    call = b"@BLOCK(count%d, @SUM(%d, @SUM(1, (2))), rw, {r; w}, mask(%d, 3), {onread = rclr; width = of(a, b);})\n"
    return head + repeated(lambda i: call % (i, i % 32, i % 8), size)


def nested_calls(depth, count):
    """Calls that stand so deep in their own actual."""
    return b"@define ONE(x) <x>\n" + (b"@ONE(" * depth + b"r" + b")" * depth + b"\n") * count


def whole_lines(size):
    """Usages whose actuals are whole lines."""
    head = b"@define KEEP(line) line\n@define TWICE(line) line line\n"
    used = (b"@KEEP(", b"@TWICE(")
    return head + repeated(lambda i: used[i % 2] + (FIELD % (i % 32, i % 16))[:-1] + b")\n", size)


def register_files(size):
    """Registers by a family of macros with defaults, written as bench/languages.py reads them; half of the actuals are left out."""
    formals = b"(word, width?=32?, access?=rw?, value?=0x0?)"
    head = (
        b"@define FIELD" + formals + b" field { sw = access; reset = value; } word[width];\n"
        b"@define REG" + formals + b" reg { @FIELD(word, width, access, value) } word;\n"
        b"@define BANK" + formals + b" regfile { @REG(control, width, ?rw?, ?0x0?) @REG(limit, ?32?, access, value)"
        b" @REG(flags, 4, ?rw?, value) } word;\n"
    )
    lines = (b"@BANK(bank%d, ?32?, ?rw?, ?0x0?)\n", b"@BANK(bank%d, 16, r, ?0x0?)\n", b"@REG(single%d, ?32?, ?rw?, 0x1)\n")
    return head + repeated(lambda i: lines[i % 3] % i, size)


def long_bodies(count):
    """A usage on every line of a macro whose body has 1 kB."""
    body = b" ".join(b"field%d" % number for number in range(150))[:1024]
    return b"@define BODY " + body + b"\n" + b"@BODY\n" * count


def doublings(depth):
    """Macros each of which doubles the one before it, and a usage of the last."""
    lines = [b"@define E%d @E%d @E%d\n" % (n, n - 1, n - 1) for n in range(1, depth + 1)]
    return b"@define E0 x\n" + b"".join(lines) + b"@E%d\n" % depth


def doublings_by_actuals(depth):
    """A call of a macro that writes its actual twice, so deep in its own actual."""
    return b"@define D(x) x x\n" + b"@D(" * depth + b"r" + b")" * depth + b"\n"


def skipped(size):
    return b"@ifdef NOTHING\n" + plain(size) + b"@endif\n"


def conditionals(depth, rounds, line=lambda number: b""):
    """Conditionals that deep, so many times, each of them with a line of text of its own before and after the inner ones."""
    opened = b"".join(b"@ifndef N%d\n%b" % (number, line(number)) for number in range(depth))
    closed = b"".join(b"%b@endif\n" % line(number) for number in range(depth))
    return (opened + b"text\n" + closed) * rounds


def chain(length):
    """Files of which each includes the next one."""
    files = {"c%d" % n: b'@include "c%d"\n' % (n + 1) for n in range(1, length)}
    return files | {"c%d" % length: SMALL}


def works(megabytes):
    """All works, with texts of about so many megabytes."""
    size = megabytes << 20
    yield Work("plain text", plain(size))
    yield Work("a quarter of it", plain(size // 4), says=("verilog",))
    yield Work("comments and strings", comments_and_strings(size), says=("verilog", "c"))
    for macros in (10, 1000, 4000):
        yield Work(f"usages of {macros} macros", usages(size // 3, macros))
    yield Work("a usage on fifth lines", fifth_lines(size // 2))
    room = ("--max-definitions", "65536", "--max-definition-bytes", "16777216")
    yield Work("60,000 definitions", definitions(60000), options=room)
    yield Work("60,000 macros at random", random_usages(60000, 240000), options=room)
    yield Work("bodies of 1 kB", long_bodies(size // 1024), over_output=True)
    yield from in_calls(size)
    yield Work("24 doublings", doublings(24))
    yield Work("skipped text", skipped(size), says=("verilog", "c"))
    yield from in_conditionals()
    yield from in_includes()


def in_calls(size):
    """Calls of all kinds."""
    yield Work("calls three deep", calls(size // 8))
    yield Work("calls of six formals", calls_of_six(size // 32))
    yield Work("24 calls in an actual", nested_calls(24, 10000))
    yield Work("20 doublings by actuals", doublings_by_actuals(20))
    yield Work("actuals of whole lines", whole_lines(size // 4))
    files = register_files(size // 16)
    others = {language: without_defaults(files) for language in ("c", "m4")}
    yield Work("register files", with_defaults(files), others=others)


def in_conditionals():
    """Conditionals 200 deep, bare directives alone, and with register descriptions in them."""
    for name, line in (("conditionals 200 deep", lambda i: b""), ("the same with lines", lambda i: FIELD % (i % 32, i % 16))):
        yield Work(name, conditionals(200, 500, line), says=("verilog", "c"))


def in_includes():
    """Sources that include others."""
    yield Work("a chain of includes", b'@include "c1"\n', says=("verilog", "c"), files=chain(64))
    yield Work("1,000 includes", b'@include "small"\n' * 1000, says=("verilog", "c"), files={"small": SMALL})
