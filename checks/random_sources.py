"""Makes random sources in which every directive and token of the language may stand, whole or broken."""

# the macros, with the formals that they mostly have; those without a list have none
ARITIES = {"A": None, "B": 1, "C": None, "W": None, "F": 2, "G": 3, "long_name_1": 0}
NAMES = [*ARITIES]
FORMALS = ["x", "y", "z"]
WORDS = ["reg", "field", "a1", "8'hFF", "\\esc", "0", "'x", "$", "=", ";", "+", "<", "/", "é"]
STRINGS = ['""', '"text"', '"a\\"b"', '"`A"', '"// no comment"', '"over\nlines"', '"(,)"']
COMMENTS = ["// to the line's end\n", "/* block */", "/* over\nlines `A */", "// `endif\n", "/**/"]
BROKEN = ['"open', "/* open", "<%", "`", "`A(", "`F(1,", "`ifdef A\n", "`endif\n", "`else\n", "`elsif A\n",
          "`define", "`define 1\n", "`define A(x,x) x\n", "`define include x\n", "`undef 1\n", "`undef line\n",
          "`include\n", '`include "no\n', '`include "absent"\n', "`line 1\n", '`line 0 "n" 0\n', "`Q1\n", "`F\n",
          "`F()\n", "`F(1,2,3,4)\n", "`define A \"open\n", "`define A(x=[) x\n", "`define X \\\n", '"<%', "`ifdef",
          "`ifndef 1\n", "`ifdef else\n", "`ifndef Q\n`elsif 1\n`else\n`else\n", "`ifdef Q\n`elsif\n", "`ifdef Q <%",
          '`ifdef Q\n"open', "`ifndef Q\n/* open", "`include <one>\n", '`include ""\n', '`include "o\nne"\n', "`line",
          '`line 1 "n" 3\n', '`line 1 "" 0\n', '`line 1 "n" 0 x\n', 'x `line 1 "n" 0\n', "`B(`undef A\n)", '`B("open',
          "`B(/* open", "`B(<%", "`B`ifdef A\n", "`B // c\n", "`A`define F(", "`B(`B(`B(1))", "`define R `R\n`R",
          "`define D `else\n`D", "`define L x ` y\n`L"]
LIMITS = [("--max-depth", 1, 12), ("--max-includes", 0, 4), ("--max-line", 256, 600), ("--max-source", 1, 3000),
          ("--max-argument", 16, 100), ("--max-definition-bytes", 1024, 1200), ("--max-definitions", 5, 9),
          ("--max-conditions", 1, 6), ("--max-output", 0, 2000)]


# the files of a case, with the names by which the ones after each are found from it, and from the main text
FILES = {"one": ["sub/two", "three"], "sub/two": ["near", "three"], "sub/near": ["three"], "inc/three": ["last"],
         "inc/last": ["last"]}
FOUND = ["one", "one", "sub/two", "three", "last"]


class Case:
    """Files, of which `main` is a list of pieces that each close what they open, and the words of limits."""

    def __init__(self, main, files, limits, origins):
        self.main, self.files, self.limits, self.origins = main, files, limits, origins

    def text(self, pieces=None):
        """The main text, or its first pieces."""
        return "".join(self.main[:pieces]).encode()


def blanks(random):
    return random.choice(["", " ", " ", "\t", "  "])


def plain(random):
    """Text without a directive, a usage or embedded Perl."""
    kinds = random.choices(["word", "string", "comment", "line"], [8, 2, 1, 3], k=random.randint(1, 8))
    parts = {"word": WORDS, "string": [s for s in STRINGS if "`" not in s], "line": ["\n", "\r\n", "\n\n"],
             "comment": [c for c in COMMENTS if "`" not in c]}
    return " ".join(random.choice(parts[kind]) for kind in kinds)


def actual(random, depth):
    pieces = [random.choice(WORDS + STRINGS + ["", "[a,b]", "{,}", "(1)", "/* c */", "// c\n", "]", "\n"])]
    if depth and random.random() < 0.4:
        pieces.append(usage(random, depth - 1))
    return blanks(random).join(pieces)


def usage(random, depth=2):
    """A usage, mostly with as many actuals as its macro has formals."""
    name = random.choice(NAMES)
    count = ARITIES[name] if random.random() < 0.9 else random.choice([None, 0, 1, 2, 3])
    if count is None:
        return f"`{name} "
    between = random.choice(["", "", " ", "\n", "/* c */", "// c\n"])
    return f"`{name}{between}({','.join(actual(random, depth) for _ in range(count))})"


def formals_of(random, name):
    """The list of formals of a definition, mostly one that its macro's usages are written for."""
    usual = random.random() < 0.9
    count = ARITIES[name] if usual else random.choice([None, 0, 1, 2, 3])
    if count is None:
        return ""
    names = random.sample(FORMALS, count) if usual else random.choices(FORMALS, k=count)
    return "(" + ",".join(formal(random, name) for name in names) + ")"


def formal(random, name):
    default = random.choice(["", "", "=", "= 1", "=[a,b]", '="s,"', "=/* c */", "=`A", "=(x)"])
    return blanks(random) + name + blanks(random) + default


def body(random, depth=1):
    parts = WORDS + FORMALS + STRINGS + ["/* c */", "[x,y]", "\\\n", "\\\r\n", "`A", "`B", "// c"]
    pieces = [random.choice(parts) for _ in range(random.randint(0, 5))]
    if random.random() < 0.4:
        pieces.insert(random.randint(0, len(pieces)), usage(random, depth).replace("\n", " "))
    return " ".join(piece.replace("\nlines", " lines") for piece in pieces)


def define(random):
    name = random.choice(NAMES)
    return f"`define {name}{formals_of(random, name)} {body(random)}\n"


def conditional(random, depth, found):
    """A conditional that is closed, with further branches."""
    word = random.choice(["`ifdef", "`ifndef"])
    pieces = [f"{word} {random.choice(NAMES)}\n", sequence(random, depth, found)]
    for _ in range(random.choice([0, 0, 1, 2])):
        pieces += [f"`elsif {random.choice(NAMES)} ", sequence(random, depth, found)]
    if random.random() < 0.5:
        pieces += ["`else ", sequence(random, depth, found)]
    return "".join(pieces) + random.choice(["`endif\n", "`endif "])


def directive(random, depth, found):
    """A directive, whole; an include has mostly a name that is found."""
    kind = random.choices(["define", "undef", "conditional", "include", "line"], [5, 1, 5, 6, 2])[0]
    if kind == "define":
        return define(random)
    if kind == "undef":
        return f"`undef {random.choice(NAMES)} "
    if kind == "conditional" and depth:
        return conditional(random, depth - 1, found)
    if kind == "include":
        return f'`include "{random.choice(found if random.random() < 0.9 else FOUND)}" '
    name = random.choice(["shown", "other file", "m"])
    return f'\n`line {random.choice([1, 7, 2147483647])} "{name}" {random.choice([0, 1, 2])}\n'


def piece(random, depth, found):
    """A piece of a text that closes what it opens; what follows a usage can't be its arguments."""
    kind = random.choices(["plain", "long", "usage", "directive"], [8, 1, 8, 12])[0]
    if kind == "plain":
        return plain(random)
    if kind == "long":
        return " ".join(plain(random) for _ in range(30))
    return usage(random) + ";" if kind == "usage" else directive(random, depth, found)


def sequence(random, depth, found):
    made = (piece(random, depth, found) for _ in range(random.randint(0, 3)))
    return "".join(part + random.choice([" ", "\n"]) for part in made)


def pieces(random, most, found, broken):
    """Pieces, the last of which is broken, or a piece that is cut, as often as is said."""
    made = [piece(random, 2, found) + "\n" for _ in range(random.randint(0, most))]
    if random.random() < broken:
        made.append(random.choice(BROKEN) + random.choice(["", "\n", " tail\n"]))
    elif random.random() < broken:
        last = piece(random, 2, found)
        made.append(last[: random.randint(0, len(last))])
    return made


def defined_first(random):
    """Definitions that make most usages known."""
    known = ["`define A a\n", "`define B(x) <x>\n", "`define C `A`A\n", "`define W 8\n",
             "`define F(x,y=2) x y `W\n", "`define G(x, y, z=`A) [x]{y}z\n", "`define long_name_1() n\n"]
    return [line for line in known if random.random() < 0.95]


def case(random):
    """A case, by a source of random numbers."""
    main = defined_first(random) + pieces(random, 8, FOUND, 0.4)
    files = {path: "".join(pieces(random, 3, found, 0.1)) for path, found in FILES.items()}
    files["one"] = files["one"].rstrip("\n") if random.random() < 0.5 else files["one"]
    words = []
    for option, low, high in LIMITS:
        if random.random() < 0.15:
            words += [option, str(random.randint(low, high))]
    origins = ["--origins"] if random.random() < 0.2 else []
    return Case(main, {path: text.encode() for path, text in files.items()}, words, origins)
