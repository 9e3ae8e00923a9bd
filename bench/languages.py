"""How a text of bench/works.py is said in the languages of the tools that are compared.

A text is written once, with `@` where the program and `ivlpp` have a backquote. Its definitions stand on lines of their
own, without comments; no other `@`, `#` or quote stands in it but in the forms below.
"""

import re

DEFINITION = re.compile(rb"^@define (\w+)(?:\(([^)]*)\))? ?(.*)\n", re.M)
DIRECTIVE = re.compile(rb"@(define|undef|ifdef|ifndef|else|endif|include)\b")


def verilog(text):
    """For the program and `ivlpp`: each directive and each usage begins with a backquote."""
    return text.replace(b"@", b"`")


def c(text):
    """For `cpp`, `clang` and `tcc`: directives begin with `#`, usages with nothing."""
    return DIRECTIVE.sub(rb"#\1", text).replace(b"@", b"")


def m4(text):
    """For `m4`: formals are numbers, bodies are quoted, usages begin with nothing."""
    return DEFINITION.sub(m4_definition, text).replace(b"@", b"")


def m4_definition(found):
    """A definition in m4's language; `dnl` drops the rest of its line."""
    name, formals, body = found.groups()
    for number, formal in enumerate((formals or b"").split(b","), 1):
        if formal.strip():
            body = re.sub(rb"\b%b\b" % formal.strip(), b"$%d" % number, body)
    return b"define(`%b', `%b')dnl\n" % (name, body)


LANGUAGES = {"verilog": verilog, "c": c, "m4": m4}


def with_defaults(text):
    """A text in which formals have defaults, as `width?=32?`, and calls leave actuals out, as `?32?`."""
    return re.sub(rb"\?\w+\?", b"", re.sub(rb"\?=(\w+)\?", rb"=\1", text))


def without_defaults(text):
    """The same for languages that have no defaults: each call has the default's text as its actual."""
    return re.sub(rb"\?(\w+)\?", rb"\1", re.sub(rb"\?=\w+\?", b"", text))
