"""Writes the wheel: the package, the shared library and the program, which have to be built before.

A build backend of its own, since a wheel is one archive and nothing is compiled here; it needs neither
setuptools nor wheel, nor a network. `make python` runs it, and so does `pip wheel`.
"""

import base64
import hashlib
import pathlib
import re
import sys
import zipfile

HERE = pathlib.Path(__file__).resolve().parent
ROOT = HERE.parent
BUILT = ROOT / "out"
LIBRARY = "librdlpp_c.so"
PROGRAM = "rdlpp"
NAME = "rdlpp"
VERSION = (ROOT / "VERSION").read_text().strip()
INFO = f"{NAME}-{VERSION}.dist-info"
LICENSES = ("LICENSE-APACHE", "LICENSE-MIT")
# The least C library that a wheel's platform names, where what is built would run with an older one too.
LEAST_GLIBC = (2, 17)
METADATA = f"""Metadata-Version: 2.4
Name: {NAME}
Version: {VERSION}
Summary: The preprocessor for SystemRDL
License-Expression: MIT OR Apache-2.0
License-File: LICENSE-APACHE
License-File: LICENSE-MIT
Requires-Python: >=3.8
Classifier: Programming Language :: Python :: Implementation :: CPython
"""
ENTRY_POINTS = f"""[console_scripts]
{NAME} = {NAME}.__main__:main
"""
WHEEL = f"""Wheel-Version: 1.0
Generator: rdlpp {VERSION}
Root-Is-Purelib: false
Tag: """


def _built(name):
    """The bytes of a file that is built."""
    file = BUILT / name
    if not file.exists():
        sys.exit(f"no {file}: run make build and make c first")
    return file.read_bytes()


def _tag():
    """The tag by which pip and indexes know where the wheel runs: with the newest C library that what is built asks for."""
    names = b"".join(_built(name) for name in (LIBRARY, PROGRAM))
    asked = {(int(first), int(second)) for first, second in re.findall(rb"GLIBC_(\d+)\.(\d+)", names)}
    newest = max(asked | {LEAST_GLIBC})
    return "py3-none-manylinux_{}_{}_x86_64".format(*newest)


def _files(tag):
    """What the wheel has: each path with its bytes, and whether it is a program."""
    for file in sorted((HERE / NAME).iterdir()):
        if file.suffix in (".py", ".typed"):
            yield f"{NAME}/{file.name}", file.read_bytes(), False
    yield f"{NAME}/{LIBRARY}", _built(LIBRARY), False
    yield f"{NAME}/bin/{PROGRAM}", _built(PROGRAM), True
    yield f"{INFO}/METADATA", METADATA.encode(), False
    yield f"{INFO}/WHEEL", f"{WHEEL}{tag}\n".encode(), False
    yield f"{INFO}/entry_points.txt", ENTRY_POINTS.encode(), False
    for license in LICENSES:
        yield f"{INFO}/licenses/{license}", (ROOT / license).read_bytes(), False


def _entry(path, is_program=False):
    """A file of the archive; pip makes a file that has the right to be run a program."""
    entry = zipfile.ZipInfo(path)
    entry.external_attr = (0o100755 if is_program else 0o100644) << 16
    return entry


def _line(path, held):
    digest = base64.urlsafe_b64encode(hashlib.sha256(held).digest()).rstrip(b"=").decode()
    return f"{path},sha256={digest},{len(held)}\n"


def build_wheel(wheel_directory, config_settings=None, metadata_directory=None):
    """Writes the wheel into a folder and answers its file's name (PEP 517)."""
    tag = _tag()
    name = f"{NAME}-{VERSION}-{tag}.whl"
    record = f"{INFO}/RECORD"
    lines = ""
    with zipfile.ZipFile(pathlib.Path(wheel_directory, name), "w", zipfile.ZIP_DEFLATED) as wheel:
        for path, held, is_program in _files(tag):
            wheel.writestr(_entry(path, is_program), held, zipfile.ZIP_DEFLATED)
            lines += _line(path, held)
        wheel.writestr(_entry(record), f"{lines}{record},,\n", zipfile.ZIP_DEFLATED)
    return name


if __name__ == "__main__":
    print(build_wheel(sys.argv[1]))
