"""Stands in for a register compiler in the example in_front.py: it takes the path of a file, knows nothing of a
preprocessor, and tells on standard error each place where the bits of a field stand the wrong way round or a brace has no
partner, as `FILE:LINE: error: ..`. On standard output it lists the fields.

    python3 stand_in_compiler.py FILE
"""

import re
import sys

FIELD = re.compile(r"(\w+)\s*\[(\d+):(\d+)\]")


def main() -> int:
    path, opened, errors = sys.argv[1], [], []
    with open(path) as file:
        for number, line in enumerate(file, 1):
            text = line.split("//")[0]
            for name, high, low in FIELD.findall(text):
                print(f"{name}: {high}..{low}")
                if int(high) < int(low):
                    errors.append((number, f"the bits of '{name}' stand the wrong way round"))
            for brace in re.findall("[{}]", text):
                if brace == "{":
                    opened.append(number)
                elif not opened:
                    errors.append((number, "a brace is closed that wasn't opened"))
                else:
                    opened.pop()
    errors += [(number, "a brace isn't closed") for number in opened]
    for number, text in errors:
        print(f"{path}:{number}: error: {text}", file=sys.stderr)
    return 1 if errors else 0


if __name__ == "__main__":
    sys.exit(main())
