"""The program, which is in the package: `python -m rdlpp` takes its words, and ends with its status."""

import os
import sys

PROGRAM = os.path.join(os.path.dirname(__file__), "bin", "rdlpp")


def main() -> None:
    """Becomes the program. Where that can't be, as in a checkout, it tells so by one line and the status 3."""
    try:
        os.execv(PROGRAM, ["rdlpp", *sys.argv[1:]])
    except OSError as error:
        print(f"rdlpp: error: {PROGRAM}: {error.strerror}", file=sys.stderr)
        sys.exit(3)


if __name__ == "__main__":
    main()
