"""Runs the program `jskw-check`, which checks files and streams: `python -m jskw --help`."""

import os
import pathlib
import sys

PROGRAM = pathlib.Path(__file__).resolve().with_name("jskw-check")

if __name__ == "__main__":
    if not PROGRAM.exists():
        print(
            "jskw: this package was built without the program jskw-check. `./jskw check --version` in the repository "
            "builds it; then build the package again, or call `./jskw check` in place of `python -m jskw`.",
            file=sys.stderr,
        )
        sys.exit(3)
    os.execv(PROGRAM, [str(PROGRAM), *sys.argv[1:]])
