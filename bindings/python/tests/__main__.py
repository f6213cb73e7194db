"""Tests the package `jskw`: `python3 bindings/python/tests [NAME ..]`, in all files or in those of these names. The
last line is `N passed, M failed`."""

import importlib
import pathlib
import sys

import checks

# behind an installed package, that which bindings/build made
sys.path.append(str(pathlib.Path(__file__).resolve().parents[2] / "out" / "python"))

if __name__ == "__main__":
    for name in sys.argv[1:] or "documents rows errors values refusals misuse memory".split():
        importlib.import_module(name).run()
    print(f"{checks.count - len(checks.failed)} passed, {len(checks.failed)} failed")
    sys.exit(bool(checks.failed))
