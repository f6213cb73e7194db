"""How the scripts here ask crates/jskw_bench, which its src/main.rt describes."""

import json
import os
import pathlib
import re
import shutil
import subprocess
import sys
import tempfile

ROOT = pathlib.Path(__file__).resolve().parent.parent
CRATE = ROOT / "crates" / "jskw_bench"
BUILT = CRATE / "out" / "jskw_bench"
ROUNDS = 3
# what a line may answer, unless a caller expects more
ANSWERS = {"valid", "invalid", "done"}

# The C library keeps memory that is freed, as it does in a program that holds other memory: else each compile of a large
# schema would give its pages back to the system, and the next one take them anew. The second setting is for blocks of
# 128 KB and more: without the first, the library would raise it by itself when the first of them is freed.
ENVIRONMENT = {**os.environ, "MALLOC_TRIM_THRESHOLD_": "1000000000", "MALLOC_MMAP_THRESHOLD_": "1000000000"}


def text_of(value):
    return json.dumps(value, separators=(",", ":"))


def case_of(name, schema, instance, *loop):
    return "\t".join([name, text_of(schema), text_of(instance), *loop])


def call_of(name, call, text):
    return f"{name}\t{call}\t{text}"


def under(draft, overridden=()):
    return f"under\t{draft}\t{text_of(list(overridden))}"


def build():
    if not shutil.which("rt"):
        print("bench: `rt`, the command of the Rattle kit, is not on the PATH", file=sys.stderr)
        sys.exit(3)
    with open(CRATE / "stdin", "rb") as cases:
        built = subprocess.run(["rt", "run"], cwd=CRATE, stdin=cases, capture_output=True, text=True)
    if built.returncode:
        sys.exit("bench: the program could not be built:\n" + (built.stdout + built.stderr)[-2000:])
    return BUILT


def said(command, mode, lines):
    text = "\n".join([mode, *lines]) + "\n"
    ran = subprocess.run(command, input=text, text=True, capture_output=True, check=False, env=ENVIRONMENT)
    if ran.returncode:
        sys.exit(f"bench: {command[-1]} ended with {ran.returncode}: {ran.stderr[-1000:]}")
    return [line.split("\t") for line in ran.stdout.splitlines()]


def times_of(programs, lines, answers=frozenset(ANSWERS)):
    """Returns for each program the rows of its lines: a name, an answer, and nanoseconds. A processor that is shared
    may be slow for a minute, so that each time is the least of some rounds, and the programs take turns."""
    rounds = [[said([program], "time", lines) for program in programs] for _ in range(ROUNDS)]
    return [[least(rows, answers) for rows in zip(*(turn[place] for turn in rounds))] for place in range(len(programs))]


def least(rows, answers):
    name, answer = rows[0][:2]
    if answer not in answers:
        sys.exit(f"bench: {name}: {answer}")
    return name, answer, [min(map(float, times)) for times in zip(*(row[2:] for row in rows))]


def instructions_of(program, lines, width):
    """Returns for each line the instructions of one call of each of so many, by valgrind's callgrind; None if valgrind
    isn't installed."""
    if not shutil.which("valgrind"):
        return None
    with tempfile.TemporaryDirectory() as folder:
        tool = ["--tool=callgrind", f"--callgrind-out-file={folder}/out", "--dump-before=clock_gettime*"]
        said(["valgrind", *tool, program], "check", lines)
        dumps = sorted(pathlib.Path(folder).glob("out.*"), key=lambda path: int(path.suffix[1:]))
        counts = [int(re.search(r"^summary: (\d+)", dump.read_text(), re.M)[1]) for dump in dumps]
    # Between each two looks at the clock is a dump. Those of a call are four: two end a batch, of one round and of two.
    # A round of compiles is one call, any other four.
    rounds = [two - one for one, two in zip(counts[1::4], counts[3::4])]
    rows = [rounds[place : place + width] for place in range(0, len(rounds), width)]
    return [row if width == 1 else [row[0], *(count / 4 for count in row[1:])] for row in rows]
