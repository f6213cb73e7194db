"""Checks the lines of a file, each a JSON document, on the workers of a Dask cluster.

    on_dask.py SCHEDULER SCHEMA FILE

Each worker compiles the schema once, and reads its blocks of the file itself: all workers need FILE at this path, and
the packages `distributed` and `jskw`. Prints the line and the first error of each document that is invalid or cannot be
checked, and at the end how many lines are valid. Exit status: 0 if all are, 1 if not."""

import os
import sys

import jskw
from distributed import Client, WorkerPlugin, as_completed, get_worker

BLOCK, MOST = 32_000_000, 1000  # bytes of a block, and the most errors that are kept of it


class Compiled(WorkerPlugin):
    """Compiles the schema in each worker, also in those that start later."""

    name = "jskw"

    def __init__(self, schema):
        self.schema = schema

    def setup(self, worker):
        worker.validator = jskw.Validator(self.schema, strict=True)


def lines_of(path, start, size):
    """Returns the lines that begin in a block of a file."""
    with open(path, "rb") as file:
        if start:
            file.seek(start - 1)
            file.readline()  # the rest of a line that begins before the block
        while file.tell() < start + size and (line := file.readline()):
            yield line.removesuffix(b"\n")


def check_block(path, start, size):
    """Returns how many lines begin in a block and how many of them are valid, and the first errors, each with its line
    in the block."""
    validator, lines, valid, told = get_worker().validator, 0, 0, []
    for lines, text in enumerate(lines_of(path, start, size), 1):
        try:
            error = next(validator.iter_errors(text, limit=1), None)
            why = error and f"{error.instance_location}: {error.message} [{error.keyword_location}]"
        except (jskw.NotJson, jskw.InexactNumber) as refusal:
            why = f"not checked: {refusal}"
        valid += why is None
        if why is not None and len(told) < MOST:
            told.append((lines, why))
    return lines, valid, told


def check_file(client, schema, path, size=BLOCK, seen=lambda done: None):
    """Returns the same of a whole file. Calls `seen` with the number of blocks that are done, each time one is."""
    jskw.Validator(schema, strict=True)  # a schema that is refused is refused here
    client.register_worker_plugin(Compiled(schema))
    blocks = [client.submit(check_block, path, at, size, pure=False) for at in range(0, os.path.getsize(path), size)]
    for done, _ in enumerate(as_completed(blocks), 1):
        seen(done)
    lines, valid, told = 0, 0, []
    for count, right, errors in client.gather(blocks):
        told += [(lines + line, why) for line, why in errors]
        lines, valid = lines + count, valid + right
    return lines, valid, told


def main(scheduler, schema, path):
    with open(schema, "rb") as file, Client(scheduler) as client:
        lines, valid, told = check_file(client, file.read(), os.path.abspath(path))
    for line, why in told:
        print(f"{path}:{line}: {why}")
    print(f"{valid:,} of {lines:,} lines are valid")
    return int(valid < lines)


if __name__ == "__main__":
    sys.exit(main(*sys.argv[1:]))
