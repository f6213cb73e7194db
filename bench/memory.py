"""What the program of crates/jskw takes of memory, stack and time, request by request: each figure on this in README.md and
docs/USE.md is one of these."""

import os
import pathlib
import shutil
import subprocess
import sys
import tempfile

import growth
from program import ROOT, text_of

PROGRAM = ROOT / "crates" / "jskw" / "out" / "jskw"
SIZE = 4_000_000

# Runs a program under a limit on its stack, and prints the KB that it held at most and the seconds of the processor. Python
# cannot tell: the size of a process before it becomes another program counts too.
LAUNCHER = r"""
#include <stdio.h>
#include <stdlib.h>
#include <sys/resource.h>
#include <sys/wait.h>
#include <unistd.h>
int main(int count, char **words) {
    struct rlimit stack = {strtoul(words[1], 0, 10) << 10, strtoul(words[1], 0, 10) << 10}, none = {0, 0};
    struct rusage used;
    int status;
    pid_t child = fork();
    if (!child) {
        setrlimit(RLIMIT_CORE, &none);
        if (stack.rlim_cur) setrlimit(RLIMIT_STACK, &stack);
        execv(words[2], words + 2);
        _exit(127);
    }
    wait4(child, &status, 0, &used);
    fprintf(stderr, "%ld %.3f\n", used.ru_maxrss, used.ru_utime.tv_sec + used.ru_stime.tv_sec
        + (used.ru_utime.tv_usec + used.ru_stime.tv_usec) / 1e6);
    return WIFEXITED(status) ? WEXITSTATUS(status) : 128 + WTERMSIG(status);
}
"""


class Launcher:
    """A program, and a folder for its launcher and its output."""

    def __init__(self, program, folder):
        self.program, self.folder = program, pathlib.Path(folder)
        self.launcher = self.folder / "launcher"
        source = self.folder / "launcher.c"
        source.write_text(LAUNCHER, encoding="utf-8")
        subprocess.run(["cc", "-O1", "-o", self.launcher, source], check=True)

    def run(self, request, stack=0):
        """Returns the KB held, the seconds, the bytes of the output and the status."""
        given, told = self.folder / "request", self.folder / "told"
        given.write_text(request, encoding="utf-8")
        with open(given, "rb") as stdin, open(told, "wb") as stdout:
            ran = subprocess.run(
                [self.launcher, str(stack), self.program], stdin=stdin, stdout=stdout, stderr=subprocess.PIPE, check=False
            )
        held, seconds = ran.stderr.split()[-2:]
        return int(held), float(seconds), told.stat().st_size, ran.returncode


def request(schema, instance, draft="2020-12"):
    return f'{{"draft":"{draft}","schema":{schema},"instance":{instance}}}'


def only_read(schema, instance):
    # both texts as a member that is ignored
    return f'{{"schema":true,"instance":1,"ignored":[{schema},{instance}]}}'


def array_of(text, size=SIZE):
    return "[" + ",".join([text] * (size // (len(text) + 1))) + "]"


def deep_array(depth):
    return "[" * depth + "]" * depth


def deep_object(depth):
    return '{"":' * depth + "0" + "}" * depth


def members(count):
    return text_of({f"name{i}": i for i in range(count)})


# ---- what one MB of text takes


INSTANCES = [
    ("integers of six digits", lambda: array_of("123456")),
    ("strings of 12 letters", lambda: array_of('"abcdefghijkl"')),
    ("integers of one digit", lambda: array_of("1")),
    ("objects of 8 members", lambda: array_of(members(8))),
    ("objects of one member", lambda: array_of('{"":0}')),
    ("arrays, 100 deep", lambda: array_of(deep_array(100))),
    ("objects, 100 deep", lambda: array_of(deep_object(100))),
]

SCHEMAS = [
    ("`enum` of strings", lambda: '{"enum":%s}' % text_of([f"text{i:08}" for i in range(SIZE // 15)])),
    ("`required`", lambda: '{"required":%s}' % text_of([f"text{i:08}" for i in range(SIZE // 15)])),
    ("`prefixItems` of `{}`", lambda: '{"prefixItems":%s}' % array_of("{}")),
    ("`prefixItems` of a type and a limit", lambda: '{"prefixItems":%s}' % array_of('{"type":"integer","minimum":0}')),
    ("`const`, objects 100 deep", lambda: '{"const":%s}' % array_of(deep_object(100))),
    ("`enum` of different objects of one member", lambda: '{"enum":%s}' % text_of([{"": i} for i in range(SIZE // 12)])),
    ("`enum` of different objects 100 deep", lambda: '{"enum":%s}' % enum_of_deep_objects()),
    ("schemas `{}` below 123 others", lambda: below_others("{}", 123)),
    ("schemas with an `enum` below 110 others", lambda: below_others('{"enum":[]}', 110)),
]


def enum_of_deep_objects():
    count = SIZE // len(deep_object(100) + ",")
    return "[" + ",".join(deep_object(100).replace("0", str(i)) for i in range(count)) + "]"


def below_others(leaf, depth):
    return '{"items":[],"additionalItems":' * depth + '{"items":%s}' % array_of(leaf, SIZE // 4) + "}" * depth


def times_its_text(launcher, base, schema, instance, text):
    held, _, _, status = launcher.run(request(schema, instance, "7" if "additionalItems" in schema else "2020-12"))
    if status not in (0, 1):
        sys.exit(f"memory: {text[:60]} ended with {status}")
    return (held - base) * 1024 / len(text), held / 1024


def memory_lines(launcher):
    base = launcher.run(request("true", "1"))[0]
    for title, cases in (("instances", INSTANCES), ("schemas", SCHEMAS)):
        yield f"    {title:<42}{'bytes':>10}{'times':>6}{'MB':>6}"
        for name, make in cases:
            text = make()
            both = ("true", text) if title == "instances" else (text, "1")
            times, held = times_its_text(launcher, base, *both, text)
            yield f"    {name:<42}{len(text):>10,}{times:>6.0f}{held:>6.0f}"
        yield ""


# ---- errors, time and stack


def doubled(levels, leaf, instance):
    # 2 ** levels subschemas, each applied to the same array
    for _ in range(levels):
        leaf, instance = f'{{"items":{leaf},"contains":{leaf}}}', f"[{instance}]"
    return leaf, instance


def one_at_the_end():
    return array_of("1", 500_000)[:-1] + ",0]"


def look_alikes():
    numbers = [*range(100_000, 671_000)]
    return text_of([growth.nested(20, i) for i in range(100)] + numbers)


COSTLY = [
    ("20,000 objects that lack 100 names", lambda: (text_of({"items": {"required": growth.names(100)}}), array_of("{}", 60_000))),
    ("`false` 100 levels deep, 100,000 items", lambda: ('{"items":' * 100 + "false" + "}" * 100, "[" * 99 + array_of("1", 200_000) + "]" * 99)),
    ("`uniqueItems`, 100 alike 20 deep, 571,000 numbers", lambda: ('{"uniqueItems":true}', look_alikes())),
    ("2^8 times `contains`, 250,000 numbers", lambda: doubled(8, '{"contains":{"const":0}}', one_at_the_end())),
    ("2^12 times `contains`, 250,000 numbers", lambda: doubled(12, '{"contains":{"const":0}}', one_at_the_end())),
]


def costly_lines(launcher):
    yield f"    {'request':<50}{'bytes':>10}{'seconds':>8}{'/ reading':>10}{'MB':>5}{'output bytes':>13}"
    for name, make in COSTLY:
        schema, instance = make()
        held, seconds, output, _ = launcher.run(request(schema, instance))
        reading = launcher.run(only_read(schema, instance))[1]
        size = len(schema) + len(instance)
        yield f"    {name:<50}{size:>10,}{seconds:>8.2f}{seconds / max(reading, 0.001):>10.1f}{held / 1024:>5.0f}{output:>13,}"
    yield ""


STACK = [
    ("a schema 125 deep that does not compile", lambda: ('{"items":' * 124 + '{"minItems":-1}' + "}" * 124, "1")),
    ("a schema 125 deep, an instance as deep", lambda: ('{"items":' * 124 + '{"type":"integer"}' + "}" * 124, deep_array(124))),
    ("`uniqueItems`, 140,000 items", lambda: ('{"uniqueItems":true}', text_of([*range(140_000)]))),
]


def stack_of(launcher, asked):
    """Returns the fewest KB of stack with which the program gives the answer that it gives with 8 MB."""
    wanted = launcher.run(asked, 8192)[2:]
    least, most = 64, 8192
    while most - least > 4:
        middle = (least + most) // 2
        if launcher.run(asked, middle)[2:] == wanted:
            most = middle
        else:
            least = middle
    return most


def stack_lines(launcher):
    yield f"    {'request':<40}{'KB of stack':>12}"
    for name, make in STACK:
        yield f"    {name:<40}{stack_of(launcher, request(*make())):>12}"
    yield ""


def lines(program):
    """The lines of the report on a program, or on the one of crates/jskw if there is none."""
    program = program or PROGRAM
    if not shutil.which("cc") or not os.access(program, os.X_OK):
        yield f"Not measured: {'`cc` is not installed' if os.access(program, os.X_OK) else f'{program} is not built'}."
        yield ""
        return
    with tempfile.TemporaryDirectory() as folder:
        launcher = Launcher(program, folder)
        yield from memory_lines(launcher)
        yield from costly_lines(launcher)
        yield from stack_lines(launcher)
