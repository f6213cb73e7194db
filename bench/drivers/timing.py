"""Times calls as timing.js does. Each line of standard input is a name, a schema and an instance, with a tab between
each two. Without an argument it prints for each the name, the answer, and nanoseconds: a compile, is_valid, the first
error, all errors; `-` stands for a call that a validator lacks, and the answer is `lacks` if it cannot take the schema.

With a number as argument it times texts: it prints the name, the answer, and the mean nanoseconds of so many calls of
is_valid, each of which parses the bytes of the instance's text. The schema is compiled before."""

import json
import sys
import time

COPIES, SPAN, LIMIT = 4, 1_000_000, 300_000_000


def batch(rounds, instances, call):
    start = time.perf_counter_ns()
    for _ in range(rounds):
        for instance in instances:
            call(instance)
    return time.perf_counter_ns() - start


def fastest(instances, call):
    rounds, best = 1, batch(1, instances, call)
    while best < SPAN:
        rounds *= 2
        best = batch(rounds, instances, call)
    taken, count = best, 1
    while count < 30 and taken < LIMIT:
        elapsed = batch(rounds, instances, call)
        best, taken, count = min(best, elapsed), taken + elapsed, count + 1
    return best / (rounds * len(instances))


def lines():
    """The names, schemas and texts of standard input."""
    for line in sys.stdin:
        name, schema, text = line.rstrip("\n").split("\t")
        yield name, json.loads(schema), text


def word_of(answer):
    return "valid" if answer else "invalid"


def answer_texts(call_of):
    """`call_of` returns of a schema a call that says of the bytes of a text whether it is valid."""
    count = int(sys.argv[1])
    for name, schema, text in lines():
        call, text = call_of(schema), text.encode()
        print(name, word_of(call(text)), batch(count, [text], call) / count, sep="\t")


def answer_lines(calls_of):
    """`calls_of` returns of a schema four calls, or None for one that lacks: a compile of the schema, and of an
    instance whether it is valid, its first error, and all of them."""
    if len(sys.argv) > 1:
        return answer_texts(lambda schema: parsing(calls_of(schema)[1]))
    for name, schema, text in lines():
        instances, calls = [json.loads(text) for _ in range(COPIES)], calls_of(schema)
        if not calls:
            print(name, "lacks", *"----", sep="\t")
            continue
        compile_schema, is_valid, first, every = calls
        times = [fastest([schema], compile_schema) if compile_schema else "-"]
        times += [fastest(instances, call) if call else "-" for call in (is_valid, first, every)]
        print(name, word_of(is_valid(instances[0])), *times, sep="\t")


def parsing(is_valid):
    return lambda text: is_valid(json.loads(text))
