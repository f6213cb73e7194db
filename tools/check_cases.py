"""The cases of tools/check: the files, and of each case the name, the arguments, standard input, the status, the whole
standard output and the whole standard error. `{program}` stands for the program's name, `{usage}` for its lines of
usage."""

import collections

Case = collections.namedtuple("Case", "name arguments given status output errors", defaults=("", ""))

DEEP = b"[" * 128 + b"]" * 128

FILES = {
    # schemas
    "schema.json": b'{"items": {"type": "integer", "minimum": 0}}',
    "anything.json": b"true",
    "draft4.json": b'{"$schema": "http://json-schema.org/draft-04/schema#", "minimum": 1, "exclusiveMinimum": true}',
    "sizes.json": b'{"maxItems": 2, "minItems": 5, "items": {"maximum": 0}}',
    "unchecked.json": b'{"items": {"minimun": 1}, "properties": {"a": {"b": 1}}, "maxItems": 3}',
    "wrong.json": b'{"items": {"minItems": -1}}',
    "fraction.json": b'{"minimum": 1.5}',
    "number.json": b"7",
    "range.json": b'{"minimum": 1e400}',
    "other.json": b'{"$schema": "https://example.com/mine"}',
    "two_marks.json": b'{"$schema": "http://json-schema.org/draft-07/schema##"}',
    "nested.json": b'{"items": {"type": "array", "items": {"type": "integer", "minimum": 0}}}',
    # documents
    "places.json": '[\n  [1, -2, 3],\n  ["é€😀", {"b": [7, -1]},\n   -6],\n  "],[", [], [\t\t\t\t[4]]]'.encode(),
    "escapes.json": rb'[["\"]", -1], ["\\", -2, "\\\""], [-3]]',
    "valid.json": b"[1, 2]",
    "invalid.json": b'[1, -2, "a"]',
    "minus.json": b"[-1]",
    "empty.json": b"",
    "newline.json": b"\n",
    "spaces.json": b"  \n  ",
    "broken.json": b"[1,\n 2",
    "token.json": b"[1,\n  x]\n",
    "behind.json": b"[1]\n[2]\n",
    "inexact.json": b"[0, 1e300]",
    "inexact_deep.json": b'{"a/b": [0,\n 0.1234567890123456789]}',
    "tenfold.json": b'[18446744073709551615, 1e18, {"a": 1e19}]',
    "nul.json": b"\0",
    "nul_within.json": b'["a\0b"]',
    "nul_behind.json": b"[1]\0",
    "mark.json": b"\xef\xbb\xbf[]",
    "latin.json": b'["\xe9"]',
    "lone.json": b'["\\ud800"]',
    "deep.json": DEEP,
    "crlf.json": b"[\r\n-1,\r\n2]\r\n",
    "crlf_token.json": b"[\r\n-1,\r\nx]\r\n",
    "wide.json": '[1, "é€😀", x]'.encode(),
    "control.json": '["é😀\\u0007\\n\\u001b[2J\x7f"]'.encode(),
    "obeyed.json": '["\x80\x9f\xa0\u2027\u2028\u202e\u202f\u2065\u2066\u2069\u206a"]'.encode(),
    # lines
    "lines.jsonl": b'[1]\n[-1]\n\n[1\n{"a": [1e300]}\n[2, "a"]\n',
    "no_newline.jsonl": b"[1]\n[-1]",
    "crlf.jsonl": b"[1]\r\n[-1]\r\n\r\n[x]\r\n",
    "nul.jsonl": b"[1]\n\0\n[\0]\n[-1]\n",
    "mark.jsonl": b"\xef\xbb\xbf[1]\n[-1]\n",
    "latin.jsonl": b'["\xe9"]\n[-1]\n',
    "deep.jsonl": DEEP + b"\n[-1]\n",
}

FOLDER = "folder"

# What `--help` prints, but for line breaks, the width of its columns, and `--progress`, which it may have.
HELP = """
usage: {program} [-h] --schema SCHEMA [--draft {4,6,7,2019-09,2020-12}] [--vocabularies LIST] [--override NAME] [--lines]
[--output {text,basic,quiet}] [--max-errors N] [--allow-unchecked] [--verbose] [--version] [FILE ...]

Checks JSON documents against a schema, and writes a line for each error: FILE:LINE:COLUMN: instance location: message
[keyword location]. Each FILE is a document; - is standard input, which is read if there is no FILE.

positional arguments:
FILE what is checked

options:
-h, --help show this help message and exit
--schema SCHEMA the file of the schema; - is standard input
--draft {4,6,7,2019-09,2020-12} unless given, the one that the schema's $schema names, or 2020-12
--vocabularies LIST those that are present, of core, applicator, validation, with a comma between two; unless given, all
three
--override NAME does not assert this keyword; may be repeated
--lines each line of a FILE is a document (JSON Lines); answers name the line
--output {text,basic,quiet} text: a line for each error; basic: a line of JSON for each document; quiet: only what could
not be checked
--max-errors N writes the first N errors of each document at most, 0 for all; unless given, 1000; `.. and more` says that
there are others
--allow-unchecked ignores keywords of the schema that are not checked
--verbose text says of a valid document that it is valid, too
--version show program's version number and exit

Exit status: 0 if all documents are valid, 1 if one is invalid, 2 if something could not be checked: then the rest is
checked all the same.
"""

ENDS = "not JSON: the text ends too early"
WORD = "not JSON: a word that is not true, false or null"
UTF8 = "not JSON: the bytes are not UTF-8"
MORE = "not JSON: there is more behind the value"
MINUS_1 = "-1 must be at least 0 [/items/minimum]"
MINUS_2 = "invalid.json:1:5: /1: -2 must be at least 0 [/items/minimum]\n"
FIRST = f"{MINUS_2}invalid.json: .. and more\n"
INVALID = MINUS_2 + 'invalid.json:1:9: /2: "a" is of type string, must be integer [/items/type]\n'
UNREAD = "which JSON allows and jskw does not"
DEEPER = f"nests more than 127 levels, {UNREAD}"
ALLOW = "jskw: no document was checked; --allow-unchecked ignores these keywords\n"
UNCHECKED = (
    "unchecked.json: /items/minimun: not checked (unknown)\n"
    f"unchecked.json: /properties: not checked (notImplemented)\n{ALLOW}"
)
LINES = (
    f"lines.jsonl:2:2: /0: {MINUS_1}\n"
    f"lines.jsonl:3:1: {ENDS}\n"
    f"lines.jsonl:4:3: {ENDS}\n"
    "lines.jsonl:5:8: /a/0: the number has no exact decimal\n"
    'lines.jsonl:6:5: /1: "a" is of type string, must be integer [/items/type]\n'
)


def basic_minus_1(line):
    """What `basic` says behind the place of a line `[-1]`."""
    return (
        '"valid":false,"errors":[{"keywordLocation":"/items/minimum","instanceLocation":"/0",'
        f'"line":{line},"column":2,"error":"-1 must be at least 0"}}]}}\n'
    )



def minus_ones(count):
    """The errors of so many items that are -1."""
    return "".join(f"-:1:{3 * place + 2}: /{place}: {MINUS_1}\n" for place in range(count))


def minus_ones_text(count):
    return "[" + ",".join(["-1"] * count) + "]"


def usage(words):
    return f"{{usage}}\n{{program}}: error: {words}\n"


S = "--schema schema.json"
NO_NUMBER = "is no number from 0 to 2^64-1"

ARGUMENTS = [
    Case("no arguments", "", "", 2, "", usage("the following arguments are required: --schema")),
    Case("no schema", "valid.json", "", 2, "", usage("the following arguments are required: --schema")),
    Case("an unknown option", f"{S} --nope valid.json", "", 2, "", usage("unrecognized arguments: --nope")),
    Case("an option that a terminal obeys",
         f"{S} '--\n\x1b[31m\x7f\x80\x9f\xa0\u2027\u2028\u202e\u202f\u2065\u2066\u2069\\&é'", "", 2, "", usage(
             "unrecognized arguments: --\\u000a\\u001b[31m\\u007f\\u0080\\u009f\xa0\u2027\\u2028\\u202e\u202f\u2065\\u2066\\u2069\\&é"
         )),
    Case("an unknown short option", f"{S} -x", "", 2, "", usage("unrecognized arguments: -x")),
    Case("a short form of an option", f"{S} --verb", "", 2, "", usage("unrecognized arguments: --verb")),
    Case("no value of --schema", "--schema", "", 2, "", usage("argument --schema: expected one argument")),
    Case("an option as a value", "--schema --lines", "", 2, "", usage("argument --schema: expected one argument")),
    Case("no value of --draft", f"{S} --draft", "", 2, "", usage("argument --draft: expected one argument")),
    Case("no value of --output", f"{S} --output", "", 2, "", usage("argument --output: expected one argument")),
    Case("no value of --override", f"{S} --override", "", 2, "", usage("argument --override: expected one argument")),
    Case("no value of --max-errors", f"{S} --max-errors", "", 2, "",
         usage("argument --max-errors: expected one argument")),
    Case("no value of --vocabularies", f"{S} --vocabularies", "", 2, "",
         usage("argument --vocabularies: expected one argument")),
    Case("a value of an option without one", f"{S} --lines=1", "", 2, "",
         usage("unrecognized arguments: --lines=1")),
    Case("an unknown draft", f"{S} --draft 3", "", 2, "",
         usage("argument --draft: invalid choice: '3' (choose from '4', '6', '7', '2019-09', '2020-12')")),
    Case("an unknown output", f"{S} --output x", "", 2, "",
         usage("argument --output: invalid choice: 'x' (choose from 'text', 'basic', 'quiet')")),
    Case("all errors", f"{S} --max-errors 0 invalid.json", "", 1, INVALID),
    Case("a word as a number", f"{S} --max-errors x", "", 2, "", usage(f"argument --max-errors: 'x' {NO_NUMBER}")),
    Case("a number below 0", f"{S} --max-errors=-1", "", 2, "", usage(f"argument --max-errors: '-1' {NO_NUMBER}")),
    Case("no digits", f"{S} --max-errors=", "", 2, "", usage(f"argument --max-errors: '' {NO_NUMBER}")),
    Case("2^64 errors at most", f"{S} --max-errors 18446744073709551616", "", 2, "",
         usage(f"argument --max-errors: '18446744073709551616' {NO_NUMBER}")),
    Case("2^64-1 errors at most", f"{S} --max-errors 18446744073709551615 invalid.json", "", 1, INVALID),
    Case("zeros in front", f"{S} --max-errors 0001 invalid.json", "", 1, FIRST),
    Case("a value behind =", "--schema=schema.json --max-errors=1 invalid.json", "", 1, FIRST),
    Case("options behind files", f"invalid.json valid.json {S} --verbose", "", 1, INVALID + "valid.json: valid\n"),
    Case("an option twice", f"--schema none.json {S} --max-errors 2 --max-errors 1 invalid.json", "", 1, FIRST),
    Case("only files behind --", f"{S} -- --verbose invalid.json", "", 2,
         "--verbose: there is no such file\n" + INVALID),
    Case("an unknown vocabulary", f"{S} --vocabularies core,x valid.json", "", 2, "",
         usage("argument --vocabularies: 'x' is not one of 'core', 'applicator', 'validation'")),
]

SCHEMAS = [
    Case("no such schema", "--schema none.json valid.json", "", 2, "", "none.json: the schema: there is no such file\n"),
    Case("a schema in what is no folder", "--schema valid.json/a valid.json", "", 2, "",
         "valid.json/a: the schema: it cannot be read to its end\n"),
    Case("the schema is a folder", f"--schema {FOLDER} valid.json", "", 2, "", f"{FOLDER}: the schema: it is a folder\n"),
    Case("the schema cannot be read", "--schema /proc/self/mem valid.json", "", 2, "",
         "/proc/self/mem: the schema: it cannot be read to its end\n"),
    Case("a schema with a name that a terminal obeys", "--schema 'no\nsuch\x1b[31m\x9b\u2028\u202e' valid.json", "", 2, "",
         "no\\u000asuch\\u001b[31m\\u009b\\u2028\\u202e: the schema: there is no such file\n"),
    Case("a name at the bounds of what a terminal obeys",
         "--schema '\x1f \x7f\x80\x9f\xa0\u2027\u2028\u202e\u202f\u2065\u2066\u2069\u206a' valid.json", "", 2, "",
         "\\u001f \\u007f\\u0080\\u009f\xa0\u2027\\u2028\\u202e\u202f\u2065\\u2066\\u2069\u206a: the schema: there is no such file\n"),
    Case("the schema is empty", "--schema empty.json valid.json", "", 2, "",
         f"empty.json:1:1: the schema is {ENDS}\n"),
    Case("the schema is not JSON", "--schema token.json valid.json", "", 2, "",
         f"token.json:2:3: the schema is {WORD}\n"),
    Case("the schema ends early", "--schema broken.json valid.json", "", 2, "",
         f"broken.json:2:3: the schema is {ENDS}\n"),
    Case("the schema has a mark", "--schema mark.json valid.json", "", 2, "",
         "mark.json:1:1: the schema is not JSON: the text begins with a byte order mark\n"),
    Case("the schema is not UTF-8", "--schema latin.json valid.json", "", 2, "",
         f"latin.json:1:3: the schema is {UTF8}\n"),
    Case("the schema nests too deep", "--schema deep.json valid.json", "", 2, "",
         f"deep.json:1:128: the schema is {DEEPER}\n"),
    Case("a number of the schema is out of range", "--schema range.json valid.json", "", 2, "",
         "range.json: the schema has a number that is out of range\n"),
    Case("the schema does not compile", "--schema wrong.json valid.json", "", 2, "",
         "wrong.json: the schema does not compile: -1 must be at least 0 [/items/minItems]\n"),
    Case("a limit with a fraction", "--schema fraction.json valid.json", "", 2, "",
         "fraction.json: the schema does not compile: 1.5 is not a whole number of 64 bits [/minimum]\n"),
    Case("the schema is a number", "--schema number.json valid.json", "", 2, "",
         'number.json: the schema does not compile: 7 is of type integer, must be one of boolean, object []\n'),
    Case("keywords that are not checked", "--schema unchecked.json valid.json", "", 2, "", UNCHECKED),
    Case("the same with a draft", "--schema unchecked.json --draft 7 valid.json", "", 2, "", UNCHECKED),
    Case("they are allowed", "--schema unchecked.json --allow-unchecked --verbose valid.json", "", 0,
         "valid.json: valid\n"),
    Case("the others still count", "--schema unchecked.json --allow-unchecked -", "[1, 2, 3, 4]", 1,
         "-:1:1: (root): has 4 items, may have at most 3 [/maxItems]\n"),
    Case("an unknown $schema", "--schema other.json valid.json", "", 2, "",
         'other.json: $schema names no known draft: "https://example.com/mine"; --draft names one\n'),
    Case("a $schema with two #", "--schema two_marks.json valid.json", "", 2, "",
         'two_marks.json: $schema names no known draft: "http://json-schema.org/draft-07/schema##"; --draft names one\n'),
    Case("an unknown $schema and a draft", "--schema other.json --draft 7 --verbose valid.json", "", 0,
         "valid.json: valid\n"),
    Case("the draft of $schema", "--schema draft4.json", "1", 1,
         "-:1:1: (root): 1 must be above 1 [/exclusiveMinimum]\n"),
    Case("another draft", "--schema draft4.json --draft 7", "2", 2, "",
         'draft4.json: the schema does not compile: true is of type boolean, must be number [/exclusiveMinimum]\n'),
    Case("an overridden keyword", f"{S} --override minimum valid.json", "", 2, "",
         f"schema.json: /items/minimum: not checked (inactive)\n{ALLOW}"),
    Case("two that are allowed", f"{S} --override minimum --override type --allow-unchecked invalid.json", "", 0),
    Case("without a vocabulary", f"{S} --vocabularies core,applicator --allow-unchecked invalid.json", "", 0),
    Case("without any", f"{S} --vocabularies= --allow-unchecked invalid.json", "", 0),
    Case("with all", f"{S} --vocabularies core,applicator,validation invalid.json", "", 1, INVALID),
    Case("the schema is standard input", "--schema - invalid.json", FILES["schema.json"], 1, INVALID),
    Case("standard input twice", "--schema - -", FILES["schema.json"], 2, f"-:1:1: {ENDS}\n"),
]

DOCUMENTS = [
    Case("valid", f"{S} valid.json", "", 0),
    Case("valid, told", f"{S} --verbose valid.json", "", 0, "valid.json: valid\n"),
    Case("invalid", f"{S} invalid.json", "", 1, INVALID),
    Case("the first error", f"{S} --max-errors 1 invalid.json", "", 1, FIRST),
    Case("as many errors as there may be", f"{S} --max-errors 2 invalid.json", "", 1, INVALID),
    Case("one error fewer than there may be", f"{S} --max-errors 3 invalid.json", "", 1, INVALID),
    Case("999 errors", S, minus_ones_text(999), 1, minus_ones(999)),
    Case("1,000 errors", S, minus_ones_text(1000), 1, minus_ones(1000)),
    Case("1,001 errors", S, minus_ones_text(1001), 1, minus_ones(1000) + "-: .. and more\n"),
    Case("1,001 errors, all", f"{S} --max-errors 0", minus_ones_text(1001), 1, minus_ones(1001)),
    Case("1,001 errors, quiet", f"{S} --output quiet", minus_ones_text(1001), 1),
    Case("an error of the whole", "--schema sizes.json valid.json", "", 1,
         "valid.json:1:1: (root): has 2 items, needs at least 5 [/minItems]\n"
         "valid.json:1:2: /0: 1 must be at most 0 [/items/maximum]\n"
         "valid.json:1:5: /1: 2 must be at most 0 [/items/maximum]\n"),
    Case("each error at its place", "--schema nested.json places.json", "", 1,
         'places.json:2:7: /0/1: -2 must be at least 0 [/items/items/minimum]\n'
         'places.json:3:4: /1/0: "é€😀" is of type string, must be integer [/items/items/type]\n'
         'places.json:3:11: /1/1: {"b":[7,-1]} is of type object, must be integer [/items/items/type]\n'
         'places.json:4:4: /1/2: -6 must be at least 0 [/items/items/minimum]\n'
         'places.json:5:3: /2: "],[" is of type string, must be array [/items/type]\n'
         'places.json:5:19: /4/0: [4] is of type array, must be integer [/items/items/type]\n'),
    Case("each error at its place, behind escapes", "--schema nested.json escapes.json", "", 1,
         'escapes.json:1:3: /0/0: "\\"]" is of type string, must be integer [/items/items/type]\n'
         "escapes.json:1:10: /0/1: -1 must be at least 0 [/items/items/minimum]\n"
         'escapes.json:1:16: /1/0: "\\\\" is of type string, must be integer [/items/items/type]\n'
         "escapes.json:1:22: /1/1: -2 must be at least 0 [/items/items/minimum]\n"
         'escapes.json:1:26: /1/2: "\\\\\\"" is of type string, must be integer [/items/items/type]\n'
         "escapes.json:1:36: /2/0: -3 must be at least 0 [/items/items/minimum]\n"),
    Case("each error at its place, in a stream", "--schema nested.json --lines", "[[1],[-1]]\n[ [1], 2]", 1,
         "-:1:7: /1/0: -1 must be at least 0 [/items/items/minimum]\n"
         '-:2:8: /1: 2 is of type integer, must be array [/items/type]\n'),
    Case("lines of each length up to three times what is looked at at once", "--schema anything.json --lines --verbose",
         "".join(" " * length + "1\n" for length in range(97)), 0,
         "".join(f"-:{number}: valid\n" for number in range(1, 98))),
    Case("several files", f"{S} --verbose valid.json invalid.json valid.json", "", 1,
         f"valid.json: valid\n{INVALID}valid.json: valid\n"),
    Case("invalid first", f"{S} invalid.json valid.json", "", 1, INVALID),
    Case("not checked first", f"{S} none.json invalid.json valid.json", "", 2,
         "none.json: there is no such file\n" + INVALID),
    Case("not checked last", f"{S} invalid.json none.json", "", 2, INVALID + "none.json: there is no such file\n"),
    Case("standard input", f"{S} --verbose", "[1]", 0, "-: valid\n"),
    Case("standard input by name", f"{S} --verbose -", "[-1]", 1, f"-:1:2: /0: {MINUS_1}\n"),
    Case("standard input between files", f"{S} --verbose valid.json - valid.json", "[-1]", 1,
         f"valid.json: valid\n-:1:2: /0: {MINUS_1}\nvalid.json: valid\n"),
    Case("nothing on standard input", S, "", 2, f"-:1:1: {ENDS}\n"),
    Case("no such file", f"{S} none.json", "", 2, "none.json: there is no such file\n"),
    Case("a folder", f"{S} {FOLDER}", "", 2, f"{FOLDER}: it is a folder\n"),
    Case("a file in what is no folder", f"{S} valid.json/a", "", 2, "valid.json/a: it cannot be read to its end\n"),
    Case("a file that cannot be read", f"{S} /proc/self/mem invalid.json", "", 2,
         f"/proc/self/mem: it cannot be read to its end\n{INVALID}"),
    Case("empty", f"{S} empty.json", "", 2, f"empty.json:1:1: {ENDS}\n"),
    Case("a newline alone", f"{S} newline.json", "", 2, f"newline.json:2:1: {ENDS}\n"),
    Case("spaces alone", f"{S} spaces.json", "", 2, f"spaces.json:2:3: {ENDS}\n"),
    Case("it ends early", f"{S} broken.json", "", 2, f"broken.json:2:3: {ENDS}\n"),
    Case("a wrong token", f"{S} token.json", "", 2, f"token.json:2:3: {WORD}\n"),
    Case("two values", f"{S} behind.json", "", 2, f"behind.json:2:1: {MORE}\n"),
    Case("a column counts characters", f"{S} wide.json", "", 2, f"wide.json:1:12: {WORD}\n"),
    Case("inexact", f"{S} inexact.json", "", 2, "inexact.json:1:5: /1: the number has no exact decimal\n"),
    Case("inexact, deep", f"{S} inexact_deep.json", "", 2,
         "inexact_deep.json:2:2: /a~1b/1: the number has no exact decimal\n"),
    Case("inexact by its exponent", "--schema anything.json tenfold.json", "", 2,
         "tenfold.json:1:36: /2/a: the number has no exact decimal\n"),
    Case("a NUL byte", f"{S} nul.json", "", 2, f"nul.json:1:1: {WORD}\n"),
    Case("a NUL byte in a string", f"{S} nul_within.json", "", 2, "nul_within.json:1:2: not JSON: a control character in a string\n"),
    Case("a NUL byte behind", f"{S} nul_behind.json", "", 2, f"nul_behind.json:1:4: {MORE}\n"),
    Case("a byte order mark", f"{S} mark.json", "", 2,
         "mark.json:1:1: not JSON: the text begins with a byte order mark\n"),
    Case("not UTF-8", f"{S} latin.json", "", 2, f"latin.json:1:3: {UTF8}\n"),
    Case("a lone surrogate", f"{S} lone.json", "", 2, f"lone.json:1:2: has the escape of a lone surrogate, {UNREAD}\n"),
    Case("too deep", f"{S} deep.json", "", 2, f"deep.json:1:128: {DEEPER}\n"),
    Case("CRLF", f"{S} crlf.json", "", 1, f"crlf.json:2:1: /0: {MINUS_1}\n"),
    Case("CRLF, a wrong token", f"{S} crlf_token.json", "", 2, f"crlf_token.json:3:1: {WORD}\n"),
    Case("control characters are escaped", f"{S} control.json", "", 1,
         'control.json:1:2: /0: "é😀\\u0007\\n\\u001b[2J\\u007f" is of type string, must be integer [/items/type]\n'),
    Case("characters that a terminal obeys", f"{S} obeyed.json", "", 1,
         'obeyed.json:1:2: /0: "\\u0080\\u009f\u00a0\u2027\\u2028\\u202e\u202f\u2065\\u2066\\u2069\u206a" is of type string, must be integer '
         "[/items/type]\n"),
    Case("control characters of a name", f"{S} 'a\nb\x7f'", "", 2, "a\\u000ab\\u007f: there is no such file\n"),
    Case("an empty name", f"{S} ''", "", 2, ": there is no such file\n"),
]

STREAMS = [
    Case("lines", f"{S} --lines lines.jsonl", "", 2, LINES),
    Case("lines, told", f"{S} --lines --verbose no_newline.jsonl", "", 1,
         f"no_newline.jsonl:1: valid\nno_newline.jsonl:2:2: /0: {MINUS_1}\n"),
    Case("lines of several files", f"{S} --lines lines.jsonl valid.json no_newline.jsonl", "", 2,
         f"{LINES}no_newline.jsonl:2:2: /0: {MINUS_1}\n"),
    Case("lines of standard input", f"{S} --lines", "[1]\n[-1]\n", 1, f"-:2:2: /0: {MINUS_1}\n"),
    Case("no lines", f"{S} --lines --verbose", "", 0),
    Case("an empty line", f"{S} --lines", "\n", 2, f"-:1:1: {ENDS}\n"),
    Case("an empty line at the end", f"{S} --lines --verbose", "[1]\n\n", 2, f"-:1: valid\n-:2:1: {ENDS}\n"),
    Case("no newline at the end", f"{S} --lines no_newline.jsonl", "", 1, f"no_newline.jsonl:2:2: /0: {MINUS_1}\n"),
    Case("lines with CRLF", f"{S} --lines crlf.jsonl", "", 2,
         f"crlf.jsonl:2:2: /0: {MINUS_1}\ncrlf.jsonl:3:2: {ENDS}\ncrlf.jsonl:4:2: {WORD}\n"),
    Case("lines with NUL bytes", f"{S} --lines nul.jsonl", "", 2,
         f"nul.jsonl:2:1: {WORD}\nnul.jsonl:3:2: {WORD}\nnul.jsonl:4:2: /0: {MINUS_1}\n"),
    Case("lines behind a mark", f"{S} --lines mark.jsonl", "", 2,
         f"mark.jsonl:1:1: not JSON: the text begins with a byte order mark\nmark.jsonl:2:2: /0: {MINUS_1}\n"),
    Case("lines that are not UTF-8", f"{S} --lines latin.jsonl", "", 2,
         f"latin.jsonl:1:3: {UTF8}\nlatin.jsonl:2:2: /0: {MINUS_1}\n"),
    Case("lines that nest too deep", f"{S} --lines deep.jsonl", "", 2,
         f"deep.jsonl:1:128: {DEEPER}\ndeep.jsonl:2:2: /0: {MINUS_1}\n"),
    Case("lines of no file", f"{S} --lines none.json {FOLDER} no_newline.jsonl", "", 2,
         f"none.json: there is no such file\n{FOLDER}: it is a folder\nno_newline.jsonl:2:2: /0: {MINUS_1}\n"),
    Case("lines that cannot be read", f"{S} --lines /proc/self/mem no_newline.jsonl", "", 2,
         f"/proc/self/mem: it cannot be read to its end\nno_newline.jsonl:2:2: /0: {MINUS_1}\n"),
    Case("the first error of each line", f"{S} --lines --max-errors 1", "[-1, -1]\n[-1, -1]\n", 1,
         f"-:1:2: /0: {MINUS_1}\n-:1: .. and more\n-:2:2: /0: {MINUS_1}\n-:2: .. and more\n"),
    Case("a line of 2 blocks", f"{S} --lines", "[1]\n[" + "1," * 70_000 + "-1]\n[-1]\n", 1,
         f"-:2:140002: /70000: {MINUS_1}\n-:3:2: /0: {MINUS_1}\n"),
    Case("many lines", f"{S} --lines", "[1]\n" * 70_000 + "[-1]", 1, f"-:70001:2: /0: {MINUS_1}\n"),
    Case("quiet, valid", f"{S} --output quiet valid.json", "", 0),
    Case("quiet, invalid", f"{S} --output quiet --verbose valid.json invalid.json", "", 1),
    Case("quiet, not checked", f"{S} --output quiet none.json token.json invalid.json", "", 2,
         f"none.json: there is no such file\ntoken.json:2:3: {WORD}\n"),
    Case("text by name", f"{S} --output text invalid.json", "", 1, INVALID),
    Case("basic, valid", f"{S} --output basic valid.json", "", 0, '{"file":"valid.json","valid":true}\n'),
    Case("basic, invalid", f"{S} --output basic --max-errors 1 invalid.json", "", 1,
         '{"file":"invalid.json","valid":false,"errors":[{"keywordLocation":"/items/minimum","instanceLocation":"/1",'
         '"line":1,"column":5,"error":"-2 must be at least 0"}],"more":true}\n'),
    Case("basic, two errors", f"{S} --output basic invalid.json", "", 1,
         '{"file":"invalid.json","valid":false,"errors":[{"keywordLocation":"/items/minimum","instanceLocation":"/1",'
         '"line":1,"column":5,"error":"-2 must be at least 0"},{"keywordLocation":"/items/type","instanceLocation":"/2",'
         '"line":1,"column":9,"error":"\\"a\\" is of type string, must be integer"}]}\n'),
    Case("basic, not checked", f"{S} --output basic none.json token.json inexact.json mark.json {FOLDER} valid.json",
         "", 2,
         '{"file":"none.json","refused":"there is no such file"}\n'
         '{"file":"token.json","line":2,"column":3,"refused":"' + WORD + '"}\n'
         '{"file":"inexact.json","line":1,"column":5,"instanceLocation":"/1",'
         '"refused":"the number has no exact decimal"}\n'
         '{"file":"mark.json","line":1,"column":1,"refused":"not JSON: the text begins with a byte order mark"}\n'
         f'{{"file":"{FOLDER}","refused":"it is a folder"}}\n'
         '{"file":"valid.json","valid":true}\n'),
    Case("basic, lines", f"{S} --output basic --lines crlf.jsonl", "", 2,
         '{"file":"crlf.jsonl","line":1,"valid":true}\n'
         f'{{"file":"crlf.jsonl","line":2,{basic_minus_1(2)}'
         f'{{"file":"crlf.jsonl","line":3,"column":2,"refused":"{ENDS}"}}\n'
         '{"file":"crlf.jsonl","line":4,"column":2,"refused":"' + WORD + '"}\n'),
    Case("basic, an inexact line", f"{S} --output basic --lines --verbose", '[1]\n{"a\\"": [1e300]}\n', 2,
         '{"file":"-","line":1,"valid":true}\n'
         '{"file":"-","line":2,"column":10,"instanceLocation":"/a\\"/0",'
         '"refused":"the number has no exact decimal"}\n'),
    Case("basic, control characters", f"{S} --output basic control.json 'a\nb'", "", 2,
         '{"file":"control.json","valid":false,"errors":[{"keywordLocation":"/items/type","instanceLocation":"/0",'
         '"line":1,"column":2,"error":"\\"é😀\\\\u0007\\\\n\\\\u001b[2J\\\\u007f\\" is of type string, must be integer"}]}\n'
         '{"file":"a\\nb","refused":"there is no such file"}\n'),
    Case("basic, characters that a terminal obeys", f"{S} --output basic obeyed.json", "", 1,
         '{"file":"obeyed.json","valid":false,"errors":[{"keywordLocation":"/items/type","instanceLocation":"/0",'
         '"line":1,"column":2,"error":"\\"\\\\u0080\\\\u009f\u00a0\u2027\\\\u2028\\\\u202e\u202f\u2065\\\\u2066'
         '\\\\u2069\u206a\\" is of type string, must be integer"}]}\n'),
]


def named(file, line):
    return f'{{"file":"{file}",' + (f'"line":{line},' if line else "")


def lost(file, line):
    return f"{file}:{line}: refused: memory ran out\n" if line else f"{file}: refused: memory ran out\n"


# What memory runs out for: the options, the answer to `[-1]`, and what is written of a document that is refused, each of
# a file and the number of its line, or 0 if it is one document.
SHORT_OF_MEMORY = [
    ("text", [], lambda file, line: f"{file}:{line or 1}:2: /0: {MINUS_1}\n", lost),
    ("basic", ["--output", "basic"], lambda file, line: named(file, line) + basic_minus_1(line or 1),
     lambda file, line: named(file, line) + '"refused":"memory ran out"}\n'),
    ("quiet", ["--output", "quiet"], lambda file, line: "", lost),
]

CASES = [*ARGUMENTS, *SCHEMAS, *DOCUMENTS, *STREAMS]
