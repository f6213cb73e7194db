// Checks the lines of standard input, each a JSON document, with ajv: prints how many are valid and how many not.
// The argument is the file of the schema. lines.py and lines.cpp do the same.
"use strict";
const fs = require("fs");
const Ajv = require("ajv");

const validate = new Ajv({ validateSchema: false }).compile(JSON.parse(fs.readFileSync(process.argv[2], "utf8")));
const counts = { valid: 0, invalid: 0 };
const chunk = Buffer.alloc(1 << 16);
let begun = [];

function check(bytes) {
  counts[validate(JSON.parse(bytes.toString("utf8"))) ? "valid" : "invalid"] += 1;
}

for (let size; (size = fs.readSync(0, chunk, 0, chunk.length, null)) > 0; ) {
  let from = 0;
  for (let end; (end = chunk.indexOf(10, from)) >= 0 && end < size; from = end + 1) {
    check(begun.length ? Buffer.concat([...begun, chunk.subarray(0, end)]) : chunk.subarray(from, end));
    begun = [];
  }
  begun.push(Buffer.from(chunk.subarray(from, size)));
}
console.log(`${counts.valid} ${counts.invalid}`);
