// Times ajv. Each line of standard input is a name, a schema and an instance, with a tab between each two. It prints
// the name, the answer, and nanoseconds: a compile, is_valid, the first error, all errors. With a number as argument it
// times texts, as timing.py describes.
"use strict";
const Ajv = require("ajv");
const { batch, fastest, COPIES } = require("./timing.js");

// schemas aren't checked against the meta-schema: the others don't do it either
const first = new Ajv({ validateSchema: false });
const all = new Ajv({ validateSchema: false, allErrors: true });

function compile(ajv, schema) {
  ajv.removeSchema();
  return ajv.compile(schema);
}

function word(answer) {
  return answer ? "valid" : "invalid";
}

function row(name, schema, text) {
  schema = JSON.parse(schema);
  const instances = Array.from({ length: COPIES }, () => JSON.parse(text));
  const validate = compile(first, schema);
  const validateAll = compile(all, schema);
  const answers = instances.flatMap((instance) => [validate(instance), validateAll(instance)]);
  const answer = answers.every((one) => one === answers[0]) ? word(answers[0]) : "differs";
  // it makes an error for the first failure in any case
  const isValid = fastest(COPIES, (place) => validate(instances[place]));
  const times = [
    fastest(1, () => compile(first, schema)),
    isValid,
    isValid,
    fastest(COPIES, (place) => validateAll(instances[place])),
  ];
  return [name, answer, ...times].join("\t");
}

function textRow(count, name, schema, text) {
  const validate = compile(first, JSON.parse(schema));
  const call = () => validate(JSON.parse(text));
  return [name, word(call()), batch(count, 1, call) / count].join("\t");
}

const count = Number(process.argv[2] ?? 0);
for (const line of require("fs").readFileSync(0, "utf8").trimEnd().split("\n")) {
  console.log(count ? textRow(count, ...line.split("\t")) : row(...line.split("\t")));
}
