// Returns the nanoseconds of a call: of batches of 1 ms or more, thirty or fewer once these took 0.3 s, the fastest.
"use strict";
const COPIES = 4;
const SPAN = 1_000_000;
const LIMIT = 300_000_000;

function batch(rounds, calls, call) {
  const start = process.hrtime.bigint();
  for (let round = 0; round < rounds; round += 1) {
    for (let place = 0; place < calls; place += 1) call(place);
  }
  return Number(process.hrtime.bigint() - start);
}

function fastest(calls, call) {
  let rounds = 1;
  let best = batch(rounds, calls, call);
  // a compiler that works beside the program has to have seen a call for a while
  for (let warm = best; warm < 50_000_000; ) warm += batch(rounds, calls, call);
  while (best < SPAN) {
    rounds *= 2;
    best = batch(rounds, calls, call);
  }
  for (let taken = best, count = 1; count < 30 && taken < LIMIT; count += 1) {
    const time = batch(rounds, calls, call);
    taken += time;
    best = Math.min(best, time);
  }
  return best / (rounds * calls);
}

module.exports = { batch, fastest, COPIES };
