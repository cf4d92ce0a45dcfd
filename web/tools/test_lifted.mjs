#!/usr/bin/env node
// Tests how the limits of a late design are lifted: what changes in its text, and that what is lifted is the same design but for that.
//
//     PROGRAM=./hrthood web/tools/test_lifted.mjs
import { test } from "node:test";
import assert from "node:assert/strict";
import { mkdtempSync, readFileSync, rmSync, writeFileSync } from "node:fs";
import { tmpdir } from "node:os";
import { join } from "node:path";
import { readExplanation } from "../explanation.js";
import { withLaterDeadlines, withoutBudgets } from "../lifted.js";
import { answerOf, read } from "./page_trial.mjs";

/** Threads as `explain` tells them, of names, periods, deadlines, jitters and responses, the greatest priority first. */
function threadsOf(...rows) {
  return rows.map(([name, period, deadline, jitter, response]) => ({ name, period, deadline, jitter, response }));
}

/** A text of cyclic objects, by names, periods and deadlines. */
function textOf(...rows) {
  const object = ([name, period, deadline]) => `OBJECT ${name} IS CYCLIC\nATTRIBUTES PERIOD = ${period}; DEADLINE = ${deadline}; THREAD_BUDGET = 9;\n`
    + `THREAD work (1); END THREAD;\nEND ${name};\n`;
  return `DESIGN d IS\n${rows.map(object).join("")}END d;\n`;
}

test("a deadline goes as far as the period", () => {
  const { text, changes, why } = withLaterDeadlines(textOf(["a", 20, 8]), threadsOf(["a", 20, 8, 0, 9]));
  assert.equal(why, null);
  assert.equal(text, textOf(["a", 20, 20]));
  assert.deepEqual(changes.map(({ thread, attribute, from, to }) => [thread, attribute, from, to]), [["a", "DEADLINE", "8", "20"]]);
});

test("a deadline stays before that of the thread below, so that the order is kept", () => {
  const threads = threadsOf(["a", 50, 8, 0, 9], ["b", 20, 15, 0, 16]);
  assert.equal(withLaterDeadlines(textOf(["a", 50, 8], ["b", 20, 15]), threads).text, textOf(["a", 50, 20], ["b", 20, 20]));
  // Of equal deadlines the earlier one of the text has the greater priority.
  assert.equal(withLaterDeadlines(textOf(["b", 20, 15], ["a", 50, 8]), threads).text, textOf(["b", 20, 20], ["a", 50, 19]));
});

test("a unit goes with its number, comments stay", () => {
  const written = "DESIGN d VERSION 2 IS TICK = 1 ms;\nOBJECT a IS CYCLIC\nATTRIBUTES PERIOD = 20 ms; -- DEADLINE = 3 ms;\nDEADLINE = 8 ms; "
    + "THREAD_BUDGET = 9 ms;\nTHREAD work (1); END THREAD;\nEND a;\nEND d;\n";
  assert.equal(withLaterDeadlines(written, threadsOf(["a", 20, 8, 0, 9])).text, written.replace("\nDEADLINE = 8 ms", "\nDEADLINE = 20"));
  assert.equal(withoutBudgets(written).text, written.replace("9 ms", "1000000000"));
});

test("what can't be lifted is said", () => {
  const whyOf = (...row) => withLaterDeadlines(textOf(row.slice(0, 3)), threadsOf(/** @type {any} */ (row)));
  assert.deepEqual(whyOf("a", 20, 8, 0, 21), { text: null, changes: [], why: "the response of a, 21, is over its period, 20" });
  assert.equal(whyOf("a", 20, 8, 5, 16).why, "the jitter and the response of a, 5 and 16, are over its period, 20");
  assert.equal(whyOf("a", 20, 8, 5, 15).why, null);
  assert.equal(whyOf("a", 20, 8, 0, null).why, "a has no response within ten times its limit");
  const threads = threadsOf(["a", 50, 8, 0, 30], ["b", 20, 15, 0, 16]);
  assert.equal(withLaterDeadlines(textOf(["a", 50, 8], ["b", 20, 15]), threads).why,
    "the response of a, 30, is over 20, beyond which its deadline would change the priorities");
});

/** What the program tells of a text. */
function told(verb, text) {
  const room = mkdtempSync(join(tmpdir(), "lifted-"));
  writeFileSync(join(room, "d.design"), text);
  const answer = answerOf([verb, join(room, "d.design")]);
  rmSync(room, { recursive: true });
  return answer;
}

for (const name of ["late_control.design", "late_platform.design", "faults/u1.design"]) {
  test(`${name} passes with its deadlines lifted, with the same priorities, costs and responses`, () => {
    const late = readExplanation(told("explain", read(name)).out.toString());
    assert.match(late.miss, /^miss U1 /);
    const { text, why, changes } = withLaterDeadlines(read(name), late.threads);
    assert.equal(why, null);
    assert.ok(changes.length > 0);
    const { status, out } = told("explain", text);
    assert.equal(status, 0);
    const lifted = readExplanation(out.toString());
    assert.equal(lifted.miss, null);
    const numbers = ({ threads }) => threads.map((one) => [one.name, one.priority, one.period, one.jitter, one.cost, one.blocking, one.response]);
    assert.deepEqual(numbers(lifted), numbers(late));
  });
}

test("faults/u2.design isn't lifted, since its jitter is over a period", () => {
  const late = readExplanation(told("explain", read("faults/u2.design")).out.toString());
  assert.match(withLaterDeadlines(read("faults/u2.design"), late.threads).why, /^the jitter and the response of elevator, /);
});

test("faults/v14.design has bounds without its budgets", () => {
  assert.match(told("analyse", read("faults/v14.design")).err, /^refused V14 /);
  assert.equal(told("analyse", withoutBudgets(read("faults/v14.design")).text).err.startsWith("refused V14 "), false);
});
