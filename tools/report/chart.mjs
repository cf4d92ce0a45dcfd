#!/usr/bin/env node
// Draws the trace of a run as an SVG picture (docs/CHART.md), by the modules that draw it in the page.
//
//     hrthood verify D R | chart.mjs >run.svg
//     hrthood replay A R | chart.mjs --text A >run.svg
//
//     chart.mjs [--from N] [--to N] [--fold N] [--width N] [--text A] [--analysis B] [--milliseconds D] [--title T] [--list] [FILE]
//
// FILE has what `verify` or `replay` writes; standard input where it is missing or -. The window is from tick --from to --to, by default the first 300
// ticks, in panels of --fold ticks, --width pixels wide. --analysis has what `analyse` writes: costs and blocking for the table. Times are ticks, and
// milliseconds by the TICK of the design of --milliseconds. With --list who runs when is written as lines, in ticks. A text or trace that can't be
// read is told in one line, with status 2. Who runs follows from the trace, which is tested, and not proved.
import { parseArgs } from "node:util";
import { asFile } from "../../web/markup.js";
import { Sheet } from "../../web/sheet.js";
import { Fault, Run, Trace, listed, readAnalysis, readProgram, splitOutput } from "../../web/traces.js";
import { clockOf, numberOf, run, styleOf, textOf } from "./words.mjs";

const WINDOW = 300; // ticks
const NARROWEST = 360; // pixels
const TEXT = /** @type {const} */ ({ type: "string" });
const OPTIONS = { from: TEXT, to: TEXT, fold: TEXT, width: TEXT, text: TEXT, analysis: TEXT, milliseconds: TEXT, title: TEXT,
  list: /** @type {const} */ ({ type: "boolean" }) };

/** What is written for the words. */
function drawn() {
  const { values, positionals } = parseArgs({ allowPositionals: true, options: OPTIONS });
  if (positionals.length > 1) throw new Fault("give it one trace");
  const from = numberOf(values, "from", 0, 0);
  const to = numberOf(values, "to", from + WINDOW, 0);
  if (to <= from) throw new Fault(`no tick lies between ${from} and ${to}`);
  const fold = numberOf(values, "fold", to - from, 1);
  const width = numberOf(values, "width", 1200, NARROWEST);
  const clock = clockOf(values.milliseconds);
  const { ada, lines } = splitOutput(textOf(positionals[0] ?? "-"));
  if (ada === "" && values.text === undefined) throw new Fault("the output of `replay` has no Ada text: give it by --text");
  const program = readProgram(values.text === undefined ? ada : textOf(values.text));
  if (values.analysis !== undefined) readAnalysis(textOf(values.analysis), program);
  const trace = new Trace(program, lines);
  if (trace.last > 0 && trace.last <= from) throw new Fault(`the trace ends at tick ${trace.last}, before the window`);
  const part = new Run(trace, from, to);
  if (values.list) return listed(part).map((/** @type {string} */ line) => `${line}\n`).join("");
  const title = values.title ?? `Run of ${program.design}`;
  return asFile(new Sheet(part, width, { fold, title, clock }).draw(), styleOf("chart"));
}

run("chart", () => {
  process.stdout.write(drawn());
  return 0;
});
