#!/usr/bin/env node
// Tells what changed from one design to another, as Markdown for a review.
//
//     diff.mjs [--milliseconds] OLD NEW
//
// First the texts: objects, attributes, operations, calls and costs; then responses and slacks side by side, the greatest loss of slack first, and
// ceilings. A design that misses its limits is compared too, by what `explain` writes; where the program takes a design not at all, the texts are
// compared alone. With --milliseconds times are so, by the TICK that both designs have to have. PROGRAM is the path of the program, and the proved
// program of this repository where it isn't set, or ./hrthood. Status 0: NEW meets its deadlines; 1: it doesn't; 2: nothing is compared. It claims no proof.
import { basename } from "node:path";
import { parseArgs } from "node:util";
import { Clock, TICKS, microsecondsOf } from "../../web/clock.js";
import { markdownOf } from "../../web/changes.js";
import { readExplanation } from "../../web/explanation.js";
import { readOutline } from "../../web/outline.js";
import { Unusable, programOf, run, textOf } from "./words.mjs";

run("diff", () => {
  const { values, positionals } = parseArgs({ allowPositionals: true, options: { milliseconds: { type: "boolean" } } });
  if (positionals.length !== 2) throw new Unusable("give it two designs");
  const program = programOf();
  const names = basename(positionals[0]) === basename(positionals[1]) ? positionals : positionals.map((path) => basename(path));
  const [before, after] = positionals.map((/** @type {string} */ path, /** @type {number} */ place) => {
    const text = textOf(path);
    if (readOutline(text).objects.length === 0) throw new Unusable(`${path} has no object`);
    const [analysed, explained] = [program.ask("analyse", path), program.ask("explain", path)];
    return { name: names[place], text, refused: analysed.status === 0 ? null : analysed.line,
      explanation: explained.status === 0 ? readExplanation(explained.out) : null };
  });
  const ticks = [before, after].map(({ text }) => microsecondsOf(text));
  if (values.milliseconds && (ticks[0] === null || ticks[0] !== ticks[1])) throw new Unusable("the designs have not one TICK, so times are ticks alone");
  process.stdout.write(markdownOf(before, after, values.milliseconds ? new Clock(ticks[0]) : TICKS));
  return after.refused === null ? 0 : 1;
});
