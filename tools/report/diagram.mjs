#!/usr/bin/env node
// Draws a design as a HOOD diagram, in SVG.
//
//     diagram.mjs [--of OBJECT] [--bounds FILE] [--legend] DESIGN >design.svg
//
// Without a word the whole tree, with children inside their parents. --of draws one object with its children alone, and beside it what they use
// outside. --bounds takes what `hrthood explain` or `hrthood analyse` writes, for priorities, responses and ceilings. A design that is refused is drawn
// as far as its text can be read. Exit status 2 tells that there is no picture. It claims no proof.
import { parseArgs } from "node:util";
import { Diagram } from "../../web/diagram.js";
import { readExplanation } from "../../web/explanation.js";
import { asFile } from "../../web/markup.js";
import { readOutline } from "../../web/outline.js";
import { Unusable, run, styleOf, textOf } from "./words.mjs";

const OPTIONS = /** @type {const} */ ({ of: { type: "string" }, bounds: { type: "string" }, legend: { type: "boolean" } });

run("diagram", () => {
  const { values, positionals } = parseArgs({ allowPositionals: true, options: OPTIONS });
  if (positionals.length !== 1) throw new Unusable("give it one design");
  const outline = readOutline(textOf(positionals[0]));
  if (outline.objects.length === 0) throw new Unusable(`${positionals[0]} has no object`);
  const bounds = values.bounds === undefined ? null : readExplanation(textOf(values.bounds));
  const name = values.of?.toLowerCase();
  const focus = name === undefined ? null : outline.objects.find((/** @type {{ name: string }} */ one) => one.name === name);
  if (focus === undefined) throw new Unusable(`there is no object ${values.of}`);
  const picture = new Diagram(outline, { bounds, focus, isFlat: focus !== null }).draw(values.legend);
  process.stdout.write(asFile(picture, styleOf("diagram")));
  return 0;
});
