#!/usr/bin/env node
// Draws of what each response is made, in SVG, from the lines that `hrthood explain` writes, or `hrthood analyse`.
//
//     hrthood explain D | bars.mjs [--scale deadline|response|ticks] [--width N] [--milliseconds D] >bars.svg
//
// A bar is as wide as the thread's deadline, or its response, or all have one scale of ticks; a thread that is late goes on past its deadline. Chains
// stand below, the responses of their threads behind one another. Times are ticks, and milliseconds by the TICK of the design of --milliseconds. Of
// lines of `analyse` the terms follow by the response equation. Exit status 1 tells that a response is no sum of its terms, which the picture tells
// too, and 2 that there is no picture. It claims no proof.
import { parseArgs } from "node:util";
import { Bars } from "../../web/bars.js";
import { readExplanation, wrongSums } from "../../web/explanation.js";
import { asFile } from "../../web/markup.js";
import { Unusable, clockOf, numberOf, run, styleOf, textOf } from "./words.mjs";

const TEXT = /** @type {const} */ ({ type: "string" });

run("bars", () => {
  const { values, positionals } = parseArgs({ allowPositionals: true, options: { scale: TEXT, width: TEXT, milliseconds: TEXT } });
  const { scale = "deadline" } = values;
  if (positionals.length > 1) throw new Unusable("give it the lines of one design");
  if (!["deadline", "response", "ticks"].includes(scale)) throw new Unusable("--scale is deadline, response or ticks");
  const told = readExplanation(textOf(positionals[0] ?? "-"));
  if (told.threads.length === 0) throw new Unusable("no line of a thread: give it what `hrthood explain D` writes");
  const picture = new Bars(told, numberOf(values, "width", 1000, 300), { scale, clock: clockOf(values.milliseconds) }).draw();
  process.stdout.write(asFile(picture, styleOf("bars")));
  const wrong = wrongSums(told.threads);
  if (wrong === null) return 0;
  console.error(`bars: ${wrong}`);
  return 1;
});
