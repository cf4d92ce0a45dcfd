#!/usr/bin/env node
// Writes one report of a design, an HTML file that needs nothing else and prints well, or its tables.
//
//     report.mjs [--brief] DESIGN [ARRIVALS ..] >report.html
//     report.mjs --csv DESIGN >tables.csv
//     report.mjs --latex DESIGN >tables.tex
//
// It has the verdict, what is proved and what isn't, diagrams, tables, bars, margins, what to change where a limit is missed, and a run under each of the
// arrivals. Margins of single threads take many runs of the program (margins.py); --brief leaves them out. PROGRAM is the path of the program, and the
// proved program of this repository where it isn't set, or ./hrthood. A design that is refused gets a report as well, with what is refused. Status 0: every deadline
// is met, and there is a run under all of the arrivals; 1: the design or some arrivals are refused; 2: there is no report. It claims no proof.
import { mkdtempSync, readFileSync, rmSync, writeFileSync } from "node:fs";
import { tmpdir } from "node:os";
import { basename, join } from "node:path";
import { parseArgs } from "node:util";
import { microsecondsOf } from "../../web/clock.js";
import { readExplanation } from "../../web/explanation.js";
import { readOutline } from "../../web/outline.js";
import { foundOf } from "../../web/places.js";
import { Refusals } from "../../web/refusals.js";
import { Report, guaranteeOf } from "../../web/report.js";
import { csvOf, latexOf } from "../../web/tables.js";
import { splitOutput } from "../../web/traces.js";
import { TOP, Unusable, programOf, run, styleOf, sumOf, textOf } from "./words.mjs";

const OPTIONS = /** @type {const} */ ({ brief: { type: "boolean" }, csv: { type: "boolean" }, latex: { type: "boolean" } });
const refusals = new Refusals(JSON.parse(readFileSync(join(TOP, "web", "refusals.json"), "utf8")));

/** The words for a line of a refusal, with the place of it. */
function wordsFor(/** @type {string} */ line, /** @type {Record<string, string>} */ texts) {
  const told = refusals.toldOf(line, texts);
  if (told === null) return [line];
  const place = told.place === null ? [] : [`Line ${told.place.line}, column ${told.place.column} of the ${told.place.kind}.`];
  return [told.says, ...told.more, ...place];
}

/** The run of a design under arrivals: of its own Ada text, or of that which `background` made. */
function runUnder(/** @type {import("./words.mjs").Program} */ program, /** @type {string} */ design, /** @type {string} */ path, /** @type {string|null} */ ada) {
  const text = textOf(path);
  const found = { name: basename(path), text };
  const room = mkdtempSync(join(tmpdir(), "report-"));
  try {
    const file = join(room, "program.ada");
    if (ada !== null) writeFileSync(file, ada);
    const { status, out, line } = ada === null ? program.ask("verify", design, path) : program.ask("replay", file, path);
    if (status !== 0) return { ...found, refused: line, words: wordsFor(line, { design: textOf(design), arrivals: text }) };
    const split = splitOutput(out);
    return { ...found, ada: ada ?? split.ada, lines: split.lines };
  } finally {
    rmSync(room, { recursive: true });
  }
}

/** The margin that `scale` writes; null where the design is refused. */
function scaleOf(/** @type {{ status: number, out: string }} */ { status, out }) {
  const [, perMille, next] = /^scale (\d+)\nnext (.*)\n$/.exec(out) ?? [];
  return status !== 0 || perMille === undefined ? null : { perMille: Number(perMille), next };
}

/** The hard threads of an Ada text that `background` made, as far as its head tells their bounds. */
function hardThreads(/** @type {string} */ ada) {
  const lines = ada.split("\n").filter((line) => line.startsWith("-- thread ")).map((line) => line.slice(3));
  return readExplanation(lines.join("\n")).threads;
}

run("report", () => {
  const { values, positionals } = parseArgs({ allowPositionals: true, options: OPTIONS });
  const [design, ...arrivals] = positionals;
  if (design === undefined) throw new Unusable("give it a design, and arrivals if you like");
  if (values.csv && values.latex) throw new Unusable("the tables are written as --csv or as --latex, and not as both");
  const text = textOf(design);
  const program = programOf();
  const analysed = program.ask("analyse", design);
  const explained = program.ask("explain", design);
  const background = explained.status === 0 ? null : program.ask("background", design);
  const isBackground = background?.status === 0;
  const explanation = explained.status === 0 ? readExplanation(explained.out) : null;
  const refused = analysed.status === 0 || isBackground ? null : analysed.line;
  const isMissed = refused !== null && explanation !== null;
  const canRun = refused === null;
  const runs = canRun ? arrivals.map((path) => runUnder(program, design, path, isBackground ? background.out : null)) : [];
  const report = new Report({
    name: basename(design), version: readFileSync(join(TOP, "VERSION"), "utf8").trim(), text, outline: readOutline(text), microseconds: microsecondsOf(text),
    refused, words: refused === null ? [] : wordsFor(refused, { design: text }), at: refused === null ? null : foundOf(refused, { design: text })?.span.index ?? null,
    isBackground, explanation, scale: analysed.status === 0 ? scaleOf(program.ask("scale", design)) : null,
    margins: analysed.status === 0 && !values.brief ? program.script("margins.py", design) : null,
    changes: isMissed ? program.script("mend.py", design) : null, runs,
    identity: [["Toolset", `Lafomizana ${readFileSync(join(TOP, "VERSION"), "utf8").trim()}`], ...program.identity(),
      [`${basename(design)}, SHA-256`, sumOf(text)], ...runs.map((one) => [`${one.name}, SHA-256`, sumOf(one.text)])],
    guarantee: guaranteeOf(readFileSync(join(TOP, "docs", "GUARANTEE.md"), "utf8")),
    hard: isBackground ? hardThreads(background.out) : [],
  });
  const styles = styleOf("report", "diagram", "bars", "chart");
  process.stdout.write(values.csv ? csvOf(report.tables()) : values.latex ? latexOf(report.tables()) : report.document(styles));
  return refused !== null || runs.some((one) => "refused" in one) ? 1 : 0;
});
