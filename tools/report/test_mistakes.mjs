#!/usr/bin/env node
// Tries the words and places of refusals by told_at.mjs on mistakes: those of examples/mistakes/first_day.txt, the files of examples/mistakes, of
// which each mends what the one before it is refused for, and all that is refused in examples/*.cases.
//
//     test_mistakes.mjs            tries all, and tells how many are told at the line of the mistake
//     test_mistakes.mjs --table    writes a table of the mistakes of a first day too
//
// With a path in PROGRAM that program is asked what it tells of each mistake. Otherwise what the tables have is taken for that.
import { spawnSync } from "node:child_process";
import { mkdtempSync, readFileSync, readdirSync, rmSync, writeFileSync } from "node:fs";
import { tmpdir } from "node:os";
import { dirname, join, relative } from "node:path";
import { argv, env, exit } from "node:process";
import { fileURLToPath } from "node:url";
import { errorFor, wordsFor } from "./told_at.mjs";

const EXAMPLES = join(dirname(dirname(dirname(fileURLToPath(import.meta.url)))), "examples");
const LEAST = 52; // of the mistakes of a first day that the error itself is to tell at their line
const program = env.PROGRAM;
const room = mkdtempSync(join(tmpdir(), "mistakes-"));
const file = join(room, "x.design");
let [tried, failed] = [0, 0];

function judge(/** @type {boolean} */ isRight, /** @type {string} */ what) {
  tried++;
  if (isRight) return;
  failed++;
  console.log(`FAILED ${what}`);
}

const read = (/** @type {string[]} */ ...path) => readFileSync(join(EXAMPLES, ...path), "utf8");

/** What the program tells of these words, or what a table has for that. */
function toldBy(/** @type {string[]} */ words, /** @type {string} */ told) {
  if (program === undefined) return told;
  return spawnSync(program, words, { encoding: "utf8", cwd: EXAMPLES, env: { ...env, HRTHOOD_WORDS: "never" } }).stderr.replace(/^hrthood: .*\n/gm, "").trimEnd();
}

/** The lines of a file that the words for a refusal tell: that of the error, and those of notes. */
function linesOf(/** @type {string} */ words, /** @type {string} */ name) {
  const places = words.split("\n").filter((line) => line.startsWith(`${name}:`)).map((line) => line.slice(name.length + 1));
  return { errors: places.filter((one) => !one.includes(": note: ")).map((one) => parseInt(one, 10)).filter((line) => line > 0),
    notes: places.filter((one) => one.includes(": note: ")).map((one) => parseInt(one, 10)) };
}

/** Whether words are sentences, with nothing left to fill in, and no line of the program. */
function judgeWords(/** @type {string} */ words, /** @type {string} */ what) {
  const sentences = words.split("\n").slice(0, -1).map((line) => line.replace(/^(\S+:)?(\d+:\d+: )?([A-Z]\d+: |note: )?/, "").trim());
  const isRight = sentences.length > 0 && sentences.every((one) => /^.{3,}[.?]$/.test(one) && !/undefined|NaN|\{|refused /.test(one));
  judge(isRight, `${what}: words: ${words}`);
}

/** A row of first_day.txt as its parts. */
function rowOf(/** @type {string} */ row) {
  const [name, line, by, old, other, told] = row.split(" | ");
  return { name, line: Number(line), by, old: old.replaceAll("\\n", "\n"), other: (other ?? "").replaceAll("\\n", "\n"), told };
}

function firstDay() {
  const design = read("mistakes", "first_day.design");
  const rows = read("mistakes", "first_day.txt").split("\n").filter((row) => row !== "" && !row.startsWith("#")).map(rowOf);
  const counts = { error: 0, note: 0, other: 0 };
  const table = ["| Mistake | Line | The program's line | In words |", "|---|---:|---|---|"];
  for (const { name, line, by, old, other, told } of rows) {
    judge(design.includes(old), `${name}: the design has what is changed`);
    writeFileSync(file, design.replaceAll(old, () => other));
    const found = toldBy(["check", file], told);
    judge(found === told, `${name}: the program tells ${found} and not ${told}`);
    const words = wordsFor(found, ["check", file]);
    judgeWords(words, name);
    const { errors, notes } = linesOf(words, file);
    const seen = errors[0] === line ? "error" : notes.includes(line) ? "note" : "other";
    judge(seen === by, `${name}: line ${line} is told by ${seen} and not ${by}: ${words}`);
    counts[seen]++;
    table.push(`| ${name} | ${line} | \`${found}\` | ${words.trimEnd().replaceAll(`${file}:`, "").replace(/\n */g, "<br>").replaceAll("|", "\\|")} |`);
  }
  judge(counts.error >= LEAST, `${counts.error} mistakes are told at their line, and not ${LEAST}`);
  if (argv.includes("--table")) console.log(table.join("\n"));
  console.log(`${rows.length} mistakes of a first day: ${counts.error} told at their line, ${counts.note} by a note, ${counts.other} elsewhere`);
}

/** The first line in which two texts differ, and the last one, in the first text. */
function changedLines(/** @type {string} */ before, /** @type {string} */ after) {
  const [one, other] = [before.split("\n"), after.split("\n")];
  let first = 0;
  while (one[first] === other[first]) first++;
  let last = 1;
  while (one.at(-last) === other.at(-last)) last++;
  return [first + 1, Math.max(first + 1, one.length - last + 1)];
}

/** The rows of a table of cases that are refused: their words, and what the program tells. */
function refusedCases(/** @type {string} */ name) {
  return read(name).split("\n").map((row) => row.split("|").map((part) => part.trim()))
    .filter((parts) => parts[0] === "1" && parts[3]?.startsWith("refused "))
    .map(([, words, , told]) => ({ words: words.split(" "), told }));
}

function mendedFiles() {
  let right = 0;
  const cases = refusedCases("mistakes.cases");
  for (const { words: [verb, name], told } of cases) {
    const next = name.replace(/\d\d/, (digits) => String(Number(digits) + 1).padStart(2, "0"));
    const [first, last] = changedLines(read(name), read(next));
    const path = join(EXAMPLES, name);
    const words = wordsFor(told, [verb, path]);
    judgeWords(words, name);
    const { errors, notes } = linesOf(words, path);
    if ([...errors, ...notes].some((line) => line >= first && line <= last)) right++;
    else console.log(`${name}: ${told}: lines ${errors} ${notes}, and ${first} to ${last} are mended`);
  }
  judge(right >= cases.length - 1, `${right} of ${cases.length} files are told where the next one mends them`);
  console.log(`${cases.length} files of mistakes: ${right} told where the next one mends them`);
}

/** Each refusal of the examples has words, and one of a design or of arrivals a place. */
function allCases() {
  let count = 0;
  for (const table of readdirSync(EXAMPLES).filter((name) => name.endsWith(".cases"))) {
    for (const { words: [verb, ...files], told } of refusedCases(table)) {
      const given = [verb, ...files.map((name) => join(EXAMPLES, name))];
      const words = wordsFor(told, given);
      judgeWords(words, `${table}: ${told}`);
      const hasPlace = words.split("\n")[0].startsWith(join(EXAMPLES, files[0])) || (files.length > 1 && words.startsWith(join(EXAMPLES, files[1])));
      judge(hasPlace || /^refused ([GTC]\d|P2|S3)/.test(told), `${table}: ${files.join(" ")}: ${told}: no place`);
      judge(errorFor(told, given).includes(` [${told}]\n`), `${table}: ${told}: the error`);
      count++;
    }
  }
  console.log(`${count} refusals of the cases of ${relative(process.cwd(), EXAMPLES)}`);
}

try {
  firstDay();
  mendedFiles();
  allCases();
} finally {
  rmSync(room, { recursive: true });
}
console.log(`${tried} tried, ${failed} failed`);
exit(failed === 0 ? 0 : 1);
