#!/usr/bin/env node
// Tells refusals in words, at their place in the file, by the sentences of web/refusals.json and the places that the page finds too.
//
//     told_at.mjs VERB FILE ..                  runs the program, and writes a refusal as compilers write errors, for editors
//     told_at.mjs --words TOLD VERB FILE ..     writes the words for what the program told, which the file TOLD has
//     told_at.mjs --run BINARY VERB FILE ..     runs the program BINARY, and writes the words under its own line
//
// Standard output and the exit status are the program's. PROGRAM is the path of the program, and that of this repository where it isn't set.
import { spawnSync } from "node:child_process";
import { readFileSync, realpathSync, statSync, writeSync } from "node:fs";
import { dirname, join, relative } from "node:path";
import { argv, env, exit, kill, pid, stderr } from "node:process";
import { fileURLToPath } from "node:url";
import { Refusals } from "../../web/refusals.js";

const TOP = dirname(dirname(dirname(fileURLToPath(import.meta.url))));
const MOST = 16777216; // bytes of a file that is looked at
const refusals = new Refusals(JSON.parse(readFileSync(join(TOP, "web/refusals.json"), "utf8")));

/** The files of a command by what they hold: a trace stands behind arrivals, and arrivals behind a design or an Ada text. */
function filesOf(/** @type {string[]} */ [verb, ...files]) {
  const kinds = [verb === "replay" ? "ada" : "design", "arrivals", "trace"];
  return Object.fromEntries(kinds.map((kind, place) => [kind, files[place]]));
}

/** The text of a regular file that isn't too long. A pipe can't be read a second time. */
function textOf(/** @type {string|undefined} */ file) {
  try {
    if (file === undefined || !statSync(file).isFile() || statSync(file).size > MOST) return undefined;
    return readFileSync(file, "utf8");
  } catch {
    return undefined;
  }
}

/** What is told of a line, with the names of files as they were given; or null. */
function toldOf(/** @type {string} */ line, /** @type {string[]} */ words) {
  const files = filesOf(words);
  const texts = Object.fromEntries(Object.entries(files).map(([kind, file]) => [kind, textOf(file)]));
  const told = refusals.toldOf(line, texts);
  if (told === null) return null;
  const at = (/** @type {import("../../web/refusals.js").Place|null} */ place) => (place === null ? "" : `${files[place.kind]}:${place.line}:${place.column}: `);
  return { ...told, at: at(told.place), file: files[/^refused S3 (\w+)$|^refused Q/.exec(line)?.[1] ?? ""] ?? files.design ?? files.ada, notes:
    told.notes.map(({ place, says }) => ({ at: at(place), says })) };
}

/** The lines that offer changes of a design that is refused for its bounds. The script reads the file itself, which a pipe can't be twice. */
function offersFor(/** @type {string} */ line, /** @type {string[]} */ words) {
  const { design } = filesOf(words);
  if (!/^refused U[12] /.test(line) || textOf(design) === undefined) return [];
  return [`\`${relative("", join(TOP, "tools/report/mend.py"))} ${design}\` lists changes by which it passes.`];
}

/** The words for a line of the program, to stand under it. */
function wordsFor(/** @type {string} */ line, /** @type {string[]} */ words) {
  const told = toldOf(line, words);
  if (told === null) return "";
  const more = [...told.more, ...offersFor(line, words)].map((one) => `  ${one}`);
  const lines = [`${told.at}${told.code}: ${told.says}`, ...more, ...told.notes.map(({ at, says }) => `${at}note: ${says}`)];
  return lines.map((one) => `${one}\n`).join("");
}

/** A line of the program as a compiler writes an error. */
function errorFor(/** @type {string} */ line, /** @type {string[]} */ words) {
  const told = toldOf(line, words);
  if (told === null) return `${line}\n`;
  const at = told.at === "" && told.file !== undefined ? `${told.file}: ` : told.at;
  const lines = [`error: ${told.code}: ${told.says} [${line}]`, ...told.more.map((one) => `note: ${one}`)].map((one) => at + one);
  return [...lines, ...told.notes.map((one) => `${one.at}note: ${one.says}`)].map((one) => `${one}\n`).join("");
}

/** Writes bytes to standard error; a reader that has gone is no fault. */
function say(/** @type {string|Uint8Array} */ text) {
  try {
    writeSync(stderr.fd, typeof text === "string" ? Buffer.from(text) : text);
  } catch {
    // Nobody reads it.
  }
}

/** Runs a program over the streams of this one, but for standard error, which is handed to `tell`. Ends as the program does. */
function run(/** @type {string} */ program, /** @type {string[]} */ words, /** @type {(told: Buffer) => void} */ tell) {
  const { status, signal, stderr: told, error } = spawnSync(program, words, { stdio: ["inherit", "inherit", "pipe"], maxBuffer: MOST,
    env: { ...env, HRTHOOD_WORDS: "never" } });
  if (error !== undefined) {
    say(`told_at: ${error.message}\n`);
    exit(125);
  }
  tell(told);
  if (signal !== null) kill(pid, signal);
  exit(status ?? 125);
}

/** The words for all that the program told. Whatever happens here, the program's own line and its status stay. */
function allWords(/** @type {string} */ told, /** @type {string[]} */ words) {
  try {
    return told.split("\n").map((line) => wordsFor(line, words)).join("");
  } catch (fault) {
    return `told_at: ${fault}\n`;
  }
}

function main(/** @type {string[]} */ given) {
  const [first, ...rest] = given;
  if (first === "--words") {
    say(allWords(readFileSync(rest[0], "utf8"), rest.slice(1)));
  } else if (first === "--run") {
    run(rest[0], rest.slice(1), (told) => { say(told); say(allWords(told.toString(), rest.slice(1))); });
  } else {
    const program = env.PROGRAM ?? join(TOP, "hrthood");
    run(program, given, (told) => say(told.toString().split("\n").slice(0, -1).map((line) => errorFor(line, given)).join("")));
  }
}

if (argv[1] !== undefined && realpathSync(argv[1]) === realpathSync(fileURLToPath(import.meta.url))) main(argv.slice(2));

export { allWords, errorFor, wordsFor };
