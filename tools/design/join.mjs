#!/usr/bin/env node
// Joins a design out of several files, with copies of objects, before the program reads it. It needs node 20 or later.
//
//     join.mjs MAIN                  writes the joined design on standard output
//     join.mjs --map MAIN            writes for each line of it the file and the line that it comes from, and the copy that it is in, as CSV
//     join.mjs --run VERB MAIN ..    runs the program on it; a refusal is written as compilers write errors, with the file and the line it comes from
//
// Two comments of a design are read, each on one line. What they stand for follows on the next lines:
//
//     -- @include "FILE"                                    the text of a file, whose name is relative to the folder of this one
//     -- @copy OBJECT AS NAME WITH NAME = NAME, 30 = 40     the object, with these names and numbers exchanged in it; WITH may be left out
//
// In the copy every token that is such a name, or a number of that value, is exchanged, all at once, and comments are not changed. The object is one
// of the joined files, before or after the copy. What can't be joined gets one line, FILE:LINE:COLUMN and the reason, and status 2. Of --run the
// status and standard output are the program's. PROGRAM is its path, and that of this repository if it isn't set.
import { spawnSync } from "node:child_process";
import { mkdtempSync, readFileSync, realpathSync, rmSync, writeFileSync } from "node:fs";
import { tmpdir } from "node:os";
import { dirname, isAbsolute, join } from "node:path";
import { argv, env, kill, pid, stderr, stdout } from "node:process";
import { fileURLToPath } from "node:url";
import { KEPT, tokensOf } from "../../web/design_text.js";
import { errorFor } from "../report/told_at.mjs";
import { NO_ANSWER, TOP } from "./program.mjs";

/** @typedef {{ file: string, line: number, column: number }} Place */
/** @typedef {{ out: number, source: number }} Mark */
/** @typedef {{ text: string, file: string, line: number, marks: Mark[], copies: Copy[] }} Line */
/** @typedef {{ old: string, other: string, place: Place }} Exchange */
/** @typedef {{ object: string, name: string, exchanges: Exchange[], place: Place }} Copy */

const MOST = 2 ** 20; // bytes of a design
const USAGE = "usage: join.mjs MAIN | --map MAIN | --run VERB MAIN ..\n";

/** What can't be joined. */
class NoJoin extends Error {
  constructor(/** @type {Place|string} */ place, /** @type {string} */ why) {
    super(`${typeof place === "string" ? place : `${place.file}:${place.line}:${place.column}`}: ${why}`);
  }
}

const isNumber = (/** @type {string} */ word) => /^\d/.test(word);
const plain = (/** @type {string} */ word) => (isNumber(word) ? word.replaceAll("_", "").replace(/^0+(?=\d)/, "") : word.toLowerCase());

/**
 * The column of a line's source for one of the line; both are counted from 0.
 * @param {Line} line
 * @param {number} index
 */
function sourceOf({ marks }, index) {
  const mark = marks.filter(({ out }) => out <= index).pop() ?? { out: 0, source: 0 };
  return mark.source + index - mark.out;
}

/**
 * The place that a column of a line comes from.
 * @param {Line} line
 * @param {number} index
 * @returns {Place}
 */
const placeIn = (line, index) => ({ file: line.file, line: line.line, column: sourceOf(line, index) + 1 });

/**
 * The comment of a line that begins with such a word, and its place.
 * @param {Line} line
 * @param {string} word
 */
function commentOf(line, word) {
  const found = new RegExp(`--\\s*@${word}\\b[ \\t]*`).exec(line.text);
  if (found === null || line.text.indexOf("--") !== found.index) return null;
  const from = found.index + found[0].length;
  return { at: found.index, from, text: line.text.slice(from).trimEnd() };
}

// ---- Includes ----

/** Reads a file with a character for each byte. The limit of all files together is that of a design. */
class Files {
  constructor() {
    this.bytes = 0;
  }

  /**
   * Returns the lines of a file, with those of the files that it includes.
   * @param {string} file
   * @param {Place|string} place where it is included
   * @param {string[]} open the files that include it
   * @returns {Line[]}
   */
  lines(file, place, open) {
    let text;
    let path;
    try {
      path = realpathSync(file);
      text = readFileSync(path, "latin1");
    } catch {
      throw new NoJoin(place, `the file ${file} can't be read`);
    }
    if (open.includes(path)) throw new NoJoin(place, `${file} includes itself${open[open.length - 1] === path ? "" : " by other files"}`);
    this.bytes += text.length;
    if (this.bytes > MOST) throw new NoJoin(place, `with ${file} the design is longer than ${MOST} bytes`);
    const lines = text.replace(/\n$/, "").split("\n").map((one, which) => ({ text: one, file, line: which + 1, marks: [{ out: 0, source: 0 }], copies: [] }));
    return lines.flatMap((line) => [line, ...this.included(line, [...open, path])]);
  }

  /**
   * @param {Line} line
   * @param {string[]} open
   * @returns {Line[]}
   */
  included(line, open) {
    const comment = commentOf(line, "include");
    if (comment === null) return [];
    const name = /^"([^"]+)"$/.exec(comment.text)?.[1];
    if (name === undefined) throw new NoJoin(placeIn(line, comment.at), "write -- @include \"FILE\"");
    const given = Buffer.from(name, "latin1").toString();
    return this.lines(isAbsolute(given) ? given : join(dirname(line.file), given), placeIn(line, comment.from), open);
  }
}

// ---- Copies ----

/**
 * The copy that a comment asks for, if any.
 * @param {Line} line
 * @returns {Copy|null}
 */
function copyIn(line) {
  const comment = commentOf(line, "copy");
  if (comment === null) return null;
  const place = placeIn(line, comment.at);
  const found = /^([a-z]\w*)\s+as\s+([a-z]\w*)(?:\s+with\s+(.*))?$/i.exec(comment.text);
  if (found === null) throw new NoJoin(place, "write -- @copy OBJECT AS NAME, or -- @copy OBJECT AS NAME WITH NAME = NAME, 30 = 40");
  const [, object, name, list] = found;
  /** @type {Exchange[]} */
  const exchanges = [{ old: plain(object), other: name, place }];
  let at = line.text.trimEnd().length - (list?.length ?? 0);
  for (const part of list?.split(",") ?? []) {
    const from = placeIn(line, at + part.length - part.trimStart().length);
    const [, old, other] = /^\s*(\w+)\s*=\s*(\w+)\s*$/.exec(part) ?? [];
    if (old === undefined || isNumber(old) !== isNumber(other)) throw new NoJoin(from, "write NAME = NAME or NUMBER = NUMBER");
    if (exchanges.some((one) => one.old === plain(old))) throw new NoJoin(from, `${old} is exchanged twice`);
    exchanges.push({ old: plain(old), other, place: from });
    at += part.length + 1;
  }
  for (const { old, other, place: from } of exchanges) {
    const wrong = [old, other].find((word) => (isNumber(word) ? !/^\d+(_\d+)*$/.test(word) : !/^[a-z]\w*$/i.test(word) || KEPT.has(word.toLowerCase())));
    if (wrong !== undefined) throw new NoJoin(from, `${wrong} is not a ${isNumber(wrong) ? "number" : "name"} of a design`);
  }
  return { object: plain(object), name, exchanges, place };
}

/**
 * A line in which tokens are exchanged.
 * @param {Line} line
 * @param {Map<string, string>} words
 * @param {Copy} copy
 * @param {Set<string>} seen
 * @returns {Line}
 */
function exchanged(line, words, copy, seen) {
  let text = "";
  let from = 0;
  /** @type {Mark[]} */
  const marks = line.marks.slice(0, 1);
  const keep = (/** @type {number} */ to) => {
    for (const { out, source } of line.marks) {
      if (out > from && out <= to) marks.push({ out: text.length + out - from, source });
    }
    text += line.text.slice(from, to);
    from = to;
  };
  for (const { word, index, length } of tokensOf(line.text)) {
    const other = words.get(plain(word));
    if (other === undefined) continue;
    seen.add(plain(word));
    keep(index);
    marks.push({ out: text.length, source: sourceOf(line, index) });
    text += other;
    from = index + length;
    marks.push({ out: text.length, source: sourceOf(line, from) });
  }
  keep(line.text.length);
  return { ...line, text, marks, copies: [...line.copies, copy] };
}

/** Spells copies out, over the lines of all files. */
class Copies {
  constructor(/** @type {Line[]} */ lines) {
    this.lines = lines;
    this.copies = lines.map(copyIn);
    /** @type {{ word: string, line: number, index: number, length: number }[]} */
    this.tokens = lines.flatMap(({ text }, line) => tokensOf(text).map((token) => ({ ...token, line })));
    this.bytes = 0;
  }

  /**
   * Returns where the text of an object begins and ends: a line, and an index in it.
   * @param {Copy} copy
   */
  object({ object, place }) {
    const { tokens } = this;
    const first = tokens.findIndex(({ word }, at) => word === "object" && tokens[at + 1]?.word === object && tokens[at + 2]?.word === "is");
    if (first < 0) {
      const by = this.copies.find((one) => one !== null && plain(one.name) === object);
      throw new NoJoin(place, by ? `${object} is itself a copy: copy ${by.object}` : `there is no object ${object} in these files`);
    }
    const last = tokens.findIndex(({ word }, at) => at > first && word === "end" && tokens[at + 1]?.word === object && tokens[at + 2]?.word === ";");
    if (last < 0) throw new NoJoin(place, `the object ${object} has no end`);
    return { from: tokens[first], to: tokens[last + 2] };
  }

  /**
   * Returns the lines from one place to another, with the copies in them.
   * @param {{ line: number, index: number }} from
   * @param {{ line: number, index: number }} to
   * @param {string[]} open the objects that are being copied
   * @returns {Line[]}
   */
  between(from, to, open) {
    /** @type {Line[]} */
    const made = [];
    for (let which = from.line; which <= to.line; which++) {
      const line = this.lines[which];
      const start = which === from.line ? from.index : 0;
      const end = which === to.line ? to.index : line.text.length;
      made.push({ ...line, text: line.text.slice(start, end), marks: [{ out: 0, source: sourceOf(line, start) }] });
      const copy = this.copies[which];
      // A comment after the end of an object is none of it.
      if (copy !== null && end === line.text.length) made.push(...this.copy(copy, open));
      this.bytes += end - start + 1;
      if (this.bytes > MOST) throw new NoJoin(placeIn(line, 0), `from here on the design is longer than ${MOST} bytes`);
    }
    return made;
  }

  /**
   * Returns the lines of a copy.
   * @param {Copy} copy
   * @param {string[]} open
   * @returns {Line[]}
   */
  copy(copy, open) {
    const { object, exchanges, place } = copy;
    if (open.includes(object)) throw new NoJoin(place, `the object ${object} is copied into itself`);
    const { from, to } = this.object(copy);
    const lines = this.between(from, { line: to.line, index: to.index + to.length }, [...open, object]);
    const words = new Map(exchanges.map(({ old, other }) => [old, other]));
    /** @type {Set<string>} */
    const seen = new Set();
    const made = lines.map((line) => exchanged(line, words, copy, seen));
    const absent = exchanges.find(({ old }) => !seen.has(old));
    if (absent !== undefined) throw new NoJoin(absent.place, `the object ${object} has no ${absent.old}`);
    const [first, ...others] = made;
    const indent = place.column - 1;
    return [{ ...first, text: " ".repeat(indent) + first.text, marks: first.marks.map(({ out, source }) => ({ out: out + indent, source })) }, ...others];
  }

  all() {
    const last = this.lines.length - 1;
    return this.between({ line: 0, index: 0 }, { line: last, index: this.lines[last].text.length }, []);
  }
}

/** Returns the lines of the joined design. */
export function joined(/** @type {string} */ main) {
  return new Copies(new Files().lines(main, "join", [])).all();
}

const textOf = (/** @type {Line[]} */ lines) => Buffer.from(lines.map(({ text }) => `${text}\n`).join(""), "latin1");

// ---- Commands ----

const cell = (/** @type {string} */ text) => (/[",\n]/.test(text) ? `"${text.replaceAll("\"", "\"\"")}"` : text);

/** The map of lines, as comma-separated values. */
function mapOf(/** @type {Line[]} */ lines) {
  const rows = lines.map(({ file, line, copies }, which) => [String(which + 1), file, String(line), copies.map(({ name }) => name).join(" ")]);
  return [["line", "file", "line of the file", "copy"], ...rows].map((row) => `${row.map(cell).join(",")}\n`).join("");
}

/**
 * A line of an error with the places of the joined file, with those that they come from; and the copies that it is in.
 * @param {string} line
 * @param {string} file
 * @param {string} main
 * @param {Line[]} lines
 */
function mapped(line, file, main, lines) {
  if (line.startsWith(`${file}: `)) return [main + line.slice(file.length)];
  const found = line.startsWith(`${file}:`) ? /^:(\d+):(\d+)(: .*)$/.exec(line.slice(file.length)) : null;
  if (found === null) return [line];
  const [, number, column, rest] = found;
  const from = lines[Number(number) - 1];
  const shown = (/** @type {Place} */ { file: name, line: at, column: on }) => `${name}:${at}:${on}`;
  if (from === undefined) { // the end of the text
    const last = lines[lines.length - 1];
    return [shown(placeIn(last, last.text.length)) + rest];
  }
  const notes = rest.startsWith(": error: ") ? from.copies.map(({ object, name, place }) => `${shown(place)}: note: This is in the copy ${name} of ${object}.`) : [];
  return [shown(placeIn(from, Number(column) - 1)) + rest, ...notes];
}

/**
 * Runs a verb over the joined design, and returns the status.
 * @param {string} verb
 * @param {string} main
 * @param {string[]} rest
 */
function run(verb, main, rest) {
  const lines = joined(main);
  const room = mkdtempSync(join(tmpdir(), "join-"));
  try {
    const file = join(room, "joined.design");
    writeFileSync(file, textOf(lines));
    const words = [verb, file, ...rest];
    const { status, signal, stderr: told, error } = spawnSync(env.PROGRAM ?? join(TOP, "hrthood"), words,
      { stdio: ["inherit", "inherit", "pipe"], maxBuffer: 2 ** 24, env: { ...env, HRTHOOD_WORDS: "never" } });
    if (error !== undefined) {
      stderr.write(`join: ${error.message}\n`);
      return NO_ANSWER;
    }
    for (const line of told.toString().split("\n").slice(0, -1)) {
      const errors = errorFor(line, words).split("\n").slice(0, -1);
      stderr.write(errors.flatMap((/** @type {string} */ one) => mapped(one, file, main, lines)).map((/** @type {string} */ one) => `${one}\n`).join(""));
    }
    if (signal !== null) kill(pid, signal);
    return status ?? NO_ANSWER;
  } finally {
    rmSync(room, { recursive: true, force: true });
  }
}

/** Does what the arguments say, and returns the status. */
function main(/** @type {string[]} */ words) {
  const [first, ...rest] = words;
  if (first === "--run" && rest.length >= 2 && rest[0] !== "replay") return run(rest[0], rest[1], rest.slice(2));
  if (first === "--map" && rest.length === 1) stdout.write(mapOf(joined(rest[0])));
  else if (words.length === 1 && !first.startsWith("-") && first !== "") stdout.write(textOf(joined(first)));
  else {
    stderr.write(USAGE);
    return 2;
  }
  return 0;
}

if (argv[1] !== undefined && realpathSync(argv[1]) === realpathSync(fileURLToPath(import.meta.url))) {
  stdout.on("error", () => process.exit(4)); // the reader has gone
  try {
    process.exitCode = main(argv.slice(2));
  } catch (fault) {
    stderr.write(`${fault instanceof NoJoin ? fault.message : `join: ${fault}`}\n`);
    process.exitCode = fault instanceof NoJoin ? 2 : NO_ANSWER;
  }
}
