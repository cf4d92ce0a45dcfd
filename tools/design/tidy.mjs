#!/usr/bin/env node
// Lays designs out as `format` does, and keeps their comments. It needs node 20 or later.
//
//     tidy.mjs D              writes the design in the file D, in the layout of `format`, with its comments, on standard output
//     tidy.mjs --write D ..   rewrites the files, after all of them have passed
//     tidy.mjs --check D ..   lists the files that --write would change, and ends with status 1 if there is one
//
// A comment at the end of a line stays there if the token before it ends a line of the layout. Any other comment gets a line of its own, above the
// line with the token that follows it. Blank lines are dropped. At each call the program checks the result: without its comments it is byte for byte
// what `format` writes of the file, and `format` writes the same of the result.
//
// A design that `format` refuses is refused with the program's line and status. Status 2: the arguments are not a command; 3: a file can't be read or
// written; 125: there is no program, or the result is not that design. PROGRAM is the path of the program, and that of this repository if it isn't set.
import { chmodSync, readFileSync, realpathSync, renameSync, rmSync, statSync, writeFileSync } from "node:fs";
import { argv, pid, stderr, stdout } from "node:process";
import { fileURLToPath } from "node:url";
import { tokensOf } from "../../web/design_text.js";
import { NO_ANSWER, NoAnswer, answerOver, answerTo } from "./program.mjs";

/** @typedef {{ index: number, text: string, isAtEnd: boolean }} Comment */
/** @typedef {{ status: number, text: Buffer, told: Buffer }} Tidied */

const USAGE = "usage: tidy.mjs D | --write D .. | --check D ..\n";

/**
 * Returns the comments of a text, without spaces at their ends, and whether a token is before them on their line.
 * @returns {Comment[]}
 */
export function commentsOf(/** @type {string} */ text) {
  return [...text.matchAll(/--[^\n]*/g)].map((found) => {
    const index = found.index ?? 0;
    const before = text.slice(text.lastIndexOf("\n", index) + 1, index);
    return { index, text: found[0].replace(/[ \t\v\f\r]+$/, ""), isAtEnd: /\S/.test(before) };
  });
}

/** Returns a text without its comments, and without the lines that have only comments. */
export function withoutComments(/** @type {string} */ text) {
  return text.replace(/^ *--[^\n]*\n/gm, "").replace(/ *--[^\n]*$/gm, "");
}

/** Numbers have the same digits, but for underscores and leading zeros. */
const plain = (/** @type {string} */ word) => (/^\d/.test(word) ? word.replaceAll("_", "").replace(/^0+(?=\d)/, "") : word);

/**
 * Puts the comments of a text into what `format` writes of it, token by token. Both have a character for each byte.
 * @param {string} text
 * @param {string} formatted
 */
export function withComments(text, formatted) {
  const tokens = tokensOf(text);
  const lines = formatted.split("\n").slice(0, -1);
  const places = lines.flatMap((line, which) => tokensOf(line).map(({ word }, at, all) => ({ word, line: which, isLast: at === all.length - 1 })));
  const isSame = tokens.length === places.length && tokens.every(({ word }, at) => plain(word) === places[at].word);
  if (!isSame) throw new NoAnswer("format writes other tokens than the design has");
  /** @type {string[][]} */
  const above = [...lines, ""].map(() => []);
  const ends = lines.map(() => "");
  let next = 0; // the token that follows
  for (const comment of commentsOf(text)) {
    while (next < tokens.length && tokens[next].index < comment.index) next++;
    const before = places[next - 1];
    if (comment.isAtEnd && before?.isLast) ends[before.line] = ` ${comment.text}`;
    else above[places[next]?.line ?? lines.length].push(comment.text);
  }
  // A comment before an END belongs to what is ended there.
  const indent = (/** @type {number} */ which) => " ".repeat((lines[which] ?? "").search(/\S|$/) + (/^ *end\b/i.test(lines[which] ?? "") ? 3 : 0));
  const written = [...lines, ""].flatMap((line, which) => [...above[which].map((one) => indent(which) + one), line + (ends[which] ?? "")]);
  return written.join("\n");
}

/**
 * Lays the design of a text out, with its comments, or returns the answer by which the program refuses it.
 * @param {Buffer} text
 * @param {AbortSignal} [signal]
 * @returns {Promise<Tidied>}
 */
export async function tidied(text, signal) {
  const { status, out, err } = await answerOver("format", text, signal);
  if (status !== 0) return { status, text: out, told: err };
  const [given, formatted] = [text.toString("latin1"), out.toString("latin1")];
  const made = withComments(given, formatted);
  const bare = (/** @type {string} */ one) => commentsOf(one).map((comment) => comment.text).join("\n");
  if (withoutComments(made) !== formatted || bare(made) !== bare(given)) throw new NoAnswer("the result is not that design with its comments");
  const bytes = Buffer.from(made, "latin1");
  const again = await answerOver("format", bytes, signal);
  if (again.status !== 0) return { status: again.status, text: again.out, told: again.err };
  if (!again.out.equals(out)) throw new NoAnswer("format writes another design of the result");
  return { status: 0, text: bytes, told: err };
}

/**
 * Lays the design of a file out.
 * @param {string} name
 */
async function tidiedFile(name) {
  /** @type {Buffer} */
  let given;
  try {
    given = readFileSync(name);
  } catch {
    const { status, err } = await answerTo(["format", name]);
    if (status === 0) throw new NoAnswer(`${name} can't be read twice`);
    return { name, given: Buffer.alloc(0), status, text: Buffer.alloc(0), told: err };
  }
  return { name, given, ...await tidied(given) };
}

/**
 * Replaces the bytes of a file at once, and leaves its mode; a link stays a link.
 * @param {string} name
 * @param {Buffer} text
 */
function replace(name, text) {
  const file = realpathSync(name);
  const other = `${file}.tidy.${pid}`;
  try {
    writeFileSync(other, text, { flag: "wx" });
    chmodSync(other, statSync(file).mode & 0o7777);
    renameSync(other, file);
  } catch (fault) {
    rmSync(other, { force: true });
    throw fault;
  }
}

/**
 * Rewrites the files that change, and returns the status.
 * @param {{ name: string, given: Buffer, text: Buffer }[]} files
 */
function rewrite(files) {
  const other = files.find(({ name, given }) => !readFileSync(name).equals(given));
  if (other !== undefined) throw new NoAnswer(`${other.name} was changed meanwhile`);
  for (const { name, text } of files) {
    try {
      replace(name, text);
    } catch {
      stderr.write(`fault writing ${name}\n`);
      return 3;
    }
  }
  return 0;
}

/** Does what the arguments say, and returns the status. */
async function main(/** @type {string[]} */ words) {
  const mode = words[0] === "--write" || words[0] === "--check" ? words[0] : "";
  const names = mode === "" ? words : words.slice(1);
  if (names.length === 0 || (mode === "" && names.length > 1) || names.some((name) => name === "" || name.startsWith("-"))) {
    stderr.write(USAGE);
    return 2;
  }
  const files = [];
  for (const name of names) files.push(await tidiedFile(name));
  for (const { name, told } of files) {
    if (told.length > 0) stderr.write(names.length > 1 ? `${name}: ${told}` : told);
  }
  const refused = files.find(({ status }) => status !== 0);
  const changed = files.filter(({ given, text, status }) => status === 0 && !text.equals(given));
  if (mode === "--check") stdout.write(changed.map(({ name }) => `${name}\n`).join(""));
  if (refused !== undefined) return refused.status;
  if (mode === "--check") return changed.length > 0 ? 1 : 0;
  if (mode === "--write") return rewrite(changed);
  stdout.write(files[0].text);
  return 0;
}

if (argv[1] !== undefined && realpathSync(argv[1]) === realpathSync(fileURLToPath(import.meta.url))) {
  stdout.on("error", () => process.exit(4)); // the reader has gone
  try {
    process.exitCode = await main(argv.slice(2));
  } catch (fault) {
    stderr.write(`tidy: ${fault instanceof NoAnswer ? fault.message : fault}\n`);
    process.exitCode = NO_ANSWER;
  }
}
