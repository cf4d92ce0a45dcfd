#!/usr/bin/env node
// Runs the proved program by node: the WebAssembly module of lafomizana.html, which is beside this file or beside its folder, and no other file of
// the repository. ./hrthood runs it where there is no proved binary, and it can be run without that, with node 20 or later:
//
//     node tools/hrthood.mjs VERB FILES..
//     node tools/hrthood.mjs --made          prints the version, the checksum of the sources and the kit of the page
//
// It answers words as the program does: statuses 0 to 5, the bytes of both streams, and files read in their order and up to one byte more than they
// may have. Status 125 is none of the program's: there is no page, this node can't run its module, or the module has no memory left. On a terminal a
// refusal is told in words too, where tools/report/told_at.mjs is there.
//
// Node opens a closed stream anew, on /dev/null, before this code runs. So where standard output is closed all is taken (./hrthood prevents it).
import { closeSync, existsSync, openSync, readFileSync, readSync, realpathSync, writeSync } from "node:fs";
import { dirname, join } from "node:path";
import { isatty } from "node:tty";
import { fileURLToPath, pathToFileURL } from "node:url";
import { setFlagsFromString } from "node:v8";

/**
 * @typedef {{ status: number, out: Uint8Array, err: Uint8Array }} Answer
 * @typedef {(module: WebAssembly.Module, words: Uint8Array[], texts: Record<string, Uint8Array>, room: number, most: number) => Answer} RunBytes
 * @typedef {{ words: Uint8Array[], texts: Record<string, Uint8Array>, unread?: string }} Request
 */

const HERE = dirname(realpathSync(fileURLToPath(import.meta.url)));
const PAGE = "lafomizana.html";
const MOST_MEMORY = 2 ** 32 - 65536; // bytes of the module's memory
const FIRST_ROOM = 2 ** 20; // bytes of standard output
const MOST_ROOM = 2 ** 29;
const WRITE_FAULT = 4;
const READ_FAULT = 3;
const NO_ANSWER = 125;
/**
 * By the letters of the usage line: the name under which the module takes the text of such a file, and the most bytes that it may have.
 * @type {Record<string, [string, number]>}
 */
const KINDS = {
  D: ["design", 2 ** 20],
  A: ["program", 2 ** 24],
  R: ["arrivals", 2 ** 20],
  T: ["trace", 2 ** 24],
};

class NoAnswer extends Error {}

/**
 * Writes all of the bytes, and returns whether the stream took them.
 * @param {number} stream
 * @param {Uint8Array} bytes
 */
function isWritten(stream, bytes) {
  try {
    for (let at = 0; at < bytes.length; ) {
      const count = writeSync(stream, bytes, at, bytes.length - at);
      if (count === 0) return false;
      at += count;
    }
    return true;
  } catch {
    return false;
  }
}

/**
 * Returns the text of the page with a character for each byte, so that nothing is decoded.
 * @returns {string}
 */
function textOfPage() {
  const file = [dirname(HERE), HERE].map((folder) => join(folder, PAGE)).find((name) => existsSync(name));
  if (file === undefined) throw new NoAnswer(`there is no ${PAGE} beside ${HERE}`);
  return readFileSync(file, "latin1");
}

/**
 * Returns what is in the page between these two texts.
 * @param {string} page
 * @param {string} before
 * @param {string} behind
 */
function between(page, before, behind) {
  const from = page.indexOf(before);
  const to = from < 0 ? -1 : page.indexOf(behind, from + before.length);
  if (to < 0) throw new NoAnswer(`${PAGE} has no ${before.trim()}`);
  return page.slice(from + before.length, to);
}

/** Returns whether this node runs a module with a memory of 64 bits, by the smallest such module. */
const hasMemory64 = () => WebAssembly.validate(Uint8Array.of(0, 0x61, 0x73, 0x6d, 1, 0, 0, 0, 5, 3, 1, 4, 1));

/**
 * Returns the module of the page, and the page's own function to run it (web/library_host.js).
 * @param {string} page
 * @returns {{ module: WebAssembly.Module, runBytes: RunBytes }}
 */
function moduleOf(page) {
  // An engine in which such a memory is not on by default takes this flag while it runs, before it compiles the module.
  if (!hasMemory64()) setFlagsFromString("--experimental-wasm-memory64");
  if (!hasMemory64()) throw new NoAnswer(`node ${process.versions.node} has no WebAssembly memory of 64 bits: node 20 or later has`);
  const module = new WebAssembly.Module(Buffer.from(between(page, 'const MODULE = "', '"'), "base64"));
  const host = JSON.parse(between(page, "const WORKER = ", ";\n"));
  return { module, runBytes: new Function("self", `${host}\nreturn runBytes;`)({}) };
}

/**
 * Returns the words behind the names of node and of this file; none where one of them is not UTF-8, as such words are no command.
 * @returns {string[]}
 */
function givenWords() {
  const words = process.argv.slice(2);
  if (!words.some((word) => word.includes("\ufffd"))) return words;
  // Node puts U+FFFD for bytes that are not UTF-8. Where the system tells the bytes, they decide.
  try {
    const bytes = readFileSync("/proc/self/cmdline");
    return Buffer.from(bytes.toString()).equals(bytes) ? words : [];
  } catch {
    return words;
  }
}

/**
 * Returns a letter for each operand of a verb, as the usage line lists them, or nothing where it has no such verb.
 * @param {string} usage
 * @param {string} verb
 */
function operandsOf(usage, verb) {
  for (const listed of usage.replace(/^usage: hrthood /, "").trim().split(" | ")) {
    const [name, ...letters] = listed.split(" ");
    if (name === verb) return letters;
  }
  return undefined;
}

/**
 * Returns at most so many bytes of a file.
 * @param {string} name
 * @param {number} most
 */
function prefixOf(name, most) {
  const file = openSync(name, "r");
  try {
    const pieces = [];
    for (let left = most; left > 0; ) {
      const piece = Buffer.allocUnsafe(Math.min(left, 2 ** 20));
      const count = readSync(file, piece, 0, piece.length, null);
      if (count === 0) break;
      pieces.push(piece.subarray(0, count));
      left -= count;
    }
    return Buffer.concat(pieces);
  } finally {
    closeSync(file);
  }
}

/**
 * Returns the words to run for the words given: each name of a file becomes that of its text in the module. The module takes an empty word for none,
 * so words that are no command, with an empty operand or one that begins with a dash, become no words.
 * @param {string[]} words
 * @param {string[] | undefined} letters
 */
function namedWords(words, letters) {
  const [verb, ...operands] = words;
  if (letters === undefined || letters.length !== operands.length) return [];
  if (operands.some((word, which) => word === "" || (letters[which] !== "N" && word.startsWith("-")))) return [];
  return [verb, ...operands.map((word, which) => (letters[which] === "N" ? word : kindOf(letters[which])[0]))];
}

/**
 * Returns the name and the limit of a kind of file.
 * @param {string} letter
 */
function kindOf(letter) {
  const kind = KINDS[letter];
  if (kind === undefined) throw new NoAnswer(`it is not known what ${letter} in the usage line is`);
  return kind;
}

/**
 * Returns the words and texts to run. Files are read in their order, up to the first that is too long or can't be read, whose name is kept.
 * @param {string[]} words
 * @param {string[] | undefined} letters
 * @returns {Request}
 */
function requestOf(words, letters) {
  const named = namedWords(words, letters);
  /** @type {Request} */
  const request = { words: [], texts: {} };
  for (const [which, letter] of (named.length > 0 && letters ? letters : []).entries()) {
    if (letter === "N") continue;
    const [name, most] = kindOf(letter);
    try {
      request.texts[name] = prefixOf(words[which + 1], most + 1);
    } catch {
      request.unread = words[which + 1];
      named[which + 1] = "absent"; // a name of no text
      break;
    }
    if (request.texts[name].length > most) break;
  }
  request.words = named.map((word) => Buffer.from(word));
  return request;
}

/**
 * Writes a refusal in words, at its place in the file, below the program's own line: on a terminal, or as HRTHOOD_WORDS says (always, never).
 * @param {Uint8Array} err
 * @param {string[]} words
 */
async function writeWords(err, words) {
  const asked = process.env.HRTHOOD_WORDS;
  const script = join(HERE, "report", "told_at.mjs");
  if (asked === "never" || (asked !== "always" && !isatty(2)) || !existsSync(script)) return;
  const { allWords } = await import(pathToFileURL(script).href);
  isWritten(2, Buffer.from(allWords(Buffer.from(err).toString(), words)));
}

/**
 * Runs the request, writes what the program writes on standard output, and returns its status and standard error. A run is the same each time; so
 * where it had too little room for standard output, the prefix is written, and the run is repeated with more room.
 * @param {{ module: WebAssembly.Module, runBytes: RunBytes }} program
 * @param {Request} request
 * @returns {{ status: number, err: Uint8Array }}
 */
function answer({ module, runBytes }, { words, texts, unread }) {
  let written = 0;
  for (let room = FIRST_ROOM; ; room *= 8) {
    const { status, out, err } = runBytes(module, words, texts, room, MOST_MEMORY);
    if (!isWritten(1, out.subarray(written))) {
      return { status: WRITE_FAULT, err: Buffer.from("fault writing\n") };
    }
    written = out.length;
    if (status === READ_FAULT && unread !== undefined) return { status, err: Buffer.from(`fault reading ${unread}\n`) };
    if (status !== WRITE_FAULT) return { status, err };
    if (room >= MOST_ROOM) throw new NoAnswer(`the answer has more than ${MOST_ROOM} bytes, of which this prefix is written`);
  }
}

/** Runs the words of the command line, and returns the status. */
async function main() {
  const page = textOfPage();
  if (process.argv[2] === "--made") {
    const made = between(page, '<meta name="made" content="', '"');
    return isWritten(1, Buffer.from(`${made}\n`, "latin1")) ? 0 : WRITE_FAULT;
  }
  const program = moduleOf(page);
  // Without words the module answers its usage line, which has all verbs and their operands.
  const usage = program.runBytes(program.module, [], {}, 1, MOST_MEMORY);
  const words = givenWords();
  const { status, err } = answer(program, requestOf(words, operandsOf(Buffer.from(usage.err).toString(), words[0])));
  isWritten(2, err);
  await writeWords(err, words);
  return status;
}

try {
  process.exitCode = await main();
} catch (fault) {
  isWritten(2, Buffer.from(`hrthood: no answer by node: ${fault instanceof NoAnswer ? fault.message : fault}\n`));
  process.exitCode = NO_ANSWER;
}
