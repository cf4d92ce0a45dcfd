#!/usr/bin/env node
// Tests tidy.mjs: over the designs of examples/, over comments at random places, and over what must be refused. PROGRAM is the path of the program,
// and that of this repository if it isn't set.
import { spawnSync } from "node:child_process";
import { chmodSync, copyFileSync, lstatSync, mkdtempSync, readFileSync, readdirSync, rmSync, statSync, symlinkSync, writeFileSync } from "node:fs";
import { tmpdir } from "node:os";
import { join } from "node:path";
import { env, exit } from "node:process";
import { tokensOf } from "../../web/design_text.js";
import { TOP } from "./program.mjs";
import { commentsOf, withComments, withoutComments } from "./tidy.mjs";

const EXAMPLES = join(TOP, "examples");
const PROGRAM = env.PROGRAM ?? join(TOP, "hrthood");
const room = mkdtempSync(join(tmpdir(), "tidy-"));
let [tried, failed] = [0, 0];

function judge(/** @type {boolean} */ isRight, /** @type {string} */ what) {
  tried++;
  if (isRight) return;
  failed++;
  console.log(`FAILED ${what}`);
}

/** @typedef {{ status: number, stdout: string, stderr: string }} Done */

/** @returns {Done} */
function run(/** @type {string} */ command, /** @type {string[]} */ words, program = PROGRAM) {
  const { status, stdout, stderr } = spawnSync(command, words, { encoding: "latin1", maxBuffer: 2 ** 28,
    env: { ...env, PROGRAM: program, HRTHOOD_WORDS: "never" } });
  return { status, stdout, stderr };
}

const tidy = (/** @type {string[]} */ ...words) => run(join(TOP, "tools/design/tidy.mjs"), words);
const asked = (/** @type {string[]} */ ...words) => run(PROGRAM, words);
const same = (/** @type {Done} */ one, /** @type {Done} */ other) => one.status === other.status && one.stdout === other.stdout && one.stderr === other.stderr;

function inRoom(/** @type {string} */ name, /** @type {string} */ text) {
  const file = join(room, name);
  writeFileSync(file, Buffer.from(text, "latin1"));
  return file;
}

const textOf = (/** @type {string} */ file) => readFileSync(file, "latin1");

// ---- Designs of the examples ----

/** A design keeps its comments and is otherwise what `format` writes; the result is left as it is. */
function tryDesign(/** @type {string} */ file) {
  const once = tidy(file);
  const formatted = asked("format", file);
  judge(once.status === 0 && once.stderr === "", `${file}: ${once.status} ${once.stderr}`);
  judge(withoutComments(once.stdout) === formatted.stdout, `${file}: without comments it is what format writes`);
  const texts = [textOf(file), once.stdout].map((text) => commentsOf(text).map((one) => one.text).join("\n"));
  judge(texts[0] === texts[1], `${file}: the comments are the same, in order`);
  judge(withComments(once.stdout, formatted.stdout) === once.stdout, `${file}: the result is left as it is`);
}

function tryExamples() {
  const names = readdirSync(EXAMPLES).filter((name) => name.endsWith(".design"));
  for (const name of names) tryDesign(join(EXAMPLES, name));
  const commented = tidy(join(EXAMPLES, "commented.design"));
  judge(commented.stdout === textOf(join(EXAMPLES, "commented_tidy.design")), "commented.design becomes commented_tidy.design");
  const again = tidy(join(EXAMPLES, "commented_tidy.design"));
  judge(again.stdout === commented.stdout, "commented_tidy.design is left as it is");
  console.log(`${names.length} designs of the examples`);
}

// ---- Comments at random places ----

/** Numbers below a limit, the same in each run (Lehmer). */
function numbersFrom(/** @type {number} */ seed) {
  let state = seed;
  return (/** @type {number} */ below) => {
    state = (state * 48271) % 2147483647;
    return state % below;
  };
}

/** The tokens of a text, with blanks, ends of lines and comments between them. */
function scattered(/** @type {string} */ text, /** @type {(below: number) => number} */ next) {
  let count = 0;
  const between = () => ["", "\n", "\n\n\t", ` -- c${count++} -- ; end\n`, `\n--c${count++}\n  -- d${count++}\n`, " ", "  "][next(7)];
  return `${between()}${tokensOf(text).map(({ word }) => `${next(9) === 0 ? word.toUpperCase() : word} ${between()}`).join("")}`;
}

/** Each comment with the number of tokens before it, and whether another token than the first of its line follows. */
function placedIn(/** @type {string} */ text) {
  const tokens = tokensOf(text);
  return commentsOf(text).map((comment) => ({ ...comment, before: tokens.filter(({ index }) => index < comment.index).length }));
}

function tryScattered() {
  const formatted = asked("format", join(EXAMPLES, "mine_pump.design")).stdout;
  const starts = formatted.split("\n").map((line) => tokensOf(line).length).reduce((all, count) => [...all, all[all.length - 1] + count], [0]);
  let count = 0;
  for (let seed = 1; seed <= 40; seed++) {
    const text = scattered(formatted, numbersFrom(seed));
    const made = withComments(text, formatted);
    const [old, now] = [placedIn(text), placedIn(made)];
    count += old.length;
    judge(withoutComments(made) === formatted, `seed ${seed}: without comments it is what format writes`);
    judge(old.length === now.length && old.every((one, at) => one.text === now[at].text), `seed ${seed}: the comments are the same, in order`);
    // A comment stays between its tokens, or moves before its line: over no token of another line.
    const isKept = old.every(({ before }, at) => before === now[at].before || Math.max(...starts.filter((start) => start <= before)) === now[at].before);
    judge(isKept, `seed ${seed}: a comment is before the line with the token that follows it`);
    judge(withComments(made, formatted) === made, `seed ${seed}: the result is left as it is`);
    if (seed <= 2) judge(tidy(inRoom("scattered.design", text)).stdout === made, `seed ${seed}: tidy.mjs writes it`);
  }
  judge(count > 5000, `there are ${count} comments`);
  console.log(`${count} comments at random places`);
}

// ---- Single cases ----

const HEAD = "design d is costs assign = 1; test = 1; turn = 1; call = 2; null = 1; put = 1; finish = 1; end costs;\n";
const TAIL = "object a is cyclic attributes period = 10; deadline = 10; thread_budget = 5; thread null; end thread; end a;\nend d;";

function tryCases() {
  const cases = [
    ["a comment at the end without a line feed", `${HEAD}${TAIL} -- the end`, "END d; -- the end\n"],
    ["a comment after the end", `${HEAD}${TAIL}\n-- one\n\n-- two`, "END d;\n-- one\n-- two\n"],
    ["spaces at the end of a comment", `${HEAD}${TAIL}-- x \t \r\n`, "END d; -- x\n"],
    ["an empty comment", `${HEAD}${TAIL}\n--\n`, "END d;\n--\n"],
    ["bytes that are no UTF-8, and a no-break space", `${HEAD}${TAIL} -- \xff\xc3\xa0\n`, "END d; -- \xff\xc3\xa0\n"],
    ["a comment before an END", HEAD + TAIL.replace("end thread", "\n-- x\nend thread"), "         null;\n         -- x\n      END THREAD;\n"],
    ["numbers with underscores and zeros", HEAD + TAIL.replace("10", "-- x\n0_1_0"), "         -- x\n         PERIOD = 10;\n"],
  ];
  for (const [what, text, wanted] of cases) {
    const { status, stdout } = tidy(inRoom("case.design", text));
    judge(status === 0 && stdout.includes(wanted), `${what}: ${stdout}`);
  }
}

// ---- Refusals ----

/** What the program refuses is refused by its line and its status. */
function tryRefusals() {
  const slips = [["no design", ""], ["a slip", `${HEAD}${TAIL.replace("thread null;", "thread null")} -- x`], ["a letter", `${HEAD} $ ${TAIL}`],
    ["too long", " ".repeat(1048577)]];
  for (const [what, text] of slips) {
    const file = inRoom("slip.design", text);
    const done = tidy(file);
    judge(done.status === 1 && same(done, asked("format", file)), `${what}: ${done.status} ${done.stderr}`);
  }
  const absent = join(room, "absent.design");
  judge(same(tidy(absent), { status: 3, stdout: "", stderr: `fault reading ${absent}\n` }), "a file that is not there");
  // Indented it is longer than a design may be.
  const deep = HEAD + TAIL.replace("null;", `${"if 1 = 1 then ".repeat(30)}${"null;".repeat(60000)}${"end if;".repeat(30)} -- x\n`);
  const done = tidy(inRoom("deep.design", deep));
  judge(done.status === 1 && done.stdout === "" && done.stderr === "refused S3 design\n", `a result that is too long: ${done.status} ${done.stderr}`);
  for (const words of [[], ["--write"], ["--check"], ["--other", "x"], ["one", "two"], [""]]) {
    judge(same(tidy(...words), { status: 2, stdout: "", stderr: "usage: tidy.mjs D | --write D .. | --check D ..\n" }), `arguments: ${words}`);
  }
}

/** Another program is found out: one that writes other tokens, other bytes, or another design of the result. */
function tryOtherPrograms() {
  const file = inRoom("given.design", `${HEAD}${TAIL} -- x\n`);
  const script = inRoom("program.sh", "");
  chmodSync(script, 0o755);
  const rest = [["other tokens", "sed 's/END d/END e/'", "other tokens"], ["a token less", "sed '$d'", "other tokens"],
    ["another design of the result", `sed "$(grep -q '^ ' "$2" && echo s/10/11/)"`, "another design"], ["no line feed at the end", "head -c -1", "other tokens"]];
  for (const [what, filter, told] of rest) {
    writeFileSync(script, `#!/bin/sh\n'${PROGRAM}' "$@" | ${filter}\n`);
    const done = run(join(TOP, "tools/design/tidy.mjs"), [file], script);
    judge(done.status === 125 && done.stdout === "" && done.stderr.includes(told), `${what}: ${done.status} ${done.stdout}${done.stderr}`);
  }
  const none = run(join(TOP, "tools/design/tidy.mjs"), [file], join(room, "absent"));
  judge(none.status === 125 && none.stdout === "" && /^tidy: .*ENOENT\n$/.test(none.stderr), `no program: ${none.status} ${none.stderr}`);
  writeFileSync(script, "#!/bin/sh\necho 'hrthood: no proved program of these sources' >&2\nexit 125\n");
  const unanswered = run(join(TOP, "tools/design/tidy.mjs"), ["--check", file], script);
  judge(same(unanswered, { status: 125, stdout: "", stderr: "tidy: no proved program of these sources\n" }), `status 125: ${unanswered.stderr}`);
  // It changes the file while the design is formatted.
  writeFileSync(script, `#!/bin/sh\necho -- y >>'${file}'; exec '${PROGRAM}' "$@"\n`);
  const changed = run(join(TOP, "tools/design/tidy.mjs"), ["--write", file], script);
  judge(changed.status === 125 && changed.stderr.includes("changed meanwhile"), `a file that changes: ${changed.status} ${changed.stderr}`);
  judge(textOf(file) === `${HEAD}${TAIL} -- x\n-- y\n-- y\n`, "a file that changes is not rewritten");
}

// ---- Files in place ----

function tryFiles() {
  const [one, two, slip] = ["one", "two", "slip"].map((name) => join(room, `${name}.design`));
  copyFileSync(join(EXAMPLES, "commented.design"), one);
  copyFileSync(join(EXAMPLES, "commented_tidy.design"), two);
  writeFileSync(slip, "design d is");
  chmodSync(one, 0o640);
  const link = join(room, "link.design");
  symlinkSync(one, link);
  judge(same(tidy("--check", one, two), { status: 1, stdout: `${one}\n`, stderr: "" }), "--check lists what changes");
  const refused = tidy("--write", one, slip, two);
  judge(refused.status === 1 && refused.stderr === `${slip}: ${asked("format", slip).stderr}`, `--write with a slip: ${refused.stderr}`);
  judge(textOf(one) === textOf(join(EXAMPLES, "commented.design")), "a refused file leaves the others as they were");
  judge(same(tidy("--write", two, link), { status: 0, stdout: "", stderr: "" }), "--write");
  judge(textOf(one) === textOf(two) && textOf(two) === textOf(join(EXAMPLES, "commented_tidy.design")), "--write rewrites the file");
  judge((statSync(one).mode & 0o777) === 0o640 && lstatSync(link).isSymbolicLink(), "--write leaves mode and link");
  judge(readdirSync(room).every((name) => !name.includes(".tidy.")), "--write leaves no other file");
  judge(same(tidy("--check", one, two), { status: 0, stdout: "", stderr: "" }), "--check of tidy files");
}

try {
  tryExamples();
  tryScattered();
  tryCases();
  tryRefusals();
  tryOtherPrograms();
  tryFiles();
} finally {
  rmSync(room, { recursive: true });
}
console.log(`test_tidy: ${tried} tried, ${failed} failed`);
exit(failed === 0 ? 0 : 1);
