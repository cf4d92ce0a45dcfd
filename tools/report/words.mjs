// What the commands of pictures and reports share: words, files, the clock and the program.
import { spawnSync } from "node:child_process";
import { createHash } from "node:crypto";
import { existsSync, readFileSync, readSync } from "node:fs";
import { dirname, join, resolve } from "node:path";
import { env } from "node:process";
import { fileURLToPath } from "node:url";
import { Clock, TICKS, microsecondsOf } from "../../web/clock.js";

const MOST = 1 << 30; // bytes of an answer
export const TOP = dirname(dirname(dirname(fileURLToPath(import.meta.url))));

/** What is wrong with words or inputs, in one line. */
export class Unusable extends Error {}

/** The bytes of standard input, which may be a pipe that has none yet. */
function bytesIn() {
  const pieces = [];
  const room = Buffer.alloc(1 << 16);
  for (;;) {
    let count = 0;
    try {
      count = readSync(0, room);
    } catch (fault) {
      if (/** @type {any} */ (fault).code !== "EAGAIN") throw fault;
      Atomics.wait(new Int32Array(new SharedArrayBuffer(4)), 0, 0, 10); // milliseconds
      continue;
    }
    if (count === 0) return Buffer.concat(pieces);
    pieces.push(Buffer.from(room.subarray(0, count)));
  }
}

/** The characters of a file, or of standard input. */
export function textOf(/** @type {string} */ path) {
  return path === "-" ? bytesIn().toString("utf8") : readFileSync(path, "utf8");
}

/** The number that an option has, at least so much. */
export function numberOf(/** @type {Record<string, any>} */ values, /** @type {string} */ name, /** @type {number} */ usual, /** @type {number} */ least) {
  const text = values[name];
  if (text === undefined) return usual;
  if (!/^[0-9]{1,15}$/.test(text) || Number(text) < least) throw new Unusable(`--${name} is a number, at least ${least}`);
  return Number(text);
}

/** The clock of ticks, or with a design that of its milliseconds. */
export function clockOf(/** @type {string|undefined} */ design) {
  if (design === undefined) return TICKS;
  const microseconds = microsecondsOf(textOf(design));
  if (microseconds === null) throw new Unusable(`${design} has no TICK, so its times are ticks alone`);
  return new Clock(microseconds);
}

/** The styles of these names as one. */
export function styleOf(/** @type {string[]} */ ...names) {
  return names.map((name) => readFileSync(join(TOP, "web", `${name}.css`), "utf8")).join("");
}

/** The checksum of a text or of bytes, SHA-256. */
export function sumOf(/** @type {unknown} */ data) {
  return createHash("sha256").update(data).digest("hex");
}

/** The program of a path, with its answers. */
export class Program {
  constructor(/** @type {string} */ path) {
    this.path = path;
    if (!existsSync(path)) throw new Unusable(`there is no program ${path}; tools/gate/prove_program.sh makes it`);
  }

  /** Its answer to words: the status, what it writes, and the line of a refusal. */
  ask(/** @type {string[]} */ ...words) {
    const { status, stdout, stderr, error } = spawnSync(this.path, words, { encoding: "utf8", maxBuffer: MOST, env: { ...env, HRTHOOD_WORDS: "never" } });
    if (error !== undefined) throw new Unusable(`${this.path}: ${error.message}`);
    const line = stderr.split("\n").filter((/** @type {string} */ one) => one !== "" && !one.startsWith("hrthood: ")).at(-1) ?? "";
    if (status > 1) throw new Unusable(`${words.join(" ")}: ${line === "" ? `status ${status}` : line}`);
    return { status, out: stdout, line };
  }

  /** What it is made of: its checksum, and that of its sources where a mark beside it tells that. */
  identity() {
    const mark = `${this.path}.made`;
    const told = existsSync(mark) ? [...readFileSync(mark, "utf8").matchAll(/^(sources|kit) (.*)$/gm)].map(([, what, which]) => [`Its ${what}`, which]) : [];
    return [["Program", this.path], ["Program, SHA-256", sumOf(readFileSync(this.path))], ...told];
  }

  /** What a script of this folder writes of a design with this program, as comma-separated values. */
  script(/** @type {string} */ name, /** @type {string} */ design) {
    const { status, stdout, stderr } = spawnSync("python3", [join(TOP, "tools", "report", name), "--csv", design],
      { encoding: "utf8", env: { ...env, PROGRAM: this.path } });
    if (status === 0) return stdout;
    console.error(`report: ${name} has no table: ${(stderr ?? "python3 isn't there").trim().split("\n").at(-1)}`);
    return null;
  }
}

/** The program of PROGRAM, or the proved one of this repository, or where that isn't built the one that `./hrthood` runs by node. */
export function programOf() {
  const proved = join(TOP, "crates", "hrthood", "out", "hrthood");
  return new Program(resolve(env.PROGRAM ?? (existsSync(proved) ? proved : join(TOP, "hrthood"))));
}

/** Runs a command, whose status is what it returns, or 2 with one line of what is wrong. */
export function run(/** @type {string} */ name, /** @type {() => number} */ command) {
  try {
    process.exitCode = command();
  } catch (fault) {
    console.error(`${name}: ${fault instanceof Error ? fault.message.split("\n")[0] : fault}`);
    process.exitCode = 2;
  }
}
