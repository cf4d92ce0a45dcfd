// Runs the program, for the scripts of this folder: over files, or over a text that is in no file. PROGRAM is the path of the program, and that of
// this repository if it isn't set.
import { spawn } from "node:child_process";
import { mkdtempSync, rmSync, writeFileSync } from "node:fs";
import { tmpdir } from "node:os";
import { dirname, join } from "node:path";
import { env } from "node:process";
import { fileURLToPath } from "node:url";

/** @typedef {{ status: number, out: Buffer, err: Buffer }} Answer */

export const TOP = dirname(dirname(dirname(fileURLToPath(import.meta.url))));
/** The status if there is no answer of the program. */
export const NO_ANSWER = 125;

/** There is no program, or no answer of it. */
export class NoAnswer extends Error {}

// The runs and the temporary folders that there are.
/** @type {Set<any>} */
const runs = new Set();
/** @type {Set<string>} */
const rooms = new Set();

process.on("exit", () => {
  for (const run of runs) run.kill();
  for (const room of rooms) rmSync(room, { recursive: true, force: true });
});
for (const [signal, number] of Object.entries({ SIGHUP: 1, SIGINT: 2, SIGTERM: 15 })) process.on(signal, () => process.exit(128 + number));

/** Returns the lines of standard error that are those of the script `hrthood`, and not the program's own. */
export const scriptLines = (/** @type {Buffer} */ err) => err.toString().split("\n").filter((line) => line.startsWith("hrthood: "));

/**
 * Runs the program with these arguments, and returns its status and what it wrote. If the signal aborts, the run ends without an answer.
 * @param {string[]} words
 * @param {AbortSignal} [signal]
 * @returns {Promise<Answer>}
 */
export function answerTo(words, signal) {
  const program = env.PROGRAM ?? join(TOP, "hrthood");
  return new Promise((resolve, reject) => {
    const run = spawn(program, words, { stdio: ["ignore", "pipe", "pipe"], signal, env: { ...env, HRTHOOD_WORDS: "never" } });
    runs.add(run);
    /** @type {[Buffer[], Buffer[]]} */
    const [out, err] = [[], []];
    run.stdout.on("data", (/** @type {Buffer} */ piece) => out.push(piece));
    run.stderr.on("data", (/** @type {Buffer} */ piece) => err.push(piece));
    run.on("error", (/** @type {Error} */ fault) => reject(new NoAnswer(`${program}: ${fault.message}`)));
    run.on("close", (/** @type {number|null} */ status, /** @type {string|null} */ by) => {
      runs.delete(run);
      const told = Buffer.concat(err);
      if (status === null) reject(new NoAnswer(`${program} was ended by ${by}`));
      else if (status === NO_ANSWER) reject(new NoAnswer(scriptLines(told).join(" ").replaceAll("hrthood: ", "") || `${program} has no answer`));
      else resolve({ status, out: Buffer.concat(out), err: told });
    });
  });
}

/**
 * Runs a verb of one operand over a text, which is given to the program as a temporary file.
 * @param {string} verb
 * @param {Buffer} text
 * @param {AbortSignal} [signal]
 */
export async function answerOver(verb, text, signal) {
  const room = mkdtempSync(join(tmpdir(), "hrthood-"));
  rooms.add(room);
  try {
    const file = join(room, "text.design");
    writeFileSync(file, text);
    return await answerTo([verb, file], signal);
  } finally {
    rmSync(room, { recursive: true, force: true });
    rooms.delete(room);
  }
}

/** Returns the lines of standard error that are the program's own, and not those of the script `hrthood`. */
export function toldLines(/** @type {Buffer} */ err) {
  return err.toString().split("\n").filter((line) => line !== "" && !line.startsWith("hrthood: "));
}
