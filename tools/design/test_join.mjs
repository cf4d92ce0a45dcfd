#!/usr/bin/env node
// Tests join.mjs: the example of examples/joined, the places of refusals, and what can't be joined. PROGRAM is the path of the program, and that of
// this repository if it isn't set.
import { spawnSync } from "node:child_process";
import { mkdirSync, mkdtempSync, readFileSync, readdirSync, rmSync, writeFileSync } from "node:fs";
import { tmpdir } from "node:os";
import { join } from "node:path";
import { env, exit } from "node:process";
import { TOP } from "./program.mjs";

const PROGRAM = env.PROGRAM ?? join(TOP, "hrthood");
const EXAMPLES = join(TOP, "examples/joined");
const USAGE = "usage: join.mjs MAIN | --map MAIN | --run VERB MAIN ..\n";
const room = mkdtempSync(join(tmpdir(), "join-"));
const temporary = join(room, "temporary");
let [tried, failed] = [0, 0];

function judge(/** @type {boolean} */ isRight, /** @type {string} */ what) {
  tried++;
  if (isRight) return;
  failed++;
  console.log(`FAILED ${what}`);
}

const shown = (/** @type {any} */ value) => JSON.stringify(value);
const equal = (/** @type {any} */ one, /** @type {any} */ other, /** @type {string} */ what) => judge(shown(one) === shown(other), `${what}: ${shown(one)}, wanted ${shown(other)}`);

/** Runs join.mjs in the folder of the tests. */
function run(/** @type {string[]} */ ...words) {
  const { status, stdout, stderr } = spawnSync(join(TOP, "tools/design/join.mjs"), words,
    { encoding: "latin1", cwd: room, maxBuffer: 2 ** 26, env: { ...env, PROGRAM, TMPDIR: temporary } });
  return { status, stdout, stderr };
}

function write(/** @type {string} */ name, /** @type {string} */ text) {
  writeFileSync(join(room, name), Buffer.from(text, "latin1"));
}

const example = (/** @type {string} */ name) => readFileSync(join(EXAMPLES, name), "latin1");

/** Writes the example, with changes in one of its files. */
function plant(/** @type {string} */ changed = "", /** @type {[string, string][]} */ ...changes) {
  for (const name of ["plant.design", "costs.design", "tank.design"]) {
    let text = example(name);
    for (const [old, other] of name === changed ? changes : []) {
      judge(text.includes(old), `${name} has ${old}`);
      text = text.replace(old, () => other);
    }
    write(name, text);
  }
}

/** The line and the column of a text in a file of the room. */
function placeOf(/** @type {string} */ name, /** @type {string} */ part, on = 0) {
  const before = readFileSync(join(room, name), "latin1").split(part)[0].split("\n");
  return `${name}:${before.length}:${before[before.length - 1].length + 1 + on}`;
}

function tryExample() {
  plant();
  const { status, stdout, stderr } = run("plant.design");
  equal([status, stderr], [0, ""], "the example");
  // Spelled out by hand: the lines of the files, and the lines of the tank with other words.
  const [main, costs, tank] = ["plant.design", "costs.design", "tank.design"].map((name) => example(name).split("\n").slice(0, -1));
  const copy = (/** @type {string} */ which, /** @type {string} */ period, /** @type {string} */ deadline, /** @type {string} */ work) => tank.slice(1).map((line, at) => (
    (at === 0 ? "   " : "") + line.replace(/\b(tank|level|sensor)\b/g, (word) => (line.indexOf("--") >= 0 && line.indexOf("--") < line.indexOf(word) ? word : `${word}_${which}`))
      .replace(/\b50\b/, period).replace(/\b40\b/, deadline).replace(/\b4\b/, work)));
  const wanted = main.flatMap((line) => [line, ...(line.includes("\"costs.design\"") ? costs : line.includes("\"tank.design\"") ? tank
    : line.includes("AS tank_2") ? copy("2", "100", "80", "4") : line.includes("AS tank_3") ? copy("3", "200", "150", "9") : [])]);
  // The comment of the tank's deadline has its words still.
  equal(stdout.split("\n"), [...wanted.map((line) => line.replace("-- each tank_2", "-- each tank").replace("-- each tank_3", "-- each tank")), ""], "the lines of the example");
  const map = run("--map", "plant.design").stdout.split("\n").slice(1, -1).map((row) => row.split(","));
  const lines = stdout.split("\n");
  judge(map.length === lines.length - 1, `the map has ${map.length} lines`);
  for (const [line, file, source, name] of map) {
    const [one, other] = [lines[Number(line) - 1], example(file).split("\n")[Number(source) - 1]];
    judge(name === "" ? one === other : /^tank_[23]$/.test(name) && one.replace(/_[23]\b/, "").trim().split(" ")[0] === other.trim().split(" ")[0], `line ${line} is line ${source} of ${file}`);
  }
  const bounds = run("--run", "analyse", "plant.design");
  equal([bounds.status, bounds.stderr], [0, ""], "the bounds of the example");
  judge(/^thread sensor_3 priority 1 period 200 deadline 150 jitter 0 cost 12 /m.test(bounds.stdout), `a copy with its numbers: ${bounds.stdout}`);
  const file = join(room, "spelled.design");
  writeFileSync(file, stdout);
  equal(bounds.stdout, spawnSync(PROGRAM, ["analyse", file], { encoding: "utf8" }).stdout, "the bounds are those of the joined text");
}

/** Refusals have the place of the file in which the fault is. */
function tryPlaces() {
  const run1 = () => run("--run", "check", "plant.design");
  plant("tank.design", ["Work (4);", "Work (4;"]);
  equal(run1(), { status: 1, stdout: "", stderr: `${placeOf("tank.design", "Work (4;", 7)}: error: S1: Before this, \`)\` is missing. [refused S1 design line 23 column 17]\n` },
    "a slip in an included file");
  plant("plant.design", ["put (which)", "put which)"]);
  judge(run1().stderr.startsWith(`${placeOf("plant.design", "put which", 4)}: error: S1: `), `a slip after copies: ${run1().stderr}`);
  plant("costs.design", ["TURN = 1; ", ""]);
  judge(run1().stderr.startsWith(`${placeOf("costs.design", "CALL = 1")}: error: S1: `), `a slip in the costs: ${run1().stderr}`);
  // A fault of a copy alone has the place in the object, and a note where it is copied.
  plant("plant.design", ["40 = 80", "40 = 800"]);
  const [error, note, ...more] = run1().stderr.split("\n");
  judge(error.startsWith(`${placeOf("tank.design", "DEADLINE = 40")}: error: V11: The DEADLINE of sensor_2 is 800 ticks, over its PERIOD of 100.`), `a fault of a copy: ${error}`);
  equal([note, more], [`${placeOf("plant.design", "-- @copy tank AS tank_2")}: note: This is in the copy tank_2 of tank.`, [""]], "its note");
  // After exchanged names, shorter and longer ones, columns differ.
  plant("plant.design", ["level = level_3", "level = the_level_of_the_third_tank, read = r, 7 = 9_999_999_999"]);
  write("tank.design", example("tank.design").replace("level.set (read);", "level.set (read); level.set (7 + read); null;"));
  const [number, third] = run1().stderr.split("\n");
  judge(number.startsWith(`${placeOf("tank.design", "7 + read")}: error: L2: `), `a number of a copy: ${number}`);
  equal(third, `${placeOf("plant.design", "-- @copy tank AS tank_3")}: note: This is in the copy tank_3 of tank.`, "its note");
  judge(number.endsWith(" line 60 column 80]"), `its column differs from that of the copy: ${number}`);
  // The end of the text.
  write("open.design", "DESIGN d IS\n-- @include \"costs.design\"");
  equal(run("--run", "format", "open.design").stderr.split(":").slice(0, 4).join(":"), `costs.design:2:${example("costs.design").split("\n")[1].length + 1}: error`, "the end of the text");
  // Arrivals keep their places, and a file that is absent its name.
  plant();
  write("short.arrivals", "UNTIL 100;\nAT 30 nobody 1;\n");
  judge(run("--run", "verify", "plant.design", "short.arrivals").stderr.startsWith("short.arrivals:2:1: error: Q"), "arrivals");
  equal(run("--run", "verify", "plant.design", "absent.arrivals"), { status: 3, stdout: "", stderr: "fault reading absent.arrivals\n" }, "absent arrivals");
  equal(readdirSync(temporary), [], "no temporary file is left");
}

function tryNested() {
  write("nested.design", `${example("costs.design")}OBJECT a IS ACTIVE OBJECTS
OBJECT b IS PASSIVE -- @copy c AS c_2
END b;
OBJECT c IS PASSIVE -- of c, 0_7
  DATA x : word := 007; y : word := 70; END c; -- @copy b AS b_2 WITH c_2 = c_4, 7 = 1_0
END a;
`);
  const lines = run("nested.design").stdout.split("\n").slice(3);
  equal(lines, ["OBJECT b IS PASSIVE -- @copy c AS c_2", `${" ".repeat(20)}OBJECT c_2 IS PASSIVE -- of c, 0_7`, "  DATA x : word := 007; y : word := 70; END c_2;", "END b;",
    "OBJECT c IS PASSIVE -- of c, 0_7", "  DATA x : word := 007; y : word := 70; END c; -- @copy b AS b_2 WITH c_2 = c_4, 7 = 1_0",
    `${" ".repeat(47)}OBJECT b_2 IS PASSIVE -- @copy c AS c_2`, `${" ".repeat(20)}OBJECT c_4 IS PASSIVE -- of c, 0_7`, "  DATA x : word := 1_0; y : word := 70; END c_4;", "END b_2;", "END a;", ""],
  "a copy in a copy");
  mkdirSync(join(room, "deep/er"), { recursive: true });
  write("deep/one.design", "-- one \xff\r\n  -- @include \"er/two.design\"  \r\n");
  write("deep/er/two.design", "-- two\n-- see -- @include \"none\"\n-- @included\n-- @include \"../../costs.design\"");
  write("top.design", "x -- @include \"deep/one.design\"\ny");
  equal(run("top.design").stdout, `x -- @include "deep/one.design"\n-- one \xff\r\n  -- @include "er/two.design"  \r\n-- two\n-- see -- @include "none"\n-- @included\n${""
  }-- @include "../../costs.design"\n${example("costs.design")}y\n`, "files in folders");
}

function tryFaults() {
  plant();
  /** @type {[string, string, string][]} */
  const cases = [
    ["a\n  -- @include \"absent.design\"\n", "2:15", "the file absent.design can't be read"],
    ["-- @include absent.design\n", "1:1", "write -- @include \"FILE\""],
    ["-- @include \"bad.design\"\n", "1:13", "bad.design includes itself"],
    ["-- @include \"..\"\n", "1:13", "the file .. can't be read"],
    [" -- @copy a as\n", "1:2", "write -- @copy OBJECT AS NAME, or -- @copy OBJECT AS NAME WITH NAME = NAME, 30 = 40"],
    ["-- @copy none AS b\n", "1:1", "there is no object none in these files"],
    ["object a is\n-- @copy a AS b\n", "2:1", "the object a has no end"],
    ["object a is\n-- @copy a AS b\nend a;", "2:1", "the object a is copied into itself"],
    ["object a is\n-- @copy c AS d\nend a; object c is\n -- @copy a AS b\nend c;", "2:1", "the object c is copied into itself"],
    ["object a is end a;\n-- @copy a AS b WITH x = y\n", "2:22", "the object a has no x"],
    ["object a is end a;\n-- @copy a AS b WITH is = y\n", "2:22", "is is not a name of a design"],
    ["object a is x end a;\n-- @copy a AS b WITH x = y, X = z\n", "2:29", "X is exchanged twice"],
    ["object a is x end a;\n-- @copy a AS b WITH x = y, a = z\n", "2:29", "a is exchanged twice"],
    ["object a is x 3 end a;\n-- @copy a AS b WITH x = y,3 = z\n", "2:28", "write NAME = NAME or NUMBER = NUMBER"],
    ["object a is x 3 end a;\n-- @copy a AS b WITH x = y,\n", "2:28", "write NAME = NAME or NUMBER = NUMBER"],
    ["object a is x 3 end a;\n-- @copy a AS b WITH 3 = 4ms\n", "2:22", "4ms is not a number of a design"],
    ["object a is x 3 end a;\n-- @copy a AS b\n-- @copy b AS c\n", "3:1", "b is itself a copy: copy a"],
  ];
  for (const [text, place, why] of cases) {
    write("bad.design", text);
    const wanted = { status: 2, stdout: "", stderr: `bad.design:${place}: ${why}\n` };
    equal(run("bad.design"), wanted, `what can't be joined: ${shown(text)}`);
  }
  write("one.design", "-- @include \"two.design\"\n");
  write("two.design", "-- two\n-- @include \"one.design\"\n");
  equal(run("one.design"), { status: 2, stdout: "", stderr: "two.design:2:13: one.design includes itself by other files\n" }, "a cycle of files");
  equal(run("--run", "check", "one.design").status, 2, "a cycle of files, with --run");
  equal(run("none.design"), { status: 2, stdout: "", stderr: "join: the file none.design can't be read\n" }, "no file");
  // Copies that double, and files that double.
  const levels = Array.from({ length: 30 }, (_, at) => `object a${at} is\n-- @copy a${at + 1} AS b\n-- @copy a${at + 1} AS c\nend a${at};\n`);
  write("double.design", `${levels.join("")}object a30 is end a30;\n`);
  judge(/^double.design:\d+:1: from here on the design is longer than 1048576 bytes\n$/.test(run("double.design").stderr), "copies that double");
  for (let at = 0; at < 30; at++) write(`d${at}.design`, `-- @include "d${at + 1}.design"\n-- @include "d${at + 1}.design"\n`);
  write("d30.design", "x".repeat(100));
  judge(/^d\d+.design:\d:13: with d\d+.design the design is longer than 1048576 bytes\n$/.test(run("d0.design").stderr), "files that double");
  for (const words of [[], ["--run"], ["--run", "check"], ["--run", "replay", "x", "y"], ["--map"], ["--other", "x"], ["one", "two"], [""]]) {
    equal(run(...words), { status: 2, stdout: "", stderr: USAGE }, `arguments: ${words}`);
  }
}

try {
  mkdirSync(temporary);
  tryExample();
  tryPlaces();
  tryNested();
  tryFaults();
} finally {
  rmSync(room, { recursive: true, force: true });
}
console.log(`test_join: ${tried} tried, ${failed} failed`);
exit(failed === 0 ? 0 : 1);
