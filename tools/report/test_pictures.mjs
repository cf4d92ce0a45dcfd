#!/usr/bin/env node
// Tests of the HOOD diagram, of bars, tables, reports and of what changed, in node alone.
//
//     PROGRAM=./hrthood tools/report/test_pictures.mjs
//
// With PROGRAM, which may be left out, reports of examples and of random designs, and what changed between them, are made of what it answers.
import assert from "node:assert/strict";
import { spawnSync } from "node:child_process";
import { mkdtempSync, readFileSync, readdirSync, rmSync, writeFileSync } from "node:fs";
import { tmpdir } from "node:os";
import { join, resolve } from "node:path";
import { env } from "node:process";
import { test } from "node:test";
import { arrivalsFor } from "../../web/arrivals.js";
import { Bars, barsInParts, scaleFor } from "../../web/bars.js";
import { changesOfBounds, changesOfTexts, markdownOf } from "../../web/changes.js";
import { Clock, TICKS, ticksOf } from "../../web/clock.js";
import { tokensOf } from "../../web/design_text.js";
import { Diagram } from "../../web/diagram.js";
import { partsOf, readExplanation, slackOf, spareOf, termsOf, utilisationOf, wrongSums } from "../../web/explanation.js";
import { backgroundOf, objectAt, readOutline, usesOf } from "../../web/outline.js";
import { widthOf, withNames, within } from "../../web/markup.js";
import { markOf } from "../../web/places.js";
import { Report, guaranteeOf } from "../../web/report.js";
import { csvOf, latexOf, tableOfLines } from "../../web/tables.js";
import { checkMarkup, plainOf, randomOf, titlesOf } from "./trial.mjs";
import { TOP } from "./words.mjs";

const EXAMPLES = join(TOP, "examples");
const read = (name) => readFileSync(join(EXAMPLES, name), "utf8");
const designs = ["", "faults", "mistakes"].flatMap((folder) =>
  readdirSync(join(EXAMPLES, folder)).filter((name) => name.endsWith(".design")).map((name) => join(folder, name)));

// ---- Random designs ----

const COSTS = "COSTS ASSIGN = 1; TEST = 1; TURN = 1; CALL = 2; NULL = 1; PUT = 1; FINISH = 1; END COSTS;";
const OPERATIONS = [["set", "(v : in word)", "PAER", "d := v;"], ["get", "(v : out word)", "PSER", "v := d;"],
  ["both", "(v : in word; w : out word)", "PSER", "w := v + d;"]];

/** A valid design of subsystems, each with stores and threads that use those, and operations of later subsystems. */
function randomDesign(seed, subsystems, threads, stores) {
  const random = randomOf(seed);
  const parts = Array.from({ length: subsystems }, (_, index) => {
    const objects = Array.from({ length: stores }, (_, store) => ({ name: `store_${index}_${store}`, operations: OPERATIONS.slice(0,
      1 + random(3)) }));
    const provided = objects.flatMap((one) => one.operations.filter(() => random(3) === 0).map((operation) => ({ one, operation })));
    return { name: `part_${index}`, objects, provided, required: new Set(), threads: [] };
  });
  parts.forEach((part, index) => {
    for (let thread = 0; thread < threads; thread++) {
      const calls = new Map();
      for (const { name, operations } of part.objects) {
        const [operation] = operations[random(operations.length)];
        if (random(3) === 0) calls.set(`${name}.${operation}`, operation);
      }
      const later = parts.slice(index + 1).flatMap((other) => other.provided.map((one) => ({ other, one })));
      for (let turn = random(3); turn > 0 && later.length > 0; turn--) {
        const { other, one } = later[random(later.length)];
        const call = `${other.name}.${one.one.name}_${one.operation[0]}`;
        part.required.add(call);
        calls.set(call, one.operation[0]);
      }
      part.threads.push({ name: `thread_${index}_${thread}`, isSporadic: random(3) === 0, period: 1000 * (4 + random(60)), calls,
        work: 1 + random(20) });
    }
  });
  const lines = [`DESIGN random IS`, COSTS, "OBJECT whole IS ACTIVE", "OBJECTS"];
  for (const part of parts) lines.push(...linesOfPart(part));
  return [...lines, "END whole;", "END random;", ""].join("\n");
}

function linesOfPart({ name, objects, provided, required, threads }) {
  const lines = [`OBJECT ${name} IS ACTIVE`];
  if (provided.length > 0) lines.push("PROVIDES", ...provided.map(({ one, operation: [word, parameters, constraint] }) =>
    `${one.name}_${word} ${parameters} ${constraint};`));
  if (required.size > 0) lines.push("REQUIRES", ...[...required].map((call) => `${call};`));
  lines.push("OBJECTS");
  for (const { name: store, operations } of objects) {
    lines.push(`OBJECT ${store} IS PROTECTED`, "PROVIDES", ...operations.map(([word, parameters, constraint]) =>
      `${word} ${parameters} ${constraint};`));
    lines.push("DATA d : word := 0;", ...operations.map(([word, , , body]) => `OPERATION ${word} IS BEGIN ${body} END ${word};`), `END ${store};`);
  }
  for (const { name: thread, isSporadic, period, calls, work } of threads) {
    const [span, jitter] = isSporadic ? ["SEPARATION", " ARRIVAL_JITTER = 5;"] : ["PERIOD", ""];
    lines.push(`OBJECT ${thread} IS ${isSporadic ? "SPORADIC" : "CYCLIC"}`);
    lines.push(`ATTRIBUTES ${span} = ${period}; DEADLINE = ${period}; THREAD_BUDGET = 1000;${jitter}`);
    if (isSporadic) lines.push("PROVIDES ask (q : in word) ASER;");
    if (calls.size > 0) lines.push("REQUIRES", ...[...calls.keys()].map((call) => `${call};`));
    lines.push("DATA x : word := 0; y : word := 0;", "THREAD", `work (${work});`);
    for (const [call, operation] of calls) lines.push(`${call} ${operation === "both" ? "(x, y)" : "(x)"};`);
    lines.push("END THREAD;", `END ${thread};`);
  }
  if (provided.length > 0) lines.push("IMPLEMENTS", ...provided.map(({ one, operation: [word] }) => `${one.name}_${word} BY ${one.name}.${word};`));
  return [...lines, `END ${name};`];
}

const randomDesigns = Array.from({ length: 24 }, (_, seed) => [`random ${seed}`,
  randomDesign(seed, 1 + (seed % 6), 1 + (seed % 5), 1 + ((seed * 3) % 9))]);
const flat = [0, 3, 6, 11].map((seed) => [`flat ${seed}`, randomDesign(100 + seed, 1, 3 + 2 * seed, 2 + 6 * seed)]);

// ---- The reader ----

const told = (design) => design.objects.map((one) => ({
  name: one.name, kind: one.kind, parent: one.parent?.name ?? null, attributes: [...one.attributes], hasThread: one.hasThread,
    required: one.required.map((required) => [required.object, required.operation]),
  operations: one.operations.map(({ name, parameters, constraint }) => ({ name, parameters, constraint })), links: [...one.links],
}));
const plainly = (value) => JSON.parse(JSON.stringify(value));

test("an object of every kind is read with its parts", () => {
  const design = readOutline(`design D version 2 is tick = 1 ms; -- OBJECT no IS ACTIVE
    ${COSTS} Object A is Active objects
    object p is passive provides f (a : in word; r : out word); operation f is t : word := 1; begin r := a; end f; end p;
    object s is sporadic attributes separation = 1_000 us; deadline = 5; thread_budget = 3; arrival_jitter = 2; provides go (v : in word) aser;
    requires p.f; data object_of : word := 0; thread p.f (v, object_of); end thread; end s; end A; end D;`);
  assert.equal(design.name, "d");
  assert.deepEqual(plainly(told(design)).map(({ name, kind, parent }) => [name, kind, parent]),
    [["a", "active", null], ["p", "passive", "a"], ["s", "sporadic", "a"]]);
  const [, p, s] = plainly(told(design));
  assert.deepEqual(p.operations, [{ name: "f", parameters: [{ name: "a", way: "in" }, { name: "r", way: "out" }], constraint: null }]);
  assert.deepEqual(s.attributes, [["separation", { number: 1000, unit: "us" }], ["deadline", { number: 5, unit: null }],
    ["thread_budget", { number: 3, unit: null }],
    ["arrival_jitter", { number: 2, unit: null }]]);
  assert.deepEqual([s.required, s.hasThread, s.operations[0].constraint], [[["p", "f"]], true, "aser"]);
});

test("a design and what format writes of it read as the same objects", () => {
  for (const name of ["mine_pump", "flight_control", "data_handling"]) {
    assert.deepEqual(plainly(told(readOutline(read(`${name}.design`)))), plainly(told(readOutline(read(`wanted/${name}.format`)))), name);
  }
});

test("each object is found at the places of its own text", () => {
  for (const name of designs) {
    const text = read(name);
    const design = readOutline(text);
    for (const one of design.objects) {
      assert.match(text.slice(one.start), new RegExp(`^object\\s+${one.name}\\b`, "i"), name);
      assert.equal(objectAt(design, one.at).name, one.name, name);
    }
  }
});

test("a text that breaks off, or lacks a part, is read and drawn", () => {
  const random = randomOf(5);
  for (const name of ["mine_pump.design", "data_handling.design", "logged_control.design"]) {
    const text = read(name);
    const tokens = tokensOf(text);
    for (let turn = 0; turn < 150; turn++) {
      const { index, length } = tokens[random(tokens.length)];
      for (const broken of [text.slice(0, index), text.slice(0, index) + text.slice(index + length)]) {
        const design = readOutline(broken);
        if (turn % 15 === 0) judgeDrawn(design, `${name} without ${text.slice(index, index + length)} at ${index}`);
      }
    }
  }
});

test("clients and servers are found", () => {
  assert.deepEqual(plainly(backgroundOf(read("logged_control.design")).map((one) => one.name)), ["journal", "reporter"]);
  assert.equal(backgroundOf(read("mine_pump.design")).length, 0);
});

// ---- Arrivals that fit ----

test("arrivals that fit have each object that the outside requests, with a value where its operation has a parameter", () => {
  assert.equal(arrivalsFor(read("mine_pump.design")), "UNTIL 12000;\nAT 1200 water_handler 1;\n");
  assert.equal(arrivalsFor(read("one_cyclic_object.design")).split("\n").length, 2);
  assert.match(arrivalsFor(read("late_control.design")), /^UNTIL 10000;\nAT 1000 telecommand 1;\n$/);
  assert.equal(arrivalsFor(""), "UNTIL 100;\n");
  assert.equal(arrivalsFor("design d is object a is cyclic attributes period = 0; deadline = 1; thread_budget = 1; end a; end d;"), "UNTIL 100;\n");
});

test("a time of a design is told in ticks, and those that are told are read again", () => {
  assert.deepEqual([ticksOf({ number: 7, unit: null }, null), ticksOf({ number: 7, unit: null }, 100), ticksOf({ number: 3, unit: "ms" }, 100)], [7, 7, 30]);
  for (const clock of [TICKS, new Clock(100), new Clock(50)]) for (const ticks of [0, 1, 77, 12345]) assert.equal(clock.ticks(Number(clock.number(ticks))), ticks);
});

// ---- Who uses what ----

const usesTold = (text) => {
  const found = [];
  for (const [parent, level] of usesOf(readOutline(text))) {
    for (const use of level.values()) {
      const marks = [...(use.isSibling ? [] : [" outside"]), ...(use.isFault ? [" fault"] : [])].join("");
      found.push(`${parent?.name ?? "-"}: ${use.sources.map((one) => one.name).join(" ")} > ${use.key}${marks}`);
    }
  }
  return found.sort();
};

test("what a child requires of an uncle leads to the edge of its parent, and on from there", () => {
  assert.deepEqual(usesTold(read("mine_pump.design")), [
    "environment_monitor: air_flow > ch4_status.read",
    "environment_monitor: ch4_sensor > alarm_console.alert outside",
    "environment_monitor: ch4_sensor > ch4_status.write",
    "environment_monitor: ch4_sensor > pump_controller.set_safety outside",
    "environment_monitor: co_sensor > data_logger.log outside",
    "mine_control: environment_monitor > alarm_console.alert",
    "mine_control: environment_monitor > pump_controller.set_safety",
    "mine_control: pump_controller environment_monitor > data_logger.log",
    "pump_controller: flow_sensor > motor.state",
    "pump_controller: water_handler > motor.set_pump",
    "pump_controller: water_handler flow_sensor > data_logger.log outside",
  ]);
});

test("what isn't there, and what a parent doesn't require, is marked", () => {
  const text = `design d is ${COSTS} object w is active objects object p is active objects object a is cyclic requires q.f; z.g; b.none; end a;
    object b is passive provides f (x : in word); end b; end p; object q is passive provides f (x : in word); end q; end w; end d;`;
  assert.deepEqual(usesTold(text), ["-: w > z.g outside fault", "p: a > b.none fault", "p: a > q.f outside", "p: a > z.g outside fault",
    "w: p > q.f fault", "w: p > z.g outside fault"]);
});

// ---- The diagram ----

/** The straight parts and turns of a wire: pairs of places. */
function partsOfPath(path) {
  const found = [];
  let here = [0, 0];
  for (const [, sign, rest] of path.matchAll(/([MHVQ])([^MHVQ]*)/g)) {
    const numbers = rest.trim().split(/[\s,]+/).map(Number);
    const next = sign === "M" ? numbers : sign === "H" ? [numbers[0], here[1]] : sign === "V" ? [here[0], numbers[0]] : numbers.slice(2);
    if (sign !== "M") found.push([here, next]);
    here = next;
  }
  return found;
}

const isOn = ([x, y], [[ax, ay], [bx, by]]) =>
  Math.min(ax, bx) - 0.01 <= x && x <= Math.max(ax, bx) + 0.01 && Math.min(ay, by) - 0.01 <= y && y <= Math.max(ay, by) + 0.01
    && (ax === bx || ay === by || (x === ax && y === ay) || (x === bx && y === by));

/** Whether the wire of a net joins each of its ends to each other. */
function isJoined(level, net) {
  const parts = level.paths.get(net).flatMap((path) => partsOfPath(path));
  const touches = (one, other) => one.some((end) => isOn(end, other)) || other.some((end) => isOn(end, one));
  const waiting = [parts[0]];
  const rest = new Set(parts.slice(1));
  for (const part of waiting) {
    for (const other of rest) {
      if (touches(part, other) && rest.delete(other)) waiting.push(other);
    }
  }
  const ends = net.sources.map(({ box, entry }) => (box === undefined ? [0, level.entries.get(entry)] : [box.x + box.width,
    box.y + box.outs.get(net.key)]));
  if (net.target !== null) ends.push([net.target.box.x - net.target.box.tip, net.target.box.y + net.target.box.ins.get(net.target.port)]);
  else ends.push([null, level.exits.find((exit) => exit.net === net).top]);
  return rest.size === 0
    && ends.every(([x, y]) => parts.some((part) => part.some((end) => end[1] === y && (x === null || end[0] === x))));
}

/** What is wrong with the places of a level: nothing may overlap, and each wire joins its ends past all boxes. */
function faultsOf(level, name) {
  const found = [];
  level.boxes.forEach((one, index) => {
    for (const other of level.boxes.slice(index + 1)) {
      const isApart = one.x + one.width <= other.x - other.left || other.x + other.width <= one.x - one.left || one.y + one.height <= other.y
        || other.y + other.height <= one.y;
      if (!isApart) found.push(`${name}: ${one.object.name} and ${other.object.name} overlap`);
    }
  });
  const parts = level.nets.flatMap((net) => level.paths.get(net).flatMap((path) => partsOfPath(path)).filter(([[ax, ay], [bx, by]]) => ax === bx
    || ay === by)
    .map(([[ax, ay], [bx, by]]) => ({ net, left: Math.min(ax, bx), right: Math.max(ax, bx), top: Math.min(ay, by), bottom: Math.max(ay, by) })));
  for (const { net, left, right, top, bottom } of parts) {
    const hit = level.boxes.find((box) => right > box.x + 0.5 && left < box.x + box.width - 0.5 && bottom > box.y + 0.5
      && top < box.y + box.height - 0.5);
    if (hit !== undefined) found.push(`${name}: ${net.key} goes through ${hit.object.name}`);
  }
  parts.forEach((one, index) => {
    for (const other of parts.slice(index + 1)) {
      if (one.net === other.net) continue;
      const isLevel = one.top === one.bottom && other.top === other.bottom && Math.abs(one.top - other.top) < 2
        && Math.min(one.right, other.right) - Math.max(one.left, other.left) > 1;
      const isUpright = one.left === one.right && other.left === other.right && Math.abs(one.left - other.left) < 2
        && Math.min(one.bottom, other.bottom) - Math.max(one.top, other.top) > 1;
      if (isLevel || isUpright) found.push(`${name}: ${one.net.key} lies on ${other.net.key}`);
    }
  });
  for (const net of level.nets) if (!isJoined(level, net)) found.push(`${name}: ${net.key} doesn't join its ends`);
  for (const box of level.boxes.filter((one) => one.inner !== null)) {
    for (const child of box.inner.boxes) {
      const isInside = box.innerX + child.x - child.left >= 0 && box.innerX + child.x + child.width < box.width && box.innerY + child.y > 24
        && box.innerY + child.y + child.height < box.height;
      if (!isInside) found.push(`${name}: ${child.object.name} is not inside ${box.object.name}`);
    }
    found.push(...faultsOf(box.inner, `${name}/${box.object.name}`));
  }
  return found;
}

/** Draws a design whole, and each of its parents. */
function judgeDrawn(design, name, bounds = null) {
  for (const focus of [null, ...design.objects.filter((one) => one.hasChildren())]) {
    const picture = new Diagram(design, { bounds, focus, isFlat: focus !== null });
    assert.deepEqual(faultsOf(picture.level, `${name} ${focus?.name ?? ""}`), []);
    const text = picture.draw(true).write();
    checkMarkup(text);
    const drawn = [...text.matchAll(/data-object="([^"]*)"/g)].map((found) => found[1]);
    if (focus === null) assert.deepEqual([...new Set(drawn)].sort(), [...new Set(design.objects.map((one) => one.name))].sort(),
      `${name}: each object is drawn`);
    else for (const child of focus.children) assert.ok(drawn.includes(child.name), `${name}: ${child.name} in ${focus.name}`);
  }
}

test("the examples, whole and level by level: nothing overlaps, and each wire joins its ends", () => {
  for (const name of designs) judgeDrawn(readOutline(read(name)), name);
  for (const name of ["mine_pump", "flight_control", "data_handling"]) {
    judgeDrawn(readOutline(read(`${name}.design`)), name, readExplanation(read(`wanted/${name}.analyse`)));
  }
});

test("random designs of 2 to 100 objects: nothing overlaps, and each wire joins its ends", () => {
  let most = 0;
  for (const [name, text] of [...randomDesigns, ...flat]) {
    const design = readOutline(text);
    most = Math.max(most, design.objects.length);
    judgeDrawn(design, name);
  }
  assert.ok(most > 90, `the largest has ${most} objects`);
});

test("the same design gets the same picture", () => {
  const [, text] = randomDesigns[11];
  const drawn = () => new Diagram(readOutline(text)).draw(true).write();
  assert.equal(drawn(), drawn());
});

test("kinds, constraints, flows, links and times stand in the picture", () => {
  const bounds = readExplanation(read("wanted/mine_pump.analyse"));
  const text = new Diagram(readOutline(read("mine_pump.design")), { bounds }).draw().write();
  for (const [words, count] of /** @type {[string, number][]} */ ([[">Pr<", 3], [">C<", 4], [">S<", 2], [">A<", 3], [">ASER<", 2], [">PAER<", 5], [">PSER<", 2], [">outside<", 1]])) {
    assert.equal(text.split(words).length - 1, count, words);
  }
  for (const words of ["period 80 · deadline 30", "separation 6000 · deadline 200", "arrival jitter 5", "priority 6 · response 23 of 30",
    "ceiling 4",
    "ch4_sensor requests alarm_console.alert", "set_safety implemented by motor.set_safety", ">want<", ">high<"]) assert.ok(text.includes(words),
      words);
  assert.equal(text.split('class="trigger"').length - 1, 9, "each constrained operation has its mark");
  assert.equal(text.split('class="wire link"').length - 1, 1, "the link is dashed");
});

test("a request from outside is drawn once, at the outermost operation that stands for it", () => {
  const design = readOutline(read("data_handling.design"));
  for (const focus of [null, "data_handling", "radio"].map((name) => design.objects.find((one) => one.name === name) ?? null)) {
    const text = new Diagram(design, { focus, isFlat: focus !== null }).draw().write();
    assert.equal(text.split(">outside<").length - 1, 1, focus?.name);
    const before = text.split(">outside<")[0];
    assert.match(before.slice(before.lastIndexOf("data-operation=")), /^data-operation="radio.telecommand"/);
  }
});

test("what is refused is marked, and long names are shortened", () => {
  const long = "a".repeat(64);
  const design = readOutline(`design d is ${COSTS} object ${long} is cyclic attributes period = 5; end ${long}; end d;`);
  const text = new Diagram(design, { faults: [long] }).draw().write();
  assert.match(text, new RegExp(`class="object kind-cyclic fault" data-object="${long}"`));
  assert.ok(text.includes(`>${"a".repeat(28)}..<`));
});

test("the object of a refusal is found by the place that is marked", () => {
  let count = 0;
  for (const table of ["faults.cases", "mistakes.cases"]) {
    for (const line of read(table).split("\n")) {
      const [, file, refusal] = /^1 \| \w+ (\S+\.design)[^|]*\|[^|]*\| (refused [LSVUA]\d+.*)$/.exec(line) ?? [];
      if (file === undefined) continue;
      const text = read(file);
      const mark = markOf(refusal.trim(), { design: text, arrivals: "" });
      // V01 and V02 tell a name, which may be declared in another object than that of the name.
      const named = /^refused (?!V0[12])[VUA]\d+ (?:cost )?(\w+)/.exec(refusal)?.[1];
      const design = readOutline(text);
      if (!design.objects.some((one) => one.name === named)) continue;
      // It is marked in its own object, or where another one names it.
      const found = objectAt(design, mark.index);
      const own = text.slice(found.start, found.end).toLowerCase();
      assert.ok(refusal.split(" ").includes(found.name) || own.includes(named), `${file}: ${refusal}: ${found.name}`);
      count++;
    }
  }
  assert.ok(count > 30, `${count} refusals`);
});

// ---- The bars ----

const TWO = `thread a priority 2 period 10 deadline 8 jitter 0 cost 3 blocking 1 response 4
thread b priority 1 period 30 deadline 20 jitter 5 cost 5 blocking 0 response 8
ceiling q 2
`;
const LATE = `miss U1 b value 20 limit 9 round 1
thread a priority 3 period 10 deadline 8 jitter 0 cost 3 blocking 1 response 4
blocked a by b in q.set ticks 1
slack a deadline 4 separation 6
thread b priority 2 period 30 deadline 9 jitter 5 cost 6 blocking 0 response 12
started b by a jitter 0 response 4
delayed b by a window 12 activations 2 ticks 6
late b deadline 3 separation 0
beyond c priority 1 period 40 deadline 12 cost 6 blocking 0 value 190 limit 12 round 4
behind d priority 1 period 40 deadline 12 cost 2 blocking 0 by c
chain b jitter 0 response 12 by a
ceiling q 3
utilisation 700
`;

test("the lines of explain are read with all their parts", () => {
  const { miss, threads, chains, ceilings } = readExplanation(LATE);
  assert.equal(miss, "miss U1 b value 20 limit 9 round 1");
  const [a, b, c, d] = threads;
  assert.deepEqual([a.blocked, a.spare], [{ by: "b", inside: "q.set", ticks: 1 }, { deadline: 4, separation: 6 }]);
  assert.deepEqual([b.started, b.delayed, b.late], [{ by: "a", jitter: 0, response: 4 }, [{ by: "a", window: 12, activations: 2, ticks: 6 }],
    { deadline: 3, separation: 0 }]);
  assert.deepEqual([c.beyond, c.response, d.behind, d.cost], [{ value: 190, limit: 12, round: 4 }, null, "c", 2]);
  assert.deepEqual(chains, [{ name: "b", jitter: 0, response: 12, by: ["a"] }]);
  assert.deepEqual(ceilings, [{ name: "q", ceiling: 3 }]);
  assert.deepEqual([slackOf(b), spareOf(b), slackOf(c), spareOf(a)], [-3, 13, null, 6]);
  assert.equal(utilisationOf([a]), "30.00 %");
});

test("a response is the sum of its terms, by the lines of explain or by the equation", () => {
  const { threads } = readExplanation(TWO);
  assert.deepEqual(termsOf(threads[1], threads, TICKS), ["cost 5", "blocking 0", "a 1 × 3"]);
  assert.equal(wrongSums(threads), null);
  assert.equal(wrongSums(readExplanation(LATE).threads), null);
  for (const name of ["mine_pump", "flight_control", "data_handling", "every_kind"]) {
    assert.equal(wrongSums(readExplanation(read(`wanted/${name}.analyse`)).threads), null, name);
  }
});

const BACKGROUND = `thread h priority 2 period 8 deadline 8 jitter 0 cost 5 blocking 2 response 7
blocked h by client in q.set ticks 2
slack h deadline 1 separation 1
client client priority 1 cost 12
ceiling q 2
server log ceiling 1
utilisation 625
`;

test("the lines of a design with background objects: a client blocks, and is no thread", () => {
  const { threads, clients, ceilings, servers } = readExplanation(BACKGROUND);
  assert.deepEqual(threads.map(({ name, blocked }) => [name, blocked]), [["h", { by: "client", inside: "q.set", ticks: 2 }]]);
  assert.deepEqual(clients, [{ name: "client", priority: 1, cost: 12 }]);
  assert.deepEqual([ceilings, servers], [[{ name: "q", ceiling: 2 }], [{ name: "log", ceiling: 1 }]]);
  assert.equal(wrongSums(threads), null);
});

test("the jitter of a thread above counts: within 8 ticks one of period 10 whose jitter is 3 comes twice", () => {
  const { threads } = readExplanation(TWO.replace("jitter 0", "jitter 3"));
  assert.equal(partsOf(threads[1], threads).delays[0].times, 2);
});

test("a response that is no sum of its terms is told", () => {
  const told = readExplanation(TWO.replace("response 8", "response 9"));
  assert.match(wrongSums(told.threads), /response of b:/);
  const text = new Bars(told, 900).draw().write();
  assert.ok(text.includes("9 ≠ cost 5") && text.includes("1 tick that the terms do not explain"));
  assert.match(wrongSums(readExplanation(LATE.replace("ticks 6", "ticks 7")).threads), /response of b:/);
});

test("the parts of a bar are as wide as their ticks, up to the deadline, up to the response, or on one scale", () => {
  const told = readExplanation(read("wanted/mine_pump.analyse"));
  for (const [kind, width] of /** @type {[string, number][]} */ ([["deadline", 1000], ["response", 1000], ["ticks", 1000], ["deadline", 390]])) {
    const text = new Bars(told, width, { scale: kind }).draw().write();
    checkMarkup(text);
    const [left, room] = width < 640 ? [8, width - 20] : [170, width - 170 - 150];
    text.split('class="row"').slice(1).forEach((row, index) => {
      const { name, deadline, response } = told.threads[index];
      const widths = [...row.split("<g>")[0].matchAll(/class="part [^"]*" x="([\d.]+)" y="[\d.]+" width="([\d.]+)"/g)].map((found) =>
        [Number(found[1]), Number(found[2])]);
      const right = Math.max(...widths.map(([x, one]) => x + one));
      const pixels = room / { deadline, response, ticks: 900 }[kind];
      assert.ok(Math.abs(right - left - response * pixels) < 1.5, `${name}: ${right}`);
    });
  }
});

test("bars in parts have each thread once, no part that is too high, and the chains below the last", () => {
  const told = readExplanation(read("wanted/late_platform.explain"));
  for (const [most, count] of [[1300, 2], [400, 6], [100000, 1]]) {
    const parts = barsInParts(told, 1000, { scale: "deadline" }, most);
    assert.ok(parts.length >= count, `${most}: ${parts.length}`);
    assert.deepEqual(parts.flatMap(({ shown }) => shown.map((one) => one.name)), told.threads.map((one) => one.name));
    const drawn = parts.map(({ bars }) => bars.draw());
    assert.deepEqual(drawn.map((one) => one.write().includes("data-chain")), parts.map((_, place) => place === parts.length - 1));
    if (most === 1300) for (const one of drawn) assert.ok(Number(one.get("height")) < 1500);
  }
});

/** The texts of a picture with their edges, as their widths are reckoned. */
function textsOf(markup) {
  return [...markup.matchAll(/<text x="([\d.]+)" y="([\d.]+)" class="([^"]*)">([^<]*)</g)].map(([, x, y, kind, text]) => {
    const width = widthOf(plainOf(text), kind.includes("small") ? 10 : 12, kind.includes("name"));
    const left = Number(x) - (kind.includes("right") ? width : kind.includes("middle") ? width / 2 : 0);
    return { text, y: Number(y), left, right: left + width };
  });
}

test("a name is cut only where it is wider than its room", () => {
  assert.equal(within("guidance_store", 80, 10), "guidance_store");
  assert.equal(within("guidance_store", 50, 10), "guidanc..");
  assert.equal(within("ab", 1, 10), "ab");
});

test("a long name is cut at the edge of the picture, and where a narrow one tells beside it how late the thread is", () => {
  const name = "a_thread_with_a_long_name_mmmm";
  const told = readExplanation(LATE.replace(/\bb\b/g, name).replace("period 12", "period 9"));
  for (const width of [360, 390, 1000]) {
    const texts = textsOf(new Bars(told, width).draw().write());
    assert.ok(texts.some(({ text }) => text.includes("a_th")), "the name is shown");
    for (const { text, left, right } of texts) assert.ok(left >= 0 && right <= width, `${width} pixels: ${text} from ${left} to ${right}`);
    texts.forEach((one, place) => texts.slice(place + 1).filter(({ y }) => y === one.y).forEach((other) =>
      assert.ok(one.right < other.left || other.right < one.left, `${width} pixels: ${one.text} and ${other.text}`)));
  }
});

test("pictures of one page share no name of a pattern, and each fill leads to one of its own picture", () => {
  const told = readExplanation(LATE.replace("blocking 0", "blocking 1"));
  const [one, other] = ["one", "other"].map((word) => withNames(new Bars(told, 900).draw(), word).write());
  const namesOf = (text) => [...text.matchAll(/ id="([^"]*)"/g)].map(([, name]) => name);
  for (const text of [one, other]) {
    const used = [...text.matchAll(/fill="url\(#([^)]*)\)"/g)].map(([, name]) => name);
    assert.ok(used.length > 1 && used.every((name) => namesOf(text).includes(name)), `${used}`);
  }
  assert.deepEqual([namesOf(one), namesOf(other)], [["one-blocked"], ["other-blocked"]]);
});

test("a thread that is late goes on past its deadline, and one that is given up has no bar", () => {
  const text = new Bars(readExplanation(LATE), 1000).draw().write();
  checkMarkup(text);
  const row = text.split('data-thread="b"')[1].split("data-thread")[0];
  const [, x, width] = /class="over" x="([\d.]+)" y="[\d.]+" width="([\d.]+)"/.exec(row);
  // 9 of 12 ticks are before the deadline, in 680 pixels.
  assert.ok(Math.abs(Number(x) - 170 - 680 * 9 / 12) < 0.2 && Math.abs(Number(width) - 680 * 3 / 12) < 0.2, `${x} ${width}`);
  for (const words of [">late by 3 ticks<", ">12 of 9<", ">given up<", "no response: over ten times its limit, 12", "no response, as that of c has none"]) {
    assert.ok(text.includes(words), words);
  }
  assert.ok(titlesOf(text).includes("a: blocking by b inside q.set: 1 of 4 ticks"));
});

test("a chain is a bar of the responses of its threads, behind one another, with a stroke at its bound", () => {
  const text = new Bars(readExplanation(LATE), 1000).draw().write();
  const row = text.split('data-chain="b"')[1];
  const parts = [...row.matchAll(/class="part own [^"]*" x="([\d.]+)" y="[\d.]+" width="([\d.]+)"/g)].slice(0, 2).map((found) => found.slice(1).map(Number));
  assert.deepEqual(parts, [[170, 170], [340, 510]]);
  assert.ok(row.includes('class="end" d="M680 '));
  assert.ok(row.includes("12 = response of b, its thread of lowest priority; sum a 4 + b 12 = 16"));
  assert.ok(new Bars(readExplanation(LATE.replace("response 12 by", "response 13 by")), 1000).draw().write().includes("13 ≠ response of"));
});

test("bars in milliseconds", () => {
  const text = new Bars(readExplanation(LATE), 1000, { clock: new Clock(100) }).draw().write();
  for (const words of ["late by 0.3 ms", ">1.2 of 0.9<", "1.2 = cost 0.6 + blocking 0 + a 2 × 0.3"]) assert.ok(text.includes(words), words);
});

test("thirty threads get bars, and the scale is that by which most is seen", () => {
  const lines = Array.from({ length: 30 }, (_, index) =>
    `thread t${index} priority ${30 - index} period 1000 deadline 1000 jitter 0 cost 2 blocking 0 response ${2 * index + 2}`);
  const told = readExplanation(lines.join("\n"));
  assert.equal(wrongSums(told.threads), null);
  checkMarkup(new Bars(told, 800).draw().write());
  assert.equal(scaleFor(told.threads), "response");
  assert.equal(scaleFor(readExplanation(TWO).threads), "deadline");
});

// ---- Tables ----

test("tables as comma-separated values and as LaTeX", () => {
  const table = { id: "a_b", caption: "50 % & more_of {it}", heads: ["Name", "Times"], rows: [["x_1", "a, \"b\""], ["y", 7]], words: [0] };
  assert.equal(csvOf([table]), 'table,a_b,50 % & more_of {it}\nName,Times\nx_1,"a, ""b"""\ny,7\n');
  const latex = latexOf([table]);
  for (const words of ["\\caption{50 \\% \\& more\\_of \\{it\\}}", "\\begin{tabular}{lr}", "x\\_1 & a, \"b\" \\\\", "\\label{tab:a-b}"]) {
    assert.ok(latex.includes(words), `${words}: ${latex}`);
  }
  const { heads, rows } = tableOfLines("t", "", 'one_two,b\n"x, ""y""",\n1,2\n', []);
  assert.deepEqual([heads, rows], [["one two", "b"], [["x, \"y\"", ""], ["1", "2"]]]);
});

// ---- The report ----

const GUARANTEE = guaranteeOf(readFileSync(join(TOP, "docs", "GUARANTEE.md"), "utf8"));

/** What a report tells of a design that is taken. */
function givenOf(design, explained, more = {}) {
  return { name: design, version: "1.2.3", text: read(design), outline: readOutline(read(design)), microseconds: null, refused: null, words: [], at: null,
    isBackground: false, hard: [], explanation: explained === null ? null : readExplanation(read(explained)), scale: null, margins: null, changes: null, runs: [],
    identity: [["Program, SHA-256", "0".repeat(64)]], guarantee: GUARANTEE, ...more };
}

function writtenOf(given) {
  const text = new Report(given).document("body { color: red }");
  checkMarkup(text);
  assert.doesNotMatch(text, /<script|https?:\/\/(?!www\.w3\.org)/, "it asks for nothing else");
  return text;
}

const mineRun = () => {
  const [ada, trace] = read("wanted/mine_pump.verify").split("-- trace\n");
  return { name: "one_water_alarm.arrivals", text: read("one_water_alarm.arrivals"), ada, lines: trace.trimEnd().split("\n") };
};

test("what is proved is quoted from GUARANTEE.md", () => {
  assert.match(GUARANTEE.promise, /^For every design that `generate` accepts/);
  assert.deepEqual(["analyse", "explain", "verify", "background"].filter((verb) => !GUARANTEE.verbs.some(([one]) => one === verb)), []);
  assert.ok(GUARANTEE.not.length >= 3 && GUARANTEE.not[0].startsWith("Anything about a real Ada compiler"));
  assert.throws(() => guaranteeOf("# The guarantee\n"), /has not the sections/);
});

test("a report of a design with a run", () => {
  const scale = { perMille: 1333, next: "U1 co_sensor value 63 limit 60 round 2" };
  const text = writtenOf(givenOf("mine_pump.design", "wanted/mine_pump.analyse", { scale, runs: [mineRun()],
    margins: 'thread,statements,slack,to_period,margin,next\nco_sensor,1,15,55,3000,"U1 co_sensor, late"\n' }));
  for (const words of ["Every deadline of mine is met", "12 objects, 6 threads", "59.44 %", "the least slack is 7 ticks, of ch4_sensor", "1.333 times", "Not proved",
    'class="diagram"', 'class="bars"', 'class="timeline"', "Greatest response", "UNTIL 100;", "U1 co_sensor, late", "A run under one_water_alarm.arrivals",
    "Lafomizana 1.2.3"]) {
    assert.ok(text.includes(words), words);
  }
  for (const id of ["proof", "diagram", "objects", "bounds", "bars", "ceilings", "margins", "run-1", "inputs"]) assert.ok(text.includes(`<section id="${id}">`), id);
  assert.ok(!text.includes('id="changes"') && !text.includes("times in ms"));
});

test("each number of the bounds stands in their table", () => {
  const report = new Report(givenOf("mine_pump.design", "wanted/mine_pump.analyse"));
  const { rows } = report.tables().find(({ id }) => id === "bounds");
  assert.deepEqual(rows[1], ["alarm_console", 5, "80", "50", "23", "6", "2", "29", "21", "28", "7.50 %"]);
  assert.equal(rows.at(-1).at(-1), "59.44 %");
});

test("a design with TICK has its tables and bars in milliseconds too", () => {
  const text = writtenOf(givenOf("flight_control.design", "wanted/flight_control.analyse", { microseconds: 100 }));
  assert.ok(text.includes("Threads by priority; times in ticks") && text.includes("Threads by priority; times in ms"));
  const { rows } = new Report(givenOf("flight_control.design", "wanted/flight_control.analyse", { microseconds: 100 })).tables().find(({ id }) => id === "bounds_ms");
  const { rows: ticks } = new Report(givenOf("flight_control.design", "wanted/flight_control.analyse")).tables().find(({ id }) => id === "bounds");
  rows.slice(0, -1).forEach((row, place) => assert.equal(Number(row[7]) * 10, Number(ticks[place][7])));
});

test("a report of a refused design, and of refused arrivals", () => {
  const text = read("late_control.design");
  const line = "refused U1 star_tracker value 695 limit 600 round 2";
  const refused = writtenOf(givenOf("late_control.design", null, { refused: line, words: ["star_tracker is late.", "Make it `cheaper`."],
    at: markOf(line, { design: text }).index, explanation: readExplanation(LATE), changes: "number,of\nDEADLINE,star_tracker\n" }));
  for (const words of ["<strong>star_tracker is late.</strong>", "Make it <code>cheaper</code>.", "which is marked", 'class="verdict bad"', "b is late by 3 ticks",
    "c has no response within ten times its limits", '<section id="changes">']) {
    assert.ok(refused.includes(words), words);
  }
  assert.match(refused, /kind-cyclic fault" data-object="star_tracker"/);
  const near = writtenOf(givenOf("mine_pump.design", "wanted/mine_pump.analyse", { runs: [{ name: "near.arrivals", text: "UNTIL 9;\n", refused: "refused Q4 line 1",
    words: ["Two requests are too near."] }] }));
  assert.ok(near.includes("Two requests are too near.") && near.includes("refused Q4 line 1") && near.includes('class="verdict good"'));
});

test("a report of a design with clients and servers has its run and its hard threads", () => {
  const hard = readExplanation("thread control priority 1 jitter 0 response 12 deadline 15").threads;
  const run = { name: "until_40.arrivals", text: read("until_40.arrivals"), ada: read("logged_control.ada"),
    lines: read("wanted/logged_control.replay").trimEnd().split("\n") };
  const text = writtenOf(givenOf("logged_control.design", null, { isBackground: true, hard, runs: [run] }));
  for (const words of ["Every deadline of the hard threads of logged_control is met", "client, in the background", "Bounds of the hard threads",
    "no share of the time is promised", 'class="timeline"', "response 12 of 15"]) {
    assert.ok(text.includes(words), words);
  }
});

test("what a text contains can't become a part of the report", () => {
  const hostile = 'DESIGN d IS -- <script>alert("x")</script> & more\n';
  const text = writtenOf({ ...givenOf("mine_pump.design", null), text: hostile, outline: readOutline(hostile), refused: "refused S1 <b>", words: ["<i>x</i>"] });
  assert.ok(text.includes("&lt;script&gt;") && text.includes("&lt;i&gt;x"));
});

// ---- What changed ----

test("what changed in the text: attributes, calls, costs, operations and objects", () => {
  const before = read("mine_pump.design");
  const after = before.replace("DEADLINE = 30;", "DEADLINE = 28;").replace(/ASSIGN = 1;/, "ASSIGN = 2;").replace(/Work \(6\);/, "Work (7); Work (1);")
    .replaceAll("alarm_console", "siren");
  const { head, gone, come, changed } = changesOfTexts(before, after);
  assert.deepEqual(head, [{ what: "assign", before: 1, after: 2 }]);
  assert.deepEqual([gone.map(({ name }) => name), come.map(({ name }) => name)], [["alarm_console"], ["siren"]]);
  const of = (name) => changed.find((one) => one.name === name)?.found.map(({ what, before: was, after: is }) => `${what}: ${was}, ${is}`);
  assert.deepEqual(of("ch4_sensor"), ["DEADLINE: 30, 28", "requires alarm_console.alert: yes, null", "calls alarm_console.alert: once, null", "work: 6, 7, 1",
    "requires siren.alert: null, yes", "calls siren.alert: null, once"]);
  assert.equal(of("motor"), undefined);
});

test("statements that are others are told, where nothing else is", () => {
  const text = `design d is ${COSTS} object a is cyclic attributes period = 9; deadline = 9; thread_budget = 9; data n : word := 0; thread n := 1; end thread; end a; end d;`;
  assert.deepEqual(changesOfTexts(text, text.toUpperCase().replaceAll("IS", "is\n")).changed, []);
  assert.deepEqual(changesOfTexts(text, text.replace("n := 1", "n := 2")).changed.map(({ found }) => found[0].what), ["statements"]);
});

test("bounds side by side: the greatest loss of slack first", () => {
  const before = readExplanation("thread a priority 3 period 90 deadline 50 jitter 0 cost 5 blocking 0 response 10\n"
    + "thread b priority 2 period 90 deadline 50 jitter 0 cost 5 blocking 0 response 20\nthread c priority 1 period 90 deadline 50 jitter 0 cost 5 blocking 0 response 30\n"
    + "thread g priority 1 period 90 deadline 50 jitter 0 cost 5 blocking 0 response 30\nceiling q 3\n");
  const after = readExplanation("thread a priority 3 period 90 deadline 50 jitter 0 cost 5 blocking 0 response 9\n"
    + "thread b priority 2 period 90 deadline 40 jitter 0 cost 5 blocking 0 response 40\nbeyond c priority 1 period 90 deadline 50 cost 5 blocking 0 value 600 limit 50 round 3\n"
    + "thread n priority 1 period 90 deadline 50 jitter 0 cost 5 blocking 0 response 30\nceiling q 2\n");
  const { both, gone, come } = changesOfBounds(before, after);
  assert.deepEqual(both.map(({ name, loss }) => [name, loss]), [["c", Infinity], ["b", 30], ["a", -1]]);
  assert.deepEqual([gone.map(({ name }) => name), come.map(({ name }) => name)], [["g"], ["n"]]);
  const sides = [before, after].map((explanation, place) => ({ name: ["old", "new"][place], text: "", refused: null, explanation }));
  const told = markdownOf(sides[0], sides[1], TICKS);
  assert.ok(told.includes("| b | 2 | 5 | 0 | 50 → 40 | 20 → 40 | 30 | 0 | -30 |"), told);
  assert.ok(told.includes("| c | 1 | 5 | 0 | 50 | 30 → none | 20 | none | no response |"), told);
  assert.ok(told.includes("| q | 3 | 2 |"), told);
  assert.ok(markdownOf(sides[0], { ...sides[1], explanation: null, refused: "refused V11 a" }, TICKS).includes("There are no bounds of new to compare."));
  assert.ok(markdownOf(sides[0], sides[0], new Clock(100)).includes("## Bounds, in ms"));
});

// ---- The commands ----

const tool = (name, words, { input = "", ...more } = /** @type {any} */ ({})) => spawnSync(process.execPath, [join(TOP, "tools", "report", name), ...words],
  { encoding: "utf8", input, maxBuffer: 1 << 28, env: { ...env, ...more } });

test("the commands write pictures, and tell in one line what is wrong", () => {
  const mine = join(EXAMPLES, "mine_pump.design");
  const whole = tool("diagram.mjs", ["--bounds", join(EXAMPLES, "wanted", "mine_pump.analyse"), "--legend", mine]);
  assert.deepEqual([whole.status, whole.stderr], [0, ""]);
  checkMarkup(whole.stdout);
  assert.ok(plainOf(whole.stdout).includes("priority 6 · response 23 of 30"));
  assert.ok(tool("diagram.mjs", ["--of", "pump_controller", mine]).stdout.includes("uncle"));
  assert.equal(tool("bars.mjs", [], { input: TWO }).status, 0);
  const wrong = tool("bars.mjs", [], { input: TWO.replace("response 8", "response 9") });
  assert.deepEqual([wrong.status, wrong.stderr.includes("response of b:")], [1, true]);
  for (const [name, words, wanted] of /** @type {[string, string[], string][]} */ ([["diagram.mjs", ["--of", "none", mine], "no object none"], ["diagram.mjs", [], "give it one design"],
    ["diagram.mjs", ["none.design"], "none.design"], ["bars.mjs", ["--scale", "x"], "--scale is"], ["bars.mjs", [], "no line of a thread"],
    ["bars.mjs", ["--milliseconds", mine], "has no TICK"], ["report.mjs", [], "give it a design"], ["report.mjs", ["--csv", "--latex", mine], "not as both"],
    ["report.mjs", ["none.design"], "none.design"], ["diff.mjs", [mine], "give it two designs"], ["diff.mjs", ["--x", mine, mine], "--x"]])) {
    const answer = tool(name, words, { PROGRAM: process.execPath, input: words.length > 0 ? TWO : "" });
    assert.deepEqual([answer.status, answer.stdout, answer.stderr.split("\n").length], [2, "", 2], `${name} ${words}: ${answer.stderr}`);
    assert.ok(answer.stderr.startsWith(`${name.replace(".mjs", "")}: `) && answer.stderr.includes(wanted), answer.stderr);
  }
  assert.match(tool("report.mjs", [mine], { PROGRAM: "/nowhere" }).stderr, /^report: there is no program/);
});

// ---- With the program ----

const program = env.PROGRAM === undefined ? undefined : resolve(env.PROGRAM);

test("reports of what the program answers", { skip: program === undefined }, () => {
  const room = mkdtempSync(join(tmpdir(), "pictures-"));
  const told = { PROGRAM: program };
  try {
    const given = [["mine_pump", "one_water_alarm"], ["flight_control", "flight_control"], ["every_kind", "two_presses"], ["logged_control", "until_40"]]
      .map(([design, arrivals]) => [join(EXAMPLES, `${design}.design`), join(EXAMPLES, `${arrivals}.arrivals`)]);
    writeFileSync(join(room, "until.arrivals"), "UNTIL 20000;\n");
    for (const seed of [4, 11]) {
      writeFileSync(join(room, `${seed}.design`), randomDesigns[seed][1]);
      given.push([join(room, `${seed}.design`), join(room, "until.arrivals")]);
    }
    for (const words of given) {
      const done = tool("report.mjs", ["--brief", ...words], told);
      assert.deepEqual([done.status, done.stderr], [0, ""], words[0]);
      checkMarkup(done.stdout);
      assert.ok(done.stdout.includes('class="verdict good"') && done.stdout.includes('id="run-1"'), words[0]);
    }
    const late = tool("report.mjs", ["--brief", join(EXAMPLES, "late_control.design")], told);
    assert.equal(late.status, 1);
    for (const words of ['class="verdict bad"', "star_tracker is late by 129 ticks, 12.9 ms", '<section id="changes">']) assert.ok(late.stdout.includes(words), words);
    const near = tool("report.mjs", ["--brief", join(EXAMPLES, "data_handling.design"), join(EXAMPLES, "faults", "q3.arrivals")], told);
    assert.ok(near.status === 1 && near.stdout.includes("refused Q3"));
    const csv = tool("report.mjs", ["--csv", "--brief", join(EXAMPLES, "mine_pump.design")], told);
    assert.match(csv.stdout, /^table,objects,[^]*\ntable,bounds,[^]*\nch4_sensor,6,80,30,0,21,2,23,7,57,26\.25 %\n/);
    const latex = tool("report.mjs", ["--latex", "--brief", join(EXAMPLES, "mine_pump.design")], told);
    assert.match(latex.stdout, /ch4\\_sensor & 6 & 80 & 30 & 0 & 21 & 2 & 23 & 7 & 57 & 26\.25 \\% \\\\/);
  } finally {
    rmSync(room, { recursive: true });
  }
});

test("what changed from one design of the program to another", { skip: program === undefined }, () => {
  const room = mkdtempSync(join(tmpdir(), "pictures-"));
  try {
    const mine = join(EXAMPLES, "mine_pump.design");
    const other = join(room, "other.design");
    writeFileSync(other, read("mine_pump.design").replace("DEADLINE = 30;", "DEADLINE = 20;"));
    const done = tool("diff.mjs", [mine, other], { PROGRAM: program });
    assert.deepEqual([done.status, done.stderr], [1, ""]);
    for (const words of ["| ch4_sensor | DEADLINE | 30 | 20 |", "- other.design: `refused U1 ch4_sensor", "| 7 | -3 | -10 |"]) assert.ok(done.stdout.includes(words), words);
    assert.equal(tool("diff.mjs", [mine, mine], { PROGRAM: program }).status, 0);
    assert.match(tool("diff.mjs", ["--milliseconds", mine, mine], { PROGRAM: program }).stderr, /^diff: the designs have not one TICK/);
  } finally {
    rmSync(room, { recursive: true });
  }
});
