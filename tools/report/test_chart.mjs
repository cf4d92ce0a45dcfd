#!/usr/bin/env node
// Tests of chart.mjs and of the modules that it takes: who runs when, by hand and beside a small machine that tells it, and what is refused.
//
//     PROGRAM=./hrthood tools/report/test_chart.mjs
//
// With PROGRAM, which may be left out, the texts and traces that it writes of examples/ are drawn too.
import assert from "node:assert/strict";
import { spawnSync } from "node:child_process";
import { readFileSync } from "node:fs";
import { dirname, join, resolve } from "node:path";
import { env } from "node:process";
import { describe, test } from "node:test";
import { fileURLToPath } from "node:url";
import { Chart, Heights, LEGEND, marksOf } from "../../web/chart.js";
import { Clock, TICKS, microsecondsOf, roundStep } from "../../web/clock.js";
import { Fault, Run, Trace, listed, readAnalysis, readEvent, readProgram, splitOutput } from "../../web/traces.js";
import { checkMarkup, randomOf, titlesOf } from "./trial.mjs";

const HERE = dirname(fileURLToPath(import.meta.url));
const EXAMPLES = join(HERE, "..", "..", "examples");

/** The parts of an Ada text that count. Tasks are name, priority, bound and deadline, and ceilings unit and ceiling. */
function textOf(tasks, ceilings = [], { assign = 1, call = 2 } = {}) {
  const names = tasks.map(([name]) => name);
  const out = ["-- design d"];
  for (const [name, priority, bound, deadline] of tasks) out.push(`-- thread ${name} priority ${priority} jitter 0 response ${bound} deadline ${deadline}`);
  out.push("package hrt is", `assign_cost : constant := ${assign};`, `call_cost : constant := ${call};`, "end hrt;", "package d is");
  for (const [name, ceiling] of ceilings) {
    const kind = names.includes(name) ? "hrt_obcs" : "hrt_object";
    out.push(`package ${name} is protected ${kind} is pragma priority (${ceiling}); end ${kind}; end ${name};`);
  }
  for (const [name, priority] of tasks) out.push(`package ${name} is task hrt_thread is pragma priority (${priority}); end hrt_thread; end ${name};`);
  return `${[...out, "end d;"].join("\n")}\n`;
}

/** The run of a trace whose lines are divided by ` / `. */
function runOf(ada, trace, start = 0, end = 300) {
  return new Run(new Trace(readProgram(ada), trace.split(" / ")), start, end);
}

/** Who runs, as `chart.mjs --list` tells it. */
const who = (ada, trace, start = 0, end = 300) => listed(runOf(ada, trace, start, end));

describe("who runs", () => {
  test("one task", () => {
    const trace = "0 release a / 4 end a used 4 / 10 release a / 14 end a used 4 / 20 release a / 20 horizon";
    assert.deepEqual(who(textOf([["a", 1, 4, 10]]), trace), ["0 4 a", "10 14 a"]);
  });

  test("a section keeps a release waiting", () => {
    const ada = textOf([["h", 2, 9, 9], ["l", 1, 18, 20]], [["q", 2]]);
    const trace = "0 release l / 2 enter l q.set / 3 release h / 5 leave l q.set / 7 enter h q.set / 10 leave h q.set / "
      + "11 end h used 6 / 12 end l used 6 / 12 horizon";
    assert.deepEqual(who(ada, trace), ["0 2 l", "2 5 l in q", "5 7 h", "7 10 h in q", "10 11 h", "11 12 l"]);
    const waits = runOf(ada, trace).waits().map((one) => [one.start, one.end, one.task, one.runner, one.isBlocked]);
    assert.deepEqual(waits.sort(), [[3, 5, "h", "l", true], [5, 11, "l", "h", false]]);
  });

  test("a request is stored at its ceiling", () => {
    // h is released while l stores its request of s, and k divides that once more
    const trace = "0 release l / 3 release h / 4 release k / 6 request l s 7 / 6 release s 7 / 7 end s used 1 / "
      + "9 end h used 2 / 10 end k used 1 / 11 end l used 7 / 12 horizon";
    const ada = textOf([["s", 4, 9, 9], ["h", 3, 9, 9], ["k", 2, 9, 9], ["l", 1, 20, 20]], [["s", 4]], { assign: 2 });
    assert.deepEqual(who(ada, trace), ["0 2 l", "2 6 l for s", "6 7 s", "7 9 h", "9 10 k", "10 11 l"]);
  });

  test("equal priorities take turns", () => {
    const trace = "0 release a / 0 release b / 1 release c / 4 end a used 4 / 6 end b used 2 / 7 end c used 1 / 8 horizon";
    assert.deepEqual(who(textOf([["a", 1, 9, 9], ["b", 1, 9, 9], ["c", 1, 9, 9]]), trace), ["0 4 a", "4 6 b", "6 7 c"]);
  });

  test("a stop ends the trace", () => {
    const ada = textOf([["h", 2, 9, 9], ["l", 1, 20, 20]], [["q", 1]]);
    const trace = "0 release l / 2 enter l q.set / 3 release h / 5 stop h q priority 2 ceiling 1";
    assert.deepEqual(who(ada, trace), ["0 2 l", "2 3 l in q", "3 5 h"]);
    const run = runOf(ada, trace);
    assert.equal(run.trace.stop.line, "5 stop h q priority 2 ceiling 1");
    assert.deepEqual(run.sections, [{ object: "q", task: "l", from: 2, to: 5 }]);
    assert.ok(titlesOf(new Chart(run, 800).draw().write()).includes("5 stop h q priority 2 ceiling 1"));
  });

  test("a window cuts what runs", () => {
    const trace = "0 release a / 4 end a used 4 / 10 release a / 14 end a used 4 / 20 horizon";
    assert.deepEqual(who(textOf([["a", 1, 4, 10]]), trace, 2, 12), ["2 4 a", "10 12 a"]);
  });

  test("totals are of the whole trace", () => {
    const trace = "0 release a / 4 end a used 4 / 10 release a / 12 end a used 2 / 20 release a / 20 horizon";
    assert.deepEqual(runOf(textOf([["a", 1, 3, 10]]), trace, 0, 5).trace.totals.get("a"), { releases: 3, ends: 2, greatest: 4, overBound: 1 });
  });
});

describe("doubt", () => {
  const ADA = textOf([["k", 4, 9, 9], ["s", 3, 9, 9], ["h", 2, 9, 9], ["l", 1, 20, 20]], [["s", 3]], { assign: 2 });

  test("a request that isn't seen at the horizon", () => {
    assert.deepEqual(who(ADA, "0 release l / 3 release h / 5 horizon"), ["0 3 l", "3 5 h or l"]);
  });

  test("a request would have been told by then", () => {
    assert.deepEqual(who(ADA, "0 release l / 3 release h / 7 horizon"), ["0 3 l", "3 7 h"]);
  });

  test("a call comes before a request", () => {
    assert.deepEqual(who(ADA, "0 release l / 1 release h / 3 horizon"), ["0 1 l", "1 3 h"]);
  });

  test("the doubt outlasts a task above all requests", () => {
    const trace = "0 release l / 3 release k / 4 release h / 6 end k used 3 / 8 horizon";
    assert.deepEqual(who(ADA, trace), ["0 3 l", "3 6 k", "6 8 h or l"]);
  });

  test("each ceiling is a doubt of its own", () => {
    // l may be storing a request of s, at 3, but none of u, at 5: then k could not have told its end.
    const ada = textOf([["u", 5, 9, 9], ["k", 4, 9, 9], ["s", 3, 9, 9], ["h", 2, 9, 9], ["l", 1, 20, 20]], [["s", 3], ["u", 5]], { assign: 2 });
    const trace = "0 release l / 3 release h / 4 release k / 6 end k used 2 / 7 release k / 9 end k used 2 / 9 horizon";
    assert.deepEqual(who(ada, trace), ["0 3 l", "3 4 h or l", "4 6 k", "6 7 h or l", "7 9 k"]);
  });

  test("who tells something later is no rival", () => {
    const trace = "0 release l / 3 release h / 5 end h used 2 / 6 end l used 4 / 6 horizon";
    assert.deepEqual(who(ADA, trace), ["0 3 l", "3 5 h", "5 6 l"]);
  });

  test("no task takes requests", () => {
    const ada = textOf([["h", 2, 9, 9], ["l", 1, 20, 20]], [], { assign: 2 });
    assert.deepEqual(who(ada, "0 release l / 3 release h / 5 horizon"), ["0 3 l", "3 5 h"]);
  });
});

/**
 * A processor with ceiling locking, tick by tick, that tells who runs. Its tasks take random turns of work, puts, sections and requests, one inside the
 * other where ceilings allow it. A step is a number of ticks and what happens behind them: words of a line, or `begin`, the untold beginning of a
 * request.
 */
class Machine {
  constructor(seed) {
    this.random = randomOf(seed);
    const count = 2 + this.random(5);
    this.names = Array.from({ length: count }, (_, index) => `t${index}`);
    this.priority = new Map(this.names.map((name) => [name, 1 + this.random(count)]));
    this.requested = this.names.slice(0, this.random(3));
    this.ceilings = new Map(["q", "r", ...this.requested].map((name) => [name, 1 + this.random(count + 1)]));
    this.ready = [];
    this.lines = [];
    this.ran = [];
    this.inside = new Map();
    this.steps = new Map();
    this.used = new Map();
  }

  text() {
    return textOf([...this.priority].map(([name, priority]) => [name, priority, 99, 99]), [...this.ceilings], { assign: 4, call: 1 });
  }

  oneOf(list) {
    return list[this.random(list.length)];
  }

  /** The steps of some statements of a task inside these objects. */
  body(name, inside) {
    const active = inside.length > 0 ? this.ceilings.get(inside.at(-1)) : this.priority.get(name);
    const locks = ["q", "r"].filter((lock) => !inside.includes(lock) && this.ceilings.get(lock) >= active);
    const targets = this.requested.filter((target) => target !== name && this.ceilings.get(target) >= active);
    const steps = [];
    for (let turn = 1 + this.random(3); turn > 0; turn--) {
      const kind = this.oneOf(["work", "put", "section", "request"]);
      if (kind === "section" && locks.length > 0) {
        const lock = this.oneOf(locks);
        const inner = this.body(name, [...inside, lock]);
        inner.at(-1).events.push(["leave", name, `${lock}.set`]);
        steps.push({ left: 1, events: [["enter", name, `${lock}.set`]] }, ...inner);
      } else if (kind === "request" && targets.length > 0) {
        const target = this.oneOf(targets);
        steps.push({ left: 1, events: [["begin", name, target]] }, { left: 8, events: [["request", name, target]] });
      } else if (kind === "put") steps.push({ left: 1, events: [["put", name, "5"]] });
      else steps.push({ left: 1 + this.random(9), events: [] });
    }
    return steps;
  }

  active(name) {
    const last = this.inside.get(name).at(-1);
    return last === undefined ? this.priority.get(name) : this.ceilings.get(last);
  }

  release(time, name) {
    this.lines.push(`${time} release ${name}`);
    this.ready.push(name);
    this.inside.set(name, []);
    this.used.set(name, 0);
    this.steps.set(name, [...this.body(name, []), { left: 1, events: [["end", name, "used"]] }]);
  }

  do(time, kind, name, what) {
    if (kind !== "begin") this.lines.push(`${time} ${kind} ${name} ${what}${kind === "end" ? ` ${this.used.get(name)}` : ""}`);
    if (kind === "enter" || kind === "begin") this.inside.get(name).push(what.split(".")[0]);
    else if (kind === "leave" || kind === "request") this.inside.get(name).pop();
    if (kind !== "put") this.ready.splice(this.ready.indexOf(name), 1);
    if (kind !== "put" && kind !== "end") this.ready.unshift(name);
    if (kind === "request" && !this.ready.includes(what)) this.release(time, what);
  }

  run(horizon) {
    for (let time = 0; time < horizon; time++) {
      for (const name of this.names) {
        if (!this.requested.includes(name) && !this.ready.includes(name) && this.random(100) < 6) this.release(time, name);
      }
      // The first of those with the greatest active priority.
      const name = this.ready.reduce((best, one) => (best === null || this.active(one) > this.active(best) ? one : best), null);
      this.ran.push(name);
      if (name === null) continue;
      const step = this.steps.get(name)[0];
      step.left -= 1;
      this.used.set(name, this.used.get(name) + 1);
      if (step.left > 0) continue;
      this.steps.get(name).shift();
      for (const event of step.events) this.do(time + 1, ...event);
    }
    this.lines.push(`${horizon} horizon`);
    return this;
  }
}

describe("beside the machine", () => {
  const HORIZON = 150;

  /** Who is found to run in each tick, and who may have run in its place. */
  function ticksOf(trace, start, end) {
    const found = Array.from({ length: end - start }, () => [null]);
    for (const piece of new Run(trace, start, end).parts()) for (let tick = piece.start; tick < piece.end; tick++) found[tick - start] = [piece.task, ...piece.rivals];
    return found;
  }

  test("whole runs and windows of them", () => {
    let doubtful = 0;
    for (let seed = 0; seed < 400; seed++) {
      const machine = new Machine(seed).run(HORIZON);
      const trace = new Trace(readProgram(machine.text()), machine.lines);
      const whole = ticksOf(trace, 0, HORIZON);
      whole.forEach((found, tick) => {
        assert.ok(found.includes(machine.ran[tick]), `seed ${seed}, tick ${tick}: ${machine.ran[tick]} and not ${found}`);
        if (found[0] !== machine.ran[tick]) doubtful++;
      });
      const start = (seed * 7) % 120;
      assert.deepEqual(ticksOf(trace, start, start + 20), whole.slice(start, start + 20), `seed ${seed}`);
    }
    assert.ok(doubtful > 0, "no run has a request that is not told");
  });

  test("windows that are far from the beginning, and the activations in them", () => {
    for (let seed = 0; seed < 40; seed++) {
      const machine = new Machine(seed).run(3000);
      const trace = new Trace(readProgram(machine.text()), machine.lines);
      const whole = new Run(trace, 0, 3000);
      const start = 1000 + seed * 40;
      const part = new Run(trace, start, start + 50);
      const isSeen = (one) => one.release <= start + 50 && one.lastShown() >= start;
      const told = (run) => run.activations.filter(isSeen).map((one) => [one.task.name, one.release, one.end, one.used, one.isArrival]);
      assert.deepEqual(told(part), told(whole), `seed ${seed}`);
      const inside = whole.sections.filter((one) => one.from <= start + 50 && one.to >= start);
      const sorted = (list) => list.map(({ object, task, from, to }) => `${object} ${task} ${from} ${to}`).sort();
      assert.deepEqual(sorted(part.sections), sorted(inside), `seed ${seed}`);
      assert.deepEqual(part.events.map((event) => event.line), machine.lines.filter((line) => {
        const time = Number(line.split(" ")[0]);
        return start <= time && time <= start + 50;
      }));
    }
  });
});

describe("what is refused", () => {
  const ADA = textOf([["a", 2, 4, 10], ["b", 1, 9, 10]], [["q", 2]]);

  function refuse(trace, part, ada = ADA) {
    assert.throws(() => runOf(ada, trace), (fault) => fault instanceof Fault && fault.message.includes(part), trace);
  }

  test("lines that are none", () => {
    for (const line of ["4 finish a", "end a used 4", "4", "", "4 end a", "4 end a used x", "4 enter a q", "4 enter a q.f x", "4 put a", "4 put a -1",
      "4 stop a q", "4 release", "4 horizon now", "4.5 horizon", "4 request a"]) {
      refuse(`0 release a / ${line}`, `line 2 of the trace is none: ${line}`);
    }
  });

  test("events that do not fit", () => {
    refuse("0 release a / 4 end c used 4", "line 2 of the trace: the text has no task c");
    refuse("4 end a used 4", "line 1 of the trace: a is not ready");
    refuse("0 release a / 0 release a", "line 2 of the trace: a is ready already");
    refuse("0 release a / 0 end a used 1", "line 2 of the trace: a can not have run before it");
    refuse("3 release a / 2 horizon", "line 2 of the trace: time falls");
    refuse("0 release a / 2 leave a q.f", "line 2 of the trace: a is not in q");
    refuse("0 release a / 2 enter a p.f", "line 2 of the trace: the text has no ceiling of p");
    refuse("0 release a / 0 release b / 2 put a 1 / 2 put b 1", "line 4 of the trace: b can not have run before it");
  });

  test("who can not have run", () => refuse("0 release a / 0 release b / 4 end b used 4", "b ran from 0 to 4, but a goes first"));

  test("ticks that are told otherwise", () => {
    refuse("0 release a / 4 end a used 3 / 5 horizon", "a, released at 0, used 3 ticks as the trace tells, and 4 as it follows");
  });

  test("texts", () => {
    for (const ada of ["", "package d is", "package hrt is assign_cost : constant := 1; end hrt;", ADA.replace("assign", "other"), "package body"]) {
      assert.throws(() => readProgram(ada), Fault);
    }
  });
});

describe("reading", () => {
  const kinds = readFileSync(join(EXAMPLES, "every_kind.ada"), "utf8");

  test("a text", () => {
    const program = readProgram(`-- thread button priority 3 jitter 3 response 9 deadline 20\n${kinds}`);
    assert.equal(program.design, "kinds");
    assert.deepEqual(Object.fromEntries(program.ceilings), { board: 3, printer: 2, button: 3 });
    assert.deepEqual(Object.fromEntries(program.costs), { assign: 1, test: 1, turn: 1, call: 2, null: 1, put: 1, finish: 1 });
    const told = (name, ...keys) => keys.map((key) => program.tasks.get(name)[key]);
    assert.deepEqual(told("button", "priority", "period", "jitter", "bound", "deadline"), [3, 200, 3, 9, 20]);
    assert.deepEqual(told("printer", "priority", "period", "jitter", "bound"), [2, 100, 0, null]);
    assert.deepEqual(told("sampler", "priority", "period", "offset"), [1, 100, 10]);
    assert.deepEqual(["button", "printer", "sampler"].map((name) => program.tasks.get(name).kind()), ["sporadic, external", "sporadic", "cyclic"]);
  });

  test("layout and capitals do not matter", () => {
    const other = readProgram(kinds.replace(/\s+/g, "\n").toUpperCase());
    assert.deepEqual(other, readProgram(kinds));
  });

  test("lines", () => {
    for (const line of ["0 release a", "3 release s 5", "3 arrive s", "7 request c s 4", "9 enter a q.set 7 8", "10 leave a q.set", "5 put a 25",
      "16 end a used 16", "23 stop button board priority 3 ceiling 2", "30 horizon"]) {
      assert.equal(readEvent(line, 1).line, line);
    }
    const { time, kind, task, object, operation, values } = readEvent("9 enter a q.set 7 8", 1);
    assert.deepEqual([time, kind, task, object, operation, values], [9, "enter", "a", "q", "set", [7, 8]]);
    assert.deepEqual(readEvent("23 stop button board priority 3 ceiling 2", 1).values, [3, 2]);
  });

  test("an analysis", () => {
    const program = readProgram(textOf([["a", 1, 4, 10]]));
    readAnalysis("thread a priority 1 period 10 deadline 9 jitter 1 cost 4 blocking 2 response 6\nceiling q 2\n", program);
    const { period, deadline, jitter, cost, blocking, bound } = program.tasks.get("a");
    assert.deepEqual([period, deadline, jitter, cost, blocking, bound], [10, 9, 1, 4, 2, 6]);
    assert.throws(() => readAnalysis("thread b priority 1 period 10 deadline 9 jitter 1 cost 4 blocking 2 response 6\n", program), Fault);
  });

  test("the output of verify and of replay", () => {
    assert.deepEqual(splitOutput("-- design d\nx\n-- trace\n0 release a\n1 horizon\n"), { ada: "-- design d\nx\n", lines: ["0 release a", "1 horizon"] });
    assert.deepEqual(splitOutput("0 horizon"), { ada: "", lines: ["0 horizon"] });
  });
});

describe("a clock", () => {
  test("ticks and milliseconds", () => {
    assert.deepEqual([TICKS.number(480), TICKS.time(480), TICKS.span(1), TICKS.span(2)], ["480", "480", "1 tick", "2 ticks"]);
    const clock = new Clock(100);
    assert.deepEqual([clock.number(7), clock.time(480), clock.span(1)], ["0.7", "48 ms", "0.1 ms"]);
  });

  test("the TICK of a design", () => {
    assert.equal(microsecondsOf("DESIGN d VERSION 2 IS TICK = 100 us;"), 100);
    assert.equal(microsecondsOf("-- tick = 3 s\ndesign d version 2 is\n tick = 1_000 MS ;"), 1000000);
    for (const design of ["DESIGN d IS COSTS", "DESIGN d IS TICK = 1 ms;", "-- DESIGN d VERSION 2 IS TICK = 100 us;", ""]) {
      assert.equal(microsecondsOf(design), null);
    }
  });

  test("steps of a scale are round numbers as they are told", () => {
    assert.deepEqual([1, 3, 7, 11, 60].map(roundStep), [1, 5, 10, 20, 100]);
    assert.equal(TICKS.step(30), 50);
    assert.equal(new Clock(100).step(30), 50);          // 5 ms
    assert.equal(new Clock(250).step(30), 40);          // 10 ms, as 7.5 ms would be 30
    assert.equal(new Clock(3).step(30), 50);            // no step of 3 microseconds is round
    for (const tick of [1, 2, 5, 8, 40, 125, 625, 1000]) for (const least of [1, 6, 31, 400]) assert.ok(new Clock(tick).step(least) >= least);
  });
});

const SCRIPT = join(HERE, "chart.mjs");

function runChart(input, ...words) {
  return spawnSync(process.execPath, [SCRIPT, ...words], { input, encoding: "latin1", maxBuffer: 1 << 28 });
}

describe("pictures", () => {
  const ADA = textOf([["h", 2, 9, 9], ["l", 1, 10, 20]], [["q", 2]]);
  const TRACE = "0 release l\n2 enter l q.set\n3 release h\n5 leave l q.set\n7 enter h q.set\n9 put h 8\n10 leave h q.set\n"
    + "11 end h used 6\n12 end l used 6\n30 release l\n33 horizon\n";
  const WHOLE = `${ADA}-- trace\n${TRACE}`;

  test("marks of a run", () => {
    const { status, stderr, stdout } = runChart(WHOLE);
    assert.deepEqual([status, stderr], [0, ""]);
    checkMarkup(stdout);
    const found = titlesOf(stdout);
    for (const title of ["0 release l", "3 to 5: h blocked by l", "5 to 11: l waits for h", "7 to 10: h runs inside q at priority 2",
      "2 to 5: l is inside q", "9 put h 8", "11 end h used 6, response 8, bound 9", "12 end l used 6, response 12, bound 10",
      "h released at 3, deadline 12", "l released at 0, bound 10", "horizon"]) {
      assert.ok(found.includes(title), title);
    }
    assert.match(stdout, /class="right bad">1</);
    assert.match(stdout, /Whole trace: 11 lines, up to tick 33/);
    assert.match(stdout, /aria-label="Run of d"/);
  });

  test("milliseconds by the TICK of a design", () => {
    const { status, stdout } = runChart(WHOLE, "--milliseconds", join(EXAMPLES, "flight_control.design"));
    const tick = microsecondsOf(readFileSync(join(EXAMPLES, "flight_control.design"), "utf8"));
    assert.equal(status, 0);
    const at = (ticks) => (ticks * tick) / 1000;
    const found = titlesOf(stdout);
    for (const title of [`${at(3)} to ${at(5)} ms: h blocked by l`, `h released at ${at(3)} ms, deadline ${at(12)} ms`,
      `${at(11)} ms end h used ${at(6)} ms, response ${at(8)} ms, bound ${at(9)} ms`, `${at(9)} ms put h 8`]) {
      assert.ok(found.includes(title), `${title}: ${found}`);
    }
    assert.match(stdout, />ms 0 to /);
    assert.match(stdout, /times in ms</);
  });

  test("the text stands beside a replay", () => {
    const text = ["--text", join(EXAMPLES, "units_of_every_kind.ada")];
    const trace = "0 release c\n7 request c s 1\n7 release s 1\n9 enter s q.set 1\n10 leave s q.set\n15 end s used 8\n16 end c used 8\n20 horizon\n";
    const { status, stderr, stdout } = runChart(trace, ...text);
    assert.deepEqual([status, stderr], [0, ""]);
    assert.ok(titlesOf(stdout).includes("5 to 7: c runs storing a request of s at priority 2"));
    assert.equal(runChart(trace, ...text, "--list").stdout, "0 5 c\n5 7 c for s\n7 9 s\n9 10 s in q\n10 15 s\n15 16 c\n");
  });

  test("panels", () => {
    assert.equal(runChart(WHOLE, "--to", "33", "--fold", "11").stdout.split('class="name">h<').length, 4);
  });

  test("a title is no mark", () => {
    const { stdout } = runChart(WHOLE, "--title", 'a < b & "c"');
    checkMarkup(stdout);
    assert.match(stdout, /class="title">a &lt; b &amp; &quot;c&quot;</);
  });

  test("costs and blocking of an analysis", () => {
    const answer = runChart(WHOLE, "--analysis", join(EXAMPLES, "mine_pump.design"));
    assert.equal(answer.status, 0);       // no line of it tells a thread
    assert.doesNotMatch(answer.stdout, />blocking</);
  });

  test("each mark is told below, and doubt where there is some", () => {
    const { stdout } = runChart(WHOLE);
    for (const [, words] of LEGEND) assert.ok(stdout.includes(`>${words}<`), words);
    for (const [kind] of LEGEND) assert.ok(marksOf(kind).length > 0, kind);
    assert.doesNotMatch(stdout, />in doubt/);
    const doubtful = textOf([["s", 3, 9, 9], ["h", 2, 9, 9], ["l", 1, 20, 20]], [["s", 3]], { assign: 2 });
    assert.match(runChart(`${doubtful}-- trace\n0 release l\n3 release h\n5 horizon\n`).stdout, />in doubt, see its title</);
  });

  test("the greatest responses of a far window", () => {
    const trace = new Trace(readProgram(ADA), TRACE.trimEnd().split("\n"));
    const picture = new Heights(trace, 0, 33, 600).draw().write();
    checkMarkup(picture);
    assert.ok(titlesOf(picture).includes("l: greatest response 12 of at most 10"));
  });

  test("a chart of more lanes than a page has is drawn in parts, each lane in one of them, and all below the same times", () => {
    const tasks = Array.from({ length: 30 }, (_, index) => [`task_${index}`, 30 - index, 90, 100]);
    const trace = [...tasks.map(([name]) => `0 release ${name}`), ...tasks.map(([name], index) => `${index + 1} end ${name} used 1`), "40 horizon"].join(" / ");
    const chart = new Chart(runOf(textOf(tasks), trace, 0, 40), 1000);
    const pages = chart.drawPages(700);
    const told = pages.map((page) => page.write());
    told.forEach((page) => checkMarkup(page));
    assert.deepEqual(told.flatMap((page) => [...page.matchAll(/class="name">(task_\d+)</g)].map(([, name]) => name)), tasks.map(([name]) => name));
    assert.ok(pages.length === 3 && pages.every((page) => Number(page.get("height")) <= 700), `${pages.map((page) => page.get("height"))}`);
    const timesOf = (page) => [...page.matchAll(/y="17" class="small middle">(\d+)</g)].map(([, time]) => time);
    assert.ok(timesOf(told[0]).length > 3);
    for (const page of told) assert.deepEqual(timesOf(page), timesOf(told[0]));
    const whole = new Chart(runOf(textOf(tasks), trace, 0, 40), 1000);
    assert.deepEqual(whole.drawPages(5000).map((page) => page.write()), [new Chart(runOf(textOf(tasks), trace, 0, 40), 1000).draw().write()]);
  });

  test("one line says what is wrong", () => {
    const trace = "0 horizon\n";
    for (const [data, words, wanted] of [
      ["", [], "there is no trace"], [ADA, [], "there is no trace"], ["hello\n", [], "there is no trace"],
      [trace, [], "give it by --text"], [`${ADA}-- trace\n`, [], "the trace is empty"],
      [trace, ["--text", "nowhere.ada"], "nowhere.ada"], [`${ADA}-- trace\n${trace}`, ["--from", "5", "--to", "5"], "no tick"],
      [`${ADA}-- trace\n5 horizon\n`, ["--from", "5"], "the trace ends at tick 5, before the window"],
      [`${ADA}-- trace\n${trace}`, ["--width", "100"], "at least 360"], ["\u00e9\n", [], "there is no trace"],
      [`${ADA}-- trace\n${trace}`, ["--fold", "0"], "at least 1"], [`${ADA}-- trace\n${trace}`, ["--from", "x"], "--from is a number"],
      [`${ADA}-- trace\n${trace}`, ["--colour", "red"], "--colour"], [`${ADA}-- trace\n${trace}`, ["a", "b"], "one trace"],
      [`${ADA}-- trace\n${trace}`, ["--milliseconds", join(EXAMPLES, "mine_pump.design")], "has no TICK"],
      ["refused U1 a value 12 limit 10 round 1\n", [], "there is no trace"], [`${ADA}-- trace\n0 release a`, [], "no task a"]]) {
      const answer = runChart(data, ...words);
      assert.deepEqual([answer.status, answer.stdout], [2, ""], String(data));
      assert.equal(answer.stderr.split("\n").length, 2, answer.stderr);
      assert.ok(answer.stderr.startsWith("chart: ") && answer.stderr.includes(wanted), answer.stderr);
    }
  });
});

const PAIRS = [["mine_pump.design", "one_water_alarm.arrivals"], ["one_cyclic_object.design", "until_20.arrivals"],
  ["every_kind.design", "two_presses.arrivals"], ["units_of_every_kind.design", "until_150.arrivals"], ["tank.design", "until_150.arrivals"],
  ["flight_control.design", "flight_control.arrivals"], ["data_handling.design", "data_handling.arrivals"],
  ["one_cyclic_task.ada", "until_150.arrivals"], ["passive_operation.ada", "until_150.arrivals"], ["low_ceiling.ada", "two_presses.arrivals"],
  ["sequential_task.ada", "until_150.arrivals"], ["requested_task.ada", "two_requests.arrivals"],
  ["units_of_every_kind.ada", "until_150.arrivals"], ["every_kind.ada", "two_presses.arrivals"]];

describe("of the program", { skip: env.PROGRAM === undefined ? "PROGRAM names no program" : false }, () => {
  function write(...words) {
    const { status, stdout } = spawnSync(resolve(env.PROGRAM), words, { encoding: "utf8", maxBuffer: 1 << 28 });
    assert.ok(status === 0 || status === 1 && words[0] === "replay", words.join(" "));
    return stdout;
  }

  for (const [source, arrivals] of PAIRS) {
    test(source, () => {
      const path = join(EXAMPLES, source);
      const isDesign = source.endsWith(".design");
      const output = write(isDesign ? "verify" : "replay", path, join(EXAMPLES, arrivals));
      const words = isDesign ? [] : ["--text", path];
      const answer = runChart(output, ...words);
      assert.deepEqual([answer.status, answer.stderr], [0, ""]);
      checkMarkup(answer.stdout);
      const { lines } = splitOutput(output);
      const found = new Set(titlesOf(answer.stdout));
      const end = Math.min(300, Number(lines.at(-1).split(" ")[0]));
      for (const line of lines) {
        const [time, kind] = line.split(" ");
        if (Number(time) > end || !["release", "request", "put", "horizon"].includes(kind)) continue;
        assert.ok(found.has(kind === "horizon" ? kind : line), line);
      }
      // The ticks that ends tell, and those of tasks that are still ready, are all that is found to run.
      const last = Number(lines.at(-1).split(" ")[0]) + 1;
      const whole = runChart(output, ...words, "--to", String(last), "--list").stdout.trimEnd().split("\n").map((line) => line.split(" ").map(Number));
      const used = lines.filter((line) => line.includes(" end ")).reduce((sum, line) => sum + Number(line.split(" ").at(-1)), 0);
      assert.ok(whole.reduce((sum, [from, to]) => sum + to - from, 0) >= used);
    });
  }
});
