// What an Ada text and a trace of it say, and who runs when. Times are ticks. A trace tells events, and who runs follows from them, from the
// priorities and from the ceilings:
//
// - Between two instants with events the processor does not change hands. What dispatching looks at changes by releases, ends, leaves and requests,
//   which are events, and by enters and beginnings of requests, which only raise the task that runs.
// - At an instant only the task that ran up to it tells events of its own (`OWN`). Where there is one, it tells who ran.
// - Where there is none, the ready task of the greatest active priority ran: its base priority, or the ceiling of the object it is inside. One thing
//   is not told. A request is stored at the ceiling of the task that it requests, for two assignments, and the trace tells their end alone. So these
//   stretches are gone through from the last to the first: then what each task does next is known.
//
// There is one gap. A task that tells nothing more before the trace ends may be storing a request. If another task was released meanwhile, fewer than
// two assignments of ticks are in doubt, and `Stretch.rivals` names who else may have run then. All this is an argument on paper that was tried, and
// nothing of it is proved.
//
// A trace is kept whole, with the instants at which nothing is ready, so that a window is read from the last of them before it, and no further than
// it needs: a task may be storing a request unseen, only if it has run since it last told something. So where no ready task may have, what comes after
// says nothing of what came before.

const OWN = new Set(["enter", "leave", "put", "request", "end", "stop"]);

/** What is wrong with an input, in one line. */
export class Fault extends Error {}

// ---- What the Ada text says ----

/** A task; what its text does not tell is null. */
class Task {
  constructor(name) {
    this.name = name;
    this.priority = this.period = this.offset = this.deadline = this.bound = this.jitter = this.cost = this.blocking = null;
    this.limit = "bound"; // what `bound` is: in a simulation, the deadline
    this.isCyclic = true;
    this.isExternal = false;
  }

  kind() {
    return this.isCyclic ? "cyclic" : this.isExternal ? "sporadic, external" : "sporadic";
  }
}

/** Takes from the tokens of an Ada text its tasks, ceilings and costs. The text is one that the program writes. */
export class ProgramReader {
  constructor(text) {
    this.program = { design: null, tasks: new Map(), ceilings: new Map(), costs: new Map() };
    this.tokens = text.toLowerCase().replace(/--[^\n]*/g, "").match(/[a-z][a-z0-9_]*|[0-9][0-9_]*|:=|\.\.|[^\sa-z0-9]/g) ?? [];
    this.packages = []; // those that are open
    this.part = null; // the declaration that is open: `protected` or `task`
  }

  read() {
    const steps = new Map([["package", this.openPackage], ["end", this.closePackage], ["protected", this.openPart], ["task", this.openPart],
      ["pragma", this.takePriority], ["after", this.takeTime], ["constant", this.takeConstant]]);
    this.tokens.forEach((token, place) => steps.get(token)?.call(this, place));
    return this.program;
  }

  task(name) {
    const { tasks } = this.program;
    if (!tasks.has(name)) tasks.set(name, new Task(name));
    return tasks.get(name);
  }

  number(place) {
    const number = Number(this.tokens[place]?.replaceAll("_", ""));
    if (!Number.isInteger(number)) throw new Fault("the Ada text is none that the program writes");
    return number;
  }

  isAt(place, ...tokens) {
    return tokens.every((token, index) => this.tokens[place + index] === token);
  }

  openPackage(place) {
    const name = this.tokens[this.isAt(place + 1, "body") ? place + 2 : place + 1];
    if (this.packages.length === 0 && name !== "hrt") this.program.design = name;
    this.packages.push(name);
  }

  closePackage(place) {
    if (this.packages.length > 0 && this.isAt(place + 1, this.packages.at(-1))) this.packages.pop();
  }

  openPart(place) {
    if (!this.isAt(place + 1, "body")) this.part = this.tokens[place];
  }

  takePriority(place) {
    if (!this.isAt(place + 1, "priority") || this.part === null) return;
    const unit = this.packages.at(-1);
    if (this.part === "task") this.task(unit).priority = this.number(place + 3);
    else this.program.ceilings.set(unit, this.number(place + 3));
    this.part = null;
  }

  /** The offset of a cyclic task, or its period. */
  takeTime(place) {
    const task = this.program.tasks.get(this.packages.at(-1));
    if (task === undefined || !this.isAt(place - 2, "hrt", ".")) return;
    if (this.isAt(place + 1, "(", "hrt", ".", "epoch", ",")) task.offset = this.number(place + 6);
    else if (this.isAt(place + 1, "(", "hrt_next", ",")) task.period = this.number(place + 4);
  }

  takeConstant(place) {
    const name = this.tokens[place - 2] ?? "";
    const unit = this.packages.at(-1);
    if (unit === "hrt" && name.endsWith("_cost")) this.program.costs.set(name.slice(0, -5), this.number(place + 2));
    else if (name === "hrt_separation") [this.task(unit).isCyclic, this.task(unit).period] = [false, this.number(place + 2)];
    else if (name === "hrt_jitter") this.task(unit).jitter = this.number(place + 2);
    else if (name === "hrt_external") this.task(unit).isExternal = this.isAt(place + 1, "boolean", ":=", "true");
  }
}

/** Reads an Ada text, and the bounds in comments at its head. */
export function readProgram(text) {
  const program = new ProgramReader(text).read();
  const tasks = [...program.tasks.values()];
  if (tasks.length === 0 || tasks.some((task) => task.priority === null) || !program.costs.has("assign")) {
    throw new Fault("the Ada text tells no tasks with priorities, or no costs");
  }
  for (const line of text.split("\n")) {
    if (!line.startsWith("--")) break;
    const words = line.split(/\s+/);
    const task = words[1] === "thread" && words.length === 11 ? program.tasks.get(words[2]) : undefined;
    if (task !== undefined) [task.jitter, task.bound, task.deadline] = [words[6], words[8], words[10]].map(Number);
  }
  return program;
}

/** Adds to a program what `analyse` tells of its tasks. */
export function readAnalysis(text, program) {
  for (const line of text.split("\n")) {
    const words = line.split(" ");
    if (words[0] !== "thread") continue;
    const task = words.length === 16 ? program.tasks.get(words[1]) : undefined;
    if (task === undefined) throw new Fault(`the analysis is not of this text: ${line}`);
    [task.period, task.deadline, task.jitter, task.cost, task.blocking, task.bound] = [5, 7, 9, 11, 13, 15].map((place) => Number(words[place]));
  }
}

// ---- The lines of a trace ----

/** The number that a word is; or null. */
function numberIn(word) {
  return word !== undefined && /^[0-9]+$/.test(word) ? Number(word) : null;
}

/** What the words of a line behind its time tell beside kind and task: an object, an operation, and words that are numbers; or null. */
function partsOfLine(words) {
  const [, kind, , fourth] = words;
  const count = words.length;
  const none = { object: null, operation: null };
  if ((kind === "enter" || kind === "leave") && count >= 4) {
    const [object, operation, ...more] = fourth.split(".");
    return operation === undefined || more.length > 0 ? null : { object, operation, numbers: words.slice(4) };
  }
  if (kind === "end" && count === 5 && fourth === "used") return { ...none, numbers: [words[4]] };
  if (((kind === "release" || kind === "arrive") && (count === 3 || count === 4)) || (kind === "put" && count === 4)) {
    return { ...none, numbers: words.slice(3) };
  }
  if (kind === "request" && (count === 4 || count === 5)) return { object: fourth, operation: null, numbers: words.slice(4) };
  if (kind === "horizon" && count === 2) return { ...none, numbers: [] };
  if (kind === "stop" && count === 8 && words[4] === "priority" && words[6] === "ceiling") {
    return { object: fourth, operation: null, numbers: [words[5], words[7]] };
  }
  return null;
}

/** The event of a line: who did what. `object` is what is entered, left, requested or stopped at. `place` is the number of the line. */
export function readEvent(line, place) {
  const words = line.split(" ");
  const time = numberIn(words[0]);
  const parts = partsOfLine(words);
  const values = parts?.numbers.map(numberIn);
  if (time === null || parts === null || values.includes(null)) throw new Fault(`line ${place} of the trace is none: ${line}`);
  return { time, kind: words[1], task: words[2] ?? null, object: parts.object, operation: parts.operation, values, line };
}

/** The Ada text, empty in the output of `replay`, and the lines of the trace, of what `verify` or `replay` writes. */
export function splitOutput(text) {
  const cut = text.indexOf("\n-- trace\n");
  if (cut < 0 && !/^[0-9]+ [a-z]/.test(text)) throw new Fault("there is no trace, neither behind the line `-- trace` nor alone");
  const lines = text.slice(cut < 0 ? 0 : cut + "\n-- trace\n".length).split("\n");
  if (lines.at(-1) === "") lines.pop();
  if (lines.length === 0) throw new Fault("the trace is empty");
  return { ada: cut < 0 ? "" : text.slice(0, cut + 1), lines };
}

// ---- What the events up to an instant tell ----

/** A task from a release to its end, as far as events tell. `spent` counts the ticks in which it is found to run. */
class Activation {
  constructor(task, event, isArrival, order) {
    this.task = task;
    this.release = event.time;
    this.value = event.values.length > 0 ? event.values[0] : null;
    this.isArrival = isArrival;
    this.end = this.used = null;
    this.spent = 0;
    this.inside = []; // pairs of an object and the time of its enter, the innermost last
    this.rank = [task.priority, 0, -order];
  }

  response() {
    return this.end - this.release;
  }

  /** The last tick at which something of it may be drawn. */
  lastShown() {
    return this.end === null ? Infinity : Math.max(this.end, this.release + Math.max(this.task.deadline ?? 0, this.task.bound ?? 0));
  }
}

/** Takes the events one by one. */
class Follower {
  constructor(program) {
    this.program = program;
    this.ready = new Map(); // name to Activation
    this.sections = []; // those that were left: object, task, from, to
    this.first = this.last = 0;
    this.arrived = { time: null, task: null };
  }

  take(event, place) {
    const { kind, task, object } = event;
    if (kind === "horizon") return;
    if (!this.program.tasks.has(task)) throw new Fault(`line ${place} of the trace: the text has no task ${task}`);
    if (object !== null && !this.program.ceilings.has(object)) throw new Fault(`line ${place} of the trace: the text has no ceiling of ${object}`);
    if (OWN.has(kind) && !this.ready.has(task)) throw new Fault(`line ${place} of the trace: ${task} is not ready`);
    if (kind === "release") this.release(event, place);
    else if (kind === "arrive") this.arrived = event;
    else if (kind === "enter") this.enter(event);
    else if (kind === "leave") this.leave(event, place);
    else if (kind === "request") this.goFirst(task);
    else if (kind === "end") this.finish(event);
  }

  release(event, place) {
    if (this.ready.has(event.task)) throw new Fault(`line ${place} of the trace: ${event.task} is ready already`);
    this.last += 1;
    const isArrival = this.arrived.time === event.time && this.arrived.task === event.task;
    this.ready.set(event.task, new Activation(this.program.tasks.get(event.task), event, isArrival, this.last));
  }

  enter({ task, object, time }) {
    this.ready.get(task).inside.push([object, time]);
    this.goFirst(task);
  }

  leave({ task, object, time }, place) {
    const { inside } = this.ready.get(task);
    if (inside.at(-1)?.[0] !== object) throw new Fault(`line ${place} of the trace: ${task} is not in ${object}`);
    this.sections.push({ object, task, from: inside.pop()[1], to: time });
    this.goFirst(task);
  }

  finish({ task, time, values }) {
    const activation = this.ready.get(task);
    this.ready.delete(task);
    [activation.end, activation.used] = [time, values[0]];
  }

  /** Behind a change of its priority a task goes before the others that have it. */
  goFirst(name) {
    const { inside, task, rank } = this.ready.get(name);
    this.first -= 1;
    const active = inside.length > 0 ? this.program.ceilings.get(inside.at(-1)[0]) : task.priority;
    [rank[0], rank[2]] = [active, -this.first];
  }
}

/** The lines of a trace, read once: the events, what is counted of each task, and where a window may begin. */
export class Trace {
  constructor(program, lines) {
    this.program = program;
    this.events = lines.map((line, index) => readEvent(line, index + 1));
    this.last = this.events.at(-1)?.time ?? 0;
    this.stop = this.horizon = null;
    this.totals = new Map([...program.tasks.keys()].map((name) => [name, { releases: 0, ends: 0, overBound: 0, greatest: null }]));
    this.activations = [];
    this.idle = [0]; // places of events before which nothing is ready, each the first of its instant
    this.span = Math.max(0, ...[...program.tasks.values()].map((task) => Math.max(task.deadline ?? 0, task.bound ?? 0)));
    this.follow();
  }

  follow() {
    const follower = new Follower(this.program);
    let time = 0;
    this.events.forEach((event, index) => {
      if (event.time < time) throw new Fault(`line ${index + 1} of the trace: time falls`);
      if (event.time > time && follower.ready.size === 0) this.idle.push(index);
      time = event.time;
      const ending = event.kind === "end" ? follower.ready.get(event.task) : undefined;
      follower.take(event, index + 1);
      if (ending !== undefined) this.countEnd(ending);
      else if (event.kind === "release") this.countRelease(follower.ready.get(event.task));
      else if (event.kind === "stop") this.stop = event;
      else if (event.kind === "horizon") this.horizon = event.time;
      // A window reads its sections by itself.
      follower.sections.length = 0;
    });
  }

  countRelease(activation) {
    this.totals.get(activation.task.name).releases += 1;
    this.activations.push(activation);
  }

  countEnd(activation) {
    const total = this.totals.get(activation.task.name);
    const response = activation.response();
    total.ends += 1;
    total.greatest = Math.max(total.greatest ?? response, response);
    if (activation.task.bound !== null && response > activation.task.bound) total.overBound += 1;
  }

  /** The place of the last event from which all can be read that stands in a window with this start. */
  placeBefore(start) {
    let [low, high] = [0, this.idle.length];
    while (high - low > 1) {
      const middle = (low + high) >> 1;
      if (this.events[this.idle[middle]].time <= start - this.span) low = middle;
      else high = middle;
    }
    return this.idle[low];
  }

  /** How many events stand from one tick to another. */
  countBetween(from, to) {
    return this.placeOf(to + 1) - this.placeOf(from);
  }

  /** The place of the first event that is not before this tick. */
  placeOf(time) {
    let [low, high] = [0, this.events.length];
    while (low < high) {
      const middle = (low + high) >> 1;
      if (this.events[middle].time < time) low = middle + 1;
      else high = middle;
    }
    return low;
  }
}

// ---- Who runs ----

function isAbove(one, other) {
  return one[0] !== other[0] ? one[0] > other[0] : one[1] !== other[1] ? one[1] > other[1] : one[2] > other[2];
}

/** The first of the names whose rank is the greatest. */
function firstOf(names, rankOf) {
  let found = null;
  for (const name of names) if (found === null || isAbove(rankOf(name), rankOf(found))) found = name;
  return found;
}

/**
 * The time from one instant with events to the next. `ready` has each ready task's Activation, its rank as events tell, and the object it is
 * inside. `told` is the first event of the runner's own at its end. `request` is the beginning of the runner's request and of whom, where it is
 * storing one. `rivals` are those who may have run in the place of the runner.
 */
class Stretch {
  constructor(start, end, ready) {
    this.start = start;
    this.end = end;
    this.ready = new Map();
    for (const [name, activation] of ready) {
      this.ready.set(name, { activation, rank: [...activation.rank], object: activation.inside.at(-1)?.[0] ?? null });
    }
    this.runner = this.told = this.request = null;
    this.rivals = [];
  }

  length() {
    return this.end - this.start;
  }

  firstByEvents() {
    return firstOf(this.ready.keys(), (name) => this.ready.get(name).rank);
  }
}

/** Reads the events of a trace from a place on, and keeps the stretches that are needed to know who runs in a window. */
class Reader {
  constructor(trace, start, end) {
    this.trace = trace;
    this.start = start;
    this.end = end;
    this.follower = new Follower(trace.program);
    this.stretches = [];
    this.events = [];
    this.activations = [];
    this.isClosed = false; // whether what is to come says nothing of the window
    this.unsettled = new Set(); // tasks that may have run since they last told something
  }

  read() {
    const { events } = this.trace;
    let place = this.trace.placeBefore(this.start);
    this.time = place === 0 ? 0 : events[place].time;
    for (; place < events.length && !this.isRead(events[place].time); place++) {
      const event = events[place];
      if (event.time !== this.time) this.goTo(event.time);
      this.follower.take(event, place + 1);
      this.note(event, place + 1);
    }
    this.settle();
    return this;
  }

  /** Whether nothing from this time on stands in the window. */
  isRead(time) {
    return this.isClosed && time > this.end && [...this.follower.ready.values()].every((one) => one.release > this.end);
  }

  /** From the instant whose events were taken to the next one. */
  goTo(time) {
    this.settle();
    if (!this.isClosed) this.stretches.push(new Stretch(this.time, time, this.follower.ready));
    this.time = time;
  }

  /** Looks at the last stretch, all of whose events are known. */
  settle() {
    if (this.isClosed) return;
    const last = this.stretches.at(-1);
    if (last !== undefined && last.ready.size > 0) {
      if (last.told === null) this.unsettled.add(last.firstByEvents());
      else this.unsettled.delete(last.told.task);
    }
    if (this.unsettled.size === 0) {
      if (this.time <= this.start) this.stretches.length = 0;
      this.isClosed = this.time >= this.end;
    }
  }

  note(event, place) {
    if (OWN.has(event.kind) && !this.isClosed) this.noteOwn(event, place);
    if (event.kind === "release" && (event.time <= this.end || !this.isClosed)) this.activations.push(this.follower.ready.get(event.task));
    if (this.start <= event.time && event.time <= this.end) this.events.push(event);
  }

  noteOwn(event, place) {
    const last = this.stretches.at(-1);
    if (last === undefined || !last.ready.has(event.task) || (last.told !== null && last.told.task !== event.task)) {
      throw new Fault(`line ${place} of the trace: ${event.task} can not have run before it`);
    }
    if (last.told === null) [last.told, last.runner] = [event, event.task];
  }

  isSeen(from, to) {
    return from <= this.end && to >= this.start;
  }
}

/** Finds who ran, from the last stretch to the first. */
class Dispatching {
  constructor(program, stretches, isEnd) {
    this.program = program;
    this.stretches = stretches;
    this.section = 2 * program.costs.get("assign"); // ticks for which a request is stored
    this.coming = new Map(); // name to its next own event
    this.left = new Map(); // name to its own ticks up to that event
    // Behind the end of a trace a task may be going to tell a request, of a ceiling that is not known: its own ticks before the end.
    this.unseen = new Set();
    const ceilings = new Set([...program.tasks.keys()].filter((name) => program.ceilings.has(name)).map((name) => program.ceilings.get(name)));
    if (isEnd) for (const name of program.tasks.keys()) for (const ceiling of ceilings) this.unseen.add({ name, ceiling, ticks: 0 });
  }

  find() {
    for (const stretch of [...this.stretches].reverse()) {
      if (stretch.told !== null) {
        const { task } = stretch.told;
        this.coming.set(task, stretch.told);
        this.left.set(task, 0);
        for (const one of [...this.unseen]) if (one.name === task) this.unseen.delete(one);
      }
      if (stretch.ready.size === 0) continue;
      this.findRunner(stretch);
      this.findRivals(stretch);
      this.count(stretch);
    }
    this.keepPossibleRivals();
  }

  /** The rank of a task at the start of a stretch, if it has so many ticks more to run up to its next own event. */
  rank(stretch, name, more) {
    const event = this.coming.get(name);
    if (event?.kind === "request" && this.left.get(name) + more <= this.section) return [this.program.ceilings.get(event.object), 1, 0];
    return stretch.ready.get(name).rank;
  }

  findRunner(stretch) {
    const names = [...stretch.ready.keys()];
    const waiting = new Map(names.map((name) => [name, this.rank(stretch, name, 0)]));
    const length = stretch.length();
    const fitting = names.filter((name) => {
      const rank = this.rank(stretch, name, length);
      return names.every((other) => other === name || isAbove(rank, waiting.get(other)));
    });
    const { start, end } = stretch;
    if (stretch.told === null) {
      if (fitting.length !== 1) throw new Fault(`who ran from ${start} to ${end} does not follow: the trace is none of this text`);
      stretch.runner = fitting[0];
    } else if (!fitting.includes(stretch.runner)) {
      const first = firstOf(names, (name) => waiting.get(name));
      throw new Fault(`${stretch.runner} ran from ${start} to ${end}, but ${first} goes first: the trace is none of this text`);
    }
  }

  /** Tasks that tell nothing more: may they be storing a request, at a ceiling that the runner's priority does not exceed? */
  findRivals(stretch) {
    const active = this.rank(stretch, stretch.runner, stretch.length())[0];
    for (const one of [...this.unseen]) {
      const isRunner = one.name === stretch.runner;
      // It is not ready, or it waits whether it is storing such a request or not.
      if (!stretch.ready.has(one.name) || (!isRunner && active > one.ceiling)) continue;
      one.ticks += stretch.length();
      if (one.ticks >= this.section || (!isRunner && stretch.told !== null)) this.unseen.delete(one);
      else if (!isRunner && !stretch.rivals.includes(one.name) && one.ceiling >= stretch.ready.get(one.name).rank[0]) stretch.rivals.push(one.name);
    }
  }

  count(stretch) {
    const [name, length] = [stretch.runner, stretch.length()];
    const event = this.coming.get(name);
    if (event !== undefined) {
      const rest = this.section - this.left.get(name);
      if (event.kind === "request" && rest > 0) stretch.request = [Math.max(stretch.start, stretch.end - rest), event.object];
      this.left.set(name, this.left.get(name) + length);
    }
    stretch.ready.get(name).activation.spent += length;
  }

  /** A call comes before a request is stored. So a rival has run for that long since it last told something. */
  keepPossibleRivals() {
    const ran = new Map(); // Activation to such ticks
    const ticksOf = (activation) => ran.get(activation) ?? 0;
    for (const stretch of this.stretches) {
      stretch.rivals = stretch.rivals.filter((name) => ticksOf(stretch.ready.get(name).activation) >= this.program.costs.get("call"));
      if (stretch.ready.size === 0) continue;
      for (const name of [stretch.runner, ...stretch.rivals]) {
        const { activation } = stretch.ready.get(name);
        ran.set(activation, stretch.told !== null ? 0 : ticksOf(activation) + stretch.length());
      }
    }
  }
}

/** What a trace tells of the window from `start` to `end`, and who runs in it. */
export class Run {
  constructor(trace, start, end) {
    const reader = new Reader(trace, start, end).read();
    const isSeen = (from, to) => reader.isSeen(from, to);
    this.trace = trace;
    this.program = trace.program;
    this.start = start;
    this.end = Math.min(end, Math.max(trace.last, start + 1));
    this.stretches = reader.stretches;
    this.events = reader.events;
    const open = [...reader.follower.ready].flatMap(([task, one]) => one.inside.map(([object, from]) => ({ object, task, from, to: trace.last })));
    this.sections = [...reader.follower.sections, ...open].filter(({ from, to }) => isSeen(from, to));
    new Dispatching(this.program, this.stretches, !reader.isClosed).find();
    this.checkUsed(reader.activations);
    this.activations = reader.activations.filter((one) => one.release <= this.end && isSeen(one.release, one.lastShown()));
  }

  /** What each end tells is a check on all that was found. */
  checkUsed(activations) {
    if (this.stretches.length === 0) return;
    const [first, last] = [this.stretches[0].start, this.stretches.at(-1).end];
    for (const { task, release, end, used, spent } of activations) {
      if (end !== null && first <= release && end <= last && spent !== used) {
        const told = `${task.name}, released at ${release}, used ${used} ticks as the trace tells, and ${spent} as it follows`;
        throw new Fault(`${told}: the trace is none of this text`);
      }
    }
  }

  /** The pieces in the window, from the first to the last, each as long as it goes on: others' releases alone divide them. */
  parts() {
    const whole = [];
    for (const piece of this.shortPieces()) {
      const last = whole.at(-1);
      const goesOn = last !== undefined && last.end === piece.start && last.activation === piece.activation && last.object === piece.object
        && last.isRequest === piece.isRequest && last.rivals.join() === piece.rivals.join();
      if (goesOn) last.end = piece.end;
      else whole.push(piece);
    }
    return whole;
  }

  *shortPieces() {
    for (const stretch of this.stretches) {
      const [start, end] = [Math.max(stretch.start, this.start), Math.min(stretch.end, this.end)];
      if (stretch.runner === null || start >= end) continue;
      const cut = stretch.request === null ? end : Math.min(end, Math.max(start, stretch.request[0]));
      const { activation, object } = stretch.ready.get(stretch.runner);
      const made = (from, to, inside, isRequest) =>
        ({ start: from, end: to, task: stretch.runner, object: inside, isRequest, rivals: stretch.rivals, activation });
      if (start < cut) yield made(start, cut, object, false);
      if (cut < end) yield made(cut, end, stretch.request[1], true);
    }
  }

  /** Who waits for whom, each as long as it goes on. It is blocked where the other one has a lower priority. */
  waits() {
    const done = [];
    const open = new Map();
    const { tasks } = this.program;
    for (const { start, end, ready, runner } of this.stretches) {
      for (const [name, wait] of [...open]) {
        if (ready.has(name) && wait.end === start && wait.runner === runner) continue;
        done.push(wait);
        open.delete(name);
      }
      for (const name of ready.keys()) {
        if (open.has(name)) open.get(name).end = end;
        else if (name !== runner) {
          const isBlocked = tasks.get(name).priority > tasks.get(runner).priority;
          open.set(name, { start, end, task: name, runner, isBlocked });
        }
      }
    }
    return [...done, ...open.values()];
  }
}

/** Who runs when, as lines `FROM TO TASK`, with `in OBJECT` inside one, `for OBJECT` while a request is stored, and `or TASK` in doubt. */
export function listed(run) {
  return run.parts().map(({ start, end, task, object, isRequest, rivals }) => {
    const where = object === null ? [] : [isRequest ? "for" : "in", object];
    return [start, end, task, ...where, ...rivals.flatMap((name) => ["or", name])].join(" ");
  });
}
