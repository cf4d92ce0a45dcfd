// Draws a run as SVG, in a window of its time. Who runs is told by traces.js.
import { TICKS } from "./clock.js";
import { draw, fillBy, group, textAt, widthOf, within } from "./markup.js";

const COLOURS = 12; // of objects, as in chart.css

/** The tasks, and the objects of a program, each from the greatest priority or ceiling down; of equal ones in the order of the text. */
export function tasksByPriority(program) {
  return [...program.tasks.values()].sort((one, other) => other.priority - one.priority);
}

function objectsByCeiling(program) {
  return [...program.ceilings.keys()].sort((one, other) => program.ceilings.get(other) - program.ceilings.get(one));
}

/** A stripe of a pattern on its ground, if it has one. */
function stripes(id, step, ground) {
  const made = draw("pattern", { id, width: step, height: step, patternUnits: "userSpaceOnUse", patternTransform: "rotate(45)" });
  if (ground !== null) made.append(draw("rect", { width: step, height: step, class: ground }));
  return made.append(draw("rect", { width: 2.5, height: step, class: `${id}-stripe` }));
}

const HATCHED = new Map([["blocked", () => stripes("blocked", 5, "blocked-ground")], ["doubt", () => stripes("doubt", 6, null)]]);

/** A picture of so many pixels, with the patterns of which it has marks. Without a name it is a mark beside a chart. */
export function pictureOf(width, height, name, ...inside) {
  const told = name === null ? { "aria-hidden": "true" } : { role: "img", "aria-label": name };
  const made = draw("svg", { width, height, viewBox: `0 0 ${width} ${height}`, class: "timeline", ...told });
  const used = [...HATCHED].filter(([kind]) => inside.some((mark) => isFilledBy(mark, kind))).map(([, pattern]) => pattern());
  if (used.length > 0) made.append(draw("defs", {}).append(...used));
  return made.append(draw("rect", { class: "paper", width, height }), ...inside);
}

/** Whether a mark, or one of those in it, has this pattern. */
function isFilledBy(mark, kind) {
  return mark.get("fill") === fillBy(kind) || mark.children.some((child) => typeof child !== "string" && isFilledBy(child, kind));
}

/** The marks of a picture, in the order in which they are drawn. */
export class Canvas {
  constructor() {
    this.marks = [];
  }

  add(name, attributes, title = undefined) {
    this.marks.push(draw(name, attributes, title));
  }

  text(x, y, text, kind = "") {
    this.marks.push(textAt(x, y, text, kind));
  }

  box(kind, x, y, width, height, title = undefined) {
    const hatched = HATCHED.has(kind) ? { fill: fillBy(kind) } : {};
    this.add("rect", { class: kind, x, y, width: Math.max(0.6, width), height, ...hatched }, title);
  }

  path(kind, d, title = undefined) {
    this.add("path", { class: kind, d }, title);
  }

  arrowUp(x, base, title, isHollow) {
    this.path("arrow", `M${x} ${base}v-28`, title);
    this.path(isHollow ? "head hollow" : "head", `M${x} ${base - 33}l-3.5 7h7z`, title);
  }

  arrowDown(x, base, title) {
    this.path("deadline", `M${x} ${base - 33}v28`, title);
    this.path("deadline-head", `M${x} ${base}l-3.5 -7h7z`, title);
  }

  diamond(x, y, title) {
    this.path("diamond", `M${x} ${y}l4 4l-4 4l-4-4z`, title);
  }
}

const LANE = 58; // pixels of height
const OBJECT_LANE = 18;
const TOP = 22;
export const RIGHT = 22; // pixels beside the lanes

/** The pixels of names beside the lanes. */
export function leftOf(width) {
  return width < 640 ? 118 : 196;
}

/**
 * The lanes of a window, of its tasks and below them of these objects. `scaled` ticks are as wide as the picture, by default those of the window, and
 * a clock tells times.
 */
class Frame {
  constructor(program, start, end, objects, width, { clock = TICKS, scaled = end - start } = {}) {
    this.program = program;
    this.start = start;
    this.end = end;
    this.clock = clock;
    this.canvas = new Canvas();
    this.width = width;
    this.tasks = tasksByPriority(program);
    this.objects = objects;
    const lanes = TOP + LANE * this.tasks.length + 8;
    this.base = new Map(this.tasks.map((task, index) => [task.name, TOP + LANE * (index + 1) - 14]));
    this.objectBase = new Map(objects.map((name, index) => [name, lanes + OBJECT_LANE * (index + 1) - 3]));
    this.bottom = lanes + OBJECT_LANE * objects.length;
    this.left = leftOf(width);
    this.scale = (width - this.left - RIGHT) / scaled;
  }

  x(time) {
    return Math.round((this.left + (Math.min(Math.max(time, this.start), this.end) - this.start) * this.scale) * 10) / 10;
  }

  isHere(time) {
    return this.start <= time && time <= this.end;
  }

  /** The left end and the width of what stands in the window, or null. */
  span(from, to) {
    const [start, end] = [Math.max(from, this.start), Math.min(to, this.end)];
    return start < end ? [this.x(start), this.x(end) - this.x(start)] : null;
  }

  /** The times above the lanes. */
  gridTimes() {
    const step = this.clock.step(50 / this.scale);
    const first = Math.ceil(this.start / step);
    return Array.from({ length: Math.max(0, Math.floor(this.end / step) - first + 1) }, (_, index) => (first + index) * step);
  }

  drawGrid() {
    for (const time of this.gridTimes()) {
      this.canvas.path("grid", `M${this.x(time)} ${TOP}V${this.bottom}`);
      this.canvas.text(this.x(time), TOP - 5, this.clock.number(time), "small middle");
    }
  }

  /** The heights at which lanes end. */
  laneEnds() {
    const objects = this.objects.map((_, index) => this.bottom - OBJECT_LANE * (this.objects.length - 1 - index));
    return [...this.tasks.map((_, index) => TOP + LANE * (index + 1)), ...objects];
  }

  drawNames() {
    const isNarrow = this.left < 150;
    for (const task of this.tasks) {
      const y = this.base.get(task.name);
      this.canvas.path("base", `M${this.left} ${y}H${this.x(this.end)}`);
      this.canvas.text(8, y - 20, within(task.name, this.left - 14, 12, true), "name");
      const span = task.period === null || isNarrow ? "" : `, ${task.isCyclic ? "period" : "separation"} ${this.clock.time(task.period)}`;
      this.canvas.text(8, y - 7, `priority ${task.priority}${span}`, "small");
      const known = [["deadline", task.deadline], ...(task.limit === "bound" ? [["bound", task.bound]] : [])].filter(([, ticks]) => ticks !== null);
      const limits = isNarrow ? known.slice(-1) : known;
      this.canvas.text(8, y + 5, limits.map(([what, ticks]) => `${what} ${this.clock.time(ticks)}`).join(", "), "small");
    }
    for (const name of this.objects) {
      const y = this.objectBase.get(name);
      this.canvas.path("faint", `M${this.left} ${y}H${this.x(this.end)}`);
      const ceiling = `${isNarrow ? "" : "ceiling "}${this.program.ceilings.get(name)}`;
      const room = this.left - 20 - widthOf(ceiling, 10);
      const whole = `${name} requests`;
      const isWhole = this.program.tasks.has(name) && widthOf(whole, 10) <= room;
      this.canvas.text(8, y - 3, isWhole ? whole : within(name, room, 10), "small");
      this.canvas.text(this.left - 8, y - 3, ceiling, "small right");
    }
  }
}

/** The objects of a program in which a task is in the window of a run, by ceiling. */
export function usedObjects(run, parts) {
  const isIn = ({ from, to }) => from < run.end && to > run.start;
  const used = new Set([...parts.map((part) => part.object), ...run.sections.filter(isIn).map((section) => section.object)]);
  return objectsByCeiling(run.program).filter((name) => used.has(name));
}

/**
 * The picture of a run in its window, or in the part of it from the tick `from` to `to`; `parts` are those of the run, where they are found already.
 */
export class Chart extends Frame {
  /** @param {any} more */
  constructor(run, width, more = {}) {
    const { from = run.start, to = run.end, parts = run.parts(), ...others } = more;
    super(run.program, from, to, usedObjects(run, parts), width, others);
    this.run = run;
    this.parts = parts;
    this.waits = run.waits();
    // An object has one colour in all windows of a run.
    this.colours = new Map(objectsByCeiling(run.program).map((name, index) => [name, `object-${index % COLOURS}`]));
  }

  /** All marks, without the picture. */
  drawMarks() {
    this.drawGrid();
    this.drawNames();
    this.drawBounds();
    this.drawWaits();
    this.drawSections();
    this.drawParts();
    this.drawRequests();
    this.drawDeadlinesAndReleases();
    this.drawEnds();
    this.drawPuts();
    this.drawEndOfTrace();
    return this.canvas.marks;
  }

  /** What the picture is of. */
  name() {
    const window = `from ${this.clock.unit === "ticks" ? "tick " : ""}${this.clock.number(this.start)} to ${this.clock.time(this.end)}`;
    return `Who runs ${window}; the list below tells the same`;
  }

  draw() {
    return pictureOf(this.width, this.bottom + 14, this.name(), ...this.drawMarks());
  }

  /** The picture in parts of at most so many pixels of height, with whole lanes below the same times, so that each fits on a page. */
  drawPages(most) {
    if (this.bottom + 14 <= most) return [this.draw()];
    const cuts = [TOP];
    const ends = this.laneEnds();
    ends.forEach((end, index) => {
      if (end - cuts.at(-1) + TOP + 14 > most && index > 0) cuts.push(ends[index - 1]);
    });
    const marks = this.drawMarks();
    return cuts.map((from, place) => this.drawPage(marks, from, cuts[place + 1] ?? this.bottom, place));
  }

  /** The part of the picture from one height to another. */
  drawPage(marks, from, to, place) {
    const height = TOP + to - from + 14;
    const isIn = (mark) => !["text", "rect"].includes(mark.name) || (from < Number(mark.get("y")) && Number(mark.get("y")) <= to);
    const times = this.gridTimes().map((time) => textAt(this.x(time), TOP - 5, this.clock.number(time), "small middle"));
    const covers = [[0, TOP], [height - 14, 14]].map(([y, tall]) => draw("rect", { class: "paper", y, width: this.width, height: tall }));
    const lanes = group({ transform: `translate(0 ${TOP - from})` }, ...marks.filter(isIn));
    return pictureOf(this.width, height, `${this.name()}, part ${place + 1}`, lanes, ...covers, ...times);
  }

  drawBounds() {
    for (const one of this.run.activations) {
      const { bound, limit: word, name } = one.task;
      const limit = one.release + bound;
      const span = bound === null ? null : this.span(one.release, limit);
      if (span === null) continue;
      const y = this.base.get(name);
      const isKept = (one.end ?? this.run.trace.last) <= limit;
      const title = `${name} released at ${this.clock.time(one.release)}, ${word} ${this.clock.time(limit)}`;
      this.canvas.box(isKept ? "kept" : "late", span[0], y - 28, span[1], 28, title);
      if (this.isHere(limit)) this.canvas.path(isKept ? "kept-end" : "late-end", `M${this.x(limit)} ${y}v-28`, title);
    }
  }

  drawWaits() {
    for (const { start, end, task, runner, isBlocked } of this.waits) {
      const span = this.span(start, end);
      if (span === null) continue;
      const title = `${this.times(start, end)}: ${task} ${isBlocked ? "blocked by" : "waits for"} ${runner}`;
      const height = isBlocked ? 9 : 4;
      this.canvas.box(isBlocked ? "blocked" : "waits", span[0], this.base.get(task) - height, span[1], height, title);
    }
  }

  /** A task is inside, whoever runs: pale. While it runs itself, `drawParts` paints it over. */
  drawSections() {
    for (const { object, task, from, to } of this.run.sections) {
      const span = this.span(from, to);
      if (span === null || !this.objectBase.has(object)) continue;
      const title = `${this.times(from, to)}: ${task} is inside ${object}`;
      this.canvas.box(`inside-of ${this.colours.get(object)}`, span[0], this.objectBase.get(object) - 9, span[1], 6, title);
    }
  }

  /** From when to when, in words. */
  times(start, end) {
    return `${this.clock.number(start)} to ${this.clock.time(end)}`;
  }

  titleOf({ start, end, task, object, isRequest, rivals }) {
    const ceiling = this.program.ceilings.get(object);
    const where = object === null ? "" : ` ${isRequest ? "storing a request of" : "inside"} ${object} at priority ${ceiling}`;
    const doubt = rivals.length === 0 ? "" : `, or ${rivals.join(" or ")}, if it was storing a request`;
    return `${this.times(start, end)}: ${task} runs${where}${doubt}`;
  }

  drawParts() {
    for (const part of this.parts) {
      const span = this.span(part.start, part.end);
      if (span === null) continue;
      const { task, object } = part;
      const kind = `part ${object === null ? "runs" : this.colours.get(object)}`;
      this.drawPart(span, this.base.get(task), object === null ? 15 : 23, kind, part, object ?? "");
      if (object !== null) this.drawPart(span, this.objectBase.get(object), 12, kind, part, task);
    }
  }

  drawPart(/** @type {number[]} */ [x, width], base, height, kind, part, words) {
    const title = this.titleOf(part);
    this.canvas.box(kind, x, base - height, width, height, title);
    if (part.rivals.length > 0) this.canvas.box("doubt", x, base - height, width, height, title);
    if (words !== "" && width > 6.4 * words.length + 4) this.canvas.text(x + width / 2, base - height / 2 + 3.5, words, "inside middle");
  }

  /** A line of the trace, with its time as the clock tells it. */
  told({ time, line }) {
    return `${this.clock.time(time)}${line.slice(line.indexOf(" "))}`;
  }

  /** A line from the task to the lane of the one that it requests. */
  drawRequests() {
    for (const event of this.run.events) {
      if (event.kind !== "request" || !this.isHere(event.time)) continue;
      const [x, here, there] = [this.x(event.time), this.base.get(event.task), this.base.get(event.object)];
      this.canvas.path("request", there > here ? `M${x} ${here}V${there - 34}` : `M${x} ${here - 23}V${there + 2}`, this.told(event));
      this.canvas.add("circle", { class: "request-head", cx: x, cy: here - 23, r: 2.4 }, this.told(event));
    }
  }

  drawDeadlinesAndReleases() {
    for (const { task, release } of this.run.activations) {
      const due = release + task.deadline;
      if (task.deadline === null || !this.isHere(due)) continue;
      const title = `${task.name} released at ${this.clock.time(release)}, deadline ${this.clock.time(due)}`;
      this.canvas.arrowDown(this.x(due), this.base.get(task.name), title);
    }
    for (const { task, release, value, isArrival } of this.run.activations) {
      if (!this.isHere(release)) continue;
      const title = `${this.clock.time(release)} release ${task.name}${value === null ? "" : ` ${value}`}`;
      this.canvas.arrowUp(this.x(release), this.base.get(task.name), title, isArrival);
    }
  }

  drawEnds() {
    const written = new Map(); // name of a task to where its last response time stands
    for (const one of this.run.activations) {
      if (one.end === null || !this.isHere(one.end)) continue;
      const { name, bound, limit: word } = one.task;
      const [x, y, response] = [this.x(one.end), this.base.get(name), this.clock.number(one.response())];
      const { clock } = this;
      const limit = bound === null ? "" : `, ${word} ${clock.time(bound)}`;
      const title = `${clock.time(one.end)} end ${name} used ${clock.time(one.used)}, response ${clock.time(one.response())}${limit}`;
      this.canvas.add("circle", { class: "end", cx: x, cy: y, r: 3 }, title);
      if (x - (written.get(name) ?? -99) <= 7 * response.length + 4) continue;
      this.canvas.text(x, y + 12, response, "small middle");
      written.set(name, x);
    }
  }

  drawPuts() {
    const written = new Map();
    for (const event of this.run.events) {
      if (event.kind !== "put" || !this.isHere(event.time)) continue;
      const [x, y, value] = [this.x(event.time), this.base.get(event.task) - 38, String(event.values[0])];
      this.canvas.diamond(x, y, this.told(event));
      if (x - (written.get(event.task) ?? -99) <= 7 * value.length + 10) continue;
      this.canvas.text(x + 6, y + 8, value, "small");
      written.set(event.task, x);
    }
  }

  drawEndOfTrace() {
    const { stop, horizon } = this.run.trace;
    if (horizon !== null && this.isHere(horizon)) this.canvas.path("horizon", `M${this.x(horizon)} ${TOP}V${this.bottom}`, "horizon");
    if (stop === null || !this.isHere(stop.time)) return;
    const [x, y] = [this.x(stop.time), this.base.get(stop.task)];
    this.canvas.path("stop", `M${x - 7} ${y - 20}l14 14m0 -14l-14 14`, stop.line);
    const isRight = x > this.width / 2;
    const words = `stop: priority ${stop.values[0]}, ceiling ${stop.values[1]} of ${stop.object}`;
    this.canvas.text(isRight ? x : x + 6, y + 13, words, isRight ? "small bad right" : "small bad");
  }
}

const COLUMN = 2; // pixels

/** The picture of a window with too many events: in each column of each lane the greatest response of what is released there. */
export class Heights extends Frame {
  constructor(trace, start, end, width, clock = TICKS) {
    super(trace.program, start, Math.min(end, Math.max(trace.last, start + 1)), [], width, { clock });
    this.trace = trace;
  }

  /** Of each task the greatest response in each column, by the column's left edge. */
  columns() {
    const found = new Map(this.tasks.map((task) => [task.name, new Map()]));
    for (const { task, release, end } of this.trace.activations) {
      if (end === null || !this.isHere(release)) continue;
      const columns = found.get(task.name);
      const column = Math.floor(this.x(release) / COLUMN) * COLUMN;
      columns.set(column, Math.max(columns.get(column) ?? 0, end - release));
    }
    return found;
  }

  draw() {
    this.drawGrid();
    this.drawNames();
    const columns = this.columns();
    for (const task of this.tasks) this.drawLane(task, columns.get(task.name));
    const window = `from ${this.clock.number(this.start)} to ${this.clock.time(this.end)}`;
    const name = `The greatest responses ${window}; the table below tells them of the whole trace`;
    return pictureOf(this.width, this.bottom + 6, name, ...this.canvas.marks);
  }

  drawLane(task, columns) {
    const base = this.base.get(task.name);
    const full = task.bound ?? Math.max(1, ...columns.values());
    this.canvas.box("kept", this.left, base - 28, this.x(this.end) - this.left, 28, `the ${task.limit} of ${task.name}, ${this.clock.time(full)}`);
    for (const [column, response] of columns) {
      const height = Math.min(36, (28 * response) / full);
      const title = `${task.name}: greatest response ${this.clock.time(response)} of at most ${this.clock.time(full)}`;
      this.canvas.box(response > full ? "late-bar" : "runs", column, base - height, COLUMN, height, title);
    }
  }
}

// ---- What the marks mean ----

/** Each mark with its words. */
export const LEGEND = [
  ["arrow", "release"], ["hollow", "release by a request from outside"], ["deadline", "deadline"], ["kept", "release to bound"], ["runs", "runs"],
  ["object-0", "runs inside an object, at its ceiling"], ["waits", "ready, preempted"], ["blocked", "ready, blocked by lower priority"],
  ["end", "end, response time"], ["diamond", "put"], ["request", "request"],
];

/** The marks of one kind, in a square of MARK pixels. */
export function marksOf(kind) {
  const canvas = new Canvas();
  if (kind === "arrow" || kind === "hollow") {
    canvas.path("arrow", "M11 21v-14");
    canvas.path(kind === "hollow" ? "head hollow" : "head", "M11 1l-3.5 7h7z");
  } else if (kind === "deadline") {
    canvas.path("deadline", "M11 1v16");
    canvas.path("deadline-head", "M11 21l-3.5 -7h7z");
  } else if (kind === "kept") {
    canvas.box("kept", 1, 2, 20, 18);
    canvas.path("kept-end", "M21 2v18");
  } else if (kind === "waits") canvas.box("waits", 1, 14, 20, 4);
  else if (kind === "blocked") canvas.box("blocked", 1, 9, 20, 9);
  else if (kind === "end") canvas.add("circle", { class: "end", cx: 11, cy: 11, r: 3.5 });
  else if (kind === "diamond") canvas.path("diamond", "M11 6l4 5l-4 5l-4-5z");
  else if (kind === "request") canvas.path("request", "M11 0v22");
  else if (kind === "doubt") {
    canvas.box("part runs", 1, 5, 20, 13);
    canvas.box("doubt", 1, 5, 20, 13);
  } else canvas.box(`part ${kind}`, 1, kind === "runs" ? 5 : 1, 20, kind === "runs" ? 13 : 18);
  return canvas.marks;
}

export const MARK = 22;
