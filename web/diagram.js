// Draws a design as a HOOD diagram: boxes for objects with their kinds and provided operations, the include relation as nesting, and arrows for
// what is used. Where boxes stand and wires go is told by layout.js.
import { TICKS } from "./clock.js";
import { Level } from "./layout.js";
import { draw, group, short, textAt, widthOf } from "./markup.js";
import { usesOf } from "./outline.js";

const LETTERS = { active: "A", passive: "P", protected: "Pr", cyclic: "C", sporadic: "S" };
const HEAD = 24; // pixels of height: the bar with the name
const ROW = 28; // an operation
const TEXT_LINE = 14; // a line of small text
const OUT_GAP = 12; // between wires that leave a box
const TIP = 6; // by which operations stand out of the box
const TRIGGER = 22; // the width of the mark of a constrained operation
const MOST_NAME = 30; // characters of a name that are shown
const MOST_FLOW = 20;
export const MOST_WHOLE = 150; // objects of a design of which a report has a picture of the whole
export const MOST_AT_ONCE = 30; // objects of a design that the page draws whole where nothing else is asked for
export const LEGIBLE = 0.7; // by which a picture is made smaller at most, where all that is written in it has to be read

/** A time as the design writes it. */
function timeOf({ number, unit }) {
  return unit === null ? String(number) : `${number} ${unit}`;
}

// ---- What is said of an object ----

/** The response of a thread within its deadline; a thread that is given up has none. Beside times with units ticks are named. */
function responseOf({ response, deadline }, clock, hasUnits) {
  const limit = hasUnits ? clock.span(deadline) : clock.time(deadline);
  return response === null ? `no response, deadline ${limit}` : `response ${clock.number(response)} of ${limit}`;
}

/** The lines of small text in the box of an object: its times, and where there are bounds these. */
export function linesOfObject(object, bounds, clock = TICKS) {
  const time = (name) => object.attributes.get(name);
  const told = (words) => words.filter(([, value]) => value !== undefined).map(([word, value]) => `${word} ${timeOf(value)}`).join(" · ");
  const lines = [
    told([["period", time("period")], ["separation", time("separation")], ["deadline", time("deadline")]]),
    told([["offset", time("offset")], ["budget", time("thread_budget")]]),
    told([["arrival jitter", time("arrival_jitter")]]),
  ];
  const thread = bounds?.threads.find((one) => one.name === object.name);
  const ceiling = bounds?.ceilings.find((one) => one.name === object.name);
  const hasUnits = [...object.attributes.values()].some(({ unit }) => unit !== null);
  if (thread !== undefined) lines.push(`priority ${thread.priority} · ${responseOf(thread, clock, hasUnits)}`);
  else if (ceiling !== undefined) lines.push(`ceiling ${ceiling.ceiling}`);
  if (object.isBackground()) lines.push(object.hasThread ? "client, in the background" : "server, in the background");
  return lines.filter((line) => line !== "");
}

/** All that is known of an object, for the mouse. */
function titleOf(object, bounds, clock) {
  const lines = [`${object.name}: ${object.kind.toUpperCase()}`, ...linesOfObject(object, bounds, clock)];
  const thread = bounds?.threads.find((one) => one.name === object.name);
  const ceiling = bounds?.ceilings.find((one) => one.name === object.name);
  if (thread?.cost !== undefined) {
    lines.push(`cost ${clock.time(thread.cost)} · blocking ${clock.time(thread.blocking)} · jitter ${clock.time(thread.jitter)}`);
  }
  if (thread !== undefined && ceiling !== undefined) lines.push(`requests are left at ceiling ${ceiling.ceiling}`);
  if (object.hasChildren()) lines.push(`includes ${object.children.map((one) => one.name).join(", ")}`);
  return lines.join("\n");
}

/** What flows in and out with a call: the names of its parameters. */
function flowsOf({ parameters }) {
  const names = (way) => short(parameters.filter((one) => one.way === way).map((one) => one.name).join(", "), MOST_FLOW);
  return { in: names("in"), out: names("out") };
}

// ---- Boxes with their sizes ----

/** The picture of a design, or of one object of it with its children alone. */
export class Diagram {
  constructor(design, { bounds = null, focus = null, isFlat = false, faults = [], isLive = false, clock = TICKS } = {}) {
    this.design = design;
    this.bounds = bounds;
    this.isFlat = isFlat;
    this.isLive = isLive;
    this.clock = clock;
    this.faults = new Set(faults);
    this.uses = usesOf(design);
    this.byName = new Map(design.objects.map((one) => [one.name, one]));
    this.focus = focus;
    this.level = this.topLevel();
  }

  usesAt(parent) {
    return [...(this.uses.get(parent)?.values() ?? [])];
  }

  /** The root, or an object with its uncles beside it. */
  topLevel() {
    if (this.focus === null) return this.levelOf(null, this.design.objects.filter((one) => one.parent === null), []);
    const box = this.boxOf(this.focus, true);
    const nets = [];
    const uncles = new Map();
    for (const use of this.usesAt(this.focus.parent).filter((one) => one.sources.includes(this.focus))) {
      const isKnown = use.target?.operation(use.operation) !== undefined;
      if (isKnown && !uncles.has(use.target)) uncles.set(use.target, this.boxOf(use.target, false, new Set(), this.operationsUsed(use.target)));
      nets.push(this.netOf(use, [{ box }], isKnown ? { box: uncles.get(use.target), port: use.operation } : null));
    }
    return new Level([box, ...uncles.values()], nets, []);
  }

  /** The operations of an uncle that the focus uses. */
  operationsUsed(uncle) {
    const uses = this.usesAt(this.focus.parent).filter((one) => one.target === uncle && one.sources.includes(this.focus));
    return new Set(uses.map((one) => one.operation));
  }

  netOf(use, sources, target) {
    const isExit = target === null;
    const words = isExit ? short(use.key, MOST_NAME) : "";
    return { key: use.key, sources, target, use, label: words, words: isExit ? widthOf(words, 9) + 8 : 0 };
  }

  /** The boxes of children of one parent, and the nets among them. */
  levelOf(parent, children, entries) {
    const uses = this.usesAt(parent);
    const isOpen = parent === null || !this.isFlat;
    const boxes = new Map(children.map((one) => [one, this.boxOf(one, isOpen && one.hasChildren(), this.outsOf(one, uses))]));
    const nets = [];
    for (const use of uses) {
      const target = use.isSibling && use.target.operation(use.operation) !== undefined ? { box: boxes.get(use.target), port: use.operation } : null;
      nets.push(this.netOf(use, use.sources.map((one) => ({ box: boxes.get(one) })), target));
    }
    for (const link of this.linksOf(parent)) {
      const box = boxes.get(link.child);
      const isShared = nets.some(({ target }) => target?.box === box && target.port === link.operation);
      // Where a wire of its user ends there too, the arrow from the parent ends a little below.
      const port = isShared ? `${link.operation} by` : link.operation;
      if (isShared) box.ins.set(port, box.ins.get(link.operation) + 12);
      const sources = link.operations.map((entry) => ({ entry }));
      nets.push({ key: `${link.child.name}.${link.operation} by`, sources, target: { box, port }, link, label: "" });
    }
    return new Level([...boxes.values()], nets, entries);
  }

  /** The operations of children that implement those of their parent. */
  linksOf(parent) {
    const found = new Map();
    for (const [operation, { object, operation: name }] of parent?.links ?? []) {
      const child = parent.children.find((one) => one.name === object);
      if (child?.operation(name) === undefined || parent.operation(operation) === undefined) continue;
      const link = found.get(`${object}.${name}`) ?? { child, operation: name, operations: [] };
      link.operations.push(operation);
      found.set(`${object}.${name}`, link);
    }
    return [...found.values()];
  }

  outsOf(object, uses) {
    return new Set(uses.filter((one) => one.sources.includes(object)).map((one) => one.key));
  }

  boxOf(object, isOpen, outs = new Set(), only = null) {
    const operations = object.operations.filter((one) => only === null || only.has(one.name));
    const box = { object, operations, isOpen, tip: TIP, isUncle: only !== null, isFree: !isOpen, first: HEAD + 10, inner: null };
    [box.ins, box.outs] = [new Map(), new Map()];
    box.names = Math.max(0, ...operations.map((one) => widthOf(short(one.name, MOST_NAME), 11)));
    box.rows = operations.length === 0 ? 0 : box.names + 16 + (operations.some((one) => one.constraint !== null) ? 32 : 0);
    box.left = operations.length === 0 ? 0 : TIP + Math.max(...operations.map((one) => this.leftOf(object, one)));
    const head = 40 + widthOf(short(object.name, MOST_NAME), 12, true) + 10;
    if (isOpen) this.fitOpen(box, head);
    else this.fitClosed(box, head, outs);
    return box;
  }

  /** The width of what stands before an operation: who asks from outside, what flows, and the mark of a constraint. */
  leftOf(object, operation) {
    const flows = flowsOf(operation);
    const flow = Math.max(...["in", "out"].map((way) => (flows[way] === "" ? 0 : widthOf(flows[way], 9) + 22)));
    return (operation.constraint === null ? 8 : TRIGGER) + flow + (this.isOutside(object, operation) ? 24 + widthOf("outside", 9) : 0) + 8;
  }

  /** Whether the world outside requests this operation, and no object that is drawn round this one has it. */
  isOutside(object, operation) {
    const isLinked = (one, name) => [...(one.parent?.links.values() ?? [])].some((link) => link.object === one.name && link.operation === name);
    if (isLinked(object, operation.name) && this.isDrawnOpen(object.parent)) return false;
    let [at, name] = [object, operation.name];
    for (let depth = 0; at?.hasChildren() && depth < this.design.objects.length; depth++) {
      const link = at.links.get(name);
      [at, name] = [this.byName.get(link?.object), link?.operation];
    }
    return at?.attributes.has("arrival_jitter") ?? false;
  }

  isDrawnOpen(object) {
    return this.focus === null || object === this.focus;
  }

  rowsTop() {
    return HEAD + 6;
  }

  fitRows(box) {
    box.operations.forEach((one, index) => box.ins.set(one.name, this.rowsTop() + ROW * index + ROW / 2));
    return this.rowsTop() + ROW * box.operations.length;
  }

  fitClosed(box, head, outs) {
    const { object } = box;
    box.lines = box.isUncle ? [] : linesOfObject(object, this.bounds, this.clock);
    // So that nothing moves when bounds come and go.
    const isBare = this.isLive && this.bounds === null && !box.isUncle && this.mayHaveBounds(object);
    const spare = isBare ? TEXT_LINE + (object.hasThread ? 10 : 0) : 0;
    if (object.hasChildren() && !box.isUncle) box.lines.push(`includes ${object.children.length} object${object.children.length === 1 ? "" : "s"}`);
    const bottom = this.fitRows(box);
    const thread = this.bounds?.threads.find((one) => one.name === object.name);
    box.linesTop = bottom + (box.operations.length > 0 ? 6 : 2);
    box.meter = thread !== undefined && !box.isUncle ? thread : null;
    const textBottom = box.linesTop + TEXT_LINE * box.lines.length + (box.meter === null ? 0 : 10) + spare;
    const height = Math.max(textBottom + 8, HEAD + 16 + OUT_GAP * Math.max(0, outs.size - 1) + 14);
    box.width = Math.max(this.isLive && object.hasThread ? 170 : 96, head, box.rows - TIP + 14, ...box.lines.map((line) => widthOf(line, 10) + 20));
    box.height = height;
    const first = Math.round(HEAD + (height - HEAD - OUT_GAP * (outs.size - 1)) / 2);
    [...outs].forEach((key, index) => box.outs.set(key, first + OUT_GAP * index));
  }

  mayHaveBounds(object) {
    return !object.hasChildren() && object.kind !== "passive" && !object.isBackground();
  }

  fitOpen(box, head) {
    const { object } = box;
    const bottom = this.fitRows(box);
    box.innerX = box.operations.length === 0 ? 10 : box.rows - TIP;
    box.innerY = HEAD + 14;
    const entries = box.operations.map((one) => ({ key: one.name, y: box.ins.get(one.name) - box.innerY }));
    box.inner = this.levelOf(object, object.children, entries);
    box.width = Math.max(head, box.innerX + box.inner.width);
    box.height = Math.max(bottom, box.innerY + box.inner.height) + 16;
    box.inner.width = box.width - box.innerX;
    for (const exit of box.inner.exits) box.outs.set(exit.net.key, box.innerY + exit.top);
    // What the object requires, and no child of it uses.
    for (const { object: name, operation } of object.required) {
      if (box.outs.has(`${name}.${operation}`)) continue;
      box.height += OUT_GAP;
      box.outs.set(`${name}.${operation}`, box.height - 10);
    }
  }

  // ---- Drawing ----

  draw(isLegend = false) {
    const pad = 14;
    const width = this.level.width + 2 * pad;
    const key = isLegend ? new Legend(width - 2 * pad, this.design.objects.some((one) => one.isBackground())) : null;
    const height = this.level.height + 2 * pad + (key === null ? 0 : key.height + 10);
    const name = this.focus === null ? `HOOD diagram of the design ${this.design.name}` : `HOOD diagram of the object ${this.focus.name}`;
    const told = { role: this.isLive ? "group" : "img", "aria-label": name };
    const root = draw("svg", { class: "diagram", width, height, viewBox: `0 0 ${width} ${height}`, ...told });
    root.append(draw("rect", { class: "paper", width, height }), this.drawLevel(this.level, pad, pad));
    if (key !== null) root.append(key.draw(pad, this.level.height + 2 * pad));
    return root;
  }

  drawLevel(level, x, y) {
    const made = group({ transform: `translate(${x} ${y})` });
    for (const box of level.boxes) made.append(this.drawBox(box));
    for (const net of level.nets) made.append(this.drawNet(level, net));
    return made;
  }

  kindOf(object) {
    return object.isBackground() ? "background" : object.kind;
  }

  drawBox(box) {
    const { object, width, height } = box;
    const isFault = this.faults.has(object.name);
    const kind = `object kind-${this.kindOf(object)}${box.isUncle ? " uncle" : ""}${isFault ? " fault" : ""}${box.isOpen ? " open" : ""}`;
    const made = group({ class: kind, "data-object": object.name, transform: `translate(${box.x} ${box.y})` });
    const title = draw("title", {}).append(titleOf(object, this.bounds, this.clock));
    made.append(title);
    made.append(draw("rect", { class: "body", width, height, rx: 9 }), this.drawHead(box));
    if (isFault) made.append(draw("circle", { class: "alarm", cx: width, cy: 0, r: 9 }), textAt(width, 4, "!", "alarm-sign middle"));
    if (box.inner === null) made.append(...this.drawLines(box));
    else made.append(this.drawLevel(box.inner, box.innerX, box.innerY));
    made.append(...this.drawOperations(box));
    return made;
  }

  /** The bar with the kind and the name, which in the page is what the keys reach. */
  drawHead({ object, width }) {
    const live = this.isLive ? { tabindex: 0, role: "button", "aria-label": `${object.name}, ${object.kind}` } : {};
    return group({ class: "bar", ...live },
      draw("path", { class: "head", d: headPath(width) }),
      draw("rect", { class: "badge", x: 5, y: 4, width: 24, height: 16, rx: 4 }),
      textAt(17, 16, LETTERS[object.kind], "letter middle"),
      textAt(36, 16.5, short(object.name, MOST_NAME), "name"));
  }

  drawLines(box) {
    const made = box.lines.map((line, index) => textAt(10, box.linesTop + TEXT_LINE * index + 11, line, "small"));
    if (box.meter === null) return made;
    const { response, deadline } = box.meter;
    const [y, width] = [box.linesTop + TEXT_LINE * box.lines.length + 4, box.width - 20];
    made.push(draw("rect", { class: "meter-deadline", x: 10, y, width, height: 5, rx: 2.5 }));
    const [part, isLate] = [Math.max(3, width * Math.min(1, (response ?? Infinity) / deadline)), response === null || response > deadline];
    made.push(draw("rect", { class: isLate ? "meter-late" : "meter-response", x: 10, y, width: part, height: 5, rx: 2.5 }));
    return made;
  }

  drawOperations(box) {
    if (box.operations.length === 0) return [];
    const height = ROW * box.operations.length;
    const made = [draw("rect", { class: "operations", x: -TIP, y: this.rowsTop(), width: box.rows, height, rx: 2 })];
    for (const operation of box.operations) made.push(this.drawOperation(box, operation));
    return made;
  }

  drawOperation(box, operation) {
    const y = box.ins.get(operation.name);
    const made = group({ class: "operation", "data-operation": `${box.object.name}.${operation.name}` });
    const parameters = operation.parameters.map((one) => `${one.name} : ${one.way} word`).join("; ");
    const words = [`${box.object.name}.${operation.name}`, parameters === "" ? "" : `(${parameters})`, (operation.constraint ?? "").toUpperCase()];
    const title = draw("title", {}).append(words.filter((one) => one !== "").join(" "));
    made.append(title, textAt(2, y + 4, short(operation.name, MOST_NAME), "operation-name"));
    if (operation.constraint !== null) {
      made.append(textAt(box.rows - TIP - 5, y + 3.5, operation.constraint.toUpperCase(), "constraint right"));
      made.append(draw("path", { class: "trigger", d: `M${-TIP - 20} ${y - 13}l8 3.5l-4 3.5l8 3` }));
      made.append(draw("path", { class: "trigger-head", d: `M${-TIP - 3.5} ${y - 1.5}l-6.5 0.2l2.8 -5.4z` }));
    }
    made.append(...drawFlows(-TIP - (operation.constraint === null ? 10 : TRIGGER + 2), y, flowsOf(operation)));
    if (this.isOutside(box.object, operation)) made.append(...this.drawOutside(box.object, operation, y));
    return made;
  }

  drawOutside(object, operation, y) {
    const x = -TIP - this.leftOf(object, operation) + widthOf("outside", 9) + 12;
    return [
      draw("path", { class: "wire request", d: `M${x + 4} ${y}H${-TIP}` }),
      draw("circle", { class: "source", cx: x, cy: y, r: 4 }),
      draw("path", { class: "head-of-use request", d: tipPath(-TIP, y) }),
      textAt(x - 8, y + 3, "outside", "flow right"),
    ];
  }

  drawNet(level, net) {
    const { use } = net;
    const kind = net.link ? "link" : use.isFault ? "fault" : use.constraint === "aser" ? "request" : "use";
    const told = net.link
      ? `${net.link.operations.join(", ")} implemented by ${net.link.child.name}.${net.link.operation}`
      : `${use.sources.map((one) => one.name).join(", ")} ${kind === "request" ? "request" : "use"}${use.sources.length === 1 ? "s" : ""} ${use.key}`;
    const users = net.link ? [] : use.sources.map((one) => one.name);
    const name = net.link ? `${net.link.child.name}.${net.link.operation}` : use.key;
    const made = group({ class: `net ${kind}`, "data-net": name, "data-users": users.join(" ") });
    const title = draw("title", {}).append(told);
    const d = level.paths.get(net).join("");
    made.append(title, draw("path", { class: "reach", d }), draw("path", { class: `wire ${kind}`, d }));
    for (const [cx, cy] of level.dots.get(net)) made.append(draw("circle", { class: `dot ${kind}`, cx, cy, r: 2.2 }));
    if (net.target !== null) {
      const { box, port } = net.target;
      made.append(draw("path", { class: `head-of-use ${kind}`, d: tipPath(box.x - TIP, box.y + box.ins.get(port)) }));
    } else this.drawExit(level, net, made);
    return made;
  }

  /** The name of what is used outside, where its wire leaves. */
  drawExit(level, net, made) {
    const exit = level.exits.find((one) => one.net === net);
    made.append(draw("path", { class: `wire ${net.use.isFault ? "fault" : "use"}`, d: `M${level.width - 2} ${exit.top}h2` }));
    made.append(textAt(level.width - 6, exit.top - 3, net.label, `flow right${net.use.isFault ? " bad" : ""}`));
  }
}

function headPath(width) {
  return `M0 ${HEAD}V9a9 9 0 0 1 9 -9H${width - 9}a9 9 0 0 1 9 9V${HEAD}z`;
}

/** The head of an arrow that ends at a place. */
function tipPath(x, y) {
  return `M${x} ${y}l-8 -3.6v7.2z`;
}

/** What flows in, above the wire, and out, below it: a small arrow with a ring at its tail, and the names before it. */
function drawFlows(x, y, flows) {
  const made = [];
  if (flows.in !== "") {
    made.push(textAt(x - 17, y - 4, flows.in, "flow right"), draw("circle", { class: "ring", cx: x - 12, cy: y - 7, r: 2 }));
    made.push(draw("path", { class: "flow-line", d: `M${x - 10} ${y - 7}h9m-3.4 -2.4l3.4 2.4l-3.4 2.4` }));
  }
  if (flows.out !== "") {
    made.push(textAt(x - 17, y + 10.5, flows.out, "flow right"), draw("circle", { class: "ring", cx: x - 3, cy: y + 7, r: 2 }));
    made.push(draw("path", { class: "flow-line", d: `M${x - 5} ${y + 7}h-9m3.4 -2.4l-3.4 2.4l3.4 2.4` }));
  }
  return made;
}

/** What the marks mean, in rows of so many pixels. */
class Legend {
  constructor(width, hasBackground) {
    const kinds = [...Object.entries(LETTERS), ...(hasBackground ? [["background", LETTERS.active]] : [])];
    /** @type {any[]} */
    this.items = [
      ...kinds.map(([kind, letter]) => ({ words: kind, width: 28, draw: (x, y) => this.kind(x, y, kind, letter) })),
      { words: "uses", width: 30, draw: (x, y) => this.arrow(x, y, "use") },
      { words: "requests", width: 30, draw: (x, y) => this.arrow(x, y, "request") },
      { words: "is implemented by", width: 30, draw: (x, y) => this.arrow(x, y, "link") },
      { words: "constrained operation", width: 22, draw: (x, y) => this.trigger(x, y) },
      { words: "data flow in, out", width: 16, draw: (x, y) => drawFlows(x + 16, y, { in: " ", out: " " }) },
    ];
    let [x, y] = [0, 0];
    for (const item of this.items) {
      const whole = item.width + 6 + widthOf(item.words, 10) + 18;
      if (x > 0 && x + whole > width) [x, y] = [0, y + 24];
      [item.x, item.y] = [x, y + 10];
      x += whole;
    }
    this.height = y + 22;
  }

  kind(x, y, kind, letter) {
    const made = group({ class: `object kind-${kind}`, transform: `translate(${x} ${y - 9})` });
    made.append(draw("rect", { class: "head", width: 28, height: 18, rx: 4 }), textAt(14, 13, letter, "letter middle"));
    return [made];
  }

  arrow(x, y, kind) {
    return [draw("path", { class: `wire ${kind}`, d: `M${x} ${y}h28` }), draw("path", { class: `head-of-use ${kind}`, d: tipPath(x + 30, y) })];
  }

  trigger(x, y) {
    const made = group({ class: "kind-active" });
    made.append(draw("path", { class: "trigger", d: `M${x} ${y - 6}l8 3.5l-4 3.5l8 3` }));
    made.append(draw("path", { class: "trigger-head", d: `M${x + 16.5} ${y + 5.5}l-6.5 0.2l2.8 -5.4z` }));
    return [made];
  }

  draw(x, y) {
    const made = group({ class: "legend-of-diagram", transform: `translate(${x} ${y})` });
    for (const item of this.items) made.append(...item.draw(item.x, item.y), textAt(item.x + item.width + 6, item.y + 3.5, item.words, "small"));
    return made;
  }
}
