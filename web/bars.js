// Of what each response is made, as bars: the thread's own cost, its blocking, what each thread above takes, and the slack or what is too much; and
// chains of requests, as bars behind one another.
import { TICKS } from "./clock.js";
import { chainBounds, partsOf, slackOf, spareOf, termsOf } from "./explanation.js";
import { draw, fillBy, group, textAt, widthOf, within } from "./markup.js";

const HUES = 12; // of threads, as in bars.css
const ROW = 44; // pixels of height, without the lines of the sum
const LINE = 13; // one of these
const BAR = 22;
const NAMES = 170; // beside the bars
const NUMBERS = 150;
const CHAINS = "Chains of requests";
const ABOVE = "a thread of greater priority, in the colour of its own cost";

/** The fill of a part whose colour no style has: that of blocking is hatched. */
function filled(kind) {
  return /\bblocked$/.test(kind) ? { fill: fillBy("blocked") } : {};
}

/** A share as a percentage without digits, and `under 1 %` where that would be 0. */
function shareOf(ticks, whole) {
  const share = Math.round((100 * ticks) / whole);
  return share === 0 && ticks > 0 ? "under 1 %" : `${share} %`;
}

/** The scale by which most is seen: where responses are but a small part of deadlines, it is their own. */
export function scaleFor(threads) {
  const shares = threads.filter((one) => one.response !== null).map(({ response, deadline }) => response / deadline).sort((one, other) => one - other);
  return shares.length > 0 && shares[Math.floor(shares.length / 2)] < 0.15 ? "response" : "deadline";
}

/** What is said in place of a bar of a thread that is given up. */
function givenUp({ beyond, behind }, clock) {
  if (behind !== null) return `no response, as that of ${behind} has none`;
  return `no response: over ten times its limit, ${clock.time(beyond.limit)}`;
}

/**
 * The bars of all threads, from the greatest priority down, and of chains below them. What is as wide as the picture tells `scale`: the `deadline` of
 * each thread, its `response`, which leaves out the slack, or the longest deadline of all, so that `ticks` can be compared. A thread that is late goes
 * on past the stroke of its deadline.
 */
export class Bars {
  constructor({ threads, chains = [] }, width, { scale = "deadline", clock = TICKS, shown = threads, hasChains = true } = {}) {
    this.threads = threads;
    this.shown = shown; // those of the threads that have a bar
    this.chains = hasChains ? chains : [];
    this.width = width;
    this.scale = scale;
    this.clock = clock;
    this.isNarrow = width < 640;
    this.left = this.isNarrow ? 8 : NAMES;
    this.right = this.isNarrow ? 12 : NUMBERS;
    this.hues = new Map(threads.map((thread, index) => [thread.name, `hue-${index % HUES}`]));
    this.longest = Math.max(1, ...threads.map((one) => Math.max(one.deadline, one.response ?? 0)),
      ...chains.map((one) => Math.max(one.response, chainBounds(one, threads).sum)));
    this.room = width - this.left - this.right;
  }

  draw() {
    const name = "Of what each response is made; the table tells the same";
    const rows = [];
    let y = 6;
    for (const thread of this.shown) y = this.drawThread(thread, y, rows);
    if (this.chains.length > 0) {
      rows.push(textAt(8, y + 14, this.isNarrow ? CHAINS : `${CHAINS}, from the release of the first thread to the end of the last`, "name"));
      y += 28;
      for (const chain of this.chains) y = this.drawChain(chain, y, rows);
    }
    const legend = this.legend(y + 8);
    const height = y + 12 + legend.height;
    const root = draw("svg", { class: "bars", width: this.width, height, viewBox: `0 0 ${this.width} ${height}`, role: "img", "aria-label": name });
    return root.append(this.patterns(), draw("rect", { class: "paper", width: this.width, height }), ...rows, legend.made);
  }

  patterns() {
    const made = (id, stripe) => draw("pattern", { id, width: 5, height: 5, patternUnits: "userSpaceOnUse", patternTransform: "rotate(45)" }).append(
      draw("rect", { class: "blocked-ground", width: 5, height: 5 }), draw("rect", { class: stripe, width: 2.5, height: 5 }));
    return draw("defs", {}).append(made("blocked", "blocked-stripe"));
  }

  /** What a bar consists of, from the left: a kind, ticks, words and a title each. */
  segments(thread) {
    const { delays, sum } = partsOf(thread, this.threads);
    const { clock } = this;
    const of = (ticks) => `${clock.number(ticks)} of ${clock.span(thread.response)}`;
    const { cost, blocking, blocked } = thread;
    const found = [{ kind: `own ${this.hues.get(thread.name)}`, ticks: cost, words: `cost ${clock.number(cost)}`, title: `its own cost: ${of(cost)}` }];
    if (blocking > 0) {
      const by = blocked === null ? "a thread of lower priority inside an object" : `${blocked.by} inside ${blocked.inside}`;
      found.push({ kind: "blocked", ticks: blocking, words: "", title: `blocking by ${by}: ${of(blocking)}` });
    }
    for (const { by, times, ticks } of delays) {
      const title = `${by} comes in between ${times} time${times === 1 ? "" : "s"}: ${of(ticks)}`;
      found.push({ kind: `taken ${this.hues.get(by)}`, ticks, words: `${by} ${clock.number(ticks)}`, title });
    }
    const rest = thread.response - sum;
    if (rest > 0) found.push({ kind: "unknown", ticks: rest, words: "", title: `${clock.span(rest)} that the terms do not explain` });
    return found;
  }

  /** Words in lines as long as there is room. */
  linesOf(terms) {
    const lines = [""];
    for (const term of terms) {
      const longer = `${lines.at(-1)}${lines.at(-1) === "" || term.startsWith(";") ? "" : " "}${term}`;
      if (lines.at(-1) !== "" && widthOf(longer, 10) > this.width - this.left - 10) lines.push(term.replace(/^; /, ""));
      else lines[lines.length - 1] = longer;
    }
    return lines;
  }

  /** The sum of a response, and how late its release may come. */
  sumLines(thread) {
    const { response, jitter, period } = thread;
    const { clock } = this;
    if (response === null) return this.linesOf([givenUp(thread, clock)]);
    const [first, ...rest] = termsOf(thread, this.threads, clock);
    const terms = [`${clock.number(response)} ${partsOf(thread, this.threads).isSum ? "=" : "≠"} ${first}`, ...rest.map((term) => `+ ${term}`)];
    if (jitter > 0) terms.push(`; released up to ${clock.number(jitter)} late: ${clock.number(jitter + response)} of period ${clock.number(period)}`);
    return this.linesOf(terms);
  }

  /** Pixels of a tick in the bar of a thread. */
  pixelsOf({ deadline, response }) {
    const most = this.scale === "ticks" ? this.longest : this.scale === "response" && response !== null ? response : Math.max(deadline, response ?? 0);
    return this.room / Math.max(1, most);
  }

  /** The pixels of the row of a thread. */
  heightOf(thread) {
    return ROW + LINE * this.sumLines(thread).length + (this.isNarrow ? 18 : 0);
  }

  /** Draws the row of a thread at this height, and returns that of the next one. */
  drawThread(thread, top, rows) {
    const sums = this.sumLines(thread);
    const y = this.isNarrow ? top + 18 : top;
    const made = group({ class: "row", "data-thread": thread.name });
    const pixels = this.pixelsOf(thread);
    const { name, priority, deadline, response } = thread;
    const due = this.left + Math.min(deadline * pixels, this.room);
    if (this.isNarrow) made.append(this.nameAbove("", name, `, priority ${priority}`, y - 5, this.lateness(thread).words));
    else made.append(this.nameBeside("", name, y + 13), textAt(this.left - 12, y + 27, `priority ${priority}`, "small right"));
    const isDue = this.scale !== "response" || response === null || response > deadline;
    const title = `deadline ${this.clock.time(deadline)}`;
    if (isDue) made.append(draw("rect", { class: "deadline", x: this.left, y, width: due - this.left, height: BAR, rx: 3 }, title));
    const end = response === null ? this.left : this.drawSegments(made, thread, y, pixels);
    if (isDue) made.append(draw("path", { class: "end", d: `M${Math.round(due * 10) / 10} ${y - 4}v${BAR + 8}` }, title));
    if (response !== null && response > deadline) {
      made.append(draw("rect", { class: "over", x: due, y: y - 3, width: end - due, height: 3 }, `late by ${this.clock.span(response - deadline)}`));
    }
    this.drawNumbers(made, thread, y, Math.max(end, isDue ? due : end));
    const kind = response === null || !partsOf(thread, this.threads).isSum ? "small bad" : "small";
    sums.forEach((line, index) => made.append(textAt(this.left, y + BAR + 15 + LINE * index, line, kind)));
    rows.push(made);
    return y + ROW + LINE * sums.length;
  }

  /** Draws the segments of a bar, and returns where they end. */
  drawSegments(made, thread, y, pixels) {
    let x = this.left;
    for (const { kind, ticks, words, title } of this.segments(thread)) {
      const width = ticks * pixels;
      made.append(draw("rect", { class: `part ${kind}`, x, y, width: Math.max(0.8, width), height: BAR, ...filled(kind) }, `${thread.name}: ${title}`));
      const fits = [words, words.replace(/^\S+ /, "")].find((one) => one !== "" && widthOf(one, 10) + 8 < width);
      if (fits !== undefined) made.append(textAt(x + width / 2, y + 15, fits, "inside middle"));
      x += width;
    }
    return x;
  }

  /** A name above its bar, cut where what is beside it needs the room: what follows it, and words at the right edge. */
  nameAbove(before, name, after, y, beside) {
    const room = this.room - widthOf(before + after, 12, true) - widthOf(beside, 10) - 8;
    return textAt(this.left, y, `${before}${within(name, room, 12, true)}${after}`, "name");
  }

  /** A name at the left of its bar, cut at the edge of the picture. */
  nameBeside(before, name, y) {
    return textAt(this.left - 12, y, before + within(name, this.left - 16 - widthOf(before, 12, true), 12, true), "name right");
  }

  /** How late a thread is, or its slack: by its deadline, by its period if it is over that, and which of them a narrow picture has. */
  lateness(thread) {
    const { clock } = this;
    const [slack, spare] = [slackOf(thread), spareOf(thread)];
    const isLate = slack === null || slack < 0;
    const told = slack === null ? "given up" : isLate ? `late by ${clock.span(-slack)}` : `slack ${clock.span(slack)} (${shareOf(slack, thread.deadline)})`;
    const more = spare !== null && spare < 0 ? `over its period by ${clock.span(-spare)}` : null;
    return { isLate, told, more, words: more ?? told };
  }

  /** The response and the slack, or how late it is, behind the bar; in a narrow picture above it. */
  drawNumbers(made, thread, y, end) {
    const { clock } = this;
    const { deadline, response } = thread;
    const { isLate, told, more, words } = this.lateness(thread);
    const of = response === null ? `deadline ${clock.number(deadline)}` : `${clock.number(response)} of ${clock.number(deadline)}`;
    if (this.isNarrow) {
      made.append(textAt(this.width - 12, y - 5, words, isLate || more !== null ? "small bad right" : "small right"));
      return;
    }
    const x = this.scale === "ticks" ? Math.min(Math.max(end + 10, this.left + 120), this.width - NUMBERS + 10) : Math.min(end, this.left + this.room) + 10;
    made.append(textAt(x, y + 10, of, isLate ? "name bad" : "name"), textAt(x, y + 24, told, isLate ? "small bad" : "small"));
    if (more !== null) made.append(textAt(x, y + 36, more, "small bad"));
  }

  /**
   * Draws a chain at this height, the responses of its threads one behind the other, with a stroke at its bound, the response of its thread of lowest
   * priority. Returns the height of the next one.
   */
  drawChain(chain, top, rows) {
    const { clock } = this;
    const { links, lowest, sum: whole, isLowest } = chainBounds(chain, this.threads);
    const y = this.isNarrow ? top + 18 : top;
    const pixels = this.room / (this.scale === "ticks" ? this.longest : Math.max(whole, chain.response));
    const made = group({ class: "row chain", "data-chain": chain.name });
    if (this.isNarrow) made.append(this.nameAbove("to ", chain.name, `: ${clock.span(chain.response)}`, y - 5, ""));
    else made.append(this.nameBeside("to ", chain.name, y + 15));
    let x = this.left;
    for (const link of links) {
      const width = (link.response ?? 0) * pixels;
      const title = `${link.name}: response ${clock.time(link.response ?? 0)} of ${clock.time(whole)} together`;
      made.append(draw("rect", { class: `part own ${this.hues.get(link.name)}`, x, y, width: Math.max(0.8, width), height: BAR }, title));
      const fits = [`${link.name} ${clock.number(link.response ?? 0)}`, clock.number(link.response ?? 0)].find((one) => widthOf(one, 10) + 8 < width);
      if (fits !== undefined) made.append(textAt(x + width / 2, y + 15, fits, "inside middle"));
      x += width;
    }
    const bound = Math.round((this.left + chain.response * pixels) * 10) / 10;
    made.append(draw("path", { class: "end", d: `M${bound} ${y - 4}v${BAR + 8}` }, `bound of the chain ${clock.time(chain.response)}`));
    if (!this.isNarrow) made.append(textAt(Math.max(x, bound) + 10, y + 15, clock.span(chain.response), "name"));
    const of = isLowest ? [`= response of ${lowest.name},`, "its thread of lowest priority;"] : ["≠ response of its thread of lowest priority;"];
    const sum = links.map((link, index) => `${index === 0 ? "sum" : "+"} ${link.name} ${clock.number(link.response ?? 0)}`);
    const jitter = chain.jitter > 0 ? [`; the first is released up to ${clock.number(chain.jitter)} late`] : [];
    const lines = this.linesOf([clock.number(chain.response), ...of, ...sum, `= ${clock.number(whole)}`, ...jitter]);
    lines.forEach((line, index) => made.append(textAt(this.left, y + BAR + 14 + LINE * index, line, isLowest ? "small" : "small bad")));
    rows.push(made);
    return y + ROW - 4 + LINE * lines.length;
  }

  /** What the marks mean, in rows, with their height. */
  legend(top) {
    const made = group({});
    const items = [["part own hue-0", "own cost"], ["part blocked", "blocking"], ["part taken hue-1", ABOVE]];
    if (this.scale !== "response") items.push(["deadline", "slack"]);
    items.push(["over", "past the deadline"]);
    let [x, y] = [this.left, top];
    for (const [kind, words] of items) {
      const whole = 44 + widthOf(words, 10);
      if (x > this.left && x + whole > this.width) [x, y] = [this.left, y + 20];
      made.append(draw("rect", { class: kind, x, y, width: 20, height: kind === "over" ? 4 : 12, ...filled(kind) }), textAt(x + 26, y + 10, words, "small"));
      x += whole;
    }
    return { made, height: y - top + 14 };
  }
}

/** The bars in pictures of about so many pixels of height each, so that each fits on a page; chains stand below the last ones. */
export function barsInParts(explanation, width, options, most) {
  const bars = new Bars(explanation, width, options);
  const parts = [[]];
  let height = 0;
  for (const thread of explanation.threads) {
    height += bars.heightOf(thread);
    if (height > most && parts.at(-1).length > 0) [parts[parts.length], height] = [[], bars.heightOf(thread)];
    parts.at(-1).push(thread);
  }
  const chains = 28 + ROW * 1.4 * explanation.chains.length;
  if (explanation.chains.length > 0 && height + chains > most) parts.push([]);
  return parts.map((shown, place) => ({ shown, bars: new Bars(explanation, width, { ...options, shown, hasChains: place === parts.length - 1 }) }));
}
