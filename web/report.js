// One report of a design, as a page that needs nothing else and prints: verdict, what is proved, diagrams, tables, bars, margins, what to change, runs.
// What it tells is given as data; tools/report/report.mjs gathers it.
import { barsInParts, scaleFor } from "./bars.js";
import { Chart, LEGEND, MARK, marksOf, pictureOf, tasksByPriority } from "./chart.js";
import { Clock, TICKS } from "./clock.js";
import { Diagram, MOST_WHOLE } from "./diagram.js";
import { slackOf, utilisationOf, wrongSums } from "./explanation.js";
import { htmlOf, withNames } from "./markup.js";
import { objectAt } from "./outline.js";
import { boundTable, ceilingTable, chainTable, hardTable, htmlTable, objectTable, tableOfLines, termTable } from "./tables.js";
import { Run, Trace, readProgram } from "./traces.js";

/**
 * What a report tells. `refused` is the line of what is refused, `words` say it, and `at` is its place in the design. Comma-separated values of scripts
 * are in `margins` and `changes`. A run has the name and text of its arrivals, and an Ada text with a trace, or the line and words of its refusal.
 * @typedef {{ name: string, text: string, ada?: string, lines?: string[], refused?: string, words?: string[] }} GivenRun
 * @typedef {object} Given
 * @property {string} name
 * @property {string} version
 * @property {string} text
 * @property {any} outline
 * @property {number|null} microseconds
 * @property {string|null} refused
 * @property {string[]} words
 * @property {number|null} at
 * @property {boolean} isBackground
 * @property {any} explanation
 * @property {any[]} hard
 * @property {{ perMille: number, next: string }|null} scale
 * @property {string|null} margins
 * @property {string|null} changes
 * @property {GivenRun[]} runs
 * @property {string[][]} identity
 * @property {{ promise: string, verbs: string[][], not: string[] }} guarantee
 */

const WIDTH = 1000; // pixels of bars and charts
const MOST_LEVELS = 40; // objects with children that get a picture of their own
const WIDEST = 1300; // pixels of a whole diagram that stands alone
const PAGE = 680; // pixels of the width of a page of paper, and of one across with its height
const ACROSS = [1000, 600];
const FINEST = 0.55; // by which a diagram is made smaller at most on paper, which shows more than a screen
const TALLEST = 1300; // pixels of bars, or of a chart, on one page
const MOST_TEXT = 200000; // characters of a text that stands in the report
const MOST_LINES = 1500000; // of a trace, of which a chart is made
const FIRST_EVENTS = 90;
const MOST_EVENTS = 3000; // in a chart

const SCRIPTS = "Diagrams, slack, utilisation, the sums of the bars, margins of single threads, changes, and who runs in a chart are reckoned by scripts, "
  + "which are tested and not proved. The costs of statements are promises of whoever wrote the design: the bounds are as good as they are.";

/** What `docs/GUARANTEE.md` promises, of which verbs, and what it doesn't. */
export function guaranteeOf(/** @type {string} */ markdown) {
  const partOf = (head) => markdown.split(/^## /m).find((one) => one.startsWith(`${head}\n`)) ?? "";
  const promise = [...partOf("The promise").matchAll(/^> (.*)$/gm)].map(([, line]) => line).join(" ");
  const verbs = [...partOf("What each verb promises").matchAll(/^\| `(\w+)[^`]*` \| (.*?) \| .* \|$/gm)].map(([, verb, done]) => [verb, done]);
  const not = partOf("What is not guaranteed").split(/^- /m).slice(1).map((one) => one.replace(/\s+/g, " ").trim());
  if (promise === "" || not.length === 0 || verbs.length === 0) throw new Error("GUARANTEE.md has not the sections that a report quotes");
  return { promise, verbs, not };
}

/** A line of Markdown, with names in backquotes and words in bold, as elements. */
function inlineOf(/** @type {string} */ text) {
  return text.split(/(`[^`]*`|\*\*[^*]*\*\*)/).filter((part) => part !== "").map((part) => {
    if (part.startsWith("`")) return htmlOf("code", {}, part.slice(1, -1));
    return part.startsWith("**") ? htmlOf("b", {}, part.slice(2, -2)) : part;
  });
}

function sectionOf(id, head, ...children) {
  return htmlOf("section", { id }, htmlOf("h2", {}, head), ...children.flat().filter((child) => child !== null));
}

function figureOf(picture, words, kind = "") {
  return htmlOf("figure", kind === "" ? {} : { class: kind }, htmlOf("div", { class: "picture", tabindex: 0, role: "region", "aria-label": words }, picture),
    htmlOf("figcaption", {}, words));
}

function listOf(items) {
  return htmlOf("ul", {}, ...items.map((words) => htmlOf("li", {}, ...inlineOf(words))));
}

/** Per mille as a factor, such as 1.333. */
function factorOf(perMille) {
  return (perMille / 1000).toFixed(3);
}

export class Report {
  constructor(/** @type {Given} */ given) {
    this.given = given;
    this.outline = given.outline;
    this.explanation = given.explanation;
    this.clocks = given.microseconds === null ? [TICKS] : [TICKS, new Clock(given.microseconds)];
    this.isMet = given.refused === null;
  }

  title() {
    return `${this.outline.name ?? this.given.name}: report`;
  }

  /** The tables of the report, in its order. */
  tables() {
    const { explanation, given } = this;
    const { margins, changes } = given;
    const tables = [objectTable(this.outline)];
    if (explanation !== null) {
      for (const clock of this.clocks) tables.push(boundTable(explanation, clock));
      tables.push(termTable(explanation, TICKS), chainTable(explanation, TICKS), ceilingTable(explanation, this.outline));
    }
    if (given.isBackground) for (const clock of this.clocks) tables.push(hardTable(given.hard, clock));
    if (margins !== null) tables.push(tableOfLines("margins", "How far the work of each thread alone may grow, in per mille of what it is", margins, [0, 5]));
    if (changes !== null) tables.push(tableOfLines("changes", "The least change of one number by which the design passes", changes, [0, 1, 6]));
    return tables.filter(({ rows }) => rows.length > 0);
  }

  /** The report as the text of a file. */
  document(/** @type {string} */ style) {
    const head = htmlOf("head", {}, htmlOf("meta", { charset: "utf-8" }),
      htmlOf("meta", { name: "viewport", content: "width=device-width, initial-scale=1" }), htmlOf("title", {}, this.title()),
      htmlOf("style", {}, style));
    const body = htmlOf("body", {}, htmlOf("main", {}, ...this.parts()));
    return `<!doctype html>\n${htmlOf("html", { lang: "en" }, head, body).write()}\n`;
  }

  parts() {
    const found = new Map(this.tables().map((one) => [one.id, one]));
    const tableOf = (id) => (found.has(id) ? htmlTable(found.get(id)) : null);
    const parts = [this.head(), this.verdict(), this.proof(), this.diagrams(), sectionOf("objects", "Objects", tableOf("objects"))];
    if (this.explanation !== null && this.explanation.threads.length > 0) {
      const words = htmlOf("p", { class: "note" }, "The response is the bound: each activation ends within it, counted from its release. The slack is what is left "
        + "to the deadline; what is left before the next release is the period, or the separation, less jitter and response.");
      parts.push(sectionOf("bounds", "Bounds", tableOf("bounds"), tableOf("bounds_ms"), words, tableOf("chains")), this.barPart(tableOf("terms")),
        sectionOf("ceilings", "Ceilings", tableOf("ceilings") ?? htmlOf("p", {}, "No object has a ceiling.")));
    }
    if (this.given.isBackground) parts.push(sectionOf("bounds", "Bounds of the hard threads", tableOf("hard"), tableOf("hard_ms")));
    parts.push(this.marginPart(tableOf("margins")), this.changePart(tableOf("changes")), ...this.given.runs.map((run, place) => this.runPart(run, place)),
      this.inputs());
    return parts.filter((part) => part !== null);
  }

  head() {
    return htmlOf("header", {}, htmlOf("h1", {}, this.title()),
      htmlOf("p", {}, `${this.given.name}, by Lafomizana ${this.given.version}, a proved toolset for HRT-HOOD designs.`));
  }

  /** Whose deadlines are judged. */
  whose() {
    const name = this.outline.name ?? "the design";
    return this.given.isBackground ? `the hard threads of ${name}` : name;
  }

  verdict() {
    const { refused, words } = this.given;
    const made = htmlOf("div", { class: `verdict ${this.isMet ? "good" : "bad"}`, id: "verdict" });
    if (refused !== null) {
      return made.append(htmlOf("strong", {}, ...inlineOf(words[0] ?? refused)), ...words.slice(1).map((one) => htmlOf("p", {}, ...inlineOf(one))), this.lateness(),
        htmlOf("p", {}, htmlOf("code", {}, refused)));
    }
    return made.append(htmlOf("strong", {}, `Every deadline of ${this.whose()} is met on the modelled processor, under all arrivals that keep their `
      + "separations."), htmlOf("p", {}, this.sums()));
  }

  /** Which threads are late, in words. */
  lateness() {
    const late = (this.explanation?.threads ?? []).filter((one) => one.response === null || one.response > one.deadline || one.jitter + one.response > one.period);
    const told = late.map((one) => (one.response === null ? `${one.name} has no response within ten times its limits`
      : one.response > one.deadline ? `${one.name} is late by ${this.timesOf(one.response - one.deadline)}`
        : `${one.name} may still run when it is released again`));
    return told.length === 0 ? "" : htmlOf("p", {}, `${told.join("; ")}.`);
  }

  /** A time in all units that the design has. */
  timesOf(ticks) {
    return this.clocks.map((clock) => clock.span(ticks)).join(", ");
  }

  sums() {
    const count = `${this.outline.objects.length} objects`;
    if (this.explanation === null) return `${count}.`;
    const { threads } = this.explanation;
    if (threads.length === 0) return `${count}, no thread.`;
    const least = threads.reduce((found, one) => (slackOf(one) < slackOf(found) ? one : found));
    const { scale } = this.given;
    const margin = scale === null ? "" : ` All work may grow to ${factorOf(scale.perMille)} times what it is.`;
    return `${count}, ${threads.length} threads. Costs by periods come to ${utilisationOf(threads)} of the processor; the least slack is `
      + `${this.timesOf(slackOf(least))}, of ${least.name}.${margin}`;
  }

  proof() {
    const { promise, verbs, not } = this.given.guarantee;
    const used = this.given.isBackground ? ["background", "replay"] : ["explain", "analyse", "verify"];
    const rows = verbs.filter(([verb]) => used.includes(verb));
    const share = this.given.isBackground ? ["No bound, no deadline and no share of the time is promised of clients and servers."] : [];
    const answer = this.isMet ? "" : "The refusal is an answer of that program too. ";
    return sectionOf("proof", "What is proved, and what is not", htmlOf("div", { class: "claims" },
      htmlOf("div", {}, htmlOf("h3", {}, "Proved"), htmlOf("p", {}, answer, ...inlineOf(promise)),
        htmlOf("ul", {}, ...rows.map(([verb, done]) => htmlOf("li", {}, htmlOf("code", {}, verb), " writes ", ...inlineOf(done), ".")))),
      htmlOf("div", {}, htmlOf("h3", {}, "Not proved"), listOf([...share, ...not, SCRIPTS]))),
    htmlOf("p", { class: "note" }, "From docs/GUARANTEE.md of the toolset, which has the definitions."));
  }

  // ---- Pictures ----

  diagrams() {
    const { objects, name } = this.outline;
    if (objects.length === 0) return null;
    const fault = this.given.at === null ? undefined : objectAt(this.outline, this.given.at);
    const told = { bounds: this.knownBounds(), faults: fault === undefined ? [] : [fault.name] };
    const parents = objects.filter((one) => one.hasChildren());
    const isWhole = objects.length <= MOST_WHOLE;
    const whole = isWhole ? new Diagram(this.outline, told).draw(true) : null;
    const isWide = whole === null || Number(whole.get("width")) > WIDEST;
    const levels = isWide && parents.length > 1 ? parents.slice(0, MOST_LEVELS) : [];
    const size = whole === null ? [0, 0] : [Number(whole.get("width")), Number(whole.get("height"))];
    const isLarge = levels.length > 0 && (size[0] * FINEST > ACROSS[0] || size[1] * FINEST > ACROSS[1]);
    const isAcross = size[0] > 1.7 * PAGE && !isLarge;
    const more = levels.length > 0 && parents.length > MOST_LEVELS ? `${parents.length - MOST_LEVELS} more objects with children aren't drawn.` : null;
    const kind = isLarge ? "whole large" : isAcross ? "whole across" : "whole";
    const head = [htmlOf("h2", {}, "HOOD diagram"), ...(fault === undefined ? [] : [htmlOf("p", {}, `What is refused stands in ${fault.name}, which is marked.`)])];
    const words = `The design ${name}, with all objects inside their parents${levels.length > 0 ? "; each parent follows by itself" : ""}.`;
    const pictures = whole === null ? [] : [figureOf(whole, words, kind)];
    const paper = isLarge ? [htmlOf("p", { class: "on-paper" }, "All objects in one picture are too many for a page of paper. Each parent follows by itself.")] : [];
    const parts = levels.map((focus) => figureOf(new Diagram(this.outline, { ...told, focus, isFlat: true }).draw(), this.wordsOf(focus), "level"));
    // On paper the first part stands in the place of the whole.
    const lead = isLarge ? [...pictures, ...paper, ...parts.splice(0, 1)] : pictures;
    return htmlOf("section", { id: "diagram" }, htmlOf("div", { class: isAcross ? "lead across" : "lead" }, ...head, ...lead), ...parts,
      ...(more === null ? [] : [htmlOf("p", { class: "note" }, more)]));
  }

  /** The bounds that a diagram shows: those of threads that have a response. */
  knownBounds() {
    if (this.given.isBackground) return { threads: this.given.hard, ceilings: [] };
    if (this.explanation === null) return null;
    const { threads, ceilings } = this.explanation;
    return { threads: threads.filter((one) => one.response !== null), ceilings };
  }

  wordsOf(focus) {
    const uncles = new Set(focus.required.map((one) => one.object));
    const outside = uncles.size === 0 ? "" : `; dotted, outside: ${[...uncles].join(", ")}`;
    return `${focus.name} (${focus.kind}) with its children${outside}.`;
  }

  barPart(terms) {
    const { threads } = this.explanation;
    const wrong = wrongSums(threads);
    const scale = scaleFor(threads);
    const caption = scale === "response" ? "Each bar is as wide as the response of its thread"
      : "Each bar is as wide as the deadline of its thread, at the red stroke, or its response where that is later; what is left before it is slack";
    const sums = wrong ?? "Each response is the sum of its terms, which was checked for this report. The red hatched part is blocking.";
    const details = terms === null ? null : htmlOf("details", {}, htmlOf("summary", {}, "The terms as a table"), terms);
    const [first, ...more] = this.clocks.flatMap((clock) => this.barFigures(clock, scale, caption));
    const lead = htmlOf("div", { class: "lead" }, htmlOf("h2", {}, "Of what each response is made"), htmlOf("p", wrong === null ? {} : { class: "wrong" }, sums), first);
    return htmlOf("section", { id: "bars" }, lead, ...more, ...(details === null ? [] : [details]));
  }

  /** The bars in one unit, as many to a picture as a page has room for. */
  barFigures(clock, scale, caption) {
    const parts = barsInParts(this.explanation, WIDTH, { scale, clock }, TALLEST);
    return parts.map(({ shown, bars }, place) => {
      const which = parts.length === 1 ? "" : shown.length === 0 ? "Chains of requests. " : shown.length === 1 ? `${shown[0].name}. ` : `${shown[0].name} to ${shown.at(-1).name}. `;
      return figureOf(withNames(bars.draw(), `bars-${clock.unit}-${place + 1}`), `${which}${caption}; times in ${clock.unit}.`, "tall");
    });
  }

  marginPart(table) {
    const { scale } = this.given;
    if (scale === null && table === null) return null;
    const next = scale === null ? "" : scale.next === "limit" ? "That is as far as it is tried." : `At the next per mille this fails: ${scale.next}.`;
    const whole = scale === null ? null : htmlOf("p", {}, `All work may grow to ${factorOf(scale.perMille)} times what it is. ${next}`);
    return sectionOf("margins", "Margins", whole, table);
  }

  changePart(table) {
    if (table === null) return null;
    return sectionOf("changes", "What to change", htmlOf("p", {}, "Each row is enough alone, with all else as it is. The program takes the design with that change, and "
      + "refuses it with one tick less of the change. Times are ticks."), table);
  }

  // ---- Runs ----

  runPart(/** @type {GivenRun} */ run, /** @type {number} */ place) {
    const [id, head] = [`run-${place + 1}`, `A run under ${run.name}`];
    if (run.refused !== undefined) {
      const [first, ...more] = run.words ?? [];
      return sectionOf(id, head, htmlOf("p", { class: "wrong" }, ...inlineOf(first ?? "There is no run.")), more.map((words) => htmlOf("p", {}, ...inlineOf(words))),
        htmlOf("p", {}, htmlOf("code", {}, run.refused)));
    }
    const lines = run.lines ?? [];
    let trace;
    try {
      trace = new Trace(readProgram(run.ada ?? ""), lines.slice(0, MOST_LINES));
    } catch (fault) {
      return sectionOf(id, head, htmlOf("p", { class: "note" }, `There is no chart of it: ${fault.message}.`));
    }
    const first = Math.max(1, trace.events[Math.min(FIRST_EVENTS, trace.events.length - 1)].time);
    const words = `The arrivals are one case of all that the bounds cover. The trace has ${lines.length} lines.`;
    const [opening, ...more] = this.charts(trace, 0, first, "From its beginning", id);
    return htmlOf("section", { id }, htmlOf("div", { class: "lead" }, htmlOf("h2", {}, head), htmlOf("p", {}, words), opening ?? ""), ...more,
      ...this.closest(trace, first, `${id}-near`), this.legend(id), this.totals(trace, place));
  }

  legend(id) {
    return htmlOf("div", { class: "legend" }, ...LEGEND.map(([kind, words]) =>
      htmlOf("span", { class: "key" }, withNames(pictureOf(MARK, MARK, null, ...marksOf(kind)), `${id}-key`), words)));
  }

  totals(trace, place) {
    const rows = tasksByPriority(trace.program).map((task) => {
      const { releases, ends, greatest, overBound } = trace.totals.get(task.name);
      return [task.name, task.kind(), task.priority, task.bound ?? "-", greatest ?? "-", releases, ends, overBound];
    });
    const heads = ["Thread", "Kind", "Priority", "Bound", "Greatest response", "Releases", "Ends", "Late ends"];
    return htmlTable({ id: `run_${place + 1}`, caption: `The whole trace, up to ${this.timesOf(trace.last)}; times in ticks`, heads, rows, words: [0, 1] });
  }

  /** The charts of a window, as many as pages have room for, in milliseconds where the design has a TICK. */
  charts(trace, from, to, words, id) {
    if (trace.countBetween(from, to) > MOST_EVENTS) return [];
    const clock = this.clocks[this.clocks.length - 1];
    const window = `${words}: ${clock.number(from)} to ${clock.span(to)} of ${clock.number(trace.last)}.`;
    try {
      const parts = new Chart(new Run(trace, from, to), WIDTH, { clock }).drawPages(TALLEST);
      const partOf = (place) => (parts.length === 1 ? "" : ` Part ${place + 1} of ${parts.length}.`);
      return parts.map((picture, place) => figureOf(withNames(picture, `${id}-${place + 1}`), `${window}${partOf(place)}`, "run tall"));
    } catch (fault) {
      return [htmlOf("p", { class: "note" }, `Ticks ${from} to ${to} can't be drawn: ${fault.message}.`)];
    }
  }

  /** The window of the activation that came nearest to its bound, if it stands behind what is drawn already. */
  closest(trace, drawn, id) {
    let best = null;
    for (const one of trace.activations) {
      if (one.end === null || one.task.bound === null) continue;
      const share = one.response() / one.task.bound;
      if (best === null || share > best.share) best = { share, one };
    }
    if (best === null || best.one.end <= drawn) return [];
    const { task, release, end } = best.one;
    const room = Math.max(10, Math.round(task.bound / 4));
    const words = `Nearest to its bound came ${task.name}, released at ${this.timesOf(release)}, with a response of ${this.timesOf(end - release)} of `
      + `${this.timesOf(task.bound)}`;
    return this.charts(trace, Math.max(0, release - room), Math.min(trace.last, release + task.bound + room), words, id);
  }

  // ---- What went in ----

  inputs() {
    const rows = this.given.identity.map(([what, which]) => htmlOf("tr", {}, htmlOf("th", { scope: "row" }, what), htmlOf("td", { class: "sum" }, which)));
    const texts = [[this.given.name, this.given.text], ...this.given.runs.map(({ name, text }) => [name, text])];
    const told = texts.flatMap(([name, text]) => [htmlOf("h3", {}, name), text.length > MOST_TEXT
      ? htmlOf("p", { class: "note" }, `${text.length} characters, left out here.`) : htmlOf("pre", {}, text.trimEnd())]);
    return sectionOf("inputs", "Program and inputs", htmlOf("table", { class: "identity" }, htmlOf("tbody", {}, ...rows)), told);
  }
}
