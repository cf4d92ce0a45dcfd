// Tables of a design and of its bounds as data, and as HTML, comma-separated values and LaTeX.
import { chainLinks, slackOf, spareOf, utilisationOf } from "./explanation.js";
import { linesOfObject } from "./diagram.js";
import { htmlOf } from "./markup.js";

/**
 * A table. `words` are the numbers of the columns that have words, which stand at their left edge.
 * @typedef {{ id: string, caption: string, heads: string[], rows: (string|number)[][], words: number[] }} Table
 */

const NONE = "-";
const MOST_TOGETHER = 14; // rows of a table that stays on one page of paper

/** A time as a cell, where there is one. */
function timeIn(ticks, clock) {
  return ticks === null || ticks === undefined ? NONE : clock.number(ticks);
}

/** The objects of a design, each behind its parent. */
export function objectTable({ objects }) {
  const rows = objects.map((one) => [
    one.name, one.parent?.name ?? NONE, one.kind.toUpperCase(),
    one.operations.map(({ name, constraint }) => `${name} ${(constraint ?? "").toUpperCase()}`.trimEnd()).join(", "),
    one.required.map(({ object, operation }) => `${object}.${operation}`).join(", "), linesOfObject(one, null).join(", "),
  ]);
  return { id: "objects", caption: "Objects", heads: ["Object", "In", "Kind", "Provides", "Requires", "Times"], rows,
    words: [0, 1, 2, 3, 4, 5] };
}

/** The bounds of the threads, with what is left to deadlines and periods. */
export function boundTable({ threads }, clock) {
  const rows = threads.map((one) => [
    one.name, one.priority, ...[one.period, one.deadline, one.jitter, one.cost, one.blocking, one.response, slackOf(one), spareOf(one)]
      .map((ticks) => timeIn(ticks, clock)), utilisationOf([one]),
  ]);
  if (threads.length > 1) rows.push(["all", "", "", "", "", "", "", "", "", "", utilisationOf(threads)]);
  return { id: clock.unit === "ticks" ? "bounds" : "bounds_ms", caption: `Threads by priority; times in ${clock.unit}`, rows, words: [0],
    heads: ["Thread", "Priority", "Period", "Deadline", "Jitter", "Cost", "Blocking", "Response", "Slack", "Before the next release", "Utilisation"] };
}

/** The bounds of the hard threads of a design with background objects, as far as the head of its Ada text tells them. */
export function hardTable(threads, clock) {
  const rows = threads.map((one) => [one.name, one.priority, ...[one.deadline, one.jitter, one.response, slackOf(one)].map((ticks) => timeIn(ticks, clock))]);
  return { id: clock.unit === "ticks" ? "hard" : "hard_ms", caption: `Hard threads by priority; times in ${clock.unit}`, rows, words: [0],
    heads: ["Thread", "Priority", "Deadline", "Jitter", "Response", "Slack"] };
}

/** What the terms of each response are, and of blocking which section it is. */
export function termTable({ threads }, clock) {
  const rows = threads.flatMap((one) => [
    [one.name, "cost", NONE, timeIn(one.cost, clock)],
    ...(one.blocked === null ? [] : [[one.name, "blocking", `${one.blocked.by} in ${one.blocked.inside}`, timeIn(one.blocked.ticks, clock)]]),
    ...one.delayed.map(({ by, activations, ticks }) => [one.name, "preemption", `${by}, ${activations} activation${activations === 1 ? "" : "s"}`,
      timeIn(ticks, clock)]),
  ]);
  return { id: "terms", caption: `Of what each response is made; times in ${clock.unit}`, heads: ["Thread", "Term", "By", "Time"], rows, words: [0, 1, 2] };
}

export function chainTable({ chains, threads }, clock) {
  const rows = chains.map((one) => [chainLinks(one, threads).map(({ name }) => name).join(", "), timeIn(one.jitter, clock), timeIn(one.response, clock)]);
  return { id: "chains", caption: `Chains of requests; times in ${clock.unit}`, heads: ["Chain", "Jitter of its first thread", "Response"], rows, words: [0] };
}

/** The ceilings, and what requires the objects directly. */
export function ceilingTable({ ceilings }, { objects }) {
  const usersOf = (name) => objects.filter((one) => one.children.length === 0 && one.required.some((required) => required.object === name));
  const rows = ceilings.map(({ name, ceiling }) => {
    const kind = objects.find((one) => one.name === name)?.kind ?? "";
    return [name, kind === "sporadic" ? "its requests" : kind, ceiling, usersOf(name).map((one) => one.name).join(", ")];
  });
  return { id: "ceilings", caption: "Ceilings", heads: ["Object", "Of", "Ceiling", "Required by, directly"], rows, words: [0, 1, 3] };
}

/** A table of lines of comma-separated values, as scripts write them. */
export function tableOfLines(id, caption, text, words) {
  const lines = text.trimEnd().split("\n").map(cellsOf);
  return { id, caption, heads: lines[0].map((head) => head.replaceAll("_", " ")), rows: lines.slice(1), words };
}

/** The cells of a line of comma-separated values. */
function cellsOf(line) {
  const cells = [];
  for (const [, cell, comma] of line.matchAll(/("(?:[^"]|"")*"|[^,]*)(,|$)/g)) {
    cells.push(cell.startsWith('"') ? cell.slice(1, -1).replaceAll('""', '"') : cell);
    if (comma === "") break;
  }
  return cells;
}

// ---- As texts ----

/** A table as an element of a page. The first cell of a row is its head. */
export function htmlTable({ caption, heads, rows, words, id }) {
  const kindOf = (column) => (words.includes(column) ? { class: "left" } : {});
  const head = htmlOf("tr", {}, ...heads.map((text, column) => htmlOf("th", { scope: "col", ...kindOf(column) }, text)));
  const body = rows.map(([first, ...cells]) => htmlOf("tr", {}, htmlOf("th", { scope: "row" }, String(first)),
    ...cells.map((cell, index) => htmlOf("td", kindOf(index + 1), String(cell)))));
  return htmlOf("div", { class: rows.length > MOST_TOGETHER ? "table" : "table short", tabindex: 0, role: "region", "aria-label": caption }, htmlOf("table", { id: `table-${id}` },
    htmlOf("caption", {}, caption), htmlOf("thead", {}, head), htmlOf("tbody", {}, ...body)));
}

/** Tables as comma-separated values: of each a line with its name and caption, then heads and rows; an empty line is between two. */
export function csvOf(/** @type {Table[]} */ tables) {
  const cell = (value) => (/[",\n]/.test(String(value)) ? `"${String(value).replaceAll('"', '""')}"` : String(value));
  return tables.map(({ id, caption, heads, rows }) =>
    [["table", id, caption], heads, ...rows].map((row) => `${row.map(cell).join(",")}\n`).join("")).join("\n");
}

/** @type {Record<string, string>} */
const LATEX = { "\\": "\\textbackslash{}", "&": "\\&", "%": "\\%", "$": "\\$", "#": "\\#", "_": "\\_", "{": "\\{", "}": "\\}", "~": "\\textasciitilde{}",
  "^": "\\textasciicircum{}", "·": "\\textperiodcentered{}" };

/** Tables as LaTeX, each in an environment `table` with its caption and a label. They need no package. */
export function latexOf(/** @type {Table[]} */ tables) {
  const text = (value) => String(value).replace(/[\\&%$#_{}~^·]/g, (sign) => LATEX[sign]);
  return tables.map(({ id, caption, heads, rows, words }) => {
    const columns = heads.map((_, column) => (words.includes(column) ? "l" : "r")).join("");
    const line = (row) => `${row.map(text).join(" & ")} \\\\`;
    return ["\\begin{table}[htbp]", "\\centering\\small", `\\caption{${text(caption)}}`, `\\label{tab:${id.replaceAll("_", "-")}}`,
      `\\begin{tabular}{${columns}}`, "\\hline", line(heads), "\\hline", ...rows.map(line), "\\hline", "\\end{tabular}", "\\end{table}", ""].join("\n");
  }).join("\n");
}
