// The numbers of `analyse` as tables, and what is reckoned of them.
"use strict";

/** How long a tick is, where the design tells it. */
function tickOf(design) {
  const tick = /\btick\s*=\s*([\d_]+)\s*(us|ms|s)\b/i.exec(design.replace(/--[^\n]*/g, ""));
  return tick === null ? null : `${tick[1]} ${tick[2]}`;
}

/** How times are told, in a sentence. */
function timesAre(clock, tick) {
  if (clock.unit === "ms") return `Times are milliseconds; a tick is ${clock.time(1)}.`;
  return tick === null ? "Times are ticks." : `Times are ticks of ${tick}.`;
}

/** The terms of a response as a sum, of which none is broken over lines. */
function sumOf(thread, threads, clock) {
  return termsOf(thread, threads, clock).flatMap((term, place) => [...(place === 0 ? [] : [" + "]), make("span", { class: "term" }, term)]);
}

function cellOf(text, attributes = {}) {
  return make("td", attributes, String(text));
}

/** A bar of the cost, where it is known, and the response within the deadline. */
function barOf({ name, cost = undefined, response, deadline }, clock) {
  const width = 76;
  const told = `${cost === undefined ? "" : `cost ${clock.number(cost)} and `}response ${clock.number(response)} of deadline ${clock.time(deadline)}`;
  const part = (kind, ticks) =>
    draw("rect", { class: kind, x: 0, y: 2, width: Math.max(1, width * Math.min(1, ticks / deadline)), height: 10, rx: 2 });
  const picture = draw("svg", { class: "meter", width, height: 14, role: "img", "aria-label": `${name}: ${told}` }, told);
  picture.append(draw("rect", { class: "deadline", x: 0, y: 2, width, height: 10, rx: 2 }), part("response", response));
  if (cost !== undefined) picture.append(part("cost", cost));
  const cell = make("td", { class: "fill" });
  cell.innerHTML = picture.write();
  return cell;
}

function tableOf(caption, heads, rows) {
  const head = make("tr", {}, ...heads.map((text) => make("th", { scope: "col" }, text)));
  const body = rows.map(([name, ...cells]) =>
    make("tr", {}, make("th", { scope: "row" }, name), ...cells.map((cell) => (cell instanceof Node ? cell : cellOf(cell)))));
  return make("table", {}, make("caption", {}, caption), make("thead", {}, head), make("tbody", {}, ...body));
}

const HEADS = ["Thread", "Priority", "Period", "Deadline", "Jitter", "Cost", "Blocking", "Response", "Slack", "Of the deadline"];
const PROVED = "the bound that is proved: each activation ends within so many ticks of its release, whatever the arrivals and the branches taken";
const WORDS = [
  ["Period", "of a sporadic thread the least time between requests"],
  ["Jitter", "how late a release may come"],
  ["Blocking", "the longest that a thread of lower priority, inside an object, keeps this one waiting"],
  ["Slack", "the deadline less the response; this, the bar, the sums and the percentage are reckoned by the page"],
  ["Of the deadline", "dark the cost, paler the response, within the deadline"],
  ["Ceiling", "the priority at which an object is entered"],
];

/** What the words of the tables mean, and what a response is. */
function glossary(response) {
  const entries = [["Response", response], ...WORDS].map(([term, meaning]) => make("div", {}, make("dt", {}, term), make("dd", {}, `${meaning}.`)));
  return make("dl", { class: "words" }, ...entries);
}

/** Of what each response is made, where it is the sum of that. */
function whyList(threads, clock) {
  const found = threads.filter((one) => partsOf(one, threads).isSum);
  return make("ul", { class: "why", "aria-label": "Of what each response is made" },
    ...found.map((one) => make("li", {}, make("b", {}, `${one.name} ${clock.number(one.response)}`), " = ", ...sumOf(one, threads, clock))));
}

function ceilingTable(ceilings) {
  return ceilings.length === 0 ? [] : [tableOf("Ceilings", ["Object", "Ceiling"], ceilings.map((one) => [one.name, one.ceiling]))];
}

function boundsTables({ threads, ceilings }, tick, clock, response = PROVED) {
  if (threads.length === 0) return [make("p", { class: "note" }, "The design has no thread, so nothing is bounded."), ...ceilingTable(ceilings)];
  const least = threads.reduce((found, one) => (one.deadline - one.response < found.deadline - found.response ? one : found));
  const rows = threads.map((one) => [one.name, one.priority,
    ...[one.period, one.deadline, one.jitter, one.cost, one.blocking, one.response, one.deadline - one.response].map((ticks) => clock.number(ticks)),
    barOf(one, clock)]);
  const slack = `The least slack is ${clock.span(least.deadline - least.response)}, of ${least.name}.`;
  const sums = make("p", { class: "sums" }, `${slack} Costs by periods come to ${utilisationOf(threads)} of the processor.`);
  return [tableOf(`Threads, by priority. ${timesAre(clock, tick)}`, HEADS, rows), sums, whyList(threads, clock), ...ceilingTable(ceilings),
    glossary(response)];
}
