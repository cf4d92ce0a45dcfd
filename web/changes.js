// What changed from one design to another: objects, attributes, operations, calls and costs of the text, then bounds side by side, as data and Markdown.
import { KEPT, tokensOf } from "./design_text.js";
import { slackOf } from "./explanation.js";
import { readOutline } from "./outline.js";

/** The numbers behind COSTS at the head of a design, by name, and TICK and PRIORITIES where it has them. */
function headOf(text) {
  const tokens = tokensOf(text);
  const end = tokens.findIndex(({ word }, place) => word === "object" && tokens[place + 2]?.word === "is");
  const words = tokens.slice(0, end < 0 ? undefined : end).map(({ word }) => word);
  const found = new Map();
  words.forEach((word, place) => {
    if (words[place + 1] === "=" && word !== "tick") found.set(word, Number(words[place + 2]?.replaceAll("_", "")));
    else if (word === "tick") found.set(word, `${words[place + 2]} ${words[place + 3]}`);
    else if (word === "priorities") found.set(word, words.slice(place + 1, place + 5).join("").replace(";", ""));
  });
  return found;
}

/** The calls in the bodies of an object's own text, OBJECT.OPERATION with how often each stands there. */
function callsOf(object, text) {
  const cut = [...object.children].reduce((rest, { start, end }) => rest.slice(0, start) + " ".repeat(end - start) + rest.slice(end), text.slice(0, object.end));
  const words = tokensOf(cut.slice(object.start)).map(({ word }) => word);
  const begin = words.findIndex((word, place) => word === "thread" || (word === "operation" && words[place + 2] === "is"));
  const found = new Map();
  if (begin < 0) return found;
  for (let place = begin; place < words.length; place++) {
    const [one, dot, other, next] = words.slice(place, place + 4);
    if (dot !== "." || (next !== ";" && next !== "(") || KEPT.has(one)) continue;
    found.set(`${one}.${other}`, (found.get(`${one}.${other}`) ?? 0) + 1);
  }
  return found;
}

/** The text of the bodies of an object, without layout, and with the numbers of its work. */
function bodyOf(object, text) {
  const cut = [...object.children].reduce((rest, { start, end }) => rest.slice(0, start) + " ".repeat(end - start) + rest.slice(end), text.slice(0, object.end));
  const words = tokensOf(cut.slice(object.start)).map(({ word }) => word);
  const begin = words.findIndex((word, place) => word === "data" || word === "thread" || (word === "operation" && words[place + 2] === "is"));
  return { words: begin < 0 ? "" : words.slice(begin).join(" "), work: words.flatMap((word, place) => (word === "work" ? [words[place + 2]] : [])) };
}

const timeOf = (time) => (time === undefined ? null : time.unit === null ? String(time.number) : `${time.number} ${time.unit}`);
const parametersOf = ({ parameters }) => parameters.map(({ name, way }) => `${name} : ${way}`).join("; ");

/** The properties of an object that are compared: pairs of what and its value. */
function propertiesOf(object, text) {
  const found = new Map([["kind", object.kind.toUpperCase()], ["in", object.parent?.name ?? "the design"]]);
  for (const [name, time] of object.attributes) found.set(name.toUpperCase(), timeOf(time));
  for (const one of object.operations) found.set(`provides ${one.name}`, `(${parametersOf(one)}) ${(one.constraint ?? "").toUpperCase()}`.trim());
  for (const { object: target, operation } of object.required) found.set(`requires ${target}.${operation}`, "yes");
  for (const [operation, to] of object.links) found.set(`implements ${operation}`, `${to.object}.${to.operation}`);
  for (const [call, count] of callsOf(object, text)) found.set(`calls ${call}`, count === 1 ? "once" : `${count} times`);
  const { work } = bodyOf(object, text);
  if (work.length > 0) found.set("work", work.join(", "));
  return found;
}

/** The names in two maps with other values, each with both; one that is missing is null. */
function differences(one, other) {
  return [...new Set([...one.keys(), ...other.keys()])].map((what) => ({ what, before: one.get(what) ?? null, after: other.get(what) ?? null }))
    .filter(({ before, after }) => before !== after);
}

/** What changed in the texts of two designs: of the head, of the objects that came and went, and of those in both. */
export function changesOfTexts(/** @type {string} */ before, /** @type {string} */ after) {
  const [one, other] = [readOutline(before), readOutline(after)];
  const [ones, others] = [one, other].map(({ objects }) => new Map(objects.map((object) => [object.name, object])));
  const both = one.objects.filter(({ name }) => others.has(name)).map((object) => {
    const now = others.get(object.name);
    const found = differences(propertiesOf(object, before), propertiesOf(now, after));
    if (found.length === 0 && bodyOf(object, before).words !== bodyOf(now, after).words) found.push({ what: "statements", before: "others", after: "others" });
    return { name: object.name, found };
  });
  return {
    names: [one.name, other.name],
    head: differences(headOf(before), headOf(after)),
    gone: one.objects.filter(({ name }) => !others.has(name)),
    come: other.objects.filter(({ name }) => !ones.has(name)),
    changed: both.filter(({ found }) => found.length > 0),
  };
}

/** The threads of two designs side by side, by the slack that is lost, the greatest loss first; then those that are in one of them alone. */
export function changesOfBounds(before, after) {
  const others = new Map(after.threads.map((thread) => [thread.name, thread]));
  const both = before.threads.filter(({ name }) => others.has(name)).map((thread) => {
    const now = others.get(thread.name);
    const [was, is] = [slackOf(thread), slackOf(now)];
    // Who has no response any more lost most; who has one again won most.
    const loss = was === null && is === null ? 0 : is === null ? Infinity : was === null ? -Infinity : was - is;
    return { name: thread.name, before: thread, after: now, loss };
  });
  both.sort((one, other) => (one.loss === other.loss ? 0 : other.loss > one.loss ? 1 : -1));
  const names = new Set(before.threads.map(({ name }) => name));
  return { both, gone: before.threads.filter(({ name }) => !others.has(name)), come: after.threads.filter(({ name }) => !names.has(name)) };
}

// ---- As Markdown ----

const escapedCell = (value) => String(value ?? "-").replaceAll("|", "\\|");

function tableOf(heads, rows, isNumber) {
  const rule = heads.map((_, column) => (isNumber(column) ? "---:" : "---"));
  return [heads, rule, ...rows].map((row, place) => (place === 1 ? `|${row.join("|")}|` : `| ${row.map(escapedCell).join(" | ")} |`));
}

const signed = (ticks, clock) => `${ticks > 0 ? "+" : ""}${clock.number(ticks)}`;

/** A number and, where it is another one now, that: `23`, or `23 → 25`. */
function pairOf(before, after) {
  return before === after ? before : `${before} → ${after}`;
}

function textLines({ head, gone, come, changed }) {
  const rows = [
    ...head.map(({ what, before, after }) => ["the design", what.toUpperCase(), before, after]),
    ...gone.map((one) => [one.name, "object", one.kind.toUpperCase(), null]),
    ...come.map((one) => [one.name, "object", null, one.kind.toUpperCase()]),
    ...changed.flatMap(({ name, found }) => found.map(({ what, before, after }) => [name, what, before, after])),
  ];
  if (rows.length === 0) return ["The texts have the same objects, attributes, operations, calls and costs.", ""];
  return [...tableOf(["Object", "What", "Before", "After"], rows, () => false), ""];
}

function boundLines({ both, gone, come }, clock) {
  const time = (ticks) => (ticks === null ? "none" : clock.number(ticks));
  const rows = both.map(({ name, before, after, loss }) => {
    const change = loss === 0 ? "0" : !Number.isFinite(loss) ? (loss > 0 ? "no response" : "a response again") : signed(-loss, clock);
    return [name, pairOf(String(before.priority), String(after.priority)), pairOf(time(before.cost), time(after.cost)),
      pairOf(time(before.blocking), time(after.blocking)), pairOf(time(before.deadline), time(after.deadline)), pairOf(time(before.response), time(after.response)),
      time(slackOf(before)), time(slackOf(after)), change];
  });
  const alone = (threads, isBefore) => threads.map((one) => [one.name, one.priority, time(one.cost), time(one.blocking), time(one.deadline),
    time(one.response), isBefore ? time(slackOf(one)) : "-", isBefore ? "-" : time(slackOf(one)), isBefore ? "gone" : "new"]);
  const heads = ["Thread", "Priority", "Cost", "Blocking", "Deadline", "Response", "Slack before", "Slack after", "Change of slack"];
  return [...tableOf(heads, [...rows, ...alone(gone, true), ...alone(come, false)], (column) => column > 0), ""];
}

/**
 * What changed, as Markdown for a review. Of each side the text, the line of its refusal by `analyse` or null, and what `explain` writes or null.
 * @param {{ name: string, text: string, refused: string|null, explanation: any }} before
 * @param {{ name: string, text: string, refused: string|null, explanation: any }} after
 * @param {any} clock
 */
export function markdownOf(before, after, clock) {
  const verdict = ({ name, refused }) => `- ${name}: ${refused === null ? "every deadline is met" : `\`${refused}\``}`;
  const lines = [`# From ${before.name} to ${after.name}`, "", verdict(before), verdict(after), "", "## What changed in the text", "",
    ...textLines(changesOfTexts(before.text, after.text))];
  lines.push(`## Bounds, in ${clock.unit}`, "");
  const unknown = [before, after].filter(({ explanation }) => explanation === null);
  if (unknown.length > 0) lines.push(`There are no bounds of ${unknown.map(({ name }) => name).join(" and ")} to compare.`, "");
  else {
    lines.push("By loss of slack, the greatest first.", "", ...boundLines(changesOfBounds(before.explanation, after.explanation), clock));
    const ceilings = ({ explanation }) => new Map(explanation.ceilings.map(({ name, ceiling }) => [name, ceiling]));
    const moved = differences(ceilings(before), ceilings(after));
    if (moved.length > 0) lines.push("## Ceilings", "", ...tableOf(["Object", "Before", "After"], moved.map(({ what, before: was, after: is }) => [what, was, is]),
      (column) => column > 0), "");
  }
  return lines.join("\n");
}
