// A late design with its limits lifted, so that its run can be looked at: its budgets at their most, and its deadlines as late as their periods
// and the order of priorities let them be. Bodies, periods and priorities stay, so the same statements take the same ticks in the same order. What
// comes of it is another design, and of the one that is late nothing is promised.
import { tokensOf } from "./design_text.js";
import { readOutline } from "./outline.js";

const MOST = 1000000000; // ticks of a budget

/** A change of a text: the attribute of a thread, and what it was, as written, and is. */
class Change {
  constructor(thread, attribute, place, from, to) {
    this.thread = thread;
    this.attribute = attribute;
    this.place = place;
    this.from = from;
    this.to = to;
  }
}

/** The text with its changes; their places are those of the text before. */
function changed(text, changes) {
  const sorted = [...changes].sort((one, other) => other.place - one.place);
  return sorted.reduce((whole, { place, from, to }) => whole.slice(0, place) + to + whole.slice(place + from.length), text);
}

/** The number of an attribute of an object, with its unit, as it is written; or null. */
function writtenOf(text, object, attribute) {
  const tokens = tokensOf(text.slice(0, object.end)).filter(({ index }) => index >= object.start);
  const place = tokens.findIndex(({ word }, index) => word === attribute && tokens[index + 1]?.word === "=");
  const number = tokens[place + 2];
  if (place < 0 || number === undefined || !/^\d/.test(number.word)) return null;
  const next = tokens[place + 3];
  const last = next !== undefined && /^(us|ms|s)$/.test(next.word) ? next : number;
  return { place: number.index, words: text.slice(number.index, last.index + last.length) };
}

/** The design with the budget of each thread at the most that there is: a budget is compared with the cost, and has no other use. */
export function withoutBudgets(text) {
  const changes = readOutline(text).objects.flatMap((object) => {
    const written = object.attributes.has("thread_budget") ? writtenOf(text, object, "thread_budget") : null;
    return written === null ? [] : [new Change(object.name, "THREAD_BUDGET", written.place, written.words, String(MOST))];
  });
  return { text: changed(text, changes), changes };
}

/**
 * The latest deadlines that keep the order of priorities, by thread: at most the period, and at most that of the thread below. Of equal deadlines
 * the earlier thread of the text has the greater priority.
 */
function latestDeadlines(threads, order) {
  const latest = new Map();
  let below = null;
  for (const thread of [...threads].reverse()) {
    const isEarlier = below === null || order.indexOf(thread.name) < order.indexOf(below.name);
    const most = below === null ? thread.period : latest.get(below.name) - (isEarlier ? 0 : 1);
    latest.set(thread.name, Math.min(thread.period, most));
    below = thread;
  }
  return latest;
}

/** Why a thread misses its latest deadline too; or null. */
function whyLate({ name, period, jitter, response }, deadline) {
  if (response === null) return `${name} has no response within ten times its limit`;
  if (response > period) return `the response of ${name}, ${response}, is over its period, ${period}`;
  if (jitter + response > period) return `the jitter and the response of ${name}, ${jitter} and ${response}, are over its period, ${period}`;
  if (response > deadline) return `the response of ${name}, ${response}, is over ${deadline}, beyond which its deadline would change the priorities`;
  return null;
}

/** The design with each deadline as late as it can be, by what `explain` tells of its threads: its text and the changes, or why there is none. */
export function withLaterDeadlines(text, threads) {
  const { objects } = readOutline(text);
  const latest = latestDeadlines(threads, objects.map((one) => one.name));
  const whys = threads.map((thread) => whyLate(thread, latest.get(thread.name))).filter((why) => why !== null);
  if (whys.length > 0) return { text: null, changes: [], why: whys[0] };
  const changes = threads.flatMap(({ name, deadline }) => {
    const to = latest.get(name);
    const object = objects.find((one) => one.name === name);
    const written = object === undefined || to === deadline ? null : writtenOf(text, object, "deadline");
    return written === null ? [] : [new Change(name, "DEADLINE", written.place, written.words, String(to))];
  });
  return { text: changed(text, changes), changes, why: null };
}
