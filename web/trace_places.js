// Where a trace that is refused breaks. The program tells the line of T1 alone, and of T2 which part is broken; the line of that is reckoned
// here, of the trace, the texts, and the trace of the page's own run where there is one. Each place has words that tell how it was found.
"use strict";

/** The lines of a trace as events, and the horizon of the arrivals. */
class GivenTrace {
  constructor(texts, own) {
    this.lines = texts.trace.replace(/\n$/, "").split("\n");
    this.events = this.lines.map((line, index) => readEvent(line, index + 1));
    this.own = own === null ? null : own.map((line, index) => readEvent(line, index + 1));
    this.horizon = Number(/\buntil\s+([\d_]+)/i.exec(texts.arrivals.replace(/--[^\n]*/g, ""))?.[1].replaceAll("_", ""));
    this.threads = new Set(readOutline(texts.design).objects.filter((one) => one.hasThread).map((one) => one.name));
  }

  /** The places of the events of this kind. */
  places(test, events = this.events) {
    return events.flatMap((event, index) => (test(event) ? [index] : []));
  }

  /** The first of the places whose event has other words than that of the run at the same turn; or undefined, where none has. */
  firstOther(test, wordsOf) {
    if (this.own === null) return undefined;
    const [ours, given] = [this.places(test, this.own), this.places(test)];
    const turn = given.findIndex((place, index) => ours[index] === undefined || wordsOf(this.events[place]) !== wordsOf(this.own[ours[index]]));
    if (turn >= 0) return { place: given[turn], isMissing: false, own: this.own[ours[turn]] };
    const next = this.own[ours[given.length]];
    if (next === undefined) return undefined;
    const behind = this.events.findIndex((event) => event.time > next.time || event.kind === "horizon");
    return { place: behind < 0 ? this.events.length - 1 : behind, isMissing: true, own: next };
  }

  /** Times, tasks, and the horizon at the end. */
  order() {
    for (const [place, event] of this.events.entries()) {
      const isLast = place === this.events.length - 1;
      if (place > 0 && event.time < this.events[place - 1].time) return { place, why: "its time is below that of the line before" };
      if (event.time > this.horizon) return { place, why: `its time is over the horizon, ${this.horizon}` };
      if (event.kind === "stop") return { place, why: "no trace of a design has a stop" };
      if (event.kind === "horizon" && !isLast) return { place, why: "lines come behind the horizon" };
      if (event.kind !== "horizon" && !this.threads.has(event.task)) return { place, why: `${event.task} is no thread of the design` };
    }
    return { place: this.events.length - 1, why: `the last line has to be ${this.horizon} horizon` };
  }

  /** The line of these that isn't as in the page's own run, whatever its time; or the first of them. */
  unlike(test, name) {
    const found = this.firstOther(test, ({ line }) => line.replace(/^\d+ /, ""));
    if (found !== undefined && !found.isMissing) {
      const other = found.own === undefined ? `no more line of ${name}` : `"${found.own.line}" in its turn`;
      return { place: found.place, why: `the page's own run has ${other}` };
    }
    return { place: this.places(test)[0] ?? this.events.length - 1, why: `the first line of ${name}` };
  }

  /** The release of a cyclic thread, or the request from outside, that isn't as in the page's own run: the trace has to have these. */
  due(test, what) {
    const found = this.firstOther(test, ({ line }) => line);
    if (found === undefined) return { place: this.places(test)[0] ?? this.events.length - 1, why: `the first ${what}` };
    if (found.isMissing) return { place: found.place, why: `before it "${found.own.line}" is missing` };
    return { place: found.place, why: found.own === undefined ? `there is no ${what} left to come` : `in its place is due "${found.own.line}"` };
  }

  /** The release of a sporadic thread that doesn't serve the request whose turn it is. */
  served(name) {
    const requests = this.places(({ kind, task, object }) => (kind === "arrive" && task === name) || (kind === "request" && object === name));
    const releases = this.places(({ kind, task }) => kind === "release" && task === name);
    const ends = this.places(({ kind, task }) => kind === "end" && task === name);
    for (let turn = 0; turn < Math.max(requests.length, releases.length); turn++) {
      const [request, release] = [this.events[requests[turn]], this.events[releases[turn]]];
      if (request === undefined) return { place: releases[turn], why: "no request is left that it could serve" };
      const before = turn === 0 ? 0 : this.events[ends[turn - 1]]?.time ?? Infinity;
      const time = Math.max(request.time, before);
      if (release === undefined && time <= this.horizon) return { place: requests[turn], why: `the release for it is due at ${time}, and missing` };
      if (release === undefined) continue;
      const why = time === Infinity ? "the activation before has no end" : `it is due at ${time}`;
      if (release.time !== time) return { place: releases[turn], why };
      if (String(release.values) !== String(request.values)) return { place: releases[turn], why: "it hasn't the value of its request" };
    }
    return { place: releases[0] ?? this.events.length - 1, why: `the first release of ${name}` };
  }

  /** A line of an activation that isn't as in the page's own run, or an end with too little time before it. */
  activation(name) {
    const isOf = ({ kind, task }) => task === name && kind !== "arrive";
    let released = 0;
    for (const place of this.places(isOf)) {
      const { kind, time, values } = this.events[place];
      if (kind === "release") released = time;
      if (kind === "end" && time - released < values[0]) return { place, why: `since its release ${name} had ${time - released} ticks` };
    }
    return this.unlike(isOf, name);
  }

  /** An operation that is entered before another of the object is left, or a line of it that isn't as in the page's own run. */
  inside(name) {
    const isOf = ({ kind, object }) => object === name && (kind === "enter" || kind === "leave");
    let who = null;
    for (const place of this.places(isOf)) {
      const { kind, task } = this.events[place];
      if (kind === "enter" && who !== null) return { place, why: `${who} is inside ${name} there` };
      who = kind === "enter" ? task : null;
    }
    return this.unlike(isOf, name);
  }

  /** The place of what is told of a part, with why it is that. */
  placeOf(part, name) {
    if (part === "a") return this.order();
    if (part === "b") return this.due(({ kind, task }) => kind === "release" && task === name, `release of ${name}`);
    if (part === "c" && name === undefined) return this.due(({ kind }) => kind === "arrive", "arrive");
    if (part === "c") return this.served(name);
    return part === "d" ? this.activation(name) : this.inside(name);
  }
}

/** The line of a trace that a refusal tells, or that is reckoned of it; or null. `own` are the lines of the page's own run, or null. */
function markOfTrace(line, texts, own) {
  const [, code, part, name] = /^refused (T[12]) (line|\w)(?: (\w+))?$/.exec(line) ?? [];
  if (code === undefined || texts.trace === "") return null;
  const lines = texts.trace.split("\n");
  const { place, why } = code === "T1" ? { place: Number(name) - 1, why: "" } : new GivenTrace(texts, own).placeOf(part, name);
  const index = lines.slice(0, place).reduce((sum, one) => sum + one.length + 1, 0);
  return { kind: "trace", index, length: Math.max(1, lines[place]?.length ?? 1), why };
}
