// How times are told: as ticks, or as milliseconds where a design says how long a tick is.

const MICROSECONDS = { us: 1, ms: 1000, s: 1000000 };

/** The first of 1, 2, 5, 10, 20, .. that is at least so much. */
export function roundStep(/** @type {number} */ least) {
  for (let power = 1; ; power *= 10) {
    for (const factor of [1, 2, 5]) if (factor * power >= least) return factor * power;
  }
}

/** The microseconds of a tick by the TICK of a design of version 2; or null. */
export function microsecondsOf(/** @type {string} */ design) {
  const head = /^\s*design\s+\w+\s+version\s+2\s+is\s+tick\s*=\s*([\d_]+)\s*(us|ms|s)\s*;/i.exec(design.replace(/--[^\n]*/g, ""));
  return head === null ? null : Number(head[1].replaceAll("_", "")) * MICROSECONDS[/** @type {"us"|"ms"|"s"} */ (head[2].toLowerCase())];
}

/** The ticks of a time as a design writes it, with its unit or none, where a tick has so many microseconds. */
export function ticksOf(/** @type {{ number: number, unit: string|null }} */ { number, unit }, /** @type {number|null} */ microseconds) {
  const known = unit === null ? undefined : MICROSECONDS[/** @type {"us"|"ms"|"s"} */ (unit)];
  return known === undefined || microseconds === null ? number : (number * known) / microseconds;
}

/** Tells times as ticks, or with the microseconds of a tick as milliseconds. */
export class Clock {
  constructor(/** @type {number|null} */ microseconds = null) {
    this.microseconds = microseconds;
    this.unit = microseconds === null ? "ticks" : "ms";
  }

  /** A time without its unit. */
  number(/** @type {number} */ ticks) {
    return String(this.microseconds === null ? ticks : (ticks * this.microseconds) / 1000);
  }

  /** The ticks of a time as it is shown, rounded. */
  ticks(/** @type {number} */ shown) {
    return Math.round(this.microseconds === null ? shown : (shown * 1000) / this.microseconds);
  }

  /** A time with its unit where that isn't ticks. */
  time(/** @type {number} */ ticks) {
    return this.microseconds === null ? String(ticks) : `${this.number(ticks)} ms`;
  }

  /** A length of time with its unit. */
  span(/** @type {number} */ ticks) {
    return `${this.number(ticks)} ${this.unit === "ticks" && ticks === 1 ? "tick" : this.unit}`;
  }

  /** The ticks of a step of a scale that is at least so many ticks, and a round number as it is told, if there is one. */
  step(/** @type {number} */ least) {
    const tick = this.microseconds;
    if (tick === null) return roundStep(least);
    for (let step = roundStep(least * tick), turn = 0; turn < 12; step = roundStep(step + 1), turn++) if (step % tick === 0) return step / tick;
    return roundStep(least);
  }
}

export const TICKS = new Clock();
