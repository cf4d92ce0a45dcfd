// What a refusal says in plain words, by the data of web/refusals.json, and where it stands in the texts. The page, tools/report/told_at.mjs and
// by that ./hrthood on a terminal tell it.
"use strict";

import { shownWord, tokensOf } from "./design_text.js";
import { faultAt, foundOf, placeIn } from "./places.js";

/** @typedef {import("./places.js").Texts} Texts */
/** @typedef {import("./places.js").Found} Found */
/** @typedef {{ line: string, says: string, look?: string, do?: string, causes?: string[] }} Entry */
/** @typedef {{ at: string, before?: string, next?: string, head?: string, wanted?: string, inside?: string, kind?: string, shown?: string, says: string }} Hint */
/** @typedef {{ tables: Record<string, Entry[]>, bodies: Record<string, { says: string, do: string }>, hints: Hint[], marks: Hint[],
 *   details: Record<string, string>, mended: string[] }} RefusalData */
/** @typedef {{ kind: string, line: number, column: number }} Place */
/** @typedef {{ code: string, place: Place|null, says: string, more: string[], notes: { place: Place, says: string }[] }} Told */

/** The pattern of a line: a word in capitals stands for a name, one capital letter for a number, and `..` for more names. */
function patternOf(/** @type {string} */ line) {
  const form = (/** @type {string} */ name) => (name.length === 1 ? "\\d+" : name === "FAULT" ? "B\\d" : "[^ .]+");
  const escaped = line.replace(/\.\.$/, "@").replaceAll(".", "\\.");
  return new RegExp(`^${escaped.replace(/\b[A-Z]+\b/g, (name) => `(?<${name}>${form(name)})`).replace("@", ".*")}$`);
}

const fits = (/** @type {string|undefined} */ pattern, /** @type {string} */ word) => pattern === undefined || new RegExp(`^(?:${pattern})$`).test(word);

/** What can stand somewhere, in words of the grammar; operators as one. */
function shownWants(/** @type {string[]} */ wanted) {
  const groups = [["an operator", ["*", "/", "mod", "+", "-"]], ["a comparison", ["=", "/=", "<", "<=", ">", ">="]],
    ["a statement", ["null", "if", "for", "exit", "work", "put", "a name"]]];
  let left = wanted;
  const shown = [];
  for (const [name, words] of /** @type {[string, string[]][]} */ (groups)) {
    if (!words.every((word) => left.includes(word))) continue;
    left = left.filter((word) => !words.includes(word));
    shown.push(name);
  }
  return [...left.map(shownWord), ...shown].join(", ");
}

/** The sentences of all refusals. */
export class Refusals {
  constructor(/** @type {RefusalData} */ data) {
    this.data = data;
    this.forms = Object.values(data.tables).flat().map((entry) => ({ entry, pattern: patternOf(entry.line) }));
  }

  /** The entry of a line, with what its words stand for; or null. */
  formOf(/** @type {string} */ line) {
    for (const { entry, pattern } of this.forms) {
      const groups = pattern.exec(line)?.groups;
      if (groups !== undefined || pattern.test(line)) return { entry, values: this.valuesOf(groups ?? {}) };
    }
    return null;
  }

  /** The values of a line as its sentence has them. */
  valuesOf(/** @type {Record<string, string>} */ groups) {
    const { PART, FAULT } = groups;
    const values = { ...groups };
    if (PART !== undefined) values.PART = PART === "thread" ? "The thread" : `The operation ${PART}`;
    if (FAULT !== undefined) values.FAULT = this.data.bodies[FAULT]?.says ?? FAULT;
    return values;
  }

  fill(/** @type {string} */ text, /** @type {Record<string, string>} */ values) {
    return text.replace(/\{(\w+)\}/g, (_, name) => values[name] ?? name);
  }

  detail(/** @type {{ key: string, values: Record<string, string> }} */ { key, values }) {
    return this.fill(this.data.details[key], values);
  }

  /** What a line of standard error says: a sentence, and what to look at and to do, which may be empty. Null for other lines. */
  wordsOf(/** @type {string} */ line, /** @type {Texts} */ texts, /** @type {Found|null} */ found = foundOf(line, texts)) {
    const form = this.formOf(line);
    if (form === null) return null;
    const { entry, values } = form;
    const fault = this.data.bodies[/\b(B\d)$/.exec(line)?.[1] ?? ""];
    const detail = found?.detail ?? null;
    const general = this.fill(entry.says, values);
    const isGeneral = detail === null || this.data.mended.includes(detail.key);
    const mend = [detail === null && entry.look !== undefined && fault === undefined ? this.fill(entry.look, values) : "",
      isGeneral ? this.fill(entry.do ?? fault?.do ?? "", values) : ""];
    const ofText = this.textWords(line, texts, found);
    const causes = detail === null && entry.causes !== undefined && found === null ? [`It has one of these causes: ${entry.causes.join("; ")}.`] : [];
    if (ofText !== null) return ofText;
    if (found?.notes.some(({ key }) => key === "similar")) return { says: detail === null ? general : this.detail(detail), more: [] };
    return { says: detail === null ? general : this.detail(detail), more: [...mend, ...causes].filter((one) => one !== "") };
  }

  /** What is said of a place in a text: what may be meant, and what could stand there. */
  textWords(/** @type {string} */ line, /** @type {Texts} */ texts, /** @type {Found|null} */ found) {
    const [, code, kind] = /^refused (S1|L1) (design|arrivals|ada) line/.exec(line) ?? [];
    const text = texts[kind ?? ""];
    if (code === undefined || text === undefined || found === null) return null;
    const entry = /** @type {{ entry: Entry }} */ (this.formOf(line)).entry;
    const index = found.span.index;
    if (code === "L1") {
      const mark = this.data.marks.find(({ at, before }) => new RegExp(`^(?:${at})`).test(text.slice(index))
        && fits(before, text.slice(Math.max(0, index - 1), index)));
      return { says: mark === undefined ? entry.says : `${entry.says} ${mark.says}`, more: mark === undefined ? [entry.look ?? ""] : [] };
    }
    const fault = faultAt(kind, text, index);
    if (fault === null) return { says: entry.says, more: [entry.look ?? ""] };
    const hint = this.hintOf(kind, text, fault);
    const wants = this.detail({ key: "wants", values: { WANTS: shownWants(fault.wanted) } });
    if (hint === undefined && fault.wanted.length === 1) return { says: this.detail({ key: "one", values: { WANTS: shownWants(fault.wanted) } }), more: [] };
    return { says: hint?.says ?? entry.says, more: hint === undefined ? [wants, entry.look ?? ""] : [wants] };
  }

  /** What is meant most often where such a token stands. */
  hintOf(/** @type {string} */ kind, /** @type {string} */ text, /** @type {NonNullable<ReturnType<typeof faultAt>>} */ { tokens, place, wanted, inside }) {
    const word = (/** @type {number} */ at) => tokens[at]?.word ?? "";
    const head = tokensOf(text).slice(0, 4).map((token) => token.word).join(" ");
    return this.data.hints.find((one) => (one.kind ?? "design") === kind && fits(one.at, word(place)) && fits(one.before, word(place - 1)) && fits(one.next, word(place + 1))
      && (one.wanted === undefined || wanted.includes(one.wanted)) && (one.inside === undefined || one.inside.split("|").includes(inside))
      && (one.head === undefined || new RegExp(one.head).test(head)));
  }

  /**
   * All that is told of a line of standard error, or null where it is no refusal that is known.
   * @returns {Told|null}
   */
  toldOf(/** @type {string} */ line, /** @type {Texts} */ texts) {
    const found = foundOf(line, texts);
    const words = this.wordsOf(line, texts, found);
    if (words === null) return null;
    const code = line.split(" ")[1];
    const kind = found?.kind ?? "";
    const placeOf = (/** @type {{ index: number }} */ { index }) => ({ kind, ...placeIn(texts[kind] ?? "", index) });
    const notes = (found?.notes ?? []).map((one) => ({ place: placeOf(one.span), says: this.detail(one) }));
    return { code, place: found === null ? null : placeOf(found.span), ...words, notes };
  }

  /**
   * What the page tells: a sentence, and what to look at and to do, which may be empty.
   * @returns {[string, string]}
   */
  plain(/** @type {string} */ line, /** @type {Texts} */ texts) {
    if (line === "no memory") return ["There is not enough memory in this page.", ""];
    const told = this.toldOf(line, texts);
    if (told === null) return [line, ""];
    const notes = told.notes.map(({ place, says }) => (place.line === told.place?.line ? says : `Line ${place.line}: ${says}`));
    return [told.says, [...told.more, ...notes].join(" ")];
  }
}
