// What tests of pictures share: random numbers, and what a picture's markup has.
import assert from "node:assert/strict";

/** Numbers below a count, the same for the same seed. */
export function randomOf(/** @type {number} */ seed) {
  let state = (seed * 2654435761 + 12345) >>> 0;
  return (/** @type {number} */ count) => {
    state = (state + 0x6d2b79f5) >>> 0;
    let mixed = Math.imul(state ^ (state >>> 15), state | 1);
    mixed = (mixed + Math.imul(mixed ^ (mixed >>> 7), mixed | 61)) ^ mixed;
    return Math.floor((((mixed ^ (mixed >>> 14)) >>> 0) / 4294967296) * count);
  };
}

/** Elements that HTML writes without an end. */
const EMPTY = new Set(["br", "hr", "img", "input", "link", "meta"]);

/** A text without its references to characters. */
export function plainOf(/** @type {string} */ text) {
  return text.replace(/&(amp|lt|gt|quot);/g, (_, name) => ({ amp: "&", lt: "<", gt: ">", quot: '"' })[name] ?? "");
}

/** Fails where markup is none: an element without its end, an attribute without quotes, or a sign that has to be escaped. */
export function checkMarkup(/** @type {string} */ markup) {
  const open = [];
  const pieces = /<!doctype html>|<style>[^<]*<\/style>|<(\/?)([a-zA-Z][\w-]*)((?:\s+[\w:-]+="[^"<]*")*)\s*(\/?)>|[^<>]+|[<>]/g;
  for (const [piece, isEnd, name, , isAlone] of markup.matchAll(pieces)) {
    if (name === undefined) {
      assert.ok(piece !== "<" && piece !== ">", `a sign that isn't escaped: ${markup.slice(Math.max(0, markup.indexOf(piece) - 40), 80)}`);
      assert.ok(piece.startsWith("<style>") || !/&(?!amp;|lt;|gt;|quot;|#\d+;)/.test(piece), `an & that isn't escaped: ${piece}`);
    } else if (isEnd === "/") assert.equal(open.pop(), name, `</${name}> ends another element`);
    else if (isAlone !== "/" && !EMPTY.has(name)) open.push(name);
  }
  assert.deepEqual(open, [], "elements without an end");
  for (const word of ["undefined", "NaN", "[object"]) assert.ok(!markup.includes(word), `${word}: ${markup.slice(Math.max(0, markup.indexOf(word) - 90), markup.indexOf(word) + 30)}`);
}

/** The titles of all marks of a picture. */
export function titlesOf(/** @type {string} */ markup) {
  return [...markup.matchAll(/<title>([^<]*)<\/title>/g)].map(([, text]) => plainOf(text));
}
