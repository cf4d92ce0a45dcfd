// Places in the text of a design that editors ask for: its outline, where a name is declared, and what a name means. It reads the tree of
// web/design_text.js, and decides nothing about the design.
import { objectsOf, readDesign, tokensOf } from "../../web/design_text.js";

/** @typedef {import("../../web/design_text.js").Token} Token */
/** @typedef {import("../../web/design_text.js").Design} Design */
/** @typedef {import("../../web/design_text.js").DesignObject} DesignObject */
/** @typedef {import("../../web/design_text.js").Statement} Statement */
/** @typedef {{ name: string, detail: string, kind: string, from: number, to: number, at: Token, children: Symbol[] }} Symbol */
/** @typedef {{ object: DesignObject, op: string|null, token: Token, declared: Token|null }} Meaning */

const behind = (/** @type {Token} */ token) => token.index + token.length;

/** The text of a design with its tokens and its tree, which is null if the text is not a design. */
export class DesignText {
  constructor(/** @type {string} */ text) {
    this.text = text;
    this.tokens = tokensOf(text);
    /** @type {Design|null} */
    this.design = readDesign(text).design;
    /** @type {DesignObject[]} */
    this.objects = objectsOf(this.design?.root ?? null);
  }

  /** Returns the name as it is written, and not in small letters. */
  written(/** @type {Token} */ token) {
    return this.text.slice(token.index, behind(token));
  }

  /** Returns the place of a token among all, by bisection. */
  placeOf(/** @type {Token} */ token) {
    let [low, high] = [0, this.tokens.length];
    while (high - low > 1) {
      const middle = (low + high) >> 1;
      if (this.tokens[middle].index <= token.index) low = middle;
      else high = middle;
    }
    return low;
  }

  /** Returns the end of the first `;` from a token on. */
  semicolon(/** @type {Token} */ token) {
    let place = this.placeOf(token);
    while (place < this.tokens.length && this.tokens[place].word !== ";") place++;
    return place < this.tokens.length ? behind(this.tokens[place]) : this.text.length;
  }

  /** Returns the end of what `end NAME ;` closes: a name, or `thread`, ends nothing inside. */
  closed(/** @type {Token} */ from, /** @type {string} */ name) {
    for (let place = this.placeOf(from); place < this.tokens.length; place++) {
      if (this.tokens[place].word === "end" && this.tokens[place + 1]?.word === name) return this.semicolon(this.tokens[place]);
    }
    return this.text.length;
  }

  endOf(/** @type {DesignObject} */ object) {
    return object.end === null ? this.text.length : this.semicolon(object.end);
  }

  /** Returns whether the design has clients or servers, which only `background` takes. */
  hasBackground() {
    const isOne = (/** @type {DesignObject} */ one) => one.kind.word === "active" && one.objects.length === 0 && (one.thread !== null || one.provides.length > 0);
    return this.objects.some((one) => isOne(one) || one.provides.some(({ constraint }) => constraint?.word === "hser"));
  }

  // ---- Outline ----

  /** @returns {Symbol[]} */
  outline() {
    if (this.design === null) return [];
    const { head, name, root } = this.design;
    const last = this.tokens[this.tokens.length - 1];
    return [{ name: this.written(name), detail: "design", kind: "design", from: head.index, to: behind(last), at: name,
      children: root === null ? [] : [this.symbolOf(root)] }];
  }

  /** @returns {Symbol} */
  symbolOf(/** @type {DesignObject} */ object) {
    const bodies = new Map(object.bodies.map((body) => [body.name.word, body]));
    /** @type {Symbol[]} */
    const children = [];
    for (const { name, constraint } of object.provides) {
      if (bodies.has(name.word)) continue;
      children.push({ name: this.written(name), detail: (constraint?.word ?? "").toUpperCase(), kind: "operation", from: name.index, to: this.semicolon(name),
        at: name, children: [] });
    }
    for (const { name } of object.data) {
      children.push({ name: this.written(name), detail: "word", kind: "data", from: name.index, to: this.semicolon(name), at: name, children: [] });
    }
    for (const { name, at } of object.bodies) {
      const constraint = object.provides.find((one) => one.name.word === name.word)?.constraint?.word ?? "";
      children.push({ name: this.written(name), detail: constraint.toUpperCase(), kind: "operation", from: at.index, to: this.closed(at, name.word), at: name,
        children: [] });
    }
    if (object.thread !== null) {
      const { at } = object.thread;
      children.push({ name: "THREAD", detail: "", kind: "thread", from: at.index, to: this.closed(at, "thread"), at, children: [] });
    }
    children.push(...object.objects.map((one) => this.symbolOf(one)));
    return { name: this.written(object.name), detail: object.kind.word.toUpperCase(), kind: "object", from: object.head.index, to: this.endOf(object),
      at: object.name, children };
  }

  // ---- Names ----

  /** Returns the token at an index, also directly after it. */
  tokenAt(/** @type {number} */ index) {
    const isWord = (/** @type {Token|undefined} */ token) => token !== undefined && /^[a-z]/.test(token.word);
    const within = this.tokens.find((token) => token.index <= index && index < behind(token));
    return isWord(within) ? within : this.tokens.find((token) => behind(token) === index && isWord(token));
  }

  named(/** @type {string|undefined} */ word) {
    return this.objects.find(({ name }) => name.word === word);
  }

  /** Returns the innermost object around an index. */
  around(/** @type {number} */ index) {
    return this.objects.filter((one) => one.head.index <= index && index < this.endOf(one)).pop();
  }

  /**
   * Returns the body of an operation, or its declaration if it has none. An operation of a parent is followed to the child that implements it.
   * @returns {Token|null}
   */
  operation(/** @type {DesignObject} */ object, /** @type {string} */ op, steps = 64) {
    const link = object.links.find((one) => one.op.word === op);
    const child = this.named(link?.to.object.word);
    if (link !== undefined && child !== undefined && child !== object && steps > 0) return this.operation(child, link.to.op.word, steps - 1);
    const body = object.bodies.find(({ name }) => name.word === op);
    return body?.name ?? object.provides.find(({ name }) => name.word === op)?.name ?? null;
  }

  /**
   * Returns what a name means: an object, an operation of one, or a variable; null if it is none of these.
   * @returns {Meaning|null}
   */
  meaningAt(/** @type {number} */ index) {
    const token = this.tokenAt(index);
    if (token === undefined || this.design === null) return null;
    const place = this.placeOf(token);
    const [before, next] = [this.tokens[place - 1]?.word, this.tokens[place + 1]?.word];
    if (before === ".") {
      const object = this.named(this.tokens[place - 2]?.word);
      return object === undefined ? null : { object, op: token.word, token, declared: this.operation(object, token.word) };
    }
    const object = this.named(token.word);
    if (next === "." || before === "object") return object === undefined ? null : { object, op: null, token, declared: object.name };
    const own = this.around(token.index);
    if (own === undefined) return object === undefined ? null : { object, op: null, token, declared: object.name };
    if (before === "end" && own.name.word === token.word) return { object: own, op: null, token, declared: own.name };
    return this.meaningIn(own, token);
  }

  /**
   * Returns what a name of an object's own means.
   * @returns {Meaning|null}
   */
  meaningIn(/** @type {DesignObject} */ own, /** @type {Token} */ token) {
    const declared = this.variable(own, token);
    if (declared !== null) return { object: own, op: null, token, declared };
    if (!own.provides.some(({ name }) => name.word === token.word)) return null;
    // From the body it goes to the declaration, and from there to the body.
    const body = own.bodies.find(({ name, at }) => token.index >= at.index && name.word === token.word && token.index < this.closed(at, name.word));
    const provided = own.provides.find(({ name }) => name.word === token.word)?.name ?? null;
    return { object: own, op: token.word, token, declared: body?.name.index === token.index ? provided : this.operation(own, token.word) };
  }

  /**
   * Returns where a variable is declared: a loop, a variable or a parameter of its operation, or data of its object.
   * @returns {Token|null}
   */
  variable(/** @type {DesignObject} */ own, /** @type {Token} */ { word, index }) {
    const body = own.bodies.find(({ name, at }) => at.index <= index && index < this.closed(at, name.word));
    const start = body?.at.index ?? own.thread?.at.index ?? own.head.index;
    const loops = this.tokens.filter((one, place) => one.word === word && this.tokens[place - 1]?.word === "for" && one.index >= start && one.index <= index);
    const provided = own.provides.filter(({ name }) => body === undefined || name.word === body.name.word);
    const params = provided.flatMap(({ name, params: all }) => (body !== undefined || own.thread !== null || index < this.semicolonOf(name, all) ? all : []));
    const all = [...loops.slice(-1), ...(body?.locals ?? []).map(({ name }) => name), ...params.map(({ name }) => name), ...own.data.map(({ name }) => name)];
    return all.find((one) => one.word === word) ?? null;
  }

  /** Returns the end of the declaration of an operation. */
  semicolonOf(/** @type {Token} */ name, /** @type {{ mode: Token }[]} */ params) {
    return this.semicolon(params.length > 0 ? this.tokens[this.placeOf(params[params.length - 1].mode) + 2] : name);
  }

  /** Returns the declaration of an operation, as it is written, on one line. */
  declaration(/** @type {DesignObject} */ object, /** @type {string} */ op) {
    const provided = object.provides.find(({ name }) => name.word === op);
    if (provided === undefined) return null;
    const to = this.semicolonOf(provided.name, provided.params);
    return this.text.slice(provided.name.index, to).replace(/--[^\n]*/g, "").replace(/\s+/g, " ");
  }
}

/** Returns the lines of `explain` on an object, or on one of its operations. */
export function linesOn(/** @type {string[]} */ lines, /** @type {string} */ object, /** @type {string|null} */ op) {
  return lines.filter((line) => {
    const words = line.split(" ");
    if (op !== null) return words[0] === "blocked" && words[5] === `${object}.${op}`;
    if (words[0] === "miss") return words[2] === object;
    return words[1] === object || (words[0] === "blocked" && (words[5] ?? "").startsWith(`${object}.`));
  });
}
