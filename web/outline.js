// The objects of a design as its text has them, also where it is refused: what stands in each, and where. What can't be read is left out.
import { tokensOf } from "./design_text.js";

const KINDS = new Set(["active", "passive", "protected", "cyclic", "sporadic"]);
const SECTIONS = new Set(["attributes", "provides", "requires", "data", "objects", "implements"]);
const CONSTRAINTS = new Set(["aser", "hser", "pser", "paer"]);

/** An object. `start` and `end` are the places of its text, and `at` that of its name. */
class OutlineObject {
  constructor(name, kind, parent, start, at) {
    this.name = name;
    this.kind = kind;
    this.parent = parent;
    this.start = start;
    this.at = at;
    this.end = null;
    this.children = [];
    this.attributes = new Map(); // by name: a number and its unit, or null
    this.operations = []; // with name, parameters, constraint or null, and place
    this.required = []; // with the names of an object and its operation
    this.links = new Map(); // of an operation of its own: that of a child
    this.hasThread = false;
  }

  hasChildren() {
    return this.children.length > 0;
  }

  /** A client or a server, which runs in the background. */
  isBackground() {
    return this.kind === "active" && !this.hasChildren() && (this.hasThread || this.operations.some((one) => one.constraint === "hser"));
  }

  operation(name) {
    return this.operations.find((one) => one.name === name);
  }
}

/** Reads the text of a design. A section that is open takes items, each up to a semicolon; bodies are passed over. */
class OutlineReader {
  constructor(text) {
    this.tokens = tokensOf(text);
    this.place = 0;
    this.open = [];
    this.section = null;
    this.design = { name: null, objects: [] };
    this.length = text.length;
  }

  word(ahead = 0) {
    return this.tokens[this.place + ahead]?.word;
  }

  here() {
    return this.open.at(-1);
  }

  read() {
    if (this.word() === "design") this.design.name = this.word(1);
    while (this.place < this.tokens.length) this.step();
    while (this.open.length > 0) this.close();
    return this.design;
  }

  step() {
    const word = this.word();
    const isItem = this.section !== null && this.section !== "body" && this.section !== "objects";
    if (word === "object" && this.word(2) === "is") this.openObject();
    else if (word === "end") this.takeEnd();
    else if (this.here() === undefined) this.place++;
    else if (SECTIONS.has(word) && (word !== "attributes" || this.section === null)) this.takeSection(word);
    else if (word === "operation" && this.word(2) === "is") this.takeSection("body");
    else if (word === "thread") {
      this.here().hasThread = true;
      this.takeSection("body");
    } else if (isItem) this.takeItem();
    else this.place++;
  }

  takeSection(section) {
    this.section = section;
    this.place++;
  }

  openObject() {
    const [head, name, , kind] = this.tokens.slice(this.place, this.place + 4);
    const parent = this.here() ?? null;
    const made = new OutlineObject(name.word, KINDS.has(kind?.word) ? kind.word : "active", parent, head.index, name.index);
    parent?.children.push(made);
    this.design.objects.push(made);
    this.open.push(made);
    this.section = null;
    this.place += 4;
  }

  /** The end of an object ends those that are open in it too, where their own is missing. */
  takeEnd() {
    const name = this.word(1);
    const depth = this.open.map((one) => one.name).lastIndexOf(name);
    this.place += 2;
    if (this.section === "body" || depth < 0 && name !== this.design.name) this.section = null;
    if (depth < 0) return;
    while (this.open.length > depth) this.close();
    this.section = "objects";
  }

  close() {
    const last = this.tokens[Math.min(this.place, this.tokens.length - 1)];
    this.open.pop().end = last === undefined ? this.length : last.index + last.length;
  }

  /** The tokens up to a semicolon outside parentheses, or to where a section or an object begins. */
  itemTokens() {
    const found = [];
    for (let depth = 0; this.place < this.tokens.length; this.place++) {
      const { word } = this.tokens[this.place];
      if (word === ";" && depth === 0) break;
      if (found.length > 0 && (SECTIONS.has(word) || word === "object" || word === "end" || word === "thread")) return found;
      depth += word === "(" ? 1 : word === ")" ? -1 : 0;
      found.push(this.tokens[this.place]);
    }
    this.place++;
    return found;
  }

  takeItem() {
    const tokens = this.itemTokens();
    const words = tokens.map((token) => token.word);
    const here = this.here();
    const [first, second, third, fourth, fifth] = words;
    if (first === undefined) return;
    if (this.section === "attributes") {
      const isNumber = second === "=" && /^\d+(_\d+)*$/.test(third);
      if (isNumber) here.attributes.set(first, { number: Number(third.replaceAll("_", "")), unit: fourth ?? null });
    } else if (this.section === "provides") {
      const constraint = CONSTRAINTS.has(words.at(-1)) ? words.at(-1) : null;
      here.operations.push({ name: first, parameters: parametersOf(words), constraint, at: tokens[0].index });
    } else if (this.section === "requires" && second === "." && third !== undefined) {
      here.required.push({ object: first, operation: third, at: tokens[0].index });
    } else if (this.section === "implements" && second === "by" && fifth !== undefined) {
      here.links.set(first, { object: third, operation: fifth });
    }
  }
}

/** The parameters of a provided operation: name, and `in` or `out`. */
function parametersOf(words) {
  const made = (place) => ({ name: words[place - 1], way: words[place + 1] === "out" ? "out" : "in" });
  return words.flatMap((word, place) => (word === ":" && place > 0 ? [made(place)] : []));
}

/** The name of a design, and its objects in the order of its text, each parent before its children. */
export function readOutline(text) {
  return new OutlineReader(text).read();
}

/** The background objects of a design, clients and servers, in the order of its text. */
export function backgroundOf(text) {
  return readOutline(text).objects.filter((one) => one.isBackground());
}

/** The innermost object in whose text a place is; or undefined. */
export function objectAt(design, index) {
  return design.objects.filter((one) => one.start <= index && index < one.end).at(-1);
}

// ---- Who uses what ----

/** An operation that is used at a level of the tree, by whom there, and whether it is one of a sibling; else it is one of an uncle. */
class Use {
  constructor(object, operation, target, isSibling) {
    this.key = `${object}.${operation}`;
    this.object = object;
    this.operation = operation;
    this.target = target;
    this.isSibling = isSibling;
    this.sources = []; // objects of the level
    this.isFault = target === undefined;
    this.constraint = target?.operation(operation)?.constraint ?? null;
  }
}

/** The uses at each level, by the parent, or null for that of the root. What a child requires of an uncle, its parent has to require. */
export function usesOf(design) {
  const byName = new Map(design.objects.map((one) => [one.name, one]));
  const levels = new Map();
  const note = (user, { object, operation }, isFault) => {
    const level = levels.get(user.parent) ?? new Map();
    levels.set(user.parent, level);
    const target = byName.get(object);
    const isSibling = target !== undefined && target.parent === user.parent;
    const use = level.get(`${object}.${operation}`) ?? new Use(object, operation, target, isSibling);
    level.set(use.key, use);
    if (!use.sources.includes(user)) use.sources.push(user);
    use.isFault ||= isFault || target.operation(operation) === undefined || (user.parent === null && !isSibling);
    const isListed = user.parent?.required.some((one) => one.object === object && one.operation === operation);
    if (!isSibling && user.parent !== null && !isListed) note(user.parent, { object, operation }, true);
  };
  for (const one of design.objects) for (const required of one.required) note(one, required, false);
  return levels;
}
