// The text of a design: its tokens, and a reader that makes a tree of it with the places of all names, or tells the first token with which no
// design goes on, and what could stand there. It shares nothing with the toolset. Nothing is decided by it: places alone are found.
"use strict";

/** @typedef {{ word: string, index: number, length: number }} Token */
/** @typedef {{ kind: string, token: Token, op?: string, parts: Expression[] }} Expression */
/** @typedef {{ kind: string, token: Token, target: Token|null, op: Token|null, parts: Expression[], blocks: Statement[][] }} Statement */
/** @typedef {{ name: Token, mode: Token }} Parameter */
/** @typedef {{ name: Token, params: Parameter[], constraint: Token|null }} Provided */
/** @typedef {{ object: Token, op: Token }} Required */
/** @typedef {{ name: Token, value: Token }} Datum */
/** @typedef {{ name: Token, locals: Datum[], block: Statement[], at: Token }} Body */
/** @typedef {{ key: Token, value: number, unit: Token|null }} Attribute */
/** @typedef {{ op: Token, to: Required }} Link */
/**
 * @typedef {object} DesignObject
 * @property {Token} head
 * @property {Token} name
 * @property {Token} kind
 * @property {Map<string, Token>} sections
 * @property {Attribute[]} attributes
 * @property {Provided[]} provides
 * @property {Required[]} requires
 * @property {Datum[]} data
 * @property {Body[]} bodies
 * @property {{ at: Token, block: Statement[] }|null} thread
 * @property {DesignObject[]} objects
 * @property {Link[]} links
 * @property {Token|null} end
 * @property {DesignObject|null} parent
 */
/**
 * @typedef {object} Design
 * @property {Token} head
 * @property {Token} name
 * @property {Token|null} tick
 * @property {number} microseconds
 * @property {Token|null} priorities
 * @property {Token|null} costs
 * @property {DesignObject|null} root
 */
/**
 * @typedef {{ tokens: Token[], token: Token|null, place: number, wanted: string[], inside: string, open: Token[],
 *   object: DesignObject|null }} TextFault
 */

/** The words that are no names in a design. */
export const KEPT = new Set(("end provides requires data operation thread objects implements begin is null if then elsif else for in out loop "
  + "exit when range mod and or xor not word work put").split(" "));
const KINDS = ["passive", "active", "protected", "cyclic", "sporadic"];
const ATTRIBUTES = ["period", "offset", "separation", "deadline", "thread_budget", "arrival_jitter"];
const CONSTRAINTS = ["aser", "hser", "pser", "paer"];
const COSTS = ["assign", "test", "turn", "call", "null", "put", "finish"];
const UNITS = ["us", "ms", "s"];
export const SECTIONS = ["attributes", "provides", "requires", "data", "operation", "thread", "objects", "implements"];
const COMPARISONS = ["=", "/=", "<", "<=", ">", ">="];
const STATEMENTS = ["null", "if", "for", "exit", "work", "put"];
const DEEP = 64;

/** The tokens of a text as places, without comments and in small letters. */
export function tokensOf(/** @type {string} */ text) {
  const bare = text.replace(/--[^\n]*/g, (comment) => " ".repeat(comment.length)).toLowerCase();
  /** @type {Token[]} */
  const tokens = [];
  for (const found of bare.matchAll(/\w+|:=|\.\.|[/<>]=|[^\s\w]/g)) {
    tokens.push({ word: found[0], index: found.index ?? 0, length: found[0].length });
  }
  return tokens;
}

const isNumber = (/** @type {string|undefined} */ word) => word !== undefined && /^\d/.test(word);
const valueOf = (/** @type {Token} */ token) => Number(token.word.replaceAll("_", ""));

/** What ends the reading: no design goes on with a token. */
class NoDesign extends Error {}

/** A reader over tokens, by recursive descent. At each token it gathers what could have stood there. */
class TokenReader {
  constructor(/** @type {Token[]} */ tokens, /** @type {Set<string>} */ kept) {
    this.tokens = tokens;
    this.kept = kept;
    this.place = 0;
    /** @type {Set<string>} */
    this.wanted = new Set();
    /** @type {string[]} */
    this.inside = ["head"];
    /** @type {Token[]} */
    this.open = [];
    /** @type {DesignObject|null} */
    this.object = null;
  }

  word() {
    return this.tokens[this.place]?.word;
  }

  /** Whether a word stands here, which is one that could. */
  is(/** @type {string} */ word) {
    this.wanted.add(word);
    return this.word() === word;
  }

  isOneOf(/** @type {string[]} */ words) {
    for (const word of words) this.wanted.add(word);
    return words.includes(this.word() ?? "");
  }

  isName() {
    this.wanted.add("a name");
    const word = this.word();
    return word !== undefined && /^[a-z]/.test(word) && !this.kept.has(word);
  }

  take(/** @type {boolean} */ isRight) {
    if (!isRight) throw new NoDesign();
    this.wanted.clear();
    return this.tokens[this.place++];
  }

  words(/** @type {string} */ text) {
    const [first, ...rest] = text.split(" ");
    const token = this.take(this.is(first));
    for (const word of rest) this.take(this.is(word));
    return token;
  }

  name() {
    return this.take(this.isName());
  }

  number() {
    this.wanted.add("a number");
    return this.take(isNumber(this.word()));
  }

  /** @template T */
  within(/** @type {string} */ inside, /** @type {() => T} */ part) {
    this.inside.push(inside);
    const made = part();
    this.inside.pop();
    return made;
  }

  /**
   * One or more of a part.
   * @template T
   */
  each(/** @type {() => T} */ part, /** @type {() => boolean} */ goesOn) {
    const made = [part()];
    while (goesOn()) made.push(part());
    return made;
  }

  end() {
    this.wanted.add("the end of the text");
    if (this.word() !== undefined) throw new NoDesign();
  }
}

/** A reader of designs. */
class DesignReader extends TokenReader {
  constructor(/** @type {string} */ text) {
    super(tokensOf(text), KEPT);
    this.hasUnits = false;
    this.depth = 0;
    /** @type {Design|null} */
    this.design = null;
  }

  /** The name that an END wants: that of the head. */
  same(/** @type {Token} */ head, /** @type {string} */ inside) {
    this.within(inside, () => this.take(this.is(head.word)));
  }

  /**
   * What is opened by a token and closed at the end of the part.
   * @template T
   */
  opened(/** @type {Token} */ token, /** @type {() => T} */ part) {
    if (++this.depth > DEEP + 8) throw new NoDesign();
    this.open.push(token);
    const made = part();
    this.open.pop();
    this.depth--;
    return made;
  }

  read() {
    const head = this.words("design");
    const name = this.name();
    this.design = { head, name, tick: null, microseconds: 0, priorities: null, costs: null, root: null };
    this.open.push(head);
    if (this.is("version")) this.version(this.design);
    else this.words("is");
    this.design.costs = this.within("costs", () => this.costs());
    this.design.root = this.readObject(null);
    this.within("end of the design", () => this.words("end"));
    this.same(name, "end of the design");
    this.words(";");
    this.end();
    return this.design;
  }

  version(/** @type {Design} */ design) {
    this.hasUnits = true;
    this.words("version 2 is");
    design.tick = this.words("tick =");
    const value = valueOf(this.number());
    const unit = this.take(this.isOneOf(UNITS));
    design.microseconds = value * { us: 1, ms: 1000, s: 1000000 }[/** @type {"us"|"ms"|"s"} */ (unit.word)];
    this.words(";");
    if (!this.is("priorities")) return;
    design.priorities = this.words("priorities");
    this.number();
    this.words("..");
    this.number();
    this.words(";");
  }

  costs() {
    const at = this.words("costs");
    for (const cost of COSTS) {
      this.words(`${cost} =`);
      this.number();
      this.words(";");
    }
    this.words("end costs ;");
    return at;
  }

  /**
   * A section, which is none where its word doesn't stand here.
   * @template T
   */
  section(/** @type {string} */ word, /** @type {() => T} */ part, /** @type {() => boolean} */ goesOn) {
    if (!this.is(word)) return [];
    this.object?.sections.set(word, this.words(word));
    return this.within(word, () => this.each(part, goesOn));
  }

  /** @returns {DesignObject} */
  readObject(/** @type {DesignObject|null} */ parent) {
    const head = this.words("object");
    const name = this.name();
    return this.opened(name, () => {
      this.words("is");
      const kind = this.take(this.isOneOf(KINDS));
      /** @type {DesignObject} */
      const object = { head, name, kind, sections: new Map(), attributes: [], provides: [], requires: [], data: [], bodies: [], thread: null,
        objects: [], links: [], end: null, parent };
      this.object = object;
      object.end = this.within("sections", () => this.sections(object));
      this.same(name, "end of an object");
      this.words(";");
      this.object = parent;
      return object;
    });
  }

  sections(/** @type {DesignObject} */ object) {
    object.attributes = this.section("attributes", () => this.attribute(), () => this.isOneOf(ATTRIBUTES));
    object.provides = this.section("provides", () => this.provided(), () => this.isName());
    object.requires = this.section("requires", () => this.required(), () => this.isName());
    object.data = this.section("data", () => this.datum(), () => this.isName());
    while (this.is("operation")) object.bodies.push(this.operation());
    if (object.bodies.length > 0) object.sections.set("operation", object.bodies[0].at);
    if (this.is("thread")) object.thread = this.thread();
    if (object.thread !== null) object.sections.set("thread", object.thread.at);
    if (this.is("objects")) {
      object.sections.set("objects", this.words("objects"));
      object.objects = this.within("objects", () => this.each(() => this.readObject(object), () => this.is("object")));
    }
    this.object = object;
    object.links = this.section("implements", () => this.link(), () => this.isName());
    return this.words("end");
  }

  /** @returns {Attribute} */
  attribute() {
    const key = this.take(this.isOneOf(ATTRIBUTES));
    this.words("=");
    const value = valueOf(this.number());
    const unit = this.hasUnits && this.isOneOf(UNITS) ? this.take(true) : null;
    this.words(";");
    return { key, value, unit };
  }

  /** @returns {Provided} */
  provided() {
    const name = this.name();
    /** @type {Parameter[]} */
    let params = [];
    if (this.is("(")) {
      this.words("(");
      params = this.within("parameters", () => {
        const made = [this.parameter()];
        while (this.is(";")) {
          this.words(";");
          made.push(this.parameter());
        }
        this.words(")");
        return made;
      });
    }
    const constraint = this.isOneOf(CONSTRAINTS) ? this.take(true) : null;
    this.words(";");
    return { name, params, constraint };
  }

  /** @returns {Parameter} */
  parameter() {
    const name = this.name();
    this.words(":");
    const mode = this.take(this.isOneOf(["in", "out"]));
    this.words("word");
    return { name, mode };
  }

  /** @returns {Required} */
  required() {
    const object = this.name();
    this.words(".");
    const op = this.name();
    this.words(";");
    return { object, op };
  }

  /** @returns {Datum} */
  datum() {
    return this.within("datum", () => {
      const name = this.name();
      this.words(": word :=");
      const value = this.number();
      this.words(";");
      return { name, value };
    });
  }

  /** @returns {Body} */
  operation() {
    const at = this.words("operation");
    const name = this.name();
    return this.opened(name, () => {
      this.words("is");
      const locals = [];
      while (this.isName()) locals.push(this.datum());
      this.words("begin");
      const block = this.block();
      this.words("end");
      this.same(name, "end of an operation");
      this.words(";");
      return { name, locals, block, at };
    });
  }

  thread() {
    const at = this.words("thread");
    return this.opened(at, () => {
      const block = this.block();
      this.words("end thread ;");
      return { at, block };
    });
  }

  /** @returns {Link} */
  link() {
    const op = this.name();
    this.words("by");
    return { op, to: this.required() };
  }

  /** @returns {Statement[]} */
  block() {
    return this.within("block", () => this.each(() => this.statement(), () => this.isOneOf(STATEMENTS) || this.isName()));
  }

  /** @returns {Statement} */
  statement() {
    this.isOneOf(STATEMENTS);
    const token = this.tokens[this.place];
    /** @type {Statement} */
    const made = { kind: token?.word ?? "", token, target: null, op: null, parts: [], blocks: [] };
    switch (this.word()) {
      case "null":
        this.words("null ;");
        return made;
      case "if":
        return this.choice(made);
      case "for":
        return this.loop(made);
      case "exit":
        this.words("exit when");
        made.parts.push(this.expression());
        this.words(";");
        return made;
      case "work":
        this.words("work (");
        made.target = this.within("work", () => { const value = this.number(); this.words(") ;"); return value; });
        return made;
      case "put":
        this.words("put (");
        made.parts.push(this.expression());
        this.words(") ;");
        return made;
      default:
        return this.assignmentOrCall(made);
    }
  }

  choice(/** @type {Statement} */ made) {
    return this.opened(this.words("if"), () => {
      made.parts.push(this.expression());
      this.words("then");
      made.blocks.push(this.block());
      while (this.is("elsif")) {
        this.words("elsif");
        made.parts.push(this.expression());
        this.words("then");
        made.blocks.push(this.block());
      }
      if (this.is("else")) {
        this.words("else");
        made.blocks.push(this.block());
      }
      this.words("end if ;");
      return made;
    });
  }

  loop(/** @type {Statement} */ made) {
    return this.opened(this.words("for"), () => {
      made.target = this.name();
      this.words("in word range");
      this.number();
      this.words("..");
      this.number();
      this.words("loop");
      made.blocks.push(this.block());
      this.words("end loop ;");
      return made;
    });
  }

  assignmentOrCall(/** @type {Statement} */ made) {
    made.target = this.name();
    if (this.is(":=")) {
      made.kind = "assign";
      this.words(":=");
      made.parts.push(this.expression());
    } else {
      made.kind = "call";
      this.words(".");
      made.op = this.name();
      if (this.is("(")) {
        this.words("(");
        made.parts.push(this.expression());
        while (this.is(",")) {
          this.words(",");
          made.parts.push(this.expression());
        }
        this.words(")");
      }
    }
    this.words(";");
    return made;
  }

  /**
   * A chain of parts with operators between them.
   * @returns {Expression}
   */
  chain(/** @type {() => Expression} */ part, /** @type {string[]} */ operators) {
    let left = part();
    while (this.isOneOf(operators)) {
      const token = this.take(true);
      left = { kind: "operator", token, op: token.word, parts: [left, part()] };
    }
    return left;
  }

  /** @returns {Expression} */
  expression() {
    return this.within("expression", () => {
      if (++this.depth > DEEP + 8) throw new NoDesign();
      const first = this.relation();
      const logical = this.word();
      const made = this.isOneOf(["and", "or", "xor"]) && logical !== undefined
        ? this.logicalChain(first, logical) : first;
      this.depth--;
      return made;
    });
  }

  /** @returns {Expression} */
  logicalChain(/** @type {Expression} */ first, /** @type {string} */ logical) {
    let left = first;
    while (this.is(logical)) {
      const token = this.take(true);
      left = { kind: "operator", token, op: logical, parts: [left, this.relation()] };
    }
    return left;
  }

  /** @returns {Expression} */
  relation() {
    const left = this.sum();
    if (!this.isOneOf(COMPARISONS)) return left;
    const token = this.take(true);
    return { kind: "operator", token, op: token.word, parts: [left, this.sum()] };
  }

  sum() {
    return this.chain(() => this.product(), ["+", "-"]);
  }

  product() {
    return this.chain(() => this.factor(), ["*", "/", "mod"]);
  }

  /** @returns {Expression} */
  factor() {
    if (this.is("not")) {
      const token = this.words("not");
      return { kind: "not", token, parts: [this.primary()] };
    }
    return this.primary();
  }

  /** @returns {Expression} */
  primary() {
    const token = this.tokens[this.place];
    if (this.is("(")) {
      this.words("(");
      const made = this.expression();
      this.words(")");
      return made;
    }
    this.wanted.add("a number");
    if (isNumber(this.word())) return { kind: "number", token: this.take(true), parts: [] };
    return { kind: "name", token: this.name(), parts: [] };
  }
}

/** A reader of arrivals. */
class ArrivalsReader extends TokenReader {
  constructor(/** @type {string} */ text) {
    super(tokensOf(text), new Set([...KEPT, "until", "at"]));
  }

  read() {
    this.words("until");
    this.number();
    this.words(";");
    while (this.is("work")) this.durations();
    while (this.is("at")) this.request();
    this.end();
    return null;
  }

  durations() {
    this.words("work");
    this.name();
    this.number();
    while (this.is(",")) {
      this.words(",");
      this.number();
    }
    this.words(";");
  }

  request() {
    this.words("at");
    this.number();
    this.name();
    if (!this.is(";")) this.number();
    this.words(";");
  }
}

/**
 * What a reader makes of its text, or the first token with which no such text goes on.
 * @template T
 */
function readBy(/** @type {TokenReader & { read: () => T }} */ reader) {
  try {
    return { made: reader.read(), fault: null };
  } catch (stop) {
    if (!(stop instanceof NoDesign)) throw stop;
    const { tokens, place, wanted, inside, open, object } = reader;
    /** @type {TextFault} */
    const fault = { tokens, token: tokens[place] ?? null, place, wanted: [...wanted], inside: inside[inside.length - 1], open, object };
    return { made: null, fault };
  }
}

/** The tree of a design, or the first token with which no design goes on. */
export function readDesign(/** @type {string} */ text) {
  const { made, fault } = readBy(new DesignReader(text));
  return { design: made, fault };
}

/** The first token with which no arrivals go on. */
export function readArrivals(/** @type {string} */ text) {
  return readBy(new ArrivalsReader(text));
}

/**
 * The objects of a design in flattened order, each parent before its children.
 * @returns {DesignObject[]}
 */
export function objectsOf(/** @type {DesignObject|null} */ root) {
  return root === null ? [] : [root, ...root.objects.flatMap(objectsOf)];
}

/** A word of the grammar as a design has it: sections, kinds and attributes in capitals. */
export function shownWord(/** @type {string} */ word) {
  if (word === "a name" || word === "a number" || word === "the end of the text") return word;
  const isSmall = UNITS.includes(word) || STATEMENTS.includes(word) || /^(then|elsif|else|in|out|loop|when|range|mod|and|or|xor|not|word|if)$/.test(word);
  return `\`${/^\w/.test(word) && !isSmall ? word.toUpperCase() : word}\``;
}
