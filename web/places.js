// Where a refusal stands in the texts. A rule tells an object alone: then what breaks it is looked for in the tree of the design. Nothing is
// decided here: where nothing is found, the place is that of the object's name.
"use strict";

import { SECTIONS, objectsOf, readArrivals, readDesign, tokensOf } from "./design_text.js";

/** @typedef {import("./design_text.js").Token} Token */
/** @typedef {import("./design_text.js").Design} Design */
/** @typedef {import("./design_text.js").DesignObject} DesignObject */
/** @typedef {import("./design_text.js").Statement} Statement */
/** @typedef {import("./design_text.js").Expression} Expression */
/** @typedef {{ index: number, length: number }} Span */
/** @typedef {{ key: string, values: Record<string, string> }} Detail */
/** @typedef {Detail & { span: Span }} Note */
/** @typedef {{ span: Span, detail: Detail|null, notes: Note[] }} Found */
/** @typedef {{ names: Map<string, "read"|"written">, object: DesignObject, objects: Map<string, DesignObject>, loops: number }} Scope */
/** @typedef {{ fault: string, token: Span, detail: Detail|null, notes: Note[] }} BodyFault */

const LIMIT = 1000000000;
const shown = (/** @type {string} */ word) => word.toUpperCase();
const digits = (/** @type {number} */ value) => String(value);
/** @returns {Detail} */
const detail = (/** @type {string} */ key, /** @type {Record<string, string>} */ values = {}) => ({ key, values });
/** @returns {Note} */
const note = (/** @type {Span} */ span, /** @type {string} */ key, /** @type {Record<string, string>} */ values = {}) => ({ key, values, span });
/** @returns {Found} */
const found = (/** @type {Span} */ span, /** @type {Detail|null} */ said = null, /** @type {Note[]} */ ...notes) => ({ span, detail: said, notes });

/**
 * From one token to another, as one.
 * @returns {Span}
 */
const from = (/** @type {Token} */ first, /** @type {Token} */ last) => ({ index: first.index, length: last.index + last.length - first.index });

// ---- Names: V01, V02 ----

/** @typedef {{ name: Token, rank: number, region: string }} Declared */

/**
 * All loops of a block.
 * @returns {Token[]}
 */
function loopsOf(/** @type {Statement[]} */ block) {
  return block.flatMap((one) => [...(one.kind === "for" && one.target !== null ? [one.target] : []), ...one.blocks.flatMap(loopsOf)]);
}

/**
 * What an object declares: of two that clash, that of the greater rank is to be renamed.
 * @returns {Declared[]}
 */
function declaredIn(/** @type {DesignObject} */ object) {
  const own = object.name.word;
  /** @type {Declared[]} */
  const all = [{ name: object.name, rank: 0, region: "" }];
  for (const { name, params } of object.provides) {
    all.push({ name, rank: 1, region: own });
    for (const one of params) all.push({ name: one.name, rank: 3, region: own });
  }
  for (const { name } of object.data) all.push({ name, rank: 1, region: own });
  for (const body of object.bodies) {
    for (const { name } of body.locals) all.push({ name, rank: 4, region: own });
    for (const name of loopsOf(body.block)) all.push({ name, rank: 5, region: own });
  }
  for (const name of loopsOf(object.thread?.block ?? [])) all.push({ name, rank: 5, region: own });
  return all;
}

/**
 * Of the declarations of a name the one that is to be another, and one with which it clashes.
 * @returns {Found|null}
 */
function clashOf(/** @type {Design} */ design, /** @type {string} */ name) {
  const all = [{ name: design.name, rank: 0, region: "" }, ...objectsOf(design.root).flatMap(declaredIn)].filter((one) => one.name.word === name);
  const objects = all.filter(({ rank }) => rank === 0);
  const others = all.filter(({ rank }) => rank > 0);
  if (objects.length > 1) return found(objects[1].name, null, note(objects[0].name, "first", { NAME: name }));
  if (objects.length === 1 && others.length > 0) return found(others[0].name, null, note(objects[0].name, "first", { NAME: name }));
  for (const region of new Set(others.map((one) => one.region))) {
    const here = others.filter((one) => one.region === region);
    const later = here.reduce((last, one) => (one.rank >= last.rank ? one : last), here[0]);
    const other = here.find((one) => one !== later);
    if (other !== undefined) return found(later.name, null, note(other.name, "first", { NAME: name }));
  }
  return all.length > 0 ? found(all[all.length - 1].name) : null;
}

function declarationOf(/** @type {Design} */ design, /** @type {string} */ name) {
  if (design.name.word === name) return found(design.name);
  const first = objectsOf(design.root).flatMap(declaredIn).find((one) => one.name.word === name);
  return first === undefined ? null : found(first.name);
}

// ---- Forms: V04, V05, V11, V17 ----

const isTerminal = (/** @type {DesignObject} */ object) => object.objects.length === 0;

/**
 * The constraints that an object may provide; null stands for none.
 * @type {Record<string, [(string|null)[], (string|null)[]]>}
 */
const PROVIDED = {
  passive: [[null], [null]],
  protected: [["pser", "paer"], [null, "pser", "paer"]],
  cyclic: [[], [null, "aser", "pser", "paer"]],
  sporadic: [["aser"], [null, "aser", "pser", "paer"]],
  active: [[null, "aser", "hser", "pser", "paer"], [null, "aser", "hser", "pser", "paer"]],
};

/** @returns {Found|null} */
function operationFault(/** @type {DesignObject} */ object) {
  const KIND = shown(object.kind.word);
  const kind = note(object.kind, "kind", { NAME: object.name.word, KIND });
  const may = PROVIDED[object.kind.word][isTerminal(object) ? 0 : 1];
  const isOther = object.provides.length > 1 && object.provides.every(({ constraint }) => !may.includes(constraint?.word ?? null));
  for (const { name, params, constraint } of object.provides) {
    if (isOther) return found(object.kind, detail("others", { OBJECT: object.name.word, KIND }));
    if (!may.includes(constraint?.word ?? null)) {
      const said = constraint === null ? "unconstrained" : "constraint";
      return found(name, detail(said, { KIND, NAME: name.word, OTHER: shown(constraint?.word ?? "") }), kind);
    }
    const out = params.find(({ mode }) => mode.word === "out");
    if (out !== undefined && (constraint?.word === "aser" || constraint?.word === "paer")) return found(out.name, detail("out", { NAME: name.word }), kind);
  }
  if (object.kind.word === "sporadic" && isTerminal(object)) return found((object.provides[1] ?? object).name, null, kind);
  return null;
}

/** @returns {Found|null} */
function fittingFault(/** @type {DesignObject} */ object) {
  const values = { OBJECT: object.name.word, KIND: shown(object.kind.word) };
  if (!isTerminal(object)) return parentFault(object);
  const provided = new Set(object.provides.map(({ name }) => name.word));
  const isSporadic = object.kind.word === "sporadic";
  for (const { name } of object.bodies) {
    if (!provided.has(name.word)) return found(name, detail("stranger", { ...values, NAME: name.word }));
    if (isSporadic) return found(name, detail("request"));
  }
  for (const { name } of object.provides) {
    if (isSporadic || object.bodies.some((body) => body.name.word === name.word)) continue;
    return found(object.end ?? name, detail("bodiless", { ...values, NAME: name.word }), note(name, "provided", { NAME: name.word }));
  }
  const runs = isSporadic || object.kind.word === "cyclic";
  if (runs && object.thread === null) return found(object.kind, detail("threadless", values));
  if (!runs && object.thread !== null) return found(object.thread.at, detail("threaded", values));
  const data = object.sections.get("data");
  if (object.kind.word === "passive" && data !== undefined) return found(data, detail("data", values));
  const links = object.sections.get("implements");
  return links === undefined ? null : found(links);
}

/** @returns {Found|null} */
function parentFault(/** @type {DesignObject} */ object) {
  for (const one of ["data", "operation", "thread"]) {
    const section = object.sections.get(one);
    if (section !== undefined) return found(section, detail("bodied"));
  }
  for (const { name } of object.provides) {
    const links = object.links.filter(({ op }) => op.word === name.word);
    if (links.length > 1) return found(links[1].op, detail("link"));
    if (links.length === 0) return found(name, detail("linkless", { OBJECT: object.name.word, NAME: name.word }));
  }
  for (const { op, to } of object.links) {
    const mine = object.provides.find(({ name }) => name.word === op.word);
    const child = object.objects.find(({ name }) => name.word === to.object.word)?.provides.find(({ name }) => name.word === to.op.word);
    const form = (/** @type {import("./design_text.js").Provided|undefined} */ one) => one
      && [one.constraint?.word, ...one.params.map(({ name, mode }) => `${name.word} ${mode.word}`)].join();
    if (mine === undefined || child === undefined || form(mine) !== form(child)) return found(op, detail("link"));
  }
  return null;
}

const MICROSECONDS = { us: 1, ms: 1000, s: 1000000 };

/** The ticks of an attribute, which may be no whole number. */
function ticksOf(/** @type {Design} */ design, /** @type {import("./design_text.js").Attribute|undefined} */ attribute) {
  if (attribute === undefined) return 0;
  if (attribute.unit === null) return attribute.value;
  return attribute.value * MICROSECONDS[/** @type {"us"|"ms"|"s"} */ (attribute.unit.word)] / design.microseconds;
}

/**
 * The attributes of a kind: those that are needed, and those that may be there.
 * @type {Record<string, [string[], string[]]>}
 */
const KEYS = {
  cyclic: [["period", "deadline", "thread_budget"], ["offset"]],
  sporadic: [["separation", "deadline", "thread_budget"], ["arrival_jitter"]],
};

/** @returns {Found|null} */
function numberFault(/** @type {Design} */ design, /** @type {DesignObject} */ object) {
  return attributeFault(design, object) ?? rangeFault(design, object) ?? workFault(object);
}

/** @returns {Found|null} */
function attributeFault(/** @type {Design} */ design, /** @type {DesignObject} */ object) {
  const at = object.sections.get("attributes") ?? object.name;
  const values = { OBJECT: object.name.word, KIND: shown(object.kind.word) };
  const [needed, optional] = isTerminal(object) ? KEYS[object.kind.word] ?? [[], []] : [[], []];
  const keys = object.attributes.map(({ key }) => key.word);
  for (const [place, { key }] of object.attributes.entries()) {
    const KEY = shown(key.word);
    if (!isTerminal(object)) return found(key, detail("parent"));
    if (!needed.includes(key.word) && !optional.includes(key.word)) return found(key, detail("foreign", { ...values, KEY }));
    if (keys.indexOf(key.word) !== place) return found(key, detail("twice", { ...values, KEY }));
  }
  const missing = needed.find((key) => !keys.includes(key));
  return missing === undefined ? null : found(at, detail("missing", { ...values, KEY: shown(missing) }));
}

/** @returns {Found|null} */
function rangeFault(/** @type {Design} */ design, /** @type {DesignObject} */ object) {
  const OBJECT = object.name.word;
  const of = (/** @type {string} */ word) => object.attributes.find(({ key }) => key.word === word);
  for (const attribute of object.attributes) {
    const LOW = ["offset", "arrival_jitter"].includes(attribute.key.word) ? 0 : 1;
    const ticks = ticksOf(design, attribute);
    const values = { OBJECT, KEY: shown(attribute.key.word), N: digits(ticks), LOW: digits(LOW) };
    if (ticks < LOW || ticks > LIMIT) return found(attribute.key, detail("range", values));
  }
  const [long, deadline, jitter] = [of("period") ?? of("separation"), of("deadline"), of("arrival_jitter")];
  const [most, late, early] = [ticksOf(design, long), ticksOf(design, deadline), ticksOf(design, jitter)];
  const values = { OBJECT, KEY: shown(long?.key.word ?? ""), M: digits(most) };
  if (deadline !== undefined && late > most) return found(deadline.key, detail("late", { ...values, N: digits(late) }));
  if (jitter !== undefined && early >= most) return found(jitter.key, detail("jitter", { ...values, N: digits(early) }));
  return null;
}

/**
 * All statements of a block, in order of writing.
 * @returns {Statement[]}
 */
function statementsOf(/** @type {Statement[]} */ block) {
  return block.flatMap((one) => [one, ...one.blocks.flatMap(statementsOf)]);
}

/** All statements of an object. */
function allStatements(/** @type {DesignObject} */ object) {
  return [...object.bodies.map(({ block }) => block), object.thread?.block ?? []].flatMap(statementsOf);
}

/** @returns {Found|null} */
function workFault(/** @type {DesignObject} */ object) {
  for (const { kind, target } of allStatements(object)) {
    const ticks = kind === "work" && target !== null ? Number(target.word.replaceAll("_", "")) : 1;
    if (target !== null && (ticks < 1 || ticks > LIMIT)) return found(target, detail("work", { OBJECT: object.name.word, N: digits(ticks) }));
  }
  const wide = object.provides.find(({ params }) => params.length > 8);
  return wide === undefined ? null : found(wide.name, detail("parameters", { NAME: wide.name.word }));
}

/** @returns {Found|null} */
function tickFault(/** @type {Design} */ design, /** @type {DesignObject} */ object) {
  const bad = object.attributes.find((one) => !Number.isInteger(ticksOf(design, one)) || ticksOf(design, one) > 4294967295);
  return bad === undefined ? null : found(bad.key, detail("ticks", { OBJECT: object.name.word, KEY: shown(bad.key.word) }));
}

function attributeOf(/** @type {DesignObject} */ object, /** @type {string[]} */ ...keys) {
  const attribute = object.attributes.find(({ key }) => keys.includes(key.word));
  return found(attribute?.key ?? object.name);
}

// ---- Uses: V06 to V08, A2, A4; requests: V10 ----

/** How many letters are to be changed, left out or put in, to make one word of another. */
function distance(/** @type {string} */ one, /** @type {string} */ other) {
  let row = Array.from({ length: other.length + 1 }, (_, index) => index);
  for (let line = 1; line <= one.length; line++) {
    const next = [line];
    for (let column = 1; column <= other.length; column++) {
      const same = row[column - 1] + (one[line - 1] === other[column - 1] ? 0 : 1);
      next.push(Math.min(same, row[column] + 1, next[column - 1] + 1));
    }
    row = next;
  }
  return row[other.length];
}

/** The name that is most like another, if one is like it. */
function similarTo(/** @type {string} */ word, /** @type {Iterable<string>} */ names) {
  const ranked = [...names].map((name) => ({ name, far: distance(word, name) })).sort((a, b) => a.far - b.far);
  return ranked.length > 0 && ranked[0].far > 0 && ranked[0].far <= Math.ceil((word.length - 2) / 4) ? ranked[0].name : null;
}

/** @returns {Found|null} */
function useFault(/** @type {Design} */ design, /** @type {DesignObject} */ object, /** @type {string} */ target, /** @type {string} */ op) {
  const use = object.requires.find((one) => one.object.word === target && one.op.word === op);
  if (use === undefined) return null;
  const objects = objectsOf(design.root);
  const other = objects.find(({ name }) => name.word === target);
  const names = other === undefined ? objects.map(({ name }) => name.word) : other.provides.map(({ name }) => name.word);
  const like = similarTo(other === undefined ? target : op, names);
  const span = from(use.object, use.op);
  const said = other === undefined ? detail("nobody", { OBJECT: object.name.word, NAME: `${target}.${op}`, OTHER: target }) : null;
  if (like === null) return found(span, said);
  return found(span, said, note(span, "similar", { NAME: other === undefined ? `${like}.${op}` : `${target}.${like}` }));
}

/**
 * The calls of an operation of a sporadic object: of two in one body the second one, and else the last.
 * @returns {Found|null}
 */
function requestFault(/** @type {Design} */ design, /** @type {DesignObject} */ object) {
  const OBJECT = object.name.word;
  const calls = objectsOf(design.root).flatMap((one) => allStatements(one)
    .filter(({ kind, target }) => kind === "call" && target?.word === OBJECT));
  const spans = calls.map(({ target, op }) => from(/** @type {Token} */ (target), /** @type {Token} */ (op)));
  if (spans.length === 0) return found(object.sections.get("attributes") ?? object.name);
  const last = spans[spans.length - 1];
  return found(last, null, ...spans.slice(0, -1).map((span) => note(span, "again", { OBJECT })), note(object.name, "kind", { NAME: OBJECT, KIND: "SPORADIC" }));
}

// ---- Bodies: V13 ----

const LOGICAL = ["and", "or", "xor"];
const COMPARISONS = ["=", "/=", "<", "<=", ">", ">="];

/** @returns {boolean} */
function hasName(/** @type {Expression} */ one) {
  return one.kind === "name" || one.parts.some((part) => hasName(part));
}

/** Whether an expression is a Boolean, by its outermost operator. */
function isBoolean(/** @type {Expression} */ one) {
  return one.kind === "not" || (one.op !== undefined && [...LOGICAL, ...COMPARISONS].includes(one.op));
}

/**
 * The faults of an expression, which is to be a Boolean or a word.
 * @returns {BodyFault[]}
 */
function expressionFaults(/** @type {Expression} */ one, /** @type {boolean} */ wantsBoolean, /** @type {Scope} */ scope) {
  /** @type {BodyFault[]} */
  const faults = [];
  const tell = (/** @type {string} */ fault, /** @type {Detail|null} */ said = null, /** @type {Note[]} */ ...notes) => {
    faults.push({ fault, token: one.token, detail: said, notes });
  };
  if (isBoolean(one) !== wantsBoolean) tell("B2");
  if (one.kind === "name" && !scope.names.has(one.token.word)) {
    const like = similarTo(one.token.word, scope.names.keys());
    tell("B1", detail("unknown", { NAME: one.token.word }), ...(like === null ? [] : [note(one.token, "similar", { NAME: like })]));
  }
  const isComparison = one.op !== undefined && COMPARISONS.includes(one.op);
  if (isComparison && !one.parts.some((part) => hasName(part))) tell("B2");
  const divisor = one.op === "/" || one.op === "mod" ? one.parts[1] : null;
  if (divisor !== null && (divisor.kind !== "number" || Number(divisor.token.word.replaceAll("_", "")) === 0)) {
    faults.push({ fault: "B3", token: divisor.token, detail: null, notes: [] });
  }
  const parts = one.kind === "not" || (one.op !== undefined && LOGICAL.includes(one.op));
  return [...faults, ...one.parts.flatMap((part) => expressionFaults(part, parts, scope))];
}

/** @returns {BodyFault[]} */
function callFaults(/** @type {Statement} */ one, /** @type {Scope} */ scope) {
  const [target, op] = [/** @type {Token} */ (one.target), /** @type {Token} */ (one.op)];
  const NAME = `${target.word}.${op.word}`;
  const { object } = scope;
  if (!object.requires.some((use) => use.object.word === target.word && use.op.word === op.word)) {
    const like = similarTo(NAME, object.requires.map((use) => `${use.object.word}.${use.op.word}`));
    const place = ["requires", "data", "operation", "thread"].map((word) => object.sections.get(word)).find((section) => section !== undefined);
    const where = place === undefined ? [] : [note(place, "required", { NAME })];
    const notes = like === null ? where : [note(from(target, op), "similar", { NAME: like })];
    return [{ fault: "B1", token: from(target, op), detail: detail("uncalled", { NAME, OBJECT: object.name.word }), notes }];
  }
  const called = scope.objects.get(target.word)?.provides.find(({ name }) => name.word === op.word);
  if (called === undefined) return [];
  /** @type {BodyFault[]} */
  const faults = called.params.length === one.parts.length ? []
    : [{ fault: "B7", token: from(target, op), detail: null, notes: [note(called.name, "provided", { NAME })] }];
  const outs = new Set();
  for (const [place, part] of one.parts.entries()) {
    const isOut = called.params[place]?.mode.word === "out";
    if (!isOut) {
      faults.push(...expressionFaults(part, false, scope));
      continue;
    }
    if (part.kind !== "name" || outs.has(part.token.word)) faults.push({ fault: "B6", token: part.token, detail: null, notes: [] });
    else faults.push(...assignedFaults(part.token, scope));
    outs.add(part.token.word);
  }
  return faults;
}

/** @returns {BodyFault[]} */
function assignedFaults(/** @type {Token} */ name, /** @type {Scope} */ scope) {
  const use = scope.names.get(name.word);
  if (use === undefined) return [{ fault: "B1", token: name, detail: detail("unknown", { NAME: name.word }), notes: [] }];
  return use === "read" ? [{ fault: "B5", token: name, detail: null, notes: [] }] : [];
}

/** @returns {BodyFault[]} */
function statementFaults(/** @type {Statement} */ one, /** @type {Scope} */ scope) {
  switch (one.kind) {
    case "assign":
      return [...assignedFaults(/** @type {Token} */ (one.target), scope), ...expressionFaults(one.parts[0], false, scope)];
    case "call":
      return callFaults(one, scope);
    case "put":
      return expressionFaults(one.parts[0], false, scope);
    case "exit":
      return [...(scope.loops > 0 ? [] : [{ fault: "B4", token: one.token, detail: null, notes: [] }]), ...expressionFaults(one.parts[0], true, scope)];
    case "if":
      return [...one.parts.flatMap((part) => expressionFaults(part, true, scope)), ...one.blocks.flatMap((block) => blockFaults(block, scope))];
    case "for": {
      const names = new Map(scope.names).set(/** @type {Token} */ (one.target).word, "read");
      return one.blocks.flatMap((block) => blockFaults(block, { ...scope, names, loops: scope.loops + 1 }));
    }
    default:
      return [];
  }
}

/** @returns {BodyFault[]} */
function blockFaults(/** @type {Statement[]} */ block, /** @type {Scope} */ scope) {
  return block.flatMap((one) => statementFaults(one, scope));
}

/**
 * The first place of a fault of a body.
 * @returns {Found|null}
 */
function bodyFault(/** @type {Design} */ design, /** @type {DesignObject} */ object, /** @type {string} */ part, /** @type {string} */ fault) {
  /** @type {Map<string, "read"|"written">} */
  const names = new Map(object.data.map(({ name }) => [name.word, "written"]));
  const body = object.bodies.find(({ name }) => name.word === part);
  const own = part === "thread" ? object.provides : object.provides.filter(({ name }) => name.word === part);
  for (const { name, mode } of own.flatMap(({ params }) => params)) names.set(name.word, mode.word === "out" ? "written" : "read");
  for (const { name } of body?.locals ?? []) names.set(name.word, "written");
  const objects = new Map(objectsOf(design.root).map((one) => [one.name.word, one]));
  const block = part === "thread" ? object.thread?.block : body?.block;
  const at = part === "thread" ? object.thread?.at : body?.name;
  const first = blockFaults(block ?? [], { names, object, objects, loops: 0 }).find((one) => one.fault.toLowerCase() === fault);
  if (first !== undefined) return found(first.token, first.detail, ...first.notes);
  return at === undefined ? null : found(at);
}

// ---- Rules ----

/** @type {Record<string, (design: Design, object: DesignObject, names: string[]) => Found|null>} */
const OF_OBJECT = {
  V03: (_, object) => found(object.name, null, note(object.kind, "kind", { NAME: object.name.word, KIND: shown(object.kind.word) })),
  V04: (_, object) => operationFault(object),
  V05: (_, object) => fittingFault(object),
  V06: (design, object, [target, op]) => useFault(design, object, target, op),
  V07: (design, object, [target, op]) => useFault(design, object, target, op),
  V08: (design, object, [target, op]) => useFault(design, object, target, op),
  V09: (_, object, [op]) => found(object.bodies.find(({ name }) => name.word === op)?.name ?? object.name),
  V10: (design, object) => requestFault(design, object),
  V11: (design, object) => numberFault(design, object),
  V12: (_, object) => found(object.kind),
  V13: (design, object, [part, fault]) => bodyFault(design, object, part, fault),
  V14: (_, object) => attributeOf(object, "thread_budget"),
  V15: (_, object, [part]) => found(object.bodies.find(({ name }) => name.word === part)?.name ?? object.thread?.at ?? object.name),
  V17: (design, object) => tickFault(design, object),
  U1: (_, object) => attributeOf(object, "deadline"),
  U2: (_, object) => attributeOf(object, "period", "separation"),
  A2: (design, object, [target, op]) => useFault(design, object, target, op),
  A3: (_, object) => found((object.provides.find(({ constraint }) => constraint?.word === "hser") ?? object).name),
  A4: (design, object, [target, op]) => useFault(design, object, target, op),
  A5: (_, object) => attributeOf(object, "deadline"),
};

/**
 * What breaks a rule in a design, of which the names are told.
 * @returns {Found|null}
 */
function ruleFault(/** @type {Design} */ design, /** @type {string} */ code, /** @type {string[]} */ names) {
  const [first, ...rest] = names;
  if (code === "V17" && first === "tick" && design.tick !== null) return found(design.tick);
  if (code === "V17" && first === "priorities" && design.priorities !== null) return found(design.priorities);
  if (code === "V11" && first === "costs" && design.costs !== null) return found(design.costs);
  if (code === "V15" && (first === "threads" || first === "objects")) return found(design.head);
  if (code === "V01") return clashOf(design, first);
  if (code === "V02") return declarationOf(design, first);
  if (code === "V16") return separationOf(design, names);
  const object = objectsOf(design.root).find(({ name }) => name.word === first);
  if (object === undefined) return null;
  return OF_OBJECT[code]?.(design, object, rest) ?? found(object.name);
}

/** @returns {Found|null} */
function separationOf(/** @type {Design} */ design, /** @type {string[]} */ [starter, , , target]) {
  const named = (/** @type {string} */ word) => objectsOf(design.root).find(({ name }) => name.word === word);
  const [one, other] = [named(starter), named(target)];
  if (one === undefined || other === undefined) return null;
  const mine = attributeOf(one, "period", "separation");
  return { ...attributeOf(other, "separation"), notes: [note(mine.span, "again", { OBJECT: target })] };
}

/** The names of a line behind its code, in small letters. */
function namesOf(/** @type {string} */ line) {
  return line.toLowerCase().split(" ").slice(2).filter((word, place) => !(place === 0 && word === "cost")).flatMap((word) => word.split("."));
}

// ---- Texts ----

/** Where a line and a column, a byte of it, stand in the text, both counted from 1. */
export function indexOf(/** @type {string} */ text, /** @type {number} */ line, /** @type {number} */ column) {
  let start = 0;
  for (let count = 1; count < line; count++) {
    const next = text.indexOf("\n", start);
    if (next < 0) return text.length;
    start = next + 1;
  }
  let index = start;
  for (let bytes = 1; bytes < column && index < text.length; ) {
    const code = text.codePointAt(index) ?? 0;
    bytes += code < 0x80 ? 1 : code < 0x800 ? 2 : code < 0x10000 ? 3 : 4;
    index += code < 0x10000 ? 1 : 2;
  }
  return index;
}

/** The line and the column, a byte of it, of a place in a text, both counted from 1. */
export function placeIn(/** @type {string} */ text, /** @type {number} */ index) {
  const lines = text.slice(0, index).split("\n");
  return { line: lines.length, column: new TextEncoder().encode(lines[lines.length - 1]).length + 1 };
}

function tokenLength(/** @type {string} */ text, /** @type {number} */ index) {
  return /^(\w+|:=|[/<>]=|\.\.|.)/.exec(text.slice(index, index + 70))?.[0].length ?? 1;
}

/** The fault of a text that stands at a place, or null where the reading ends elsewhere. */
export function faultAt(/** @type {string} */ kind, /** @type {string} */ text, /** @type {number} */ index) {
  const { fault } = kind === "design" ? readDesign(text) : kind === "arrivals" ? readArrivals(text) : { fault: null };
  if (fault === null) return null;
  const isThere = fault.token === null ? index >= text.trimEnd().length : fault.token.index === index;
  return isThere ? fault : null;
}

/**
 * The notes that a fault of the text has: what may be the cause, and stands before it.
 * @returns {Note[]}
 */
function textNotes(/** @type {string} */ text, /** @type {number} */ index) {
  const fault = faultAt("design", text, index);
  if (fault === null) return [];
  const { tokens, place, open, wanted, token, object } = fault;
  const opened = open[open.length - 1];
  /** @type {Note[]} */
  const notes = [];
  const later = object === null || token === null ? undefined : sectionBehind(object, token.word);
  if (later !== undefined && token !== null && fault.inside === "sections") {
    notes.push(note(later[1], "order", { NAME: shown(later[0]), OTHER: shown(token.word) }));
  } else if (opened !== undefined && open.length > 1 && (wanted.includes("end") || wanted.includes("if") || wanted.includes("loop")) && endsThere(token, tokens[place - 1])) {
    const elses = tokens.findIndex(({ word }, at) => at > tokens.indexOf(opened) && at < place && word === "else" && tokens[at + 1].word === "if");
    const NAME = opened.word === "if" || opened.word === "for" || opened.word === "thread" ? shown(opened.word) : opened.word;
    if (opened.word === "if" && elses >= 0) notes.push(note(from(tokens[elses], tokens[elses + 1]), "elseif"));
    else {
      const last = tokens[place - 1]?.word === "end" ? tokens[place - 2] : tokens[place - 1];
      notes.push(note({ index: last.index + last.length - 1, length: 1 }, "ends", { NAME }), note(opened, "open", { NAME }));
    }
  }
  return notes;
}

/** Whether an END may be missing before a token: another thing is ended there, or one begins. */
function endsThere(/** @type {Token|null} */ token, /** @type {Token|undefined} */ before) {
  return token === null || before?.word === "end" || ["object", "end", "operation", "thread", "implements"].includes(token.word);
}

/** The first section of an object that is there and is to stand behind another. */
function sectionBehind(/** @type {DesignObject} */ object, /** @type {string} */ word) {
  const rank = SECTIONS.indexOf(word);
  return rank < 0 ? undefined : [...object.sections].find(([name]) => SECTIONS.indexOf(name) > rank);
}

// ---- All lines ----

/** @typedef {Found & { kind: string }} FoundIn */
/** @typedef {Record<string, string|undefined>} Texts */

/** @returns {FoundIn|null} */
function placeOfText(/** @type {string} */ line, /** @type {Texts} */ texts) {
  const told = /^refused (\w+) (design|arrivals|ada) line (\d+) column (\d+)/.exec(line);
  const text = texts[told?.[2] ?? ""];
  if (told === null || text === undefined) return null;
  const index = indexOf(text, Number(told[3]), Number(told[4]));
  const notes = told[1] === "S1" && told[2] === "design" ? textNotes(text, index) : [];
  return { kind: told[2], span: { index, length: tokenLength(text, index) }, detail: null, notes };
}

/**
 * The request of a line of arrivals, or the horizon.
 * @returns {FoundIn|null}
 */
function placeOfArrivals(/** @type {string} */ line, /** @type {Texts} */ texts) {
  const text = texts.arrivals;
  if (text === undefined) return null;
  if (line.startsWith("refused Q4")) {
    const tokens = tokensOf(text);
    const until = tokens.findIndex(({ word }) => word === "until");
    return { kind: "arrivals", ...found(tokens[until + 1] ?? { index: 0, length: 1 }) };
  }
  const told = /^refused Q\d line (\d+)/.exec(line);
  if (told === null) return null;
  const start = indexOf(text, Number(told[1]), 1);
  const whole = text.slice(start).split("\n", 1)[0];
  const index = start + whole.length - whole.trimStart().length;
  return { kind: "arrivals", ...found({ index, length: Math.max(1, whole.trim().length) }) };
}

/** @returns {FoundIn|null} */
function placeOfTrace(/** @type {string} */ line, /** @type {Texts} */ texts) {
  const told = /^refused T1 line (\d+)/.exec(line);
  if (told === null || texts.trace === undefined) return null;
  return { kind: "trace", ...found({ index: indexOf(texts.trace, Number(told[1]), 1), length: 1 }) };
}

/**
 * The text in which the fault stands that a line tells, and its place there; or null, where no place is told and no name.
 * @returns {FoundIn|null}
 */
export function foundOf(/** @type {string} */ line, /** @type {Texts} */ texts) {
  const place = placeOfText(line, texts) ?? placeOfArrivals(line, texts) ?? placeOfTrace(line, texts);
  if (place !== null) return place;
  const code = /^refused ([VUAP]\d+) /.exec(line)?.[1];
  if (code === undefined || texts.design === undefined) return null;
  const { design } = readDesign(texts.design);
  const told = design === null ? null : ruleFault(design, code, namesOf(line));
  return told === null ? null : { kind: "design", ...told };
}

/** The place alone, as the page marks it; that of a trace it finds by itself. */
export function markOf(/** @type {string} */ line, /** @type {Texts} */ texts) {
  const told = foundOf(line, texts);
  return told === null || told.kind === "trace" ? null : { kind: told.kind, index: told.span.index, length: told.span.length };
}
