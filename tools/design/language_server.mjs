#!/usr/bin/env node
// A language server for designs, over the program: it speaks the Language Server Protocol 3.17 on standard input and output, and needs node 20 or
// later and nothing else. Editors start it; it takes no arguments (`--stdio` is ignored).
//
// It offers diagnostics while one types, by the sentences and places of web/refusals.js; the outline; the place where an object, an operation or a
// variable is declared; for an object its bounds, its ceiling and what they are made of, as `explain` writes them; and the layout of tidy.mjs. The
// program gives every refusal and every number. PROGRAM is its path, and that of this repository if it isn't set, without its runs without proof: they
// take minutes. If there is no answer, a warning in the first line says why, and the editor shows it, once for each reason.
import { readFileSync, realpathSync } from "node:fs";
import { join } from "node:path";
import { argv, env, exit, stderr, stdin, stdout } from "node:process";
import { fileURLToPath } from "node:url";
import { foundOf } from "../../web/places.js";
import { Refusals } from "../../web/refusals.js";
import { DesignText, linesOn } from "./design_places.mjs";
import { NoAnswer, TOP, answerOver, scriptLines, toldLines } from "./program.mjs";
import { tidied } from "./tidy.mjs";

/** @typedef {{ line: number, character: number }} Position */
/** @typedef {{ start: Position, end: Position }} Range */
/** @typedef {{ range?: Range, text: string }} Change */
/** @typedef {import("./design_places.mjs").Symbol} Symbol */

const PAUSE = 150; // milliseconds without a change, before the program is asked
const PARSE = -32700;
const INVALID = -32600;
const NO_METHOD = -32601;
const PARAMS = -32602;
const INTERNAL = -32603;
const NOT_INITIALIZED = -32002;
const CANCELLED = -32800;
const FAILED = -32803;
const ERROR = 1; // kinds of messages, and of diagnostics
const WARNING = 2;
const KINDS = { design: 2, object: 5, operation: 6, data: 8, thread: 24 };
const MOST = 2 ** 26; // bytes of a message
const refusals = new Refusals(JSON.parse(readFileSync(join(TOP, "web/refusals.json"), "utf8")));

/** What a request is answered by, if it has no result. */
class Fault extends Error {
  constructor(/** @type {number} */ code, /** @type {string} */ message) {
    super(message);
    this.code = code;
  }
}

// ---- Documents ----

/** A text with its lines. Characters are counted in UTF-16 code units, as strings of JavaScript count them. */
class Document {
  constructor(/** @type {string} */ uri, /** @type {number} */ version, /** @type {string} */ text) {
    this.uri = uri;
    this.version = version;
    /** @type {DesignText|null} */
    this.lastDesign = null;
    /** @type {AbortController|null} */
    this.asked = null;
    /** @type {ReturnType<typeof setTimeout>|undefined} */
    this.timer = undefined;
    this.set(text);
  }

  set(/** @type {string} */ text) {
    this.text = text;
    this.starts = [0, ...[...text.matchAll(/\r\n|\n|\r/g)].map((found) => (found.index ?? 0) + found[0].length)];
    this.tree = new DesignText(text);
    if (this.tree.design !== null) this.lastDesign = this.tree;
    /** @type {Promise<string[]>|null} */
    this.lines = null;
  }

  /** Returns the index of a position. One after the end of its line is that end. */
  indexOf(/** @type {Position} */ { line, character }) {
    if (!Number.isInteger(line) || !Number.isInteger(character) || line < 0 || character < 0) throw new Fault(PARAMS, "no position");
    if (line >= this.starts.length) return this.text.length;
    const next = this.starts[line + 1] ?? this.text.length;
    const whole = this.text.slice(this.starts[line], next).replace(/[\r\n]+$/, "");
    return this.starts[line] + Math.min(character, whole.length);
  }

  /**
   * Returns the position of an index.
   * @returns {Position}
   */
  positionOf(/** @type {number} */ index) {
    let [low, high] = [0, this.starts.length];
    while (high - low > 1) {
      const middle = (low + high) >> 1;
      if (this.starts[middle] <= index) low = middle;
      else high = middle;
    }
    return { line: low, character: index - this.starts[low] };
  }

  /** @returns {Range} */
  range(/** @type {number} */ from, /** @type {number} */ to) {
    return { start: this.positionOf(from), end: this.positionOf(to) };
  }

  span(/** @type {{ index: number, length: number }} */ { index, length }) {
    const from = Math.min(index, this.text.length);
    return this.range(from, Math.min(from + length, this.text.length));
  }

  change(/** @type {Change} */ { range, text }) {
    if (typeof text !== "string") throw new Fault(PARAMS, "no text");
    if (range === undefined) this.set(text);
    else this.set(this.text.slice(0, this.indexOf(range.start)) + text + this.text.slice(this.indexOf(range.end)));
  }

  /** Returns the outline of the text, or of its last form that was a design. */
  outline() {
    return (this.lastDesign?.outline() ?? []).map((one) => this.symbol(one));
  }

  /** @returns {object} */
  symbol(/** @type {Symbol} */ { name, detail, kind, from, to, at, children }) {
    return { name, detail, kind: KINDS[/** @type {keyof KINDS} */ (kind)], range: this.range(Math.min(from, this.text.length), Math.min(to, this.text.length)),
      selectionRange: this.span(at), children: children.map((one) => this.symbol(one)) };
  }

  /** Returns what the program writes of the bounds of this text: none, if it refuses the design. */
  bounds() {
    this.lines ??= this.askBounds().catch((fault) => {
      this.lines = null; // asked again at the next hover
      throw fault;
    });
    return this.lines;
  }

  /** @returns {Promise<string[]>} */
  async askBounds() {
    const isBackground = this.tree.hasBackground();
    const { status, out, err } = await answerOver(isBackground ? "background" : "explain", Buffer.from(this.text));
    if (status > 1) throw new Fault(FAILED, toldLines(err).join("; "));
    if (status === 1) return [];
    const lines = out.toString().split("\n").slice(0, -1);
    return isBackground ? lines.filter((/** @type {string} */ line) => line.startsWith("-- thread ")).map((/** @type {string} */ line) => line.slice(3)) : lines;
  }
}

/** The diagnostic of a line of the program on standard error. */
function diagnosticOf(/** @type {Document} */ document, /** @type {string} */ line) {
  const texts = { design: document.text };
  const found = foundOf(line, texts);
  const told = refusals.toldOf(line, texts);
  const range = found === null ? document.range(0, 0) : document.span(found.span);
  if (told === null) return { range, severity: 1, source: "hrthood", message: line };
  const notes = (found?.notes ?? []).map((one, which) => ({ location: { uri: document.uri, range: document.span(one.span) }, message: told.notes[which].says }));
  return { range, severity: 1, code: told.code, source: "hrthood", message: `${[told.says, ...told.more].join(" ")} [${line}]`, relatedInformation: notes };
}

// ---- Server ----

class Server {
  constructor(/** @type {(message: object) => void} */ send) {
    this.send = send;
    this.state = "new";
    /** @type {Map<string, Document>} */
    this.documents = new Map();
    /** @type {Map<string|number, AbortController>} */
    this.running = new Map();
    /** @type {Set<string>} */
    this.said = new Set();
    /** @type {Record<string, (params: any, signal: AbortSignal) => any>} */
    this.requests = {
      "initialize": () => this.initialize(),
      "shutdown": () => this.shutdown(),
      "textDocument/documentSymbol": (params) => this.documentOf(params).outline(),
      "textDocument/definition": (params) => this.definition(params),
      "textDocument/hover": (params) => this.hover(params),
      "textDocument/formatting": (params, signal) => this.formatting(params, signal),
    };
    /** @type {Record<string, (params: any) => void>} */
    this.notices = {
      "initialized": () => {},
      "exit": () => this.leave(),
      "$/cancelRequest": ({ id }) => this.running.get(id)?.abort(),
      "textDocument/didOpen": ({ textDocument }) => this.open(textDocument),
      "textDocument/didChange": (params) => this.changed(params),
      "textDocument/didSave": () => {},
      "textDocument/didClose": (params) => this.close(params),
    };
  }

  leave() {
    for (const { asked } of this.documents.values()) asked?.abort();
    exit(this.state === "down" ? 0 : 1);
  }

  // ---- Messages ----

  /** Takes the bytes of a message. */
  take(/** @type {string} */ text) {
    let message;
    try {
      message = JSON.parse(text);
    } catch {
      this.send({ jsonrpc: "2.0", id: null, error: { code: PARSE, message: "no JSON" } });
      return;
    }
    const isOne = typeof message === "object" && message !== null && !Array.isArray(message);
    if (isOne && message.method === undefined && message.id !== undefined) return; // an answer to this server, which asks nothing
    if (!isOne || typeof message.method !== "string") {
      this.send({ jsonrpc: "2.0", id: message?.id ?? null, error: { code: INVALID, message: "no request" } });
    } else if (message.id === undefined || message.id === null) this.notice(message);
    else void this.request(message);
  }

  /** @param {{ method: string, params?: any }} message */
  notice({ method, params }) {
    if (this.state !== "up" && method !== "exit") return;
    try {
      if (Object.hasOwn(this.notices, method)) this.notices[method](params ?? {});
    } catch (fault) {
      this.log(`${method}: ${fault}`);
    }
  }

  /** @param {{ id: string|number, method: string, params?: any }} message */
  async request({ id, method, params }) {
    const control = new AbortController();
    this.running.set(id, control);
    try {
      const result = await this.resultOf(method, params ?? {}, control.signal);
      if (control.signal.aborted) throw new Fault(CANCELLED, "cancelled");
      this.send({ jsonrpc: "2.0", id, result });
    } catch (fault) {
      const { code, message } = control.signal.aborted ? new Fault(CANCELLED, "cancelled") : fault instanceof Fault ? fault
        : new Fault(fault instanceof NoAnswer ? FAILED : INTERNAL, String(fault));
      this.send({ jsonrpc: "2.0", id, error: { code, message } });
    }
    this.running.delete(id);
  }

  /**
   * Returns the result of a request; where it is cancelled meanwhile, it ends at once.
   * @param {string} method
   * @param {any} params
   * @param {AbortSignal} signal
   */
  resultOf(method, params, signal) {
    if (this.state === "new" && method !== "initialize") throw new Fault(NOT_INITIALIZED, "initialize comes first");
    if (this.state === "down" || (this.state === "up" && method === "initialize")) throw new Fault(INVALID, `${method} does not follow here`);
    if (!Object.hasOwn(this.requests, method)) throw new Fault(NO_METHOD, `no method ${method}`);
    const cancelled = new Promise((_, reject) => signal.addEventListener("abort", () => reject(new Fault(CANCELLED, "cancelled"))));
    return Promise.race([this.requests[method](params, signal), cancelled]);
  }

  log(/** @type {string} */ message) {
    this.send({ jsonrpc: "2.0", method: "window/logMessage", params: { type: 1, message } });
  }

  initialize() {
    this.state = "up";
    return { serverInfo: { name: "hrthood" }, capabilities: { positionEncoding: "utf-16", textDocumentSync: { openClose: true, change: 2 },
      documentSymbolProvider: true, definitionProvider: true, hoverProvider: true, documentFormattingProvider: true } };
  }

  shutdown() {
    this.state = "down";
    return null;
  }

  // ---- Documents ----

  documentOf(/** @type {any} */ params) {
    const document = this.documents.get(params?.textDocument?.uri);
    if (document === undefined) throw new Fault(PARAMS, "the document is not open");
    return document;
  }

  /** @param {{ uri: string, version: number, text: string }} document */
  open({ uri, version, text }) {
    const document = new Document(uri, version, text);
    this.documents.set(uri, document);
    this.judgeSoon(document, 0);
  }

  changed(/** @type {any} */ params) {
    const document = this.documentOf(params);
    document.version = params.textDocument.version;
    for (const change of params.contentChanges) document.change(change);
    this.judgeSoon(document, PAUSE);
  }

  close(/** @type {any} */ params) {
    const document = this.documentOf(params);
    clearTimeout(document.timer);
    document.asked?.abort();
    this.documents.delete(document.uri);
    this.publish(document, []);
  }

  publish(/** @type {Document} */ { uri, version }, /** @type {object[]} */ diagnostics) {
    this.send({ jsonrpc: "2.0", method: "textDocument/publishDiagnostics", params: { uri, version, diagnostics } });
  }

  /** Asks the program when no change has come for a while. A run over an older text is given up. */
  judgeSoon(/** @type {Document} */ document, /** @type {number} */ pause) {
    clearTimeout(document.timer);
    document.asked?.abort();
    document.asked = new AbortController();
    const { signal } = document.asked;
    document.timer = setTimeout(() => void this.judge(document, signal), pause);
  }

  async judge(/** @type {Document} */ document, /** @type {AbortSignal} */ signal) {
    try {
      const verb = document.tree.hasBackground() ? "background" : "analyse";
      const { err } = await answerOver(verb, Buffer.from(document.text), signal);
      if (signal.aborted) return;
      for (const line of scriptLines(err)) this.show(WARNING, line);
      this.publish(document, toldLines(err).map((line) => diagnosticOf(document, line)));
    } catch (fault) {
      if (signal.aborted) return;
      const why = fault instanceof Error ? fault.message : String(fault);
      this.show(ERROR, `hrthood: ${why}`);
      this.publish(document, [{ range: document.range(0, 0), severity: WARNING, source: "hrthood", message: `The design is not checked: ${why}` }]);
    }
  }

  /** Shows a message, once. */
  show(/** @type {number} */ type, /** @type {string} */ message) {
    if (!this.said.has(message)) this.send({ jsonrpc: "2.0", method: "window/showMessage", params: { type, message } });
    this.said.add(message);
  }

  // ---- Requests ----

  meaning(/** @type {any} */ params) {
    const document = this.documentOf(params);
    return { document, meaning: document.tree.meaningAt(document.indexOf(params.position ?? {})) };
  }

  definition(/** @type {any} */ params) {
    const { document, meaning } = this.meaning(params);
    const declared = meaning?.declared ?? null;
    return declared === null ? null : { uri: document.uri, range: document.span(declared) };
  }

  async hover(/** @type {any} */ params) {
    const { document, meaning } = this.meaning(params);
    if (meaning === null) return null;
    const { object, op, token, declared } = meaning;
    const { tree } = document;
    if (op === null && declared !== object.name) return null; // a variable
    const lines = await document.bounds();
    const head = op === null ? `OBJECT ${tree.written(object.name)} IS ${object.kind.word.toUpperCase()}`
      : `${tree.written(object.name)}.${tree.declaration(object, op) ?? op}`;
    const told = linesOn(lines, object.name.word, op);
    const text = told.length > 0 || lines.length > 0 || op !== null ? told : ["no bounds: the design is refused"];
    return { contents: { kind: "markdown", value: ["```", head, ...text, "```"].join("\n") }, range: document.span(token) };
  }

  async formatting(/** @type {any} */ params, /** @type {AbortSignal} */ signal) {
    const document = this.documentOf(params);
    const given = Buffer.from(document.text);
    if (given.toString() !== document.text) throw new Fault(FAILED, "the text is not Unicode");
    const { status, text, told } = await tidied(given, signal);
    if (status !== 0) throw new Fault(FAILED, toldLines(told).join("; "));
    const newText = text.toString();
    return newText === document.text ? [] : [{ range: document.range(0, document.text.length), newText }];
  }
}

// ---- Streams ----

/** Takes messages out of bytes: a head with the length of the body, and the body. */
class Reader {
  constructor(/** @type {(text: string) => void} */ take) {
    this.take = take;
    this.bytes = Buffer.alloc(0);
  }

  add(/** @type {Buffer} */ piece) {
    this.bytes = Buffer.concat([this.bytes, piece]);
    for (;;) {
      const end = this.bytes.indexOf("\r\n\r\n");
      if (end < 0) return;
      const length = Number(/^content-length: *(\d+) *$/im.exec(this.bytes.subarray(0, end).toString("latin1"))?.[1] ?? NaN);
      if (!(length <= MOST)) { // without a length nothing is known of the body: it is read on from the next head
        this.bytes = this.bytes.subarray(end + 4);
        this.take("");
        continue;
      }
      if (this.bytes.length < end + 4 + length) return;
      const body = this.bytes.subarray(end + 4, end + 4 + length).toString();
      this.bytes = this.bytes.subarray(end + 4 + length);
      this.take(body);
    }
  }
}

function main() {
  env.HRTHOOD_UNPROVED ??= "never";
  const server = new Server((message) => {
    const body = Buffer.from(JSON.stringify(message));
    stdout.write(Buffer.concat([Buffer.from(`Content-Length: ${body.length}\r\n\r\n`), body]));
  });
  const reader = new Reader((text) => server.take(text));
  stdin.on("data", (/** @type {Buffer} */ piece) => reader.add(piece));
  stdin.on("end", () => server.leave());
  stdout.on("error", () => exit(1)); // the editor has gone
}

if (argv[1] !== undefined && realpathSync(argv[1]) === realpathSync(fileURLToPath(import.meta.url))) {
  if (argv.slice(2).every((word) => word === "--stdio")) main();
  else {
    stderr.write("usage: language_server.mjs [--stdio]\n");
    process.exitCode = 2;
  }
}

export { Document, Reader };
