#!/usr/bin/env node
// Tests language_server.mjs by a client that speaks its protocol. PROGRAM is the path of the program, and that of this repository if it isn't set.
import { spawn, spawnSync } from "node:child_process";
import { chmodSync, mkdtempSync, readFileSync, readdirSync, rmSync, writeFileSync } from "node:fs";
import { tmpdir } from "node:os";
import { join } from "node:path";
import { env, exit } from "node:process";
import { Reader } from "./language_server.mjs";
import { TOP } from "./program.mjs";

const PROGRAM = env.PROGRAM ?? join(TOP, "hrthood");
const LONGEST = 60000; // milliseconds that are waited for a message
const room = mkdtempSync(join(tmpdir(), "server-"));
const read = (/** @type {string} */ name) => readFileSync(join(TOP, "examples", name), "utf8");
const pump = read("mine_pump.design");
let [tried, failed] = [0, 0];

function judge(/** @type {boolean} */ isRight, /** @type {string} */ what) {
  tried++;
  if (isRight) return;
  failed++;
  console.log(`FAILED ${what}`);
}

const shown = (/** @type {any} */ value) => JSON.stringify(value);
const equal = (/** @type {any} */ one, /** @type {any} */ other, /** @type {string} */ what) => judge(shown(one) === shown(other), `${what}: ${shown(one)}, wanted ${shown(other)}`);

/** A client with a server of its own. */
class Client {
  constructor(program = PROGRAM) {
    this.room = mkdtempSync(join(room, "client-"));
    this.server = spawn(join(TOP, "tools/design/language_server.mjs"), ["--stdio"],
      { stdio: ["pipe", "pipe", "inherit"], env: { ...env, PROGRAM: program, TMPDIR: this.room } });
    /** @type {any[]} */
    this.came = [];
    /** @type {(() => void)|null} */
    this.wake = null;
    this.number = 0;
    const reader = new Reader((text) => {
      this.came.push(JSON.parse(text));
      this.wake?.();
    });
    this.server.stdout.on("data", (/** @type {Buffer} */ piece) => reader.add(piece));
    this.server.stdin.on("error", () => {});
    this.ended = new Promise((resolve) => this.server.on("exit", resolve));
  }

  raw(/** @type {string|Buffer} */ bytes) {
    this.server.stdin.write(bytes);
  }

  framed(/** @type {string} */ body) {
    return `Content-Length: ${Buffer.byteLength(body)}\r\n\r\n${body}`;
  }

  tell(/** @type {string} */ method, /** @type {any} */ params) {
    this.raw(this.framed(shown({ jsonrpc: "2.0", method, params })));
  }

  /** Sends a request, and returns its number. */
  begin(/** @type {string} */ method, /** @type {any} */ params) {
    this.raw(this.framed(shown({ jsonrpc: "2.0", id: ++this.number, method, params })));
    return this.number;
  }

  /**
   * Waits for a message of the server, and takes it.
   * @param {(message: any) => boolean} fits
   * @returns {Promise<any>}
   */
  async next(fits) {
    const last = Date.now() + LONGEST;
    for (;;) {
      const place = this.came.findIndex(fits);
      if (place >= 0) return this.came.splice(place, 1)[0];
      if (Date.now() > last) return { error: { code: 0, message: "no message" } };
      await new Promise((resolve) => {
        const timer = setTimeout(() => resolve(null), 1000);
        this.wake = () => { clearTimeout(timer); resolve(null); };
      });
    }
  }

  answer(/** @type {number} */ id) {
    return this.next((message) => message.id === id && message.method === undefined);
  }

  async ask(/** @type {string} */ method, /** @type {any} */ params = {}) {
    return this.answer(this.begin(method, params));
  }

  async result(/** @type {string} */ method, /** @type {any} */ params) {
    const { result, error } = await this.ask(method, params);
    return error === undefined ? result : error;
  }

  async start() {
    const { result } = await this.ask("initialize", { processId: null, rootUri: null, capabilities: {} });
    this.tell("initialized", {});
    return result;
  }

  open(/** @type {string} */ uri, /** @type {string} */ text) {
    this.tell("textDocument/didOpen", { textDocument: { uri, languageId: "hrthood", version: 1, text } });
  }

  change(/** @type {string} */ uri, /** @type {number} */ version, /** @type {any[]} */ contentChanges) {
    this.tell("textDocument/didChange", { textDocument: { uri, version }, contentChanges });
  }

  async diagnostics(/** @type {string} */ uri, /** @type {number} */ version) {
    const told = await this.next(({ method, params }) => method === "textDocument/publishDiagnostics" && params.uri === uri && params.version === version);
    return told.params?.diagnostics ?? told;
  }

  async stop() {
    await this.ask("shutdown");
    this.tell("exit", {});
    return this.ended;
  }
}

/** The position of a text in another, some characters on. */
function placeOf(/** @type {string} */ text, /** @type {string} */ part, on = 0) {
  const index = text.indexOf(part);
  if (index < 0) throw new Error(`no ${part}`);
  const lines = text.slice(0, index + on).split("\n");
  return { line: lines.length - 1, character: lines[lines.length - 1].length };
}

const at = (/** @type {string} */ uri, /** @type {string} */ text, /** @type {string} */ part, on = 0) => ({ textDocument: { uri }, position: placeOf(text, part, on) });

// ---- Tests ----

async function tryDiagnostics(/** @type {Client} */ client) {
  const uri = "file:///slip.design";
  const slip = pump.replace("Work (6);", "Work (6;");
  client.open(uri, slip);
  const [first, ...more] = await client.diagnostics(uri, 1);
  equal([first?.code, first?.severity, first?.source, first?.range.start, more.length], ["S1", 1, "hrthood", placeOf(slip, "Work (6;", 7), 0], "a slip");
  equal(first?.message, "Before this, `)` is missing. [refused S1 design line 51 column 14]", "the words of a slip");
  // The slip is mended by a change of one place; then a deadline by another.
  const place = placeOf(slip, "Work (6;", 7);
  client.change(uri, 2, [{ range: { start: place, end: place }, text: ")" }]);
  equal(await client.diagnostics(uri, 2), [], "the slip is mended");
  client.change(uri, 3, [{ range: { start: placeOf(pump, "DEADLINE = 50;", 11), end: placeOf(pump, "DEADLINE = 50;", 13) }, text: "500" }]);
  const [late] = await client.diagnostics(uri, 3);
  const changed = pump.replace("DEADLINE = 50;", "DEADLINE = 500;");
  equal(late?.code, "V11", "a deadline that is too long");
  judge(late?.message.startsWith("The DEADLINE of alarm_console is 500 ticks, over its SEPARATION of 80."), `its words: ${late?.message}`);
  equal(late?.range.start, placeOf(changed, "DEADLINE = 500;"), "its place");
  client.change(uri, 4, [{ text: pump.replace("DEADLINE = 30;", "DEADLINE = 20;") }]);
  const [bound] = await client.diagnostics(uri, 4);
  equal([bound?.code, bound?.range.start], ["U1", placeOf(pump, "DEADLINE = 30;")], "a missed deadline, in a whole text");
  // Two texts at once: only the last one is judged.
  const both = [slip, pump].map((text, which) => ({ jsonrpc: "2.0", method: "textDocument/didChange",
    params: { textDocument: { uri, version: 5 + which }, contentChanges: [{ text }] } }));
  client.raw(both.map((one) => client.framed(shown(one))).join(""));
  equal(await client.diagnostics(uri, 6), [], "the last of two changes");
  judge(client.came.every(({ params }) => params?.version !== 5), "the first of two changes is not judged");
  client.tell("textDocument/didClose", { textDocument: { uri } });
  equal(await client.diagnostics(uri, 6), [], "a closed document has none");
  const again = await client.ask("textDocument/documentSymbol", { textDocument: { uri } });
  equal(again.error?.code, -32602, "a closed document has no outline");
  // A name twice: the note has the place of the other one.
  client.open("file:///twice.design", read("faults/v01.design"));
  const [clash] = await client.diagnostics("file:///twice.design", 1);
  equal([clash?.code, clash?.range.start, clash?.relatedInformation], ["V01", { line: 113, character: 16 }, [{ location: { uri: "file:///twice.design",
    range: { start: { line: 6, character: 9 }, end: { line: 6, character: 14 } } }, message: "store is declared here too." }]], "two objects of a name");
  client.open("file:///logged.design", read("logged_control.design"));
  equal(await client.diagnostics("file:///logged.design", 1), [], "a design with clients and servers");
}

async function tryOutline(/** @type {Client} */ client) {
  const uri = "file:///pump.design";
  client.open(uri, pump);
  const [design] = await client.result("textDocument/documentSymbol", { textDocument: { uri } });
  const path = (/** @type {any} */ one, /** @type {string} */ above) => [above + one.name, ...one.children.flatMap((/** @type {any} */ child) => path(child, `${above}${one.name}/`))];
  const paths = path(design, "");
  equal(paths.slice(0, 6).map((one) => one.replace("mine/mine_control/", "..")), ["mine", "mine/mine_control", "..pump_controller", "..pump_controller/set_safety",
    "..pump_controller/motor", "..pump_controller/motor/pump"], "the outline");
  equal([paths.length, paths.filter((one) => one.endsWith("/THREAD")).length], [37, 6], "its size");
  const before = (/** @type {any} */ one, /** @type {any} */ other) => one.line < other.line || (one.line === other.line && one.character <= other.character);
  const holds = (/** @type {any} */ one, /** @type {any} */ other) => before(one.start, other.start) && before(other.end, one.end);
  const isNested = (/** @type {any} */ one) => holds(one.range, one.selectionRange) && one.children.every((/** @type {any} */ child) => holds(one.range, child.range) && isNested(child));
  judge(isNested(design), "ranges are within those of their parents");
  client.change(uri, 2, [{ text: pump.replace("Work (6);", "Work (6;") }]);
  const kept = await client.result("textDocument/documentSymbol", { textDocument: { uri } });
  equal(kept.length, 1, "the outline stays while a slip is there");
  client.change(uri, 3, [{ text: pump }]);
  equal(await client.diagnostics(uri, 3), [], "the pump");
}

async function tryDefinitions(/** @type {Client} */ client) {
  const uri = "file:///pump.design";
  /** @type {[string, number, string, number][]} */
  const cases = [["motor.state (p)", 0, "OBJECT motor", 7], ["motor.state (p)", 6, "OPERATION state", 10], ["motor.state (p)", 11, "OPERATION state", 10],
    ["pump_controller.set_safety (1)", 2, "OBJECT pump_controller", 7], ["pump_controller.set_safety (1)", 20, "OPERATION set_safety", 10],
    ["alarm_console.alert (reading)", 15, "alert (v", 0], ["alarm_console.alert (reading)", 25, "DATA reading", 5], ["END motor", 6, "OBJECT motor", 7],
    ["OPERATION set_pump", 12, "set_pump (want", 0], ["set_pump (want", 1, "OPERATION set_pump", 10], ["pump := want", 9, "want : in", 0],
    ["IMPLEMENTS set_safety", 12, "OPERATION set_safety", 10], ["BY motor.set_safety", 4, "OBJECT motor", 7]];
  for (const [part, on, wanted, from] of cases) {
    const found = await client.result("textDocument/definition", at(uri, pump, part, on));
    equal(found?.range?.start, placeOf(pump, wanted, from), `definition at ${part} ${on}`);
  }
  equal(await client.result("textDocument/definition", at(uri, pump, "Work (6)", 1)), null, "no definition of work");
  equal(await client.result("textDocument/definition", { textDocument: { uri }, position: { line: 99999, character: 7 } }), null, "no definition after the end");
}

const explained = (/** @type {string} */ name) => spawnSync(PROGRAM, ["explain", join(TOP, "examples", name)], { encoding: "utf8" }).stdout.split("\n");

async function tryHover(/** @type {Client} */ client) {
  const uri = "file:///pump.design";
  const valueOf = async (/** @type {any} */ params) => (await client.result("textDocument/hover", params))?.contents?.value;
  const lines = explained("mine_pump.design");
  const own = lines.filter((line) => line.split(" ")[1] === "ch4_sensor");
  equal(await valueOf(at(uri, pump, "OBJECT ch4_sensor", 8)), ["```", "OBJECT ch4_sensor IS CYCLIC", ...own, "```"].join("\n"), "hover over a thread");
  judge(own.some((line) => line.startsWith("thread ch4_sensor priority 6")) && own.some((line) => line.startsWith("slack")), "its lines have bound and slack");
  judge((await valueOf(at(uri, pump, "motor.state (p)", 2)))?.includes("\nceiling motor 6\n"), "hover over a protected object in a call");
  judge((await valueOf(at(uri, pump, "motor.state (p)", 8)))?.startsWith("```\nmotor.state (v : out Word) PSER;\n"), "hover over an operation");
  equal(await valueOf(at(uri, pump, "reading + 7", 1)), undefined, "no hover over a variable");
  const late = read("late_control.design");
  client.open("file:///late.design", late);
  const star = await valueOf(at("file:///late.design", late, "OBJECT star_tracker", 8));
  judge(star?.includes("\nmiss U1 star_tracker value 695 limit 600 round 2\n") && star?.includes("\nlate star_tracker deadline 129 separation 0\n"), `hover over a late thread: ${star}`);
  const logged = read("logged_control.design");
  judge((await valueOf(at("file:///logged.design", logged, "OBJECT control", 8)))?.includes("\nthread control priority 2 "), "hover in a design with clients");
  client.open("file:///refused.design", pump.replace("DEADLINE = 50;", "DEADLINE = 500;"));
  judge((await valueOf(at("file:///refused.design", pump, "OBJECT motor", 8)))?.includes("no bounds"), "hover in a refused design");
}

async function tryFormatting(/** @type {Client} */ client) {
  const [given, wanted] = [read("commented.design"), read("commented_tidy.design")];
  const uri = "file:///commented.design";
  const options = { textDocument: { uri }, options: { tabSize: 3, insertSpaces: true } };
  client.open(uri, given);
  const edits = await client.result("textDocument/formatting", options);
  equal([edits?.length, edits?.[0]?.newText], [1, wanted], "the layout");
  client.change(uri, 2, [{ text: wanted }]);
  equal(await client.result("textDocument/formatting", options), [], "a layout that stays");
  // Characters are UTF-16 code units: the clef has two, and four bytes.
  client.change(uri, 3, [{ text: wanted.replace("-- reads the sensor", "-- \u{1d11e}\u00e9 sensor") }]);
  const place = placeOf(wanted, "-- reads the sensor", 3);
  const clef = { line: place.line, character: place.character + 3 };
  client.change(uri, 4, [{ range: { start: clef, end: { line: clef.line, character: 9999 } }, text: "!\r\n\r " }]);
  const told = await client.result("textDocument/formatting", options);
  equal([told?.length, told?.[0]?.newText], [1, wanted.replace("-- reads the sensor", "-- \u{1d11e}\u00e9!")], "a change after a clef");
  equal(told?.[0]?.range?.end.line, wanted.split("\n").length + 1, "a carriage return ends a line");
  client.change(uri, 5, [{ text: "design \u00e9" }]);
  equal(await client.result("textDocument/formatting", options), { code: -32803, message: "refused L1 design line 1 column 8" }, "no layout of a slip");
  const [slip] = await client.diagnostics(uri, 5);
  equal(slip?.range, { start: { line: 0, character: 7 }, end: { line: 0, character: 8 } }, "the place of a letter");
}

/** What is no right message leaves the server as it was. */
async function tryFaults(/** @type {Client} */ client) {
  const fault = (/** @type {number} */ code) => client.next(({ id, error }) => id === null && error?.code === code);
  client.raw(client.framed("{\"jsonrpc\": "));
  equal((await fault(-32700)).error.code, -32700, "broken JSON");
  client.raw("Content-Type: x\r\n\r\n");
  equal((await fault(-32700)).error.code, -32700, "a head without a length");
  for (const body of ["[]", "7", "null", "{\"jsonrpc\":\"2.0\"}"]) {
    client.raw(client.framed(body));
    equal((await fault(-32600)).error.code, -32600, `no request: ${body}`);
  }
  client.raw(client.framed("{\"jsonrpc\":\"2.0\",\"id\":999,\"result\":null}")); // an answer
  equal((await client.ask("textDocument/rename", {})).error?.code, -32601, "an unknown method");
  equal((await client.ask("toString", {})).error?.code, -32601, "a method of every object");
  equal((await client.ask("initialize", {})).error?.code, -32600, "a second initialize");
  equal((await client.ask("textDocument/hover", {})).error?.code, -32602, "hover without a document");
  equal((await client.ask("textDocument/hover", { textDocument: { uri: "file:///pump.design" }, position: { line: -1, character: 0 } })).error?.code, -32602, "no position");
  client.tell("$/unknown", {});
  client.tell("$/cancelRequest", { id: 12345 });
  client.tell("textDocument/didChange", { textDocument: { uri: "file:///none" }, contentChanges: [] });
  judge((await client.next(({ method }) => method === "window/logMessage")).params?.message.includes("not open"), "a change of no document is logged");
  const body = Buffer.from(client.framed(shown({ jsonrpc: "2.0", id: "one", method: "textDocument/documentSymbol", params: { textDocument: { uri: "file:///pump.design" } } })));
  for (const byte of body) {
    client.raw(Buffer.from([byte]));
    await new Promise((resolve) => setTimeout(resolve, 0));
  }
  equal((await client.next(({ id }) => id === "one")).result?.length, 1, "byte by byte");
  client.raw(client.framed(shown({ jsonrpc: "2.0", id: "two", method: "x" })) + client.framed(shown({ jsonrpc: "2.0", id: "three", method: "y" })));
  equal([(await client.next(({ id }) => id === "two")).error?.code, (await client.next(({ id }) => id === "three")).error?.code], [-32601, -32601], "two at once");
}

/** A program that has no answer accepts nothing: the words of the script `hrthood`, a failed allocation, and an answer without proof are shown. */
async function tryNoAnswers() {
  const script = join(room, "no_answer.sh");
  const shell = (/** @type {string} */ body) => {
    writeFileSync(script, `#!/bin/sh\n${body}\n`);
    chmodSync(script, 0o755);
  };
  shell("echo 'hrthood: no proved program of these sources' >&2; exit 125");
  const client = new Client(script);
  await client.start();
  const uri = "file:///unread.design";
  client.open(uri, pump);
  const [warning, ...others] = await client.diagnostics(uri, 1);
  equal([warning?.severity, warning?.message, others.length], [2, "The design is not checked: no proved program of these sources", 0], "status 125");
  const message = await client.next(({ method }) => method === "window/showMessage");
  equal(message.params, { type: 1, message: "hrthood: no proved program of these sources" }, "status 125 is shown");
  const hover = () => client.ask("textDocument/hover", at(uri, pump, "OBJECT motor", 8));
  equal((await hover()).error?.message, "Error: no proved program of these sources", "hover with status 125");
  const layout = await client.ask("textDocument/formatting", { textDocument: { uri }, options: {} });
  equal([layout.error?.code, layout.error?.message], [-32803, "Error: no proved program of these sources"], "layout with status 125");
  shell("echo 'no memory' >&2; exit 5");
  equal((await hover()).error?.message, "no memory", "hover with status 5");
  client.change(uri, 2, [{ text: pump }]);
  equal((await client.diagnostics(uri, 2)).map((/** @type {any} */ one) => [one.severity, one.message]), [[1, "no memory"]], "status 5");
  shell(`echo 'hrthood: this answer is NOT PROVED' >&2; echo "run without proof: \${HRTHOOD_UNPROVED-}" >&2; exec '${PROGRAM}' "$@"`);
  client.change(uri, 3, [{ text: pump }]);
  equal((await client.next(({ method }) => method === "window/showMessage")).params, { type: 2, message: "hrthood: this answer is NOT PROVED" }, "an answer without proof");
  equal((await client.diagnostics(uri, 3)).map((/** @type {any} */ one) => one.message), ["run without proof: never"], "the server asks for none");
  judge((await hover()).result?.contents.value.includes("\nceiling motor 6\n"), "the next hover asks again");
  equal(await client.stop(), 0, "the end after no answers");
}

/** A program that takes long is left when its request is cancelled or the server ends, and no file of it stays. */
async function trySlow() {
  const script = join(room, "slow.sh");
  writeFileSync(script, "#!/bin/sh\nexec sleep 300\n");
  chmodSync(script, 0o755);
  const client = new Client(script);
  await client.start();
  client.open("file:///slow.design", pump);
  const id = client.begin("textDocument/formatting", { textDocument: { uri: "file:///slow.design" }, options: {} });
  const hover = client.begin("textDocument/hover", at("file:///slow.design", pump, "OBJECT motor", 8));
  client.tell("$/cancelRequest", { id });
  equal((await client.answer(id)).error?.code, -32800, "a cancelled request");
  equal((await client.result("textDocument/documentSymbol", { textDocument: { uri: "file:///slow.design" } })).length, 1, "others go on");
  client.tell("$/cancelRequest", { id: hover });
  equal((await client.answer(hover)).error?.code, -32800, "a cancelled hover");
  equal(await client.stop(), 0, "the end while a program runs");
  equal(readdirSync(client.room), [], "no temporary file stays");
  const killed = new Client(script);
  await killed.start();
  killed.open("file:///slow.design", pump);
  for (let count = 0; readdirSync(killed.room).length === 0 && count < 600; count++) await new Promise((resolve) => setTimeout(resolve, 100));
  judge(readdirSync(killed.room).length === 1, "a run has its file");
  killed.server.kill("SIGTERM");
  equal(await killed.ended, 143, "the end by a signal");
  equal(readdirSync(killed.room), [], "no temporary file stays after a signal");
}

async function tryEnds() {
  const none = new Client(join(room, "absent"));
  equal((await none.ask("textDocument/hover", {})).error?.code, -32002, "a request before initialize");
  const { capabilities } = await none.start();
  equal([capabilities.textDocumentSync.change, capabilities.positionEncoding, capabilities.hoverProvider], [2, "utf-16", true], "what the server offers");
  none.open("file:///a.design", pump);
  const told = await none.next(({ method }) => method === "window/showMessage");
  judge(told.params?.message.includes("ENOENT"), `no program: ${shown(told)}`);
  const [warning, ...others] = await none.diagnostics("file:///a.design", 1);
  equal([warning?.severity, warning?.range.start, others.length], [2, { line: 0, character: 0 }, 0], "a text that no program has read has a warning");
  none.open("file:///b.design", pump);
  const hover = await none.ask("textDocument/hover", at("file:///b.design", pump, "OBJECT motor", 8));
  equal(hover.error?.code, -32803, "hover without a program");
  await none.ask("shutdown");
  equal((await none.ask("textDocument/hover", {})).error?.code, -32600, "a request after shutdown");
  judge(none.came.every(({ method }) => method !== "window/showMessage"), "it is said once");
  none.tell("exit", {});
  equal(await none.ended, 0, "exit after shutdown");
  const early = new Client();
  early.tell("exit", {});
  equal(await early.ended, 1, "exit without shutdown");
  const gone = new Client();
  await gone.start();
  gone.server.stdin.end();
  equal(await gone.ended, 1, "the client has gone");
}

try {
  const client = new Client();
  await client.start();
  await tryDiagnostics(client);
  await tryOutline(client);
  await tryDefinitions(client);
  await tryHover(client);
  await tryFormatting(client);
  await tryFaults(client);
  equal(await client.stop(), 0, "the end");
  equal(readdirSync(client.room), [], "no temporary file is left");
  await tryNoAnswers();
  await trySlow();
  await tryEnds();
} finally {
  rmSync(room, { recursive: true, force: true });
}
console.log(`test_language_server: ${tried} tried, ${failed} failed`);
exit(failed === 0 ? 0 : 1);
