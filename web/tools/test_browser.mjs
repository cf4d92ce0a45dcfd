#!/usr/bin/env node
// Tries the page in a headless Chromium: each verb over the examples as the program answers, byte for byte, and what the page shows of it.
//
//     PROGRAM=./hrthood web/tools/test_browser.mjs [--pictures FOLDER] [--only STEP,STEP..] [PAGE.html]
//
// PAGE.html is out/page/lafomizana.html where it isn't named, and CHROMIUM the path of a browser. Exit status 0 tells that all went as wanted, 1
// that something did not, and 2 that nothing was tried, as there is no browser, no page or no program. --pictures takes pictures to look at,
// and --only does some of the steps, by the names of their functions.
import { spawnSync } from "node:child_process";
import { existsSync, mkdtempSync, readFileSync, readdirSync, rmSync, writeFileSync } from "node:fs";
import { tmpdir } from "node:os";
import { basename, join, resolve } from "node:path";
import { pathToFileURL } from "node:url";
import { findBrowser, openBrowser } from "./browser.mjs";
import { PICTURES, tryBars, tryDiagram, tryLate, tryUnits } from "./page_pictures.mjs";
import { tryBackground, tryTraces, tryVerbTabs } from "./page_tabs.mjs";
import { tryFitting, tryLargeDiagram, tryPaper, tryWalk } from "./page_walk.mjs";
import {
  EXAMPLES, MOST, TOP, answerOf, count, designs, filesOf, hasBackground, js, judge, judgeMark, panelOf, program, read, same, set, shown,
} from "./page_trial.mjs";

const words = process.argv.slice(2);
const pictures = words[0] === "--pictures" ? words.splice(0, 2)[1] : null;
const only = words[0] === "--only" ? words.splice(0, 2)[1].split(",") : null;
const file = resolve(words[0] ?? join(TOP, "out/page/lafomizana.html"));

// ---- What the program answers ----

/** The words of a page for a line of words, and the texts that it needs: a file of examples/ has the name of its kind. */
function handedIn(line) {
  const texts = {};
  const given = line.map((word) => {
    const kind = { ".design": "design", ".ada": "program", ".arrivals": "arrivals", ".trace": "trace" }[/\.\w+$/.exec(word)?.[0]];
    if (kind === undefined || !existsSync(join(EXAMPLES, word)) || texts[kind] !== undefined) return word;
    texts[kind] = read(word);
    return kind;
  });
  return { given, texts };
}

async function compare(page, line) {
  const { given, texts } = handedIn(line);
  const told = await page.evaluate(`run(${js(given)}, ${js(texts)})`);
  const wanted = answerOf(line);
  const isSame = told.status === wanted.status && Buffer.from(told.out).equals(wanted.out) && told.err === wanted.err;
  judge(isSame, `${line.join(" ")}: status ${told.status} and not ${wanted.status}, or other bytes`);
}

function casesOfTables() {
  const lines = [];
  for (const table of readdirSync(EXAMPLES).filter((name) => name.endsWith(".cases"))) {
    for (const line of read(table).split("\n")) {
      if (line.trim() === "" || line.startsWith("#")) continue;
      lines.push(line.split("|")[1].trim().split(/\s+/).filter((word) => word !== "").map((word) => (word === "''" ? "" : word)));
    }
  }
  // A page hands in four words at most, as no verb has more.
  return lines.filter((line) => line.length <= 4);
}

const arrivals = [...filesOf("", ".arrivals"), ...filesOf("faults", ".arrivals")];
const traces = [...filesOf("", ".trace"), ...filesOf("faults", ".trace")];
const OVER_DESIGNS = ["check", "analyse", "format", "generate", "search", "scale", "background", "explain", "arrange"];

/** Each verb over all files that it takes. */
function allLines() {
  const lines = [[], ["help"], ["sample"], ["sample", "0"], ["sample", "31"], ["check"]];
  for (const design of designs) for (const verb of OVER_DESIGNS) lines.push([verb, design]);
  for (const design of filesOf("", ".design")) for (const one of arrivals) lines.push(["verify", design, one]);
  for (const ada of filesOf("", ".ada")) for (const one of arrivals) lines.push(["replay", ada, one]);
  for (const design of designs) lines.push(["accepts", design, "one_water_alarm.arrivals", "one_water_alarm.trace"]);
  for (const one of arrivals) for (const trace of traces) lines.push(["accepts", "mine_pump.design", one, trace]);
  for (const count of [1, 2, 7, 30]) lines.push(["sample", String(count)]);
  return lines;
}

/** The verbs of the usage line. */
function verbsOfUsage() {
  return [...answerOf(["help"]).err.matchAll(/(?:usage: hrthood|\|) (\w+)/g)].map((found) => found[1]);
}

async function tryVerbs(page) {
  const [tables, all] = [casesOfTables(), allLines()];
  const verbs = verbsOfUsage();
  judge(verbs.length > 10, `verbs of the usage line: ${verbs}`);
  for (const verb of verbs) judge(all.some((line) => line[0] === verb && line.length > 1), `${verb} is tried over the examples`);
  for (const line of [...tables, ...all]) await compare(page, line);
  console.log(`${tables.length} cases of the tables and ${all.length} lines of words over all examples, of ${verbs.length} verbs`);
}

// ---- What is refused ----

/** The page has the sentences of web/refusals.json, of which the tables of docs/REFUSALS.md are made, and a fault of a body each. */
async function tryCodes(page) {
  const data = JSON.parse(readFileSync(join(TOP, "web/refusals.json"), "utf8"));
  same(await page.evaluate("REFUSALS"), data, "the sentences of the page and of web/refusals.json");
  same(Object.keys(data.bodies).length, 7, "the faults of a body");
}

async function tryMarks(page) {
  let count = 0;
  for (const design of designs) {
    const { status, err } = answerOf([hasBackground(design) ? "background" : "analyse", design]);
    if (status === 0) continue;
    await set(page, { design: read(design), arrivals: read("until_150.arrivals") });
    judgeMark(await shown(page), err.trimEnd(), "design", design);
    count++;
  }
  for (const one of filesOf("faults", ".arrivals")) {
    const { status, err } = answerOf(["verify", "data_handling.design", one]);
    if (status === 0) continue;
    await set(page, { design: read("data_handling.design"), arrivals: read(one) });
    judgeMark(await shown(page), err.trimEnd(), "arrivals", one);
    count++;
  }
  await set(page, { design: read("mine_pump.design"), arrivals: read("one_water_alarm.arrivals") });
  same((await shown(page)).kind, null, "no mark is left where nothing is refused");
  console.log(`${count} refusals with their sentence and their place`);
}

/** A refusal comes a moment after what is typed, Alt and G go to it, and it goes away with its cause. */
async function tryTyping(page) {
  await set(page, { design: read("mine_pump.design"), arrivals: read("one_water_alarm.arrivals") });
  await page.evaluate("(() => { const area = document.getElementById('design'); area.focus(); area.setSelectionRange(0, 0); })()");
  for (const key of ["x", "y"]) await page.press(key);
  await page.until("document.querySelector('#verdict.bad') && editors.design.mark !== null", 30);
  same((await shown(page)).line, "refused S1 design line 1 column 1", "what was typed is refused");
  await page.evaluate("document.getElementById('tab-bounds').focus()");
  await page.press("g", 1, "KeyG");
  const selected = "(() => { const { id, selectionStart, selectionEnd } = document.activeElement; return [id, selectionStart, selectionEnd]; })()";
  same(await page.evaluate(selected), ["design", 0, 8], "Alt and G select the marked place");
  await page.evaluate(`(() => {
    const area = document.getElementById("design");
    area.value = area.value.replace(/^xy/, "");
    area.dispatchEvent(new Event("input"));
  })()`);
  await page.until("document.querySelector('#verdict.good')", 30);
}

/** Format puts what `format` prints in the place of the design, and Ctrl and Z take it back. */
async function tryFormat(page) {
  const design = read("tank.design");
  await set(page, { design, arrivals: read("until_150.arrivals") });
  await page.evaluate("document.getElementById('format').click()");
  const wanted = answerOf(["format", "tank.design"]).out.toString();
  await page.until(`document.getElementById("design").value === ${js(wanted)}`, 30);
  await page.evaluate("document.execCommand('undo')");
  same(await page.evaluate("document.getElementById('design').value"), design, "the design as it was before Format");
}

/** An example, and the design of the help, take the place of typed texts, which Ctrl and Z bring back, also that of a tab that isn't chosen. */
async function tryBegin(page) {
  const typed = { design: "DESIGN typed", arrivals: "UNTIL 7;", trace: "0 typed" };
  const now = () => page.evaluate("textsNow()");
  const undo = async () => {
    for (let count = 0; count < 3; count++) {
      const before = JSON.stringify(await now());
      await page.evaluate("at('design').focus()");
      await page.press("z", 2, "KeyZ");
      await page.until(`JSON.stringify(textsNow()) !== ${js(before)}`, 5);
    }
  };
  const name = await page.evaluate("Object.keys(EXAMPLES).find((one) => EXAMPLES[one].trace !== undefined)");
  const example = await page.evaluate(`EXAMPLES[${js(name)}]`);
  for (const tab of ["bounds", "accepts"]) {
    await set(page, typed);
    await page.evaluate(`choose(document.getElementById("tab-${tab}"))`);
    await page.evaluate(`(() => { const pick = at("example"); pick.value = ${js(name)}; pick.dispatchEvent(new Event("change")); })()`);
    same(await now(), example, "the texts of the example");
    same(await page.evaluate(`document.activeElement.id + at("panel-accepts").hidden`), `example${tab !== "accepts"}`, "focus and tabs stay");
    await undo();
    same(await now(), typed, "what was typed before the example");
  }
  await page.evaluate(`at("how").showModal(); at("take").click()`);
  same((await now()).arrivals, "UNTIL 300;\n", "the arrivals of the help's design");
  await undo();
  same(await now(), typed, "what was typed before the design of the help");
}

/** On paper, which is narrower than the screen, the timeline is drawn whole. */
async function tryPrinted(page) {
  await set(page, { design: read("mine_pump.design"), arrivals: read("one_water_alarm.arrivals") });
  await page.evaluate(`choose(document.getElementById("tab-timeline"))`);
  const wide = await page.evaluate(`document.querySelector(".holder svg").getBoundingClientRect().width`);
  await page.page("Emulation.setEmulatedMedia", { media: "print" });
  const right = await page.evaluate(`(() => {
    const main = document.querySelector("main");
    main.style.width = "500px";
    const { right } = document.querySelector(".holder svg").getBoundingClientRect();
    main.style.width = "";
    return right - main.getBoundingClientRect().left;
  })()`);
  await page.page("Emulation.setEmulatedMedia", { media: "" });
  judge(wide > 550 && right > 300 && right <= 530, `the timeline of ${wide} pixels on paper ends at ${right}`);
}

// ---- The timeline, and what is saved ----

/** The titles of all marks in the window as tools/report/chart.mjs draws it from what the program writes. */
function chartTitles(output, from, to) {
  const words = [join(TOP, "tools/report/chart.mjs"), "--from", String(from), "--to", String(to)];
  const drawn = spawnSync(process.execPath, words, { input: output, maxBuffer: MOST });
  return [...drawn.stdout.toString().matchAll(/<title>([^<]*)<\/title>/g)].map((found) => found[1]).sort();
}

/** @type {[string, string, number[][]][]} */
const PAIRS = [
  ["mine_pump.design", "blocked_sensor.arrivals", [[0, 100], [470, 545], [396, 536]]],
  ["flight_control.design", "flight_control.arrivals", [[0, 300], [150, 260]]],
  ["data_handling.design", "data_handling.arrivals", [[0, 300], [900, 1300]]],
  ["every_kind.design", "two_presses.arrivals", [[10, 40]]],
  ["units_of_every_kind.design", "until_150.arrivals", [[0, 150]]],
  ["logged_control.design", "until_40.arrivals", [[0, 40]]],
];

/** The Ada text of a design, and its trace behind the line between them. */
function textAndTrace(design, given) {
  if (!hasBackground(design)) return answerOf(["verify", design, given]).out;
  return `${read("logged_control.ada")}-- trace\n${answerOf(["replay", "logged_control.ada", given]).out}`;
}

async function tryTimeline(page) {
  let count = 0;
  await page.evaluate("document.getElementById('tab-timeline').click()");
  for (const [design, given, windows] of PAIRS) {
    await set(page, { design: read(design), arrivals: read(given) });
    const output = textAndTrace(design, given);
    for (const [from, to] of windows) {
      const last = await page.evaluate("timeline.trace.last");
      const end = Math.min(to, last);
      if (from >= end) { judge(false, `${design} ends at ${last}`); continue; }
      await page.evaluate(`timeline.window(${from}, ${end})`);
      const found = await page.evaluate("[...document.querySelectorAll('#window svg title')].map((one) => one.textContent).sort()");
      same(found, chartTitles(output, from, end), `the marks of ${design} from ${from} to ${end}`);
      judge(found.length > 10, `marks of ${design}`);
      count += found.length;
    }
  }
  console.log(`${count} marks of the timeline as tools/report/chart.mjs draws them`);
}

/** The window moves by keys and by the mouse. */
async function tryWindow(page) {
  await set(page, { design: read("mine_pump.design"), arrivals: read("blocked_sensor.arrivals") });
  const at = () => page.evaluate("[timeline.from, timeline.to]");
  await page.evaluate("(() => { timeline.window(100, 200); document.getElementById('window').focus(); })()");
  await page.press("ArrowRight");
  same(await at(), [150, 250], "the window moves later");
  await page.press("ArrowLeft");
  await page.press("-");
  same(await at(), [50, 250], "the window becomes wider");
  await page.press("+");
  same(await at(), [100, 200], "the window becomes smaller");
  await page.press("0");
  same(await at(), [0, 600], "the window shows all");
  await page.evaluate("timeline.window(100, 200)");
  const place = "(({ left, top }) => ({ x: left + 300, y: top + 60 }))(document.getElementById('window').getBoundingClientRect())";
  const box = await page.evaluate(place);
  const mouse = (type, x) => page.page("Input.dispatchMouseEvent", { type, x, y: box.y, button: "left", buttons: 1, clickCount: 1 });
  await mouse("mousePressed", box.x);
  for (const by of [20, 60, 120]) await mouse("mouseMoved", box.x - by);
  await mouse("mouseReleased", box.x - 120);
  const [from, to] = await at();
  judge(from > 105 && to - from === 100, `the window is dragged: ${from} to ${to}`);
}

async function trySaves(browser, page) {
  const room = mkdtempSync(join(tmpdir(), "page-"));
  await browser.call("Browser.setDownloadBehavior", { behavior: "allow", downloadPath: room });
  await set(page, { design: read("mine_pump.design"), arrivals: read("one_water_alarm.arrivals"), trace: read("one_water_alarm.trace") });
  const verified = answerOf(["verify", "mine_pump.design", "one_water_alarm.arrivals"]).out.toString();
  const cut = verified.indexOf("-- trace\n");
  const analysed = answerOf(["analyse", "mine_pump.design"]).out.toString();
  const wanted = { "bounds.txt": analysed, "trace.txt": verified.slice(cut + 9), "design.ada": verified.slice(0, cut) };
  wanted["margin.txt"] = answerOf(["scale", "mine_pump.design"]).out.toString();
  wanted["background.ada"] = answerOf(["background", "mine_pump.design"]).out.toString();
  wanted["verdict.txt"] = "yes lines 36\n";
  const saves = [["bounds", "bounds.txt"], ["diagram", "diagram.svg"], ["timeline", "timeline.svg"], ["trace", "trace.txt"], ["ada", "design.ada"], ["scale", "margin.txt"],
    ["background", "background.ada"], ["accepts", "verdict.txt"]];
  for (const [tab, name] of saves) {
    await page.evaluate(`document.getElementById('tab-${tab}').click()`);
    await page.until(`document.querySelector('#panel-${tab}:not([aria-busy=true]) .tools button') !== null`, 30);
    await page.evaluate(`document.querySelector('#panel-${tab} .tools button').click()`);
    for (const end = Date.now() + 20000; Date.now() < end && !existsSync(join(room, name)); ) await new Promise((done) => setTimeout(done, 50));
    const text = existsSync(join(room, name)) ? readFileSync(join(room, name), "utf8") : "";
    if (wanted[name] !== undefined) judge(text === wanted[name], `${name} is saved as the program writes it`);
    else judge(/^<svg .*<style>[^]*<\/svg>\n$/.test(text), `${name} is saved`);
  }
  rmSync(room, { recursive: true, force: true });
}

// ---- Large runs, want of memory, and Stop ----

/** A design of about so many bytes, whose threads and passive objects have long bodies. */
function largeDesign(bytes) {
  const costs = "COSTS ASSIGN = 1; TEST = 1; TURN = 1; CALL = 2; NULL = 1; PUT = 1; FINISH = 1; END COSTS;";
  const parts = [`DESIGN large IS\n${costs}\nOBJECT whole IS ACTIVE\nOBJECTS\n`];
  const names = Array.from({ length: 460 }, (_, index) => `p${index}`);
  const body = "  r := v * 3 + 5; if r > 9 then r := r / 2; else r := r + 1; end if;\n";
  const turns = Math.floor((bytes - 30000) / names.length / body.length) - 1;
  for (const name of names) {
    parts.push(`OBJECT ${name} IS PASSIVE\nPROVIDES act (v : in word; r : out word);\n`
      + `OPERATION act IS BEGIN\n${body.repeat(turns)}END act;\nEND ${name};\n`);
  }
  for (let index = 0; index < 30; index++) {
    parts.push(`OBJECT t${index} IS CYCLIC\nATTRIBUTES PERIOD = ${100000 + index}; DEADLINE = ${100000 + index}; THREAD_BUDGET = 3000;\n`
      + `REQUIRES ${names[index]}.act;\nDATA n : word := 0;\nTHREAD ${names[index]}.act (n, n); END THREAD;\nEND t${index};\n`);
  }
  parts.push("END whole;\nEND large;\n");
  const whole = parts.join("");
  return `${whole}--${" ".repeat(bytes - whole.length - 3)}\n`;
}

async function compareTexts(page, line, texts, what) {
  const room = mkdtempSync(join(tmpdir(), "page-"));
  for (const [name, text] of Object.entries(texts)) writeFileSync(join(room, name), text);
  await page.evaluate(`(() => { globalThis.held = ${js(texts)}; })()`);
  const told = await page.evaluate(`run(${js(line)}, held)`);
  const wanted = answerOf(line, room);
  const isSame = told.status === wanted.status && Buffer.from(told.out).equals(wanted.out) && told.err === wanted.err;
  judge(isSame, `${what}: status ${told.status} and not ${wanted.status}, or other bytes`);
  rmSync(room, { recursive: true, force: true });
  console.log(`${what}: ${Math.round(told.milliseconds)} ms, ${wanted.out.length} bytes`);
  return told;
}

async function tryLarge(page) {
  const long = { design: read("mine_pump.design"), arrivals: "UNTIL 1000000;\n" };
  const { out } = await compareTexts(page, ["verify", "design", "arrivals"], long, "1,000,000 ticks of the mine pump");
  const trace = out.slice(out.indexOf("\n-- trace\n") + "\n-- trace\n".length);
  await compareTexts(page, ["accepts", "design", "arrivals", "trace"], { ...long, trace }, "its trace is judged");
  const most = largeDesign(2 ** 20);
  judge(Buffer.byteLength(most) === 2 ** 20, "a design of 1 MiB");
  for (const verb of ["check", "analyse", "format"]) await compareTexts(page, [verb, "design"], { design: most }, `${verb} of a design of 1 MiB`);
  const told = await compareTexts(page, ["check", "design"], { design: `${most} ` }, "a byte more");
  same(told.err, "refused S3 design\n", "a byte more than 1 MiB");
  await page.evaluate("document.getElementById('tab-timeline').click()");
  await set(page, long);
  judge(await page.evaluate("timeline.trace.events.length > 170000 && timeline.trace.last === 1000000"), "a long trace has a timeline");
  await page.evaluate("timeline.moves.Whole()");
  judge(await page.evaluate("document.querySelectorAll('#window svg rect.runs').length > 1000"), "a whole long trace is drawn as heights");
  await page.evaluate("(() => { document.getElementById('tab-accepts').click(); document.getElementById('own').click(); })()");
  const began = Date.now();
  await page.until("document.querySelector('#panel-accepts b')?.textContent.startsWith('Yes')", 120);
  console.log(`a trace of ${trace.split("\n").length - 1} lines is taken, numbered and judged: ${Date.now() - began} ms`);
}

/** With whatever room there is memory is wanted, or the answer is whole. */
async function tryMemory(page) {
  const line = js(["generate", "design"]);
  const texts = js({ design: read("mine_pump.design") });
  const whole = await page.evaluate(`run(${line}, ${texts})`);
  const ends = new Set();
  for (let most = 2 ** 20; most <= 2 ** 25; most += 2 ** 17) {
    const told = await page.evaluate(`run(${line}, ${texts}, ${most}).catch((fault) => ({ status: "page", out: "", err: fault.message }))`);
    ends.add(told.status);
    const isWhole = told.status === 0 && told.out === whole.out && told.err === "";
    const isWanted = told.status === 5 && told.out === "" && told.err === "no memory\n";
    const isUnbegun = told.status === 5 && told.out === "" && told.err === "";
    const hasNoRoom = told.status === "page" && told.err.includes("no room");
    judge(isWhole || isWanted || isUnbegun || hasNoRoom, `${most} bytes of memory: ${js(told).slice(0, 200)}`);
  }
  judge(ends.has(0) && ends.has(5), `memory is wanted in some of these runs and not in others: ${[...ends]}`);
}

async function tryStop(page) {
  await page.evaluate(`show(${js({ design: read("mine_pump.design"), arrivals: "UNTIL 1000000000;\n" })}); again(); null`);
  await page.until("document.getElementById('cut') !== null", 60);
  await page.evaluate("document.getElementById('cut').click()");
  await page.until("document.getElementById('verdict').textContent.includes('The run was stopped.')", 30);
  await set(page, { design: read("mine_pump.design"), arrivals: read("one_water_alarm.arrivals") });
  judge(await page.evaluate("document.getElementById('verdict').className === 'good'"), "the page answers again behind Stop");
}

// ---- For everybody ----

/** By the Tab key alone every control is reached, and each has a name. */
async function tryKeyboard(page) {
  await set(page, { design: read("mine_pump.design"), arrivals: read("one_water_alarm.arrivals") });
  await page.evaluate("(() => { document.getElementById('tab-timeline').click(); document.activeElement.blur(); document.body.focus(); })()");
  const reached = new Set();
  for (let turn = 0; turn < 60; turn++) {
    await page.press("Tab");
    reached.add(await page.evaluate("(({ id, ariaLabel, textContent }) => id || ariaLabel || textContent.trim())(document.activeElement)"));
  }
  const controls = ["example", "help", "Open a design", "Save the design", "format", "design", "fitting", "Open arrivals", "arrivals", "tab-timeline",
    "panel-timeline", "Earlier", "Later", "Whole", "window-from", "window"];
  for (const name of controls) judge(reached.has(name), `the Tab key reaches ${name}`);
  await page.page("Accessibility.enable");
  const { nodes } = await page.page("Accessibility.getFullAXTree");
  const focusable = nodes.filter((node) => !node.ignored && node.properties?.some(({ name, value }) => name === "focusable" && value.value));
  const nameless = focusable.filter((node) => !node.name?.value && node.role.value !== "RootWebArea").map((node) => node.role.value);
  same(nameless, [], "controls without a name");
  judge(focusable.length > 20, "controls");
  await page.evaluate("document.getElementById('tab-accepts').click()");
  for (const name of ["accepts", "own", "Open a trace", "Save the trace to check", "trace"]) {
    await page.press("Tab");
    if (name === "accepts") await page.evaluate("document.getElementById('panel-accepts').focus()");
    else same(await page.evaluate("document.activeElement.ariaLabel || document.activeElement.id"), name, `the Tab key reaches ${name}`);
  }
  await page.evaluate("(() => { document.getElementById('tab-timeline').click(); document.getElementById('window').focus(); })()");
  await page.press("6", 1, "Digit6");
  same(await page.evaluate("document.activeElement.id"), "tab-scale", "the focus goes to the tab where its panel is hidden");
  await page.evaluate("(() => { document.getElementById('tab-timeline').click(); document.getElementById('tab-timeline').focus(); })()");
  await page.press("ArrowRight");
  const chosen = await page.evaluate("[document.activeElement.id, document.getElementById('panel-trace').hidden]");
  same(chosen, ["tab-trace", false], "an arrow key goes to the next tab");
  for (const key of ["ArrowRight", "ArrowRight"]) await page.press(key);
  const next = await page.evaluate("[document.activeElement.id, document.getElementById('panel-scale').hidden]");
  same(next, ["tab-scale", false], "and on to the tabs of verbs");
  await page.evaluate("document.getElementById('tab-timeline').click()");
}

const CONTRAST = `(() => {
  const parse = (color) => color.match(/[\\d.]+/g).map(Number);
  const light = ([r, g, b]) => [r, g, b].map((part) => part / 255).map((part) => (part <= 0.04045 ? part / 12.92 : ((part + 0.055) / 1.055) ** 2.4))
    .reduce((sum, part, index) => sum + part * [0.2126, 0.7152, 0.0722][index], 0);
  const ground = (element) => {
    for (let one = element; one !== null; one = one.parentElement) {
      const color = parse(getComputedStyle(one).backgroundColor);
      if (color.length === 3 || color[3] > 0) return color;
    }
    return [255, 255, 255];
  };
  const low = [];
  for (const element of document.querySelectorAll("body *")) {
    const hasText = [...element.childNodes].some((node) => node.nodeType === 3 && node.textContent.trim() !== "");
    const isSvg = element instanceof SVGElement;
    if (!hasText || element.closest(".marks, .alarm-sign, script, style, [hidden], defs, title") || element.getClientRects().length === 0) continue;
    const style = getComputedStyle(element);
    // Words inside a box have an edge of their own.
    const behind = isSvg && element.matches(".inside") ? [34, 34, 34] : ground(element);
    const [one, other] = [light(parse(isSvg ? style.fill : style.color)), light(behind)];
    const ratio = (Math.max(one, other) + 0.05) / (Math.min(one, other) + 0.05);
    if (ratio < 4.5) low.push([element.tagName, element.getAttribute("class"), ratio.toFixed(2), element.textContent.slice(0, 30)].join(" "));
  }
  return low;
})()`;

async function tryColours(page) {
  await page.evaluate("document.getElementById('tab-timeline').click()");
  for (const scheme of ["light", "dark"]) {
    await page.scheme(scheme);
    await set(page, { design: read("mine_pump.design"), arrivals: read("one_water_alarm.arrivals") });
    same(await page.evaluate(CONTRAST), [], `texts of too little contrast in ${scheme} colours`);
    await set(page, { design: read("faults/u1.design"), arrivals: read("until_20.arrivals") });
    same(await page.evaluate(CONTRAST), [], `texts of too little contrast in ${scheme} colours, of a refusal`);
    await set(page, { design: read("mine_pump.design"), arrivals: read("faults/q3.arrivals") });
    same(await page.evaluate("at('verdict').className"), "part", "arrivals of another design");
    same(await page.evaluate(CONTRAST), [], `texts of too little contrast in ${scheme} colours, of refused arrivals`);
  }
  for (const scheme of ["light", "dark"]) {
    await page.scheme(scheme);
    for (const [tab, design] of PICTURES) {
      await page.evaluate(`document.getElementById('tab-${tab}').click()`);
      await set(page, { design: read(design), arrivals: read("until_20.arrivals") });
      await page.until("document.querySelector('[aria-busy=true]') === null", 60);
      same(await page.evaluate(CONTRAST), [], `texts of too little contrast in ${scheme} colours, of ${tab} of ${design}`);
    }
  }
  const others = [["scale", "jittered_alarm.design"], ["search", "jittered_alarm.design"], ["background", "logged_control.design"],
    ["background", "faults/a2.design"], ["accepts", "mine_pump.design"]];
  for (const scheme of ["light", "dark"]) {
    await page.scheme(scheme);
    for (const [verb, design] of others) {
      await set(page, { design: read(design), arrivals: read("one_water_alarm.arrivals"), trace: read("faults/t2e.trace") });
      await panelOf(page, verb);
      same(await page.evaluate(CONTRAST), [], `texts of too little contrast in ${scheme} colours, of ${verb} of ${design}`);
    }
  }
  await page.scheme("light");
}

async function tryNarrow(page) {
  for (const [tab, design] of [["timeline", "mine_pump.design"], ["accepts", "mine_pump.design"], ["background", "logged_control.design"], ...PICTURES]) {
    await page.evaluate(`document.getElementById('tab-${tab}').click()`);
    await set(page, { design: read(design), arrivals: read("one_water_alarm.arrivals"), trace: read("faults/t2e.trace") });
    for (const width of [360, 600, 900]) {
      await page.size(width, 800);
      await page.evaluate("new Promise((done) => setTimeout(done, 100))");
      const wide = await page.evaluate("document.scrollingElement.scrollWidth");
      judge(wide <= width, `${tab} in a window of ${width} pixels: the page takes ${wide}`);
    }
  }
  await page.size(1400, 900);
}

/** It asks nothing of a network, keeps the last texts alone, and no fault was told. */
async function tryQuiet(page) {
  const asked = page.heard.filter((event) => event.method === "Network.requestWillBeSent").map((event) => event.params.request.url);
  same(asked.filter((url) => !/^(file|blob|data):/.test(url)), [], "requests");
  same(await page.evaluate("Object.keys(localStorage)"), ["lafomizana"], "what is kept");
  same(await page.evaluate("fetch('https://example.invalid/').then(() => 'sent', () => 'refused')"), "refused", "a request of the page itself");
  const thrown = page.heard.filter((event) => event.method === "Runtime.exceptionThrown");
  const faults = thrown.map((event) => event.params.exceptionDetails.exception?.description);
  same(faults, [], "exceptions");
}

async function takePictures(page) {
  const mine = { design: read("mine_pump.design"), arrivals: read("blocked_sensor.arrivals") };
  const take = async (name, tab, texts, scheme = "light", size = [1400, 900]) => {
    await page.size(...size);
    await page.scheme(scheme);
    await page.evaluate(`(() => { document.activeElement.blur(); document.getElementById('tab-${tab}').click(); })()`);
    await set(page, texts);
    if (name === "timeline" || name === "dark") await page.evaluate("timeline.window(396, 546)");
    await page.until("document.querySelector('[aria-busy=true]') === null");
    await page.evaluate("new Promise((done) => setTimeout(done, 150))");
    await page.shoot(join(pictures, `${name}.png`));
  };
  await take("bounds", "bounds", mine);
  await take("timeline", "timeline", mine);
  await take("dark", "timeline", mine, "dark");
  await take("trace", "trace", mine);
  await take("ada", "ada", mine);
  await take("margin", "scale", mine);
  await take("search", "search", { design: read("jittered_alarm.design"), arrivals: read("until_20.arrivals") }, "dark");
  await take("background", "background", { design: read("logged_control.design"), arrivals: read("until_40.arrivals") });
  await take("background_timeline", "timeline", { design: read("logged_control.design"), arrivals: read("until_40.arrivals") });
  await take("background_refused", "background", { design: read("faults/a4.design"), arrivals: read("until_40.arrivals") }, "dark");
  const traced = (name) => ({ design: mine.design, arrivals: read("one_water_alarm.arrivals"), trace: read(name) });
  await take("accepted", "accepts", traced("one_water_alarm.trace"));
  await take("not_accepted", "accepts", traced("faults/t2e.trace"), "dark");
  await take("narrow_trace", "accepts", traced("faults/t2e.trace"), "light", [400, 1600]);
  await take("refused", "bounds", { design: read("faults/v13_b6.design"), arrivals: read("data_handling.arrivals") });
  await take("late", "bounds", { design: read("faults/u1.design"), arrivals: read("flight_control.arrivals") });
  await take("arrivals", "bounds", { design: read("data_handling.design"), arrivals: read("faults/q3.arrivals") }, "dark");
  await take("narrow", "timeline", mine, "light", [400, 1600]);
  await page.size(1400, 900);
  await page.scheme("light");
  await page.evaluate("document.getElementById('help').click()");
  await page.shoot(join(pictures, "help.png"));
  await page.evaluate("document.getElementById('close').click()");
}

// ---- All of it ----

function leave(why) {
  console.log(`try_page: ${why}, so nothing of the page is tried`);
  process.exit(2);
}

const found = findBrowser();
if (found === null) leave("no Chromium is found on the path");
if (!existsSync(file)) leave(`there is no page ${file}, which web/tools/make_page.sh makes`);
if (!existsSync(program)) leave(`there is no program ${program}`);

const browser = await openBrowser(found);
try {
  console.log(`${await browser.version()}, ${basename(file)}`);
  const page = await browser.open(pathToFileURL(file).href);
  await page.until("document.querySelector('#verdict.good')", 120);
  const steps = { tryVerbs, tryCodes, tryMarks, tryTyping, tryFormat, tryBegin, tryPrinted, tryVerbTabs, tryBackground, tryTraces, tryTimeline, tryWindow,
    tryDiagram, tryLargeDiagram, tryBars, tryLate, tryUnits, tryWalk, tryFitting, tryLarge, tryMemory, tryStop, tryKeyboard, tryColours, tryNarrow };
  const unknown = (only ?? []).filter((name) => steps[name] === undefined && name !== "tryPaper");
  if (unknown.length > 0) judge(false, `no such step: ${unknown.join(", ")}`);
  for (const [name, step] of Object.entries(steps)) {
    if (only === null || only.includes(name)) await step(page).catch((fault) => judge(false, `${name}: ${fault.message}`));
  }
  if (only === null || only.includes("tryPaper")) await tryPaper(browser).catch((fault) => judge(false, `tryPaper: ${fault.message}`));
  await trySaves(browser, page);
  await tryQuiet(page);
  if (pictures !== null) await takePictures(page);
} finally {
  await browser.close();
}
console.log(`${count.tried} tried, ${count.failed} failed`);
process.exitCode = count.failed === 0 ? 0 : 1;
