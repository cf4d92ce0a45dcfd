// Walks through the page as a reader does who has a late design and the arrivals of another one, up to the design that is mended; and tries what
// such a reader meets on the way: sizes of diagrams, names of tabs, arrivals that fit.
import { spawnSync } from "node:child_process";
import { mkdtempSync, rmSync, writeFileSync } from "node:fs";
import { tmpdir } from "node:os";
import { join } from "node:path";
import { pathToFileURL } from "node:url";
import { LEGIBLE } from "../diagram.js";
import { readExplanation } from "../explanation.js";
import { readOutline } from "../outline.js";
import { EXAMPLES, TOP, answerOf, filesOf, hasBackground, js, judge, panelOf, program, read, same, set } from "./page_trial.mjs";

const LATE = "late_control.design";
const LARGE = "late_platform.design";
const OTHERS = "one_water_alarm.arrivals"; // of the mine pump

const MINE = () => ({ design: read("mine_pump.design"), arrivals: read(OTHERS) });

const click = (page, id) => page.evaluate(`document.getElementById(${js(id)}).click()`);

/** What the verdict says. */
const verdict = (page) => page.evaluate(`(() => { const box = at("verdict"); return { kind: box.className, head: box.querySelector("strong").textContent,
  hints: [...box.querySelectorAll(".hint")].map((one) => one.textContent).join(" "), words: [...box.querySelectorAll(".word")].map((one) => one.textContent) }; })()`);

/** Presses the button that writes arrivals that fit, and waits for what the page says of them. */
async function fit(page) {
  await page.evaluate(`(async () => { at("fitting").click(); await again(); })()`);
}

/** The names of elements that two elements share, and fills that lead to nothing in their own picture. */
const sharedNames = (page) => page.evaluate(`(() => {
  const names = [...document.querySelectorAll("[id]")].map((one) => one.id);
  const used = [...document.querySelectorAll("[fill^='url']")].filter((one) => one.closest("svg").querySelector(one.getAttribute("fill").slice(4, -1)) === null);
  return [names.filter((name, place) => names.indexOf(name) !== place), used.map((one) => one.outerHTML)];
})()`);

/** From a late design to a mended one, at the width of a screen and of a telephone. */
export async function tryWalk(page) {
  const { threads } = readExplanation(answerOf(["explain", LATE]).out.toString());
  const late = threads.find((one) => one.response > one.deadline);
  for (const width of [1280, 390]) {
    await page.size(width, 900);
    await set(page, { design: read(LATE), arrivals: read(OTHERS) });
    const told = await verdict(page);
    same(told.kind, "bad", "a late design is refused");
    same(told.head, `The response of ${late.name} is up to ${late.response} ticks, which is ${late.response - late.deadline} ticks past its deadline of ${late.deadline} ticks.`,
      "the verdict tells the response, and not where the computation stopped");
    judge(/The tab Explain .*the tab Margin/.test(told.hints) && !told.words.some((word) => ["explain", "scale", "analyse"].includes(word)), `tabs have their names: ${told.hints}`);
    const [left, right, from, to] = await page.evaluate(`(() => {
      document.querySelector("#verdict .go").click();
      const [mark, area] = [document.querySelector("#field-design .marks mark"), at("design")].map((one) => one.getBoundingClientRect());
      return [mark.left, mark.right, area.left, area.right];
    })()`);
    judge(from <= left && right <= to, `the marked word is in view: ${left} to ${right} within ${from} to ${to}`);
    await click(page, "tab-timeline");
    const note = await page.evaluate(`document.querySelector("#panel-timeline .note").textContent`);
    judge(!note.includes("refused Q") && note.includes("For example these fit the design: UNTIL "), `why there is no simulation: ${note}`);
    await fit(page);
    const lanes = await page.evaluate(`document.querySelector("#window svg")?.textContent ?? ""`);
    judge(lanes.includes("simulated, no promise") && lanes.includes(`deadline ${late.deadline}`) && !lanes.includes("bound"), `deadlines are no bounds: ${lanes.slice(0, 200)}`);
    const marks = await page.evaluate(`document.querySelectorAll("#window svg .late-end").length`);
    const simulated = await page.evaluate(`document.querySelector("#panel-timeline .simulated").textContent`);
    judge(marks > 0 && simulated.includes(`The first late activation is that of ${late.name}, released at tick `), `the late end is in the first window: ${marks}, ${simulated}`);
    await click(page, "tab-diagram");
    same(await page.evaluate(`[...document.querySelectorAll("#diagram .fault[data-object]")].map((one) => one.dataset.object)`), [late.name], "the late thread is marked");
    await panelOf(page, "explain");
    same(await sharedNames(page), [[], []], "names in the page");
    judge(await page.evaluate(`document.querySelectorAll("#panel-explain svg.bars [fill='url(#panel-explain-blocked)']").length`) > 3, "blocking is hatched");
    const margin = await panelOf(page, "scale");
    judge(/only with all work at 0\.\d+ times/.test(margin.head), `the margin: ${margin.head}`);
    // The reader takes a tenth more off the work of the late thread than it is late by.
    const by = Math.ceil((late.response - late.deadline) * 1.1);
    const { start, end } = readOutline(read(LATE)).objects.find((one) => one.name === late.name);
    const text = read(LATE).slice(start, end).replace(/work \((\d+)\)/, (_, ticks) => `work (${Number(ticks) - by})`);
    await page.evaluate(`(() => { const area = at("design"); area.value = ${js(read(LATE).slice(0, start) + text + read(LATE).slice(end))}; area.dispatchEvent(new Event("input")); })()`);
    await page.until("document.querySelector('#verdict.good')", 60);
    judge((await verdict(page)).head.startsWith("Every deadline of "), "the mended design passes");
    same(await page.evaluate("state.trace !== null"), true, "and has a run");
  }
  await set(page, MINE());
  await page.size(1400, 900);
}

/** Arrivals of another design leave the verdict on the design as it is, and those that fit are shown and taken. */
export async function tryFitting(page) {
  let count = 0;
  for (const design of filesOf("", ".design")) {
    if (answerOf([hasBackground(design) ? "background" : "check", design]).status !== 0) continue;
    await set(page, { design: read(design), arrivals: "UNTIL 20;\nAT 3 nobody;\n" });
    const told = await verdict(page);
    if (told.kind === "bad") continue;
    same(told.kind, "part", `${design}: what is told of arrivals of another design`);
    judge(told.head.startsWith("Every deadline of ") && told.words.some((word) => word.startsWith("UNTIL ")), `${design}: ${told.hints}`);
    await fit(page);
    same((await verdict(page)).kind, "good", `${design}: arrivals that fit`);
    count++;
  }
  judge(count > 8, `designs with arrivals that fit: ${count}`);
  await page.evaluate("document.execCommand('undo')");
  judge((await page.evaluate("at('arrivals').value")).includes("nobody"), "Ctrl and Z take the arrivals back");
  await set(page, { design: read(LATE), arrivals: read(OTHERS) });
  const search = await panelOf(page, "search");
  judge(search.text.includes("the tab Bounds") && !search.text.includes("analyse"), `a refused search names the tab: ${search.text}`);
  await set(page, MINE());
}

/** A large design is drawn a parent at a time, that of what is marked first, and never smaller than it can be read. */
export async function tryLargeDiagram(page) {
  const names = readOutline(read(LARGE)).objects;
  judge(names.length > 50, "a large design");
  for (const width of [1280, 390]) {
    await page.size(width, 900);
    await click(page, "tab-diagram");
    await set(page, MINE());
    await set(page, { design: read(LARGE), arrivals: read("until_20.arrivals") });
    const drawn = () => page.evaluate(`(() => {
      const [fault, frame] = [document.querySelector("#diagram .fault[data-object]")?.getBoundingClientRect(), diagram.holder.getBoundingClientRect()];
      return { pick: diagram.pick.value, scale: diagram.scale, count: document.querySelectorAll("#diagram [data-object]").length,
        isSeen: fault === undefined || (fault.left < frame.right && fault.right > frame.left && fault.top < frame.bottom && fault.bottom > frame.top) };
    })()`);
    const first = await drawn();
    const late = await page.evaluate("diagram.late[0]");
    same(first.pick, names.find((one) => one.name === late).parent.name, `${width} pixels: the parent of the late thread is drawn`);
    judge(first.count < 30 && first.scale >= LEGIBLE && first.isSeen, `${width} pixels: ${js(first)}`);
    for (const name of ["", ...names.filter((one) => one.hasChildren()).map((one) => one.name)]) {
      await page.evaluate(`diagram.draw(${js(name)})`);
      const told = await drawn();
      judge(told.pick === name && told.scale >= LEGIBLE && told.scale <= 1 && told.isSeen, `${width} pixels, ${name}: ${js(told)}`);
    }
    await page.evaluate(`diagram.draw(""); diagram.choose(document.querySelector("#diagram [data-object='${late}']"))`);
    await page.evaluate(`document.querySelector("#panel-diagram .facts h3").scrollIntoView()`);
    await page.evaluate(`diagram.draw("platform_sw"); diagram.choose(document.querySelector("#diagram [data-object='fdir']")); document.querySelector("#panel-diagram .way").click()`);
    same(await page.evaluate("[diagram.pick.value, document.activeElement.id]"), ["fdir", "diagram"], "a button draws the children of the object that is chosen");
  }
  await set(page, MINE());
  await page.size(1400, 900);
}

/** The lines of text on each page of paper of a report, or null where `pdftotext` is missing. */
async function linesOnPaper(browser, room, words) {
  const { stdout } = spawnSync(join(TOP, "tools/report/report.mjs"), words, { cwd: EXAMPLES, env: { ...process.env, PROGRAM: program }, maxBuffer: 2 ** 26 });
  writeFileSync(join(room, "report.html"), stdout);
  const page = await browser.open(pathToFileURL(join(room, "report.html")).href);
  await page.until(`document.readyState === "complete" && document.querySelector("#inputs pre") !== null`, 60);
  same(await sharedNames(page), [[], []], `names in the report of ${words}`);
  const { data } = await page.page("Page.printToPDF", { preferCSSPageSize: true, printBackground: true });
  writeFileSync(join(room, "report.pdf"), Buffer.from(data, "base64"));
  const told = spawnSync("pdftotext", ["-layout", join(room, "report.pdf"), "-"], { maxBuffer: 2 ** 26 });
  if (told.error) return null;
  return told.stdout.toString().split("\f").slice(0, -1).map((one) => one.split("\n").map((line) => line.trim()).filter((line) => line !== ""));
}

/** No page of a printed report but the last has a few lines only, and none ends with the head of what is on the next one. */
export async function tryPaper(browser) {
  const room = mkdtempSync(join(tmpdir(), "paper-"));
  for (const words of [["--brief", "mine_pump.design", "blocked_sensor.arrivals"], ["--brief", LATE], ["--brief", LARGE]]) {
    const pages = await linesOnPaper(browser, room, words);
    if (pages === null) { console.log("there is no pdftotext, so what is on the pages of a printed report isn't looked at"); break; }
    pages.forEach((lines, place) => {
      const isLast = place === pages.length - 1;
      judge(isLast || lines.length > 8, `${words}: page ${place + 1} of ${pages.length} has ${js(lines)}`);
      judge(isLast || !/^(What is proved|HOOD diagram|Objects|Bounds|Of what each|Ceilings|Margins|What to change|A run under|Program and)|; times in (ticks|ms)$/
        .test(lines.at(-1)), `${words}: page ${place + 1} ends with a head: ${lines.at(-1)}`);
    });
    judge(pages.length > 4, `${words}: ${pages.length} pages`);
  }
  rmSync(room, { recursive: true, force: true });
}
