// Tries the diagram, the bars, what is shown of a late design, and the switch of units.
import { Bars } from "../bars.js";
import { microsecondsOf } from "../clock.js";
import { readExplanation } from "../explanation.js";
import { backgroundOf, objectAt, readOutline } from "../outline.js";
import { answerOf, designs, js, judge, panelOf, read, same, set } from "./page_trial.mjs";

const click = (page, id) => page.evaluate(`document.getElementById(${js(id)}).click()`);

/** The names of a list, sorted and once each. */
const sorted = (names) => [...new Set(names)].sort();

// ---- The diagram ----

/** Each design is drawn with all its objects, also where it is refused, and what is marked is the object of the refusal or each late thread. */
async function tryDrawn(page) {
  await click(page, "tab-diagram");
  let count = 0;
  // All of examples/, and of what is refused each fourth.
  const drawn = designs.filter((design, place) => !design.includes("/") || place % 4 === 0);
  for (const design of drawn) {
    const text = read(design);
    await set(page, { design: text, arrivals: read("until_20.arrivals") });
    await page.evaluate(`diagram.draw("")`);
    const names = sorted(readOutline(text).objects.map((one) => one.name));
    const told = await page.evaluate(`(() => ({
      drawn: [...document.querySelectorAll("#diagram [data-object]")].map((one) => one.dataset.object),
      marked: [...document.querySelectorAll("#diagram .fault[data-object]")].map((one) => one.dataset.object),
      index: state.mark?.kind === "design" ? state.mark.index : null, late: state.late?.explanation?.threads.filter(isLate).map((one) => one.name) ?? [],
    }))()`);
    same(sorted(told.drawn), names, `${design}: the objects that are drawn`);
    const at = told.index === null ? undefined : objectAt(readOutline(text), told.index);
    same(sorted(told.marked), sorted([...(at === undefined ? [] : [at.name]), ...told.late]), `${design}: the objects that are marked`);
    count++;
  }
  console.log(`${count} designs as diagrams`);
}

/** Where the middle of the bar of an object stands on the screen. */
const placeOf = (page, name) => page.evaluate(`(() => {
  const bar = document.querySelector("#diagram [data-object='${name}'] > .bar");
  bar.scrollIntoView({ block: "center", inline: "center" });
  const { left, top, width, height } = bar.getBoundingClientRect();
  return { x: left + width / 2, y: top + height / 2 };
})()`);

/** What is selected in the design. */
const selected = (page) => page.evaluate(`(({ value, selectionStart, selectionEnd }) => value.slice(selectionStart, selectionEnd))(at("design"))`);

const MINE = () => ({ design: read("mine_pump.design"), arrivals: read("one_water_alarm.arrivals") });

/** A click selects the text of an object and tells its bounds, as the program has them; a title tells them for the mouse. */
async function tryMouse(page) {
  await set(page, MINE());
  const { threads, ceilings } = readExplanation(answerOf(["explain", "mine_pump.design"]).out.toString());
  for (const { name, priority, response, deadline } of threads) {
    const { x, y } = await placeOf(page, name);
    for (const type of ["mousePressed", "mouseReleased"]) {
      await page.page("Input.dispatchMouseEvent", { type, x, y, button: "left", buttons: type === "mousePressed" ? 1 : 0, clickCount: 1 });
    }
    const text = await selected(page);
    judge(text.startsWith(`OBJECT ${name} IS`) && new RegExp(`END ${name};?$`).test(text.trimEnd()), `the text of ${name} is selected: ${text.slice(0, 60)}`);
    const facts = await page.evaluate(`document.querySelector("#panel-diagram .facts").textContent`);
    judge(facts.includes(`Response${response} =`) && facts.includes(`slack ${deadline - response} tick`) && facts.includes(`Priority${priority}`),
      `what is told of ${name}: ${facts}`);
    const title = await page.evaluate(`document.querySelector("#diagram [data-object='${name}'] > title").textContent`);
    judge(title.includes(`priority ${priority} · response ${response} of ${deadline}`), `what hovering tells of ${name}: ${title}`);
  }
  for (const { name, ceiling } of ceilings.filter((one) => threads.every((thread) => thread.name !== one.name))) {
    const title = await page.evaluate(`document.querySelector("#diagram [data-object='${name}'] > title").textContent`);
    judge(title.includes(`ceiling ${ceiling}`), `what hovering tells of ${name}: ${title}`);
  }
  judge(threads.length === 6, "the threads of the mine pump");
}

/** The keys move the diagram, change its size, and choose an object; one object is drawn alone; all of it is told as text. */
async function tryDiagramKeys(page) {
  await set(page, MINE());
  await page.evaluate("diagram.holder.focus()");
  const scale = () => page.evaluate("diagram.scale");
  const before = await scale();
  await page.press("+");
  judge(await scale() > before, "plus makes the diagram larger");
  await page.press("ArrowRight");
  judge(await page.evaluate("diagram.holder.scrollLeft") > 0, "an arrow key moves it");
  await page.press("0");
  same(await scale(), before, "0 shows all");
  const reached = [];
  for (let turn = 0; turn < 3; turn++) {
    await page.press("Tab");
    reached.push(await page.evaluate("document.activeElement.getAttribute('aria-label')"));
  }
  same(reached, ["mine_control, active", "pump_controller, active", "motor, protected"], "Tab goes from object to object");
  await page.press("Enter");
  judge((await selected(page)).startsWith("OBJECT motor IS PROTECTED"), "Enter chooses the object");
  same(await page.evaluate(`document.querySelector("#panel-diagram .facts h3").textContent`), "motor, PROTECTED", "what is told of it");
  await page.evaluate(`(() => { diagram.details.open = true; })()`);
  await page.until(`document.querySelectorAll("#panel-diagram details li").length > 0`, 10);
  const list = await page.evaluate(`[...document.querySelectorAll("#panel-diagram details li > b")].map((one) => one.textContent)`);
  same(sorted(list), sorted(readOutline(MINE().design).objects.map((one) => one.name)), "the diagram as text");
  await page.evaluate(`(() => { diagram.pick.value = "environment_monitor"; diagram.pick.dispatchEvent(new Event("change")); diagram.details.open = false; })()`);
  const drawn = await page.evaluate(`[...document.querySelectorAll("#diagram [data-object]:not(.uncle)")].map((one) => one.dataset.object)`);
  same(sorted(drawn), ["air_flow", "ch4_sensor", "ch4_status", "co_sensor", "environment_monitor"], "one object with its children");
  await page.evaluate(`(() => { diagram.pick.value = ""; diagram.pick.dispatchEvent(new Event("change")); diagram.wide.click(); })()`);
  same(await page.evaluate(`getComputedStyle(document.querySelector(".texts")).display`), "none", "the whole window");
  await page.evaluate("diagram.wide.click()");
  await set(page, { design: read("logged_control.design"), arrivals: read("until_40.arrivals") });
  const behind = await page.evaluate(`[...document.querySelectorAll("#diagram .kind-background[data-object]")].map((one) => one.dataset.object)`);
  same(sorted(behind), sorted(backgroundOf(read("logged_control.design")).map((one) => one.name)), "clients and servers are drawn as such");
}

export async function tryDiagram(page) {
  await tryDrawn(page);
  await tryMouse(page);
  await tryDiagramKeys(page);
}

// ---- The bars ----

/** The numbers of a table of an explanation, as the program writes them. */
function rowsOf({ threads }) {
  return threads.map((one) => [one.name, one.priority, one.period, one.deadline, one.jitter, one.cost, one.blocking, one.response ?? "-"].map(String));
}

/** What the panel shows of an explanation: its table and the titles and rows of its bars. */
const explained = (page, panel) => page.evaluate(`(() => {
  const panel = document.getElementById("panel-${panel}");
  return { rows: [...panel.querySelectorAll("table")[0].tBodies[0].rows].map((row) => [...row.cells].slice(0, 8).map((cell) => cell.textContent)),
    late: [...panel.querySelectorAll("tr.late th")].map((one) => one.textContent), width: Number(panel.querySelector("svg.bars").getAttribute("width")),
    titles: [...panel.querySelectorAll("svg.bars title")].map((one) => one.textContent), wrong: panel.querySelector(".wrong")?.textContent ?? null,
    scale: panel.querySelector("select.scale").value };
})()`);

/** The titles of bars as they are drawn of the lines of the program. */
function titlesOf(explanation, { width, scale }) {
  const drawn = new Bars(explanation, width, { scale }).draw().write();
  const signs = { amp: "&", lt: "<", gt: ">", quot: '"' };
  return [...drawn.matchAll(/<title>([^<]*)<\/title>/g)].map(([, title]) => title.replace(/&(\w+);/g, (_, name) => signs[name]));
}

/** Table, bars and chains of what `explain` writes, of designs that pass and that don't. */
export async function tryBars(page) {
  let count = 0;
  for (const design of ["mine_pump.design", "flight_control.design", "data_handling.design", "late_control.design",
    "late_platform.design", "faults/u1.design", "faults/u2.design"]) {
    const { status, out } = answerOf(["explain", design]);
    same(status, 0, `${design} is explained`);
    const explanation = readExplanation(out.toString());
    await set(page, { design: read(design), arrivals: read("until_20.arrivals") });
    await click(page, "tab-explain");
    await page.until("document.querySelector('#panel-explain:not([aria-busy=true]) svg.bars') !== null", 60);
    const panels = explanation.miss === null ? ["explain"] : ["explain", "bounds"];
    for (const panel of panels) {
      await click(page, `tab-${panel}`);
      for (const scale of ["deadline", "response", "ticks"]) {
        await page.evaluate(`(() => { const pick = document.querySelector("#panel-${panel} select.scale"); pick.value = "${scale}";
          pick.dispatchEvent(new Event("change")); })()`);
        const told = await explained(page, panel);
        same(told.rows, rowsOf(explanation), `${design}: the table of ${panel}`);
        same(told.titles, titlesOf(explanation, { ...told, scale }), `${design}: the bars of ${panel}, ${scale}`);
        same(told.wrong, null, `${design}: the sums`);
        same(told.late.length > 0, explanation.miss !== null, `${design}: threads that are marked as late`);
        count += told.titles.length;
      }
    }
  }
  // Lines whose terms don't come to the response are told.
  const wrong = await page.evaluate(`explainedBars(readExplanation("thread a priority 1 period 9 deadline 9 jitter 0 cost 2 blocking 0 response 3\\n"),
    TICKS, at("panel-explain"))[1].textContent`);
  judge(wrong.startsWith("The terms don't come to the response of a"), `a wrong sum: ${wrong}`);
  judge(count > 500, `parts of bars: ${count}`);
  console.log(`${count} parts of bars as the lines of explain tell them`);
}

// ---- Late designs ----

/** A late design has a simulation, which says that it promises nothing; or it says why there is none. */
export async function tryLate(page) {
  await set(page, { design: read("late_control.design"), arrivals: "UNTIL 3000;\n" });
  await click(page, "tab-timeline");
  const told = await page.evaluate(`(() => ({ words: document.querySelector("#panel-timeline .simulated").textContent,
    mark: document.querySelector("#window svg").textContent.includes("simulated, no promise"),
    rows: [...document.querySelectorAll("#panel-timeline tbody tr")].map((row) => [...row.cells].map((cell) => cell.textContent)),
    saved: timeline.picture().includes("simulated, no promise"), ada: state.ada, trace: state.trace }))()`);
  judge(told.words.startsWith("A simulation without promise") && told.mark && told.saved, `the simulation says what it is: ${told.words}`);
  same([told.ada, told.trace], ["", null], "no Ada text and no trace of a design that is refused");
  same(told.rows.map(([name, , , deadline, response, , , late]) => [name, deadline, Number(response) > Number(deadline), Number(late) > 0]),
    [["gyro", "40", false, false], ["wheel", "200", false, false], ["controller", "300", false, false], ["star_tracker", "600", true, true],
      ["telecommand", "2000", false, false]], "which threads end past their deadlines");
  for (const [design, why] of [["faults/u2.design", "the jitter and the response of elevator"], ["faults/v13_b6.design", null]]) {
    await set(page, { design: read(design), arrivals: read("until_20.arrivals") });
    const note = await page.evaluate(`document.querySelector("#panel-timeline .note").textContent`);
    const isSaid = why === null ? note.startsWith("There is no timeline") : note.includes(`there is no simulation of it: ${why}`);
    judge(isSaid, `why ${design} has no simulation: ${note}`);
  }
  await set(page, { design: read("faults/v14.design"), arrivals: read("until_150.arrivals") });
  const budgets = await page.evaluate(`document.querySelector("#panel-bounds .note")?.textContent`);
  judge(budgets.includes("Each budget is lifted here"), `a budget below its cost: ${budgets}`);
  await set(page, { design: read("mine_pump.design"), arrivals: read("one_water_alarm.arrivals") });
  same(await page.evaluate(`document.querySelectorAll(".simulated").length`), 0, "nothing of it stays with a design that passes");
}

// ---- Milliseconds ----

/** With a TICK times are told in milliseconds where that is chosen; ticks are what is there at first. */
export async function tryUnits(page) {
  const choose = (unit) => page.evaluate(`(() => { at("unit").value = "${unit}"; at("unit").dispatchEvent(new Event("change")); })()`);
  await set(page, MINE());
  same(await page.evaluate(`at("units").hidden`), true, "a design of version 1 has no switch");
  const design = "late_control.design";
  const milliseconds = (microsecondsOf(read(design)) ?? NaN) / 1000;
  same(milliseconds, 0.1, "the tick of the design");
  await set(page, { design: read(design), arrivals: "UNTIL 3000;\n" });
  same(await page.evaluate(`[at("units").hidden, at("unit").value]`), [false, "ticks"], "the switch, which stands at ticks");
  const { threads } = readExplanation(answerOf(["explain", design]).out.toString());
  const cells = () => page.evaluate(`[...document.querySelectorAll("#panel-bounds tbody tr")].map((row) => row.cells[7]?.textContent)`);
  same((await cells()).slice(0, threads.length), threads.map((one) => String(one.response)), "responses in ticks");
  await choose("ms");
  same((await cells()).slice(0, threads.length), threads.map((one) => String((one.response * 100) / 1000)), "responses in milliseconds");
  await click(page, "tab-timeline");
  const titles = await page.evaluate(`[...document.querySelectorAll("#window svg title")].map((one) => one.textContent)`);
  judge(titles.length > 10 && titles.every((title) => / ms\b/.test(title)), `titles of the timeline in milliseconds: ${titles.filter((one) => !/ ms\b/.test(one)).slice(0, 3)}`);
  judge(titles.some((title) => title.includes("deadline")) && titles.every((title) => !title.includes("bound")), "a deadline is told as such");
  await click(page, "tab-diagram");
  const box = await page.evaluate(`document.querySelector("#diagram [data-object='gyro']").textContent`);
  judge(box.includes("response 1.9 of 4 ms"), `the diagram in milliseconds: ${box}`);
  await click(page, "tab-explain");
  await page.until("document.querySelector('#panel-explain:not([aria-busy=true]) svg.bars') !== null", 60);
  const bars = await page.evaluate(`document.querySelector("#panel-explain svg.bars").textContent`);
  judge(bars.includes("late by 12.9 ms"), "the bars in milliseconds");
  const [window, whole] = await page.evaluate(`(() => { choose(at("tab-timeline")); timeline.window(100, 300);
    return [timeline.inputs.map((one) => one.value), timeline.whole.textContent]; })()`);
  same([window, whole], [["10", "30"], "of 300 ms"], "the window of the timeline in milliseconds");
  await page.evaluate(`(() => { timeline.inputs[1].value = "45.5"; timeline.inputs[1].dispatchEvent(new Event("change")); })()`);
  same(await page.evaluate("[timeline.from, timeline.to]"), [100, 455], "and as it is typed");
  const margin = await panelOf(page, "scale");
  judge(/over its limit first: .* of [\d.]+ ms or more, and not [\d.]+ ms/.test(margin.text), `the margin in milliseconds: ${margin.text}`);
  const head = await page.evaluate(`document.querySelector("#verdict strong").textContent`);
  judge(/is up to 72\.9 ms, which is 12\.9 ms past its deadline of 60 ms/.test(head), `the verdict in milliseconds: ${head}`);
  await choose("ticks");
  judge((await page.evaluate(`document.querySelector("#panel-explain svg.bars").textContent`)).includes("late by 129 ticks"), "and in ticks again");
  await set(page, MINE());
}

/** The tabs with pictures, to be looked at in narrow windows and in both colours. */
export const PICTURES = [["diagram", "mine_pump.design"], ["diagram", "late_control.design"], ["diagram", "late_platform.design"], ["bounds", "late_control.design"],
  ["timeline", "late_control.design"], ["explain", "late_platform.design"]];
