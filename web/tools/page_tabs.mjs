// Tries the tabs of verbs: what each shows of designs with and without background objects, and of traces to check.
import { mkdtempSync, rmSync, writeFileSync } from "node:fs";
import { tmpdir } from "node:os";
import { join } from "node:path";
import { answerOf, filesOf, hasBackground, js, judge, judgeMark, panelOf, read, same, set, shown } from "./page_trial.mjs";

// ---- The tabs of verbs ----

const MARGINS = [
  ["mine_pump.design", "at up to 1.333 times", "co_sensor is over its limit first: the response time of 63 or more, and not 60."],
  ["jittered_alarm.design", "only with all work at 0.75 times", "the jitter and the response time together of 22 or more, and not 20."],
  ["one_cyclic_object.design", "at up to 3 times", "a is over its limit first"],
];

/** The rows of the first table of a tab, of the lines that the program writes. */
function wantedRows(verb, out) {
  const lines = out.split("\n").map((line) => line.split(" "));
  if (verb === "search") {
    const threads = lines.filter((words) => words[0] === "thread");
    return threads.map((words) => words.filter((_, index) => index % 2 === 1 || index === 16).slice(0, 8));
  }
  if (verb !== "background" && verb !== "arrange") return [];
  const heads = lines.filter((words) => words[0] === "--" && words[1] === "thread");
  return heads.map(([, , name, , priority, , jitter, , response, , deadline]) =>
    [name, priority, deadline, jitter, response, String(Number(deadline) - Number(response))]);
}

/** Each tab shows what its verb answers, of designs that are taken and of others, and again when the design has changed. */
export async function tryVerbTabs(page) {
  let count = 0;
  const shown = ["mine_pump.design", "jittered_alarm.design", "units_of_every_kind.design", "faults/u1.design", "faults/v13_b6.design",
    "logged_control.design", ...filesOf("faults", ".design").filter(hasBackground)];
  for (const design of shown) {
    await set(page, { design: read(design), arrivals: read("until_150.arrivals") });
    for (const verb of ["scale", "search", "background", "arrange"]) {
      const { status, out, err } = answerOf([verb, design]);
      const told = await panelOf(page, verb);
      const wanted = status === 0 ? out.toString() : err;
      same([told.isShown, told.isStale], [true, false], `${verb} of ${design} is shown`);
      same(told.line, wanted.trimEnd(), `${verb} of ${design}: the program's lines`);
      judge(told.head.length > 20 && !/refused |NAME|undefined|NaN/.test(told.head), `${verb} of ${design}: a sentence: ${told.head}`);
      const rows = status === 0 ? wantedRows(verb, wanted) : [];
      same(told.rows.map((row) => row.slice(0, rows[0]?.length)), rows, `${verb} of ${design}: its table`);
      if (status !== 0) await judgePlace(page, wanted.trimEnd(), `${verb} of ${design}`);
      count++;
    }
  }
  for (const [design, head, next] of MARGINS) {
    await set(page, { design: read(design), arrivals: read("until_150.arrivals") });
    const told = await panelOf(page, "scale");
    judge(told.head.includes(head) && told.text.includes(next), `the margin of ${design}: ${told.text}`);
  }
  await page.evaluate("document.getElementById('tab-scale').focus()");
  const tabs = ["bounds", "diagram", "timeline", "trace", "ada", "scale", "search", "background", "accepts", "explain"];
  for (const [index, tab] of tabs.entries()) {
    const key = (index + 1) % 10;
    await page.press(String(key), 1, `Digit${key}`);
    same(await page.evaluate(`document.getElementById('panel-${tab}').hidden`), false, `Alt and ${key} choose ${tab}`);
  }
  await page.evaluate("document.getElementById('tab-bounds').click()");
  console.log(`${count} answers in the tabs of verbs`);
}

/** A refusal of the tab that is chosen is marked in its text, though the verdict's own may be another, and its button selects it. */
async function judgePlace(page, line, what) {
  if (/^refused P/.test(line)) return;
  const told = await shown(page);
  judgeMark({ ...told, line, head: `${what} tells more`, isBad: true }, line, "design", what);
  await page.evaluate("document.querySelector('[role=tabpanel]:not([hidden]) .go').click()");
  const selected = await page.evaluate("[document.activeElement.id, document.activeElement.selectionStart]");
  same(selected, ["design", told.index], `${what}: the way to its place`);
}

/** A design with clients and servers: its verdict, its bounds, its trace, and what is refused of its arrivals. */
export async function tryBackground(page) {
  const design = "logged_control.design";
  await set(page, { design: read(design), arrivals: read("until_40.arrivals") });
  const told = await shown(page);
  judge(told.head.includes("hard threads of logged_control is met"), `the verdict of a design with clients: ${told.head}`);
  judge(/^hard threads 1, background objects 2; /.test(told.line), `its line: ${told.line}`);
  same(await page.evaluate("state.trace.text"), answerOf(["replay", "logged_control.ada", "until_40.arrivals"]).out.toString(), "its trace");
  same(await page.evaluate("state.ada"), read("logged_control.ada"), "its Ada text");
  await page.evaluate("document.getElementById('tab-bounds').click()");
  const cells = "[...document.querySelectorAll('#panel-bounds tbody tr')].map((row) => [...row.cells].slice(0, 6).map((cell) => cell.textContent))";
  same(await page.evaluate(cells), [["control", "2", "15", "0", "10", "5"]], "the bounds of its hard thread");
  await page.evaluate("document.querySelector('#panel-bounds .tools button').click()");
  await page.until("document.getElementById('panel-background').getAttribute('aria-busy') === 'false'", 30);
  const tables = await page.evaluate(`[...document.querySelectorAll('#panel-background table')].slice(1)
    .map((table) => [...table.tBodies[0].rows].map((row) => [...row.cells].slice(0, 3).map((cell) => cell.textContent)))`);
  const wanted = [[["journal", "server", "1"], ["reporter", "client", "1"]], [["state", "2"], ["journal", "1"]]];
  same(tables, wanted, "its clients, servers and ceilings");
  await set(page, { design: read(design), arrivals: "UNTIL 40;\nAT 3 control;\n" });
  const refused = await shown(page);
  judge(refused.line === "refused Q2 line 2 control" && refused.kind === "arrivals", `arrivals that it refuses: ${refused.line}`);
}

// ---- Traces to check ----

/** The line that is to be marked in each trace of examples/faults, which differs from a trace of the mine pump there. */
const BROKEN = { "t1.trace": 5, "t2a.trace": 6, "t2b.trace": 28, "t2c.trace": 13, "t2c_thread.trace": 14, "t2d.trace": 9, "t2e.trace": 18 };

/** What the tab tells of the trace that stands in its text: the program's line, a sentence, and the number of the line that is marked. */
async function judged(page) {
  await page.evaluate("document.getElementById('tab-accepts').click()");
  await page.until("document.getElementById('panel-accepts').getAttribute('aria-busy') === 'false'", 60);
  return page.evaluate(`(() => {
    const [panel, { mark, area }] = [document.getElementById("panel-accepts"), editors.trace];
    return { line: panel.querySelector("pre.text")?.textContent, head: panel.querySelector("b")?.textContent,
      row: mark === null ? null : editors.trace.rowOf(mark.index), marked: mark && area.value.slice(mark.index, mark.index + mark.length) };
  })()`);
}

/** A change of one line of a trace: its number, and the lines that come in its place. */
function changesOf(lines) {
  const changes = [];
  for (const [index, line] of lines.entries()) {
    const words = line.split(" ");
    const later = [Number(words[0]) + 1, ...words.slice(1)].join(" ");
    changes.push([index, []], [index, [`${line} `]], [index, [line.replace(words[1], "wait")]]);
    if (words[1] === "release" || words[1] === "arrive") changes.push([index, [later]], [index, [line, line]]);
    if (words[1] === "enter") changes.push([index, [line.replace(/\d+$/, (digits) => Number(digits) + 1)]]);
    if (words[1] === "end") changes.push([index, [line.replace(/\d+$/, (digits) => Number(digits) + 1)]]);
  }
  return changes;
}

/** Traces that are changed in one line: what is told is what the program tells, and the line that is marked is that one, or near to it. */
async function tryChanged(page, design, given, most) {
  const arrivals = read(given);
  const own = answerOf(["verify", design, given]).out.toString().split("\n-- trace\n")[1];
  await set(page, { design: read(design), arrivals, trace: own });
  same((await judged(page)).line, `yes lines ${own.split("\n").length - 1}`, `the own trace of ${design} is accepted`);
  const lines = own.trimEnd().split("\n");
  const changes = changesOf(lines);
  const step = Math.max(1, Math.floor(changes.length / most));
  const room = mkdtempSync(join(tmpdir(), "page-"));
  let [count, near] = [0, 0];
  for (const [index, others] of changes.filter((_, place) => place % step === 0)) {
    const trace = [...lines.slice(0, index), ...others, ...lines.slice(index + 1), ""].join("\n");
    writeFileSync(join(room, "trace"), trace);
    const wanted = answerOf(["accepts", design, given, join(room, "trace")]);
    await page.evaluate(`editors.trace.set(${js(trace)}); wantChosen(); null`);
    const told = await judged(page);
    const what = `line ${index + 1} of the trace of ${design} as ${js(others)}`;
    same(told.line, (wanted.status === 0 ? wanted.out.toString() : wanted.err).trimEnd(), what);
    if (wanted.status === 0) continue;
    judge(told.row !== null && told.marked !== "", `${what}: ${told.line} marks a line`);
    if (told.line.startsWith("refused T1 ")) same(told.row, Number(told.line.split(" ")[3]), `${what}: the line that is told is marked`);
    count++;
    if (Math.abs(told.row - index - 1) <= 1) near++;
  }
  rmSync(room, { recursive: true, force: true });
  judge(count > 20, `changed traces of ${design}`);
  return [count, near];
}

export async function tryTraces(page) {
  const mine = { design: read("mine_pump.design"), arrivals: read("one_water_alarm.arrivals") };
  for (const [name, row] of Object.entries(BROKEN)) {
    await set(page, { ...mine, trace: read(`faults/${name}`) });
    const told = await judged(page);
    same(told.line, answerOf(["accepts", "mine_pump.design", "one_water_alarm.arrivals", `faults/${name}`]).err.trimEnd(), `what is told of ${name}`);
    judge(told.head.length > 20 && !/refused |NAME|undefined/.test(told.head), `${name}: a sentence: ${told.head}`);
    same(told.row, row, `the line of ${name} that is marked`);
  }
  await set(page, mine);
  const none = await page.evaluate("[document.querySelector('#panel-accepts .answer').textContent.slice(0, 5), editors.trace.mark]");
  same(none, ["Paste", null], "no trace");
  await page.evaluate("document.getElementById('own').click()");
  await page.until("document.querySelector('#panel-accepts b')?.textContent.startsWith('Yes')", 30);
  await page.evaluate("(() => { editors.trace.area.focus(); editors.trace.area.setSelectionRange(0, 0); })()");
  await page.press("7");
  await page.until("document.querySelector('#panel-accepts pre.text')?.textContent === 'refused T2 a' && editors.trace.mark !== null", 30);
  const [some, others] = [await tryChanged(page, "mine_pump.design", "blocked_sensor.arrivals", 160),
    await tryChanged(page, "data_handling.design", "data_handling.arrivals", 120)];
  const [count, near] = [some[0] + others[0], some[1] + others[1]];
  judge(near >= 0.7 * count, `the line that was changed is marked, or one beside it: ${near} of ${count}`);
  console.log(`${count} changed traces are refused; in ${near} of them the line that is marked is at most one from the change`);
}
