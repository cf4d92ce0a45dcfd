// What the trials of the page share: how they judge, what the program answers, and what the page shows.
import { spawnSync } from "node:child_process";
import { readFileSync, readdirSync } from "node:fs";
import { dirname, join, resolve } from "node:path";
import { fileURLToPath } from "node:url";
import { foundOf } from "../places.js";

export const TOP = dirname(dirname(dirname(fileURLToPath(import.meta.url))));
export const EXAMPLES = join(TOP, "examples");
export const program = resolve(process.env.PROGRAM ?? join(TOP, "hrthood"));
export const MOST = 2 ** 29; // bytes of an output

/** How much was tried, and how much of it was not as wanted. */
export const count = { tried: 0, failed: 0 };

export function judge(isRight, what) {
  count.tried++;
  if (isRight) return;
  count.failed++;
  console.log(`FAILED ${what}`);
}

export const js = JSON.stringify;
export const same = (found, wanted, what) => judge(js(found) === js(wanted), `${what}: ${js(found)} and not ${js(wanted)}`);
export const read = (name) => readFileSync(join(EXAMPLES, name), "utf8");

// ---- What the program answers ----

export function answerOf(line, cwd = EXAMPLES) {
  const { status, stdout, stderr } = spawnSync(program, line, { cwd, maxBuffer: MOST });
  const err = stderr.toString().replace(/^hrthood: .*\n/gm, "");
  return { status, out: stdout, err };
}

export function filesOf(folder, ending) {
  return readdirSync(join(EXAMPLES, folder)).filter((name) => name.endsWith(ending)).sort().map((name) => join(folder, name));
}

export const designs = [...filesOf("", ".design"), ...filesOf("faults", ".design"), ...filesOf("mistakes", ".design")];

/** A design with clients and servers is judged by `background`. */
export function hasBackground(design) {
  return /^(logged_control|faults\/a\d)\.design$/.test(design);
}

// ---- What the page shows of a refusal ----

/** Where a line of standard error is to be marked: the byte that the program tells, or what tools/report/test_mistakes.mjs tries by hand. */
export function wantedMark(line, kind, text) {
  const place = /line (\d+) column (\d+)$/.exec(line);
  if (place === null) {
    const found = foundOf(line, { [kind]: text });
    return found === null ? null : { bytes: Buffer.byteLength(text.slice(0, found.span.index)), length: found.span.length };
  }
  const lines = text.split("\n").slice(0, Number(place[1]) - 1);
  return { bytes: Buffer.byteLength(lines.map((one) => `${one}\n`).join("")) + Number(place[2]) - 1, length: null };
}

export async function set(page, texts) {
  await page.evaluate(`(async () => { show(${js(texts)}); await again(); })()`);
}

export async function shown(page) {
  return page.evaluate(`(() => {
    const [kind, editor] = Object.entries(editors).find(([, one]) => one.mark !== null) ?? [null, null];
    const text = editor?.area.value;
    const verdict = document.getElementById("verdict");
    return { kind, index: editor?.mark.index, marked: text?.slice(editor.mark.index, editor.mark.index + editor.mark.length), text,
      head: verdict.querySelector("strong").textContent, line: verdict.querySelector("code").textContent, isBad: ["bad", "part"].includes(verdict.className) };
  })()`);
}

export function judgeMark(told, line, kind, name) {
  same([told.line, told.isBad, told.kind], [line, true, kind], `${name}: its line is told and its text marked`);
  judge(told.head.length > 20 && !told.head.includes("refused ") && !/NAME|OTHER|undefined/.test(told.head), `${name}: a sentence: ${told.head}`);
  if (told.kind !== kind) return;
  const wanted = wantedMark(line, kind, told.text);
  same(Buffer.byteLength(told.text.slice(0, told.index)), wanted?.bytes, `${name}: ${line} is marked`);
  if (wanted?.length) same(told.marked.length, wanted.length, `${name}: ${line} is marked whole`);
}

/** What the panel of a verb shows, when its answer is there: its sentence, the program's lines, and the cells of its first table. */
export async function panelOf(page, verb) {
  await page.evaluate(`document.getElementById('tab-${verb}').click()`);
  await page.until(`document.getElementById('panel-${verb}').getAttribute('aria-busy') === 'false'`, 60);
  return page.evaluate(`(() => {
    const panel = document.getElementById('panel-${verb}');
    const rows = [...panel.querySelectorAll("table:first-of-type tbody tr")].map((row) => [...row.cells].slice(0, 9).map((cell) => cell.textContent));
    return { isShown: !panel.hidden, isStale: panel.classList.contains("stale"), line: panel.querySelector("pre")?.textContent,
      head: panel.querySelector("b")?.textContent, text: panel.textContent, rows };
  })()`);
}
