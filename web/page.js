// The page: what is shown of the answers, the tabs, files and keys.
"use strict";

/**
 * The element of this name, of whatever kind it is.
 * @returns {any}
 */
const at = (/** @type {string} */ id) => document.getElementById(id);

/**
 * All elements of a selector.
 * @returns {HTMLElement[]}
 */
function allOf(/** @type {string} */ selector) {
  return Array.from(document.querySelectorAll(selector));
}

/**
 * An element with attributes and children; a child that is a text stands as it is.
 * @returns {any}
 */
function make(name, attributes = {}, ...children) {
  const made = document.createElement(name);
  for (const [key, value] of Object.entries(attributes)) made.setAttribute(key, value);
  made.append(...children);
  return made;
}

const KEPT = "lafomizana"; // the name under which the browser keeps the last texts
const WAIT = 250; // milliseconds from an edit to the run
const SLOW = 600; // milliseconds of a run, after which Stop is shown
const SHOWN_LINES = 20000;
const MOST_KEPT = 1000000; // characters of a trace that the browser keeps
const MOST_TYPED = 200000; // characters of a trace that are put into its text as if they were typed

const runs = new Runs(WORKER, MODULE);
const refusals = new Refusals(REFUSALS);
const run = (words, texts, most) => runs.run(words, texts, most);
const timeline = new Timeline(at("panel-timeline"), CHART_STYLE);
const diagram = new DiagramTab(at("panel-diagram"), DIAGRAM_STYLE, selectObject);
const editors = {
  design: new Editor(at("design"), later),
  arrivals: new Editor(at("arrivals"), later),
  trace: new Editor(at("trace"), laterTrace),
};
const verbTabs = VERBS.map((verb) => new VerbTab(verb));
for (const one of verbTabs) {
  at("tabs").append(one.tab);
  if (!one.panel.isConnected) at("tabs").parentElement.append(one.panel);
}
const panels = allOf("[role=tabpanel]");
const tabs = allOf("[role=tab]");
const state = { bounds: null, boundsText: "", tick: null, ada: "", trace: null, isOther: true, isBackground: false, mark: null, late: null,
  design: "", clock: TICKS, refusal: null };

// ---- Runs of all that is shown ----

let timer;
let traceTimer;
let turn = 0;

/**
 * The texts as they are now, by the names of their files.
 * @returns {any}
 */
function textsNow() {
  return Object.fromEntries(Object.keys(editors).map((kind) => [kind, at(kind).value]));
}

/** The part of a panel that an edit makes out of date: a text to write may stand beside it. */
function answerPart(panel) {
  return panel.querySelector(".answer") ?? panel;
}

// Of a refusal that more time or a larger budget would end, and of one of a budget.
const OVER = /^refused (U1|U2|V14) /;
const BUDGET = /^refused V14 /;
/** @type {{ background?: any, replayed?: any }} */
const NO_ANSWERS = {};

/** Runs all again soon, when the texts have not changed for a moment. */
function later() {
  state.mark = state.refusal = null;
  for (const panel of panels) answerPart(panel).classList.add("stale");
  clearTimeout(timer);
  timer = setTimeout(again, WAIT);
}

/** The same for a change of the trace, which is asked for by the tab of one verb alone. */
function laterTrace() {
  answerPart(at("panel-accepts")).classList.add("stale");
  clearTimeout(traceTimer);
  traceTimer = setTimeout(() => { keep(textsNow()); wantChosen(); }, WAIT);
}

function keep(texts) {
  // A long trace would take the room of all.
  const kept = texts.trace.length > MOST_KEPT ? { ...texts, trace: "" } : texts;
  try {
    localStorage.setItem(KEPT, JSON.stringify(kept));
  } catch {
    // Without storage nothing is kept, which is no fault.
  }
}

async function again() {
  clearTimeout(timer);
  const mine = ++turn;
  if (runs.isBusy()) runs.start();
  const texts = textsNow();
  keep(texts);
  state.mark = null;
  const slow = setTimeout(() => tell("", ["Running\u2026", ""], "", make("button", { type: "button", class: "go", id: "cut" }, "Stop")), SLOW);
  try {
    const told = await answersOf(texts, (bounds) => { if (mine === turn) takeBounds(bounds, texts); });
    if (mine === turn) showAnswers(texts, told);
  } catch (fault) {
    if (mine === turn) tell("bad", ["There is no answer.", ""], fault.message === "cut off" ? "The run was stopped." : fault.message);
  } finally {
    clearTimeout(slow);
  }
  if (mine === turn) wantChosen();
}

/** Runs the verb whose tab is chosen, if that is the tab of one, on the texts as they are now. */
function wantChosen() {
  for (const one of verbTabs) {
    if (one.isChosen()) one.want(textsNow());
  }
  showMarks();
}

/** The answers for a design with background objects, which `background` and `replay` alone take: its Ada text, and a run of that. */
async function backgroundAnswersOf({ design, arrivals }) {
  const background = await run(["background", "design"], { design });
  if (background.status !== 0) return { bounds: background };
  return { background, replayed: await run(["replay", "program", "arrivals"], { program: background.out, arrivals }) };
}

/** An Ada text of a design and its trace, by `verify`, or with background objects by `background` and `replay`; or the line of what is refused. */
async function runOf({ design, arrivals }) {
  const verified = await run(["verify", "design", "arrivals"], { design, arrivals });
  if (verified.status === 0) {
    const cut = verified.out.indexOf("\n-- trace\n");
    return { ada: verified.out.slice(0, cut + 1), trace: verified.out.slice(cut + "\n-- trace\n".length), refused: null };
  }
  const { background, replayed } = backgroundOf(design).length > 0 ? await backgroundAnswersOf({ design, arrivals }) : NO_ANSWERS;
  if (replayed?.status === 0) return { ada: background.out, trace: replayed.out, refused: null };
  return { ada: "", trace: "", refused: (replayed ?? background ?? verified).err.trimEnd() || "no memory" };
}

/** What is told of a design that is over its limits: what `explain` says of it, and a run of it with its limits lifted, or why there is none. */
async function lateAnswersOf({ design, arrivals }, line) {
  const budgets = BUDGET.test(line) ? withoutBudgets(design) : { text: design, changes: [] };
  const explained = await run(["explain", "design"], { design: budgets.text });
  if (explained.status !== 0) return { explanation: null, why: `the rest of it is refused too: ${refusals.plain(explained.err.trimEnd(), { design: budgets.text })[0]}`, changes: budgets.changes };
  const explanation = readExplanation(explained.out);
  const lifted = explanation.miss === null ? { ...budgets, why: null } : withLaterDeadlines(budgets.text, explanation.threads);
  const changes = explanation.miss === null ? budgets.changes : [...budgets.changes, ...lifted.changes];
  const told = { explanation, text: explained.out, changes, hasBudgets: budgets.changes.length > 0 };
  if (lifted.why !== null) return { ...told, why: lifted.why };
  const simulated = await runOf({ design: lifted.text, arrivals });
  return { ...told, why: simulated.refused, simulated };
}

/** The answers for two texts: the bounds, which `early` gets at once, then the Ada text with the trace, as far as there are some. */
async function answersOf({ design, arrivals }, early) {
  const texts = { design, arrivals };
  const bounds = await run(["analyse", "design"], texts);
  if (bounds.status !== 0) {
    const told = backgroundOf(design).length > 0 ? await backgroundAnswersOf(texts) : { bounds };
    const refused = told.background ?? told.bounds;
    return refused?.status === 1 && OVER.test(refused.err) ? { ...told, late: await lateAnswersOf(texts, refused.err) } : told;
  }
  early(bounds);
  const count = await run(["check", "design"], texts);
  const verified = await run(["verify", "design", "arrivals"], texts);
  if (verified.status === 0) return { bounds, count, verified };
  return { bounds, count, verified, generated: await run(["generate", "design"], texts) };
}

// ---- What is shown ----

/** A text whose words between backquotes are shown as words of a design. */
function withWords(text) {
  return text.split("`").map((part, place) => (place % 2 === 0 ? part : make("span", { class: "word" }, part)));
}

/** Tells a sentence, what to look at, and the program's own line. */
function tell(kind, [head, hint], line, ...more) {
  const verdict = at("verdict");
  verdict.className = kind;
  const hints = hint === "" ? [] : [make("span", { class: "hint" }, ...withWords(hint))];
  verdict.replaceChildren(...more, make("strong", {}, ...withWords(head)), ...hints, make("code", {}, line));
}

function goButton(mark) {
  if (mark === null) return [];
  const button = make("button", { type: "button", class: "go" }, "Go to the place");
  button.addEventListener("click", () => { editors[mark.kind].show(mark); editors[mark.kind].go(); });
  return [button];
}

/** Marks what is refused by the verb whose tab is chosen, or else by those that are always run. */
function showMarks() {
  const mark = verbTabs.find((one) => one.isChosen())?.mark ?? state.mark;
  for (const [kind, editor] of Object.entries(editors)) editor.show(mark?.kind === kind ? mark : null);
}

/** Shows what is refused of a design; of a late one what `explain` says of its response. */
function showRefusal({ err }, texts, explanation = null) {
  // Where memory is wanted before the run begins, no line tells it.
  const line = err.trimEnd() || "no memory";
  state.mark = markOf(line, texts);
  const [head, hint] = refusals.plain(line, texts);
  const late = explanation === null ? null : lateHead(line, explanation, state.clock);
  tell("bad", [late ?? head, withTabs(hint)], line, ...goButton(state.mark));
}

/** Shows that the design passes, and what is refused of the arrivals, with some that fit. */
function showRefusedArrivals({ err }, texts, met) {
  const line = err.trimEnd() || "no memory";
  state.mark = markOf(line, texts);
  const [head, hint] = refusals.plain(line, texts);
  tell("part", [met, ""], line, ...goButton(state.mark));
  at("verdict").querySelector("code").before(make("span", { class: "hint then" }, "There is no run with these arrivals. ", ...withWords(head)),
    make("span", { class: "hint" }, ...withWords(`${withTabs(hint)} ${fittingWords(texts.design)}`.trim())));
}

/** Where arrivals are refused: some that fit, and where they come from. */
function fittingWords(design) {
  const lines = arrivalsFor(design).trimEnd().split("\n");
  const more = lines.length > 3 ? " .." : "";
  return `For example these fit the design: \`${lines.slice(0, 3).join(" ")}${more}\`. The button "Fit the design" above the arrivals writes them.`;
}

function takeBounds({ out }, texts) {
  state.bounds = readExplanation(out);
  state.boundsText = out;
  state.tick = tickOf(texts.design);
  showBounds();
  at("panel-bounds").classList.remove("stale");
}

/** The answers for a design with clients and servers, or what is refused of its arrivals. */
function takeBackground(texts, { background, replayed }) {
  const { hard, program } = tasksOf(background.out);
  const met = `Every deadline of the hard threads of ${program.design} is met on the modelled processor, whatever the background does, `
    + "under all arrivals that keep their separations.";
  [state.bounds, state.ada, state.isBackground] = [null, background.out, true];
  state.tick = tickOf(texts.design);
  if (replayed.status !== 0) return showRefusedArrivals(replayed, texts, met);
  const milliseconds = Math.round(background.milliseconds + replayed.milliseconds);
  tell("good", [met, ""], `hard threads ${hard.length}, background objects ${backgroundOf(texts.design).length}; answered in ${milliseconds} ms`);
  takeTrace(replayed.out);
}

function takeVerified(texts, { bounds, count, verified, generated }) {
  const [, name, objects, threads] = /^ok (\S+) objects (\d+) threads (\d+)/.exec(count.out) ?? [];
  const met = `Every deadline of ${name} is met on the modelled processor, under all arrivals that keep their separations.`;
  if (verified.status !== 0) {
    state.ada = generated.out;
    return showRefusedArrivals(verified, texts, met);
  }
  const milliseconds = Math.round(bounds.milliseconds + count.milliseconds + verified.milliseconds);
  tell("good", [met, ""], `objects ${objects}, threads ${threads}; answered in ${milliseconds} ms`);
  const cut = verified.out.indexOf("\n-- trace\n");
  state.ada = verified.out.slice(0, cut + 1);
  takeTrace(verified.out.slice(cut + "\n-- trace\n".length));
}

function showAnswers(texts, told) {
  [state.ada, state.trace, state.isBackground, state.late, state.design] = ["", null, false, told.late ?? null, texts.design];
  takeUnit(texts.design);
  if (told.background !== undefined) takeBackground(texts, told);
  else if (told.bounds.status === 0) takeVerified(texts, told);
  else {
    state.bounds = null;
    showRefusal(told.bounds, texts, told.late?.explanation ?? null);
  }
  state.refusal = told.background === undefined && told.bounds.status !== 0 ? () => showRefusal(told.bounds, texts, told.late?.explanation ?? null) : null;
  if (state.late !== null) state.tick = tickOf(texts.design);
  for (const panel of panels) {
    if (verbTabs.every((one) => one.panel !== panel)) panel.classList.remove("stale");
  }
  showBounds();
  showAda();
  showTrace();
  showTimeline();
  showDiagram();
}

/** The switch of units is there where a design tells how long a tick is. */
function takeUnit(design) {
  const microseconds = microsecondsOf(design);
  at("units").hidden = microseconds === null;
  state.clock = microseconds !== null && at("unit").value === "ms" ? new Clock(microseconds) : TICKS;
}

/** Tells all times in the unit that is chosen. */
function changeUnit() {
  takeUnit(state.design);
  state.refusal?.();
  showMarks();
  showBounds();
  timeline.setClock(state.clock);
  showDiagram();
  for (const one of verbTabs) one.showAgain();
}

/** The bounds that are known of the design that is shown: those of `analyse`, of `explain`, or of the head of an Ada text; or null. */
function knownBounds() {
  if (state.bounds !== null) return state.bounds;
  if (state.late !== null) return state.late.explanation;
  if (!state.isBackground) return null;
  const { hard, program } = tasksOf(state.ada);
  return { threads: hard.map((task) => ({ ...task, response: task.bound, cost: undefined })),
    ceilings: [...program.ceilings].map(([name, ceiling]) => ({ name, ceiling })) };
}

function showDiagram() {
  diagram.take(state.design, knownBounds(), state.mark, state.clock);
}

/** Selects the text of an object of the diagram, and brings it into view; the focus stays. */
function selectObject({ start, end }) {
  const area = at("design");
  area.setSelectionRange(start, end);
  area.scrollTop = Math.max(0, (editors.design.rowOf(start) - 3) * LINE);
  editors.design.pick(start, end);
}

function takeTrace(text) {
  state.trace = { text, lines: text.trimEnd().split("\n") };
}

function showBounds() {
  const panel = at("panel-bounds");
  if (state.isBackground) return panel.replaceChildren(...backgroundBounds());
  if (state.late !== null) return panel.replaceChildren(...lateBounds(state.late, panel));
  if (state.bounds === null) return panel.replaceChildren(make("p", { class: "note" }, "There are no bounds while the design is refused."));
  const tools = make("div", { class: "tools" }, saveButton("bounds.txt", () => state.boundsText));
  panel.replaceChildren(tools, ...boundsTables(state.bounds, state.tick, state.clock));
}

/** The bounds of the hard threads of a design with clients and servers, with the way to all that is told of it. */
function backgroundBounds() {
  const button = make("button", { type: "button" }, "Background objects and ceilings");
  button.addEventListener("click", () => { choose(at("tab-background")); at("tab-background").focus(); });
  const { hard } = tasksOf(state.ada);
  const table = hard.length === 0 ? make("p", { class: "note" }, "The design has no hard thread.") : hardTable(hard, state.tick, state.clock);
  return [make("div", { class: "tools" }, button), table, make("p", { class: "note" }, `Response: ${PROVED}.`)];
}

/** What is told of a design that is over its limits, whose bounds nobody promises. */
function lateBounds({ explanation, text, why, hasBudgets }, panel) {
  if (explanation === null) return [make("p", { class: "note" }, `There are no bounds while the design is refused; ${why.replace(/\.$/, "")}.`)];
  const budgets = hasBudgets ? " Each budget is lifted here, since one of them is below its cost." : "";
  const words = "The design is refused, so nothing is promised. The table tells the least solution of the response equations, as far as ten times each "
    + `limit.${budgets} ${timesAre(state.clock, state.tick)}`;
  const button = saveButton("explanation.txt", () => text);
  return [make("div", { class: "tools" }, button), make("p", {}, make("b", {}, explainedHead(explanation))), make("p", { class: "note" }, words),
    ...explainedParts(explanation, state.clock, panel), make("p", { class: "note" }, MENDS)];
}

const MENDS = "What to change: a cost or a body of a thread that is late or of one above it, a section that blocks it, a deadline, a period. "
  + "tools/report/mend.py finds the least change of each number by which the design passes.";

function saveButton(name, text) {
  const button = make("button", { type: "button", "aria-label": `Save ${name}` }, "Save\u2026");
  button.addEventListener("click", () => save(name, text()));
  return button;
}

function linesOf(lines) {
  const more = `\u2026 ${lines.length - SHOWN_LINES} more lines: save the text to see them.`;
  const shown = lines.length > SHOWN_LINES ? [...lines.slice(0, SHOWN_LINES), more] : lines;
  return make("pre", { class: "text" }, shown.join("\n"));
}

function showAda() {
  const panel = at("panel-ada");
  if (state.ada === "") return panel.replaceChildren(make("p", { class: "note" }, "There is no Ada text while the design is refused."));
  const lines = state.ada.trimEnd().split("\n");
  panel.replaceChildren(make("div", { class: "tools" }, saveButton("design.ada", () => state.ada), `${lines.length} lines`), linesOf(lines));
}

function showTrace() {
  const panel = at("panel-trace");
  at("own").disabled = state.trace === null;
  if (state.trace === null) return panel.replaceChildren(make("p", { class: "note" }, "There is no trace while a text is refused."));
  const { lines, text } = state.trace;
  const names = [...tasksOf(state.ada).hard, ...tasksOf(state.ada).clients].map((task) => task.name);
  const options = [make("option", { value: "" }, "all tasks"), ...names.map((name) => make("option", {}, name))];
  const pick = make("select", { "aria-label": "Lines of which task" }, ...options);
  const holder = make("div", {});
  const show = () => {
    const chosen = pick.value === "" ? lines : lines.filter((line) => line.split(" ").slice(2).includes(pick.value));
    holder.replaceChildren(linesOf(chosen));
  };
  pick.addEventListener("change", show);
  panel.replaceChildren(make("div", { class: "tools" }, saveButton("trace.txt", () => text), pick, `${lines.length} lines`), holder);
  show();
}

function showTimeline() {
  if (state.late !== null) showSimulation(state.late);
  else if (state.trace === null) timeline.tell("There is no timeline while a text is refused.");
  else timeline.take(state.ada, state.trace.lines, state.isOther, state.clock);
  state.isOther = false;
}

/** Why there is no simulation: in words, or the line of a refusal in plain words, of arrivals with some that fit. */
function whyWords(why) {
  if (!why.startsWith("refused ")) return `${why.replace(/\.$/, "")}.`;
  const texts = textsNow();
  const isOfArrivals = markOf(why, texts)?.kind === "arrivals";
  return `${refusals.plain(why, texts)[0]}${isOfArrivals ? ` ${fittingWords(texts.design).replaceAll("`", "")}` : ""}`;
}

/** A run of a late design with its limits lifted, in which its own deadlines are drawn; or why there is none. */
function showSimulation({ explanation, why, changes, simulated }) {
  if (why !== null) return timeline.tell(`The design is refused, and there is no simulation of it: ${whyWords(why)}`);
  const deadlines = new Map(explanation.threads.map((one) => [one.name, one.deadline]));
  const kinds = ["DEADLINE", "THREAD_BUDGET"].map((kind) => changes.filter(({ attribute }) => attribute === kind).length);
  const told = [[kinds[0], "deadlines as late as their periods and the order of priorities let them be"], [kinds[1], "budgets at their most"]]
    .filter(([count]) => count > 0).map(([, words]) => words).join(", and ");
  const words = `A simulation without promise: the design is refused, and this is a run of it with ${told}. Deadlines are drawn as the design has `
    + "them: what is red ends past its deadline.";
  timeline.take(simulated.ada, simulated.trace.trimEnd().split("\n"), state.isOther, state.clock, { deadlines, words });
}

// ---- Tabs, files and keys ----

function choose(tab) {
  const held = panels.find((panel) => panel.contains(document.activeElement));
  for (const one of tabs) {
    const isChosen = one === tab;
    one.setAttribute("aria-selected", String(isChosen));
    one.tabIndex = isChosen ? 0 : -1;
    at(one.getAttribute("aria-controls")).hidden = !isChosen;
  }
  // The focus isn't lost with the panel in which it was.
  if (held?.hidden) tab.focus();
  if (tab.id === "tab-timeline") timeline.render();
  if (tab.id === "tab-bounds" && state.late !== null) showBounds();
  diagram.render();
  wantChosen();
}

function save(name, text) {
  const link = make("a", { href: URL.createObjectURL(new Blob([text], { type: "text/plain" })), download: name });
  link.click();
  setTimeout(() => URL.revokeObjectURL(link.href), 10000);
}

async function openFile() {
  const [file] = at("file").files;
  const { to } = at("file").dataset;
  if (file !== undefined) put(to, await file.text());
  at("file").value = "";
  if (to === "trace") return laterTrace();
  state.isOther = true;
  later();
}

/** Puts a text in the place of another, as if it were typed, so that the browser can take it back. For a very long one that takes too long. */
function put(kind, text) {
  if (text.length > MOST_TYPED) editors[kind].set(text);
  else editors[kind].replace(text);
}

/** Takes the trace of the page's own run as the one to be judged, to begin with. */
function takeOwnTrace() {
  put("trace", state.trace.text);
  laterTrace();
}

/** Puts arrivals that fit the design in the place of those that are there. */
function takeFitting() {
  put("arrivals", arrivalsFor(at("design").value));
  state.isOther = true;
  later();
}

async function format() {
  try {
    const told = await run(["format", "design"], { design: at("design").value });
    if (told.status !== 0) return again();
    editors.design.replace(told.out);
  } catch {
    // It was cut off by an edit.
  }
  return later();
}

/** Begins with the design that the help shows. */
function takeSkeleton() {
  at("how").close();
  begin({ design: at("skeleton").textContent, arrivals: "UNTIL 300;\n" });
  at("design").focus();
}

function goToMark() {
  for (const editor of Object.values(editors)) editor.go();
}

function listenToTabs() {
  for (const [index, tab] of tabs.entries()) {
    tab.addEventListener("click", () => choose(tab));
    tab.addEventListener("keydown", (event) => {
      const to = { ArrowRight: index + 1, ArrowLeft: index - 1, Home: 0, End: tabs.length - 1 }[event.key];
      if (to === undefined) return;
      event.preventDefault();
      const next = tabs[(to + tabs.length) % tabs.length];
      choose(next);
      next.focus();
    });
  }
}

function listenToButtons() {
  for (const button of allOf("[data-save]")) {
    const kind = button.dataset.save;
    button.addEventListener("click", () => save(`text.${kind}`, at(kind).value));
  }
  for (const button of allOf("[data-open]")) {
    button.addEventListener("click", () => { at("file").dataset.to = button.dataset.open; at("file").click(); });
  }
  at("file").addEventListener("change", openFile);
  at("format").addEventListener("click", format);
  at("unit").addEventListener("change", changeUnit);
  at("help").addEventListener("click", () => at("how").showModal());
  at("close").addEventListener("click", () => at("how").close());
  at("take").addEventListener("click", takeSkeleton);
  at("own").addEventListener("click", takeOwnTrace);
  at("fitting").addEventListener("click", takeFitting);
  document.addEventListener("click", ({ target }) => { if (target instanceof Element && target.matches("#cut, .cut")) runs.start(); });
  window.addEventListener("resize", () => { timeline.render(); diagram.render(); });
}

/** The letter or number of a key, also where the system writes another sign with Alt. */
function letterOf({ key, code }) {
  return /^[a-z0-9]$/i.test(key) ? key.toLowerCase() : /^(?:Key|Digit)(.)$/.exec(code)?.[1].toLowerCase() ?? "";
}

/** Undo and redo reach the text of a tab that isn't chosen too, which is shown meanwhile; where they change it, its tab is chosen. */
function reachHidden({ ctrlKey, metaKey, key }) {
  const panel = at("panel-accepts");
  if (!(ctrlKey || metaKey) || !/^[zy]$/i.test(key) || !panel.hidden) return;
  const before = at("trace").value;
  panel.hidden = false;
  setTimeout(() => {
    panel.hidden = true;
    if (at("trace").value === before) return;
    choose(at("tab-accepts"));
    at("trace").focus();
  });
}

function listenToKeys() {
  document.addEventListener("keydown", (event) => {
    reachHidden(event);
    // With this key signs are written.
    if (event.getModifierState("AltGraph")) return;
    const key = letterOf(event);
    if (event.ctrlKey && event.key === "Enter") again();
    else if (event.altKey && tabs[(Number(key) + 9) % 10] !== undefined) choose(tabs[(Number(key) + 9) % 10]);
    else if (event.altKey && key === "g") goToMark();
    else if (event.altKey && key === "h") at("how").showModal();
    else return;
    event.preventDefault();
  });
}

function show(texts) {
  state.isOther = true;
  editors.design.set(texts.design);
  editors.arrivals.set(texts.arrivals);
  editors.trace.set(texts.trace ?? "");
}

/** Begins with other texts in the place of those that are there, which Ctrl and Z bring back, one after the other, the design first. */
function begin(texts) {
  state.isOther = true;
  for (const kind of Object.keys(editors).reverse()) put(kind, texts[kind] ?? "");
  again();
}

function listenToExamples() {
  const pick = at("example");
  pick.append(make("option", { value: "" }, "choose\u2026"), ...Object.keys(EXAMPLES).map((name) => make("option", {}, name)));
  pick.addEventListener("change", () => {
    if (EXAMPLES[pick.value] === undefined) return;
    begin(EXAMPLES[pick.value]);
    pick.focus();
  });
}

/** The texts that the browser kept, or else the first example. */
function firstTexts() {
  try {
    const kept = JSON.parse(localStorage.getItem(KEPT));
    if (typeof kept?.design === "string" && typeof kept?.arrivals === "string") return kept;
  } catch {
    // Nothing is kept.
  }
  return Object.values(EXAMPLES)[0];
}

const NEEDS = "This browser can't run the program: it needs WebAssembly with a memory of 64 bits, "
  + "as Chromium has from 133 on and Firefox from 134 on.";

listenToTabs();
listenToButtons();
listenToKeys();
listenToExamples();
show(firstTexts());
choose(tabs[0]);
at("last-tab").textContent = String(Math.min(tabs.length, 10) % 10);
tell("", ["Starting\u2026", ""], "");
runs.isReady.then(again, (fault) => tell("bad", [NEEDS, ""], fault.message));
