// Tabs of verbs, each with what one verb writes of the texts that it takes. One more verb is one line of VERBS.
"use strict";

/** So many per mille as a factor. */
function factorOf(perMille) {
  return String(perMille / 1000);
}

/** What fails at the next per mille, in plain words. */
function nextOf(next, perMille, clock) {
  const over = `At ${perMille + 1} per mille`;
  if (next === "limit") return "Nothing fails up to there, which is the greatest that is tried.";
  const [, object, part] = /^cost (\S+) (\S+)/.exec(next) ?? [];
  if (part === "thread") return `${over} an activation of ${object} costs over 1,000,000,000 ticks.`;
  if (part !== undefined) return `${over} the operation ${part} of ${object} costs over 1,000,000,000 ticks.`;
  const [, code, thread, value, limit] = /^(U[12]) (\S+) value (\d+) limit (\d+)/.exec(next) ?? [];
  const what = code === "U1" ? "the response time" : "the jitter and the response time together";
  const [least, most] = [value, limit].map((ticks) => clock.time(Number(ticks)));
  return `${over} ${thread} is over its limit first: ${what} of ${least} or more, and not ${most}.`;
}

/** `scale`: how far all work may grow. */
function marginView(out) {
  const [, found, next] = /^scale (\d+)\nnext (.*)\n$/.exec(out);
  const perMille = Number(found);
  const grows = perMille === 1000 ? "Each thread keeps its limits with all work as it is, and with no per mille more"
    : `Each thread keeps its limits with all work at up to ${factorOf(perMille)} times what it is`;
  const shrinks = `Each thread keeps its limits only with all work at ${factorOf(perMille)} times what it is, or less`;
  return [
    make("p", {}, make("b", {}, `${perMille < 1000 ? shrinks : grows} (${perMille} per mille).`)),
    make("p", {}, nextOf(next, perMille, state.clock)),
    make("p", { class: "note" }, "Each number of ticks in work is scaled and rounded up; costs, periods, deadlines, jitters and priorities stay."),
  ];
}

/** `search`: an order of priorities under which the design passes. */
function searchView(out, { design }) {
  const isSame = state.bounds !== null && out === state.boundsText;
  const head = isSame
    ? "The order by deadlines passes, so it is the one that is found."
    : "The order by deadlines fails, and under this order each thread keeps its limits.";
  const note = make("p", { class: "note" }, "The tab Arrange has the Ada text by this order.");
  const response = isSame ? PROVED : "the least number that meets the response equations under this order";
  const tables = boundsTables(readExplanation(out), tickOf(design), state.clock, response);
  return [make("p", {}, make("b", {}, head)), ...(isSame ? [] : [note]), ...tables];
}

/** The hard threads with the bounds in the head of an Ada text, and the other tasks, which are clients. */
function tasksOf(ada) {
  const read = new ProgramReader(ada).read();
  const program = read.tasks.size === 0 ? read : readProgram(ada);
  const tasks = tasksByPriority(program);
  return { program, hard: tasks.filter((task) => task.bound !== null), clients: tasks.filter((task) => task.bound === null) };
}

/** The hard threads of an Ada text as a table, with their sums. */
function hardTable(hard, tick, clock) {
  const rows = hard.map(({ name, priority, deadline, jitter, bound }) =>
    [name, priority, ...[deadline, jitter, bound, deadline - bound].map((ticks) => clock.number(ticks)), barOf({ name, response: bound, deadline }, clock)]);
  return tableOf(`Hard threads, by priority. ${timesAre(clock, tick)}`, ["Thread", "Priority", "Deadline", "Jitter", "Response", "Slack", "Of the deadline"], rows);
}

const CLIENT = "runs in the time that the hard threads leave, and again as soon as it has ended; no bound and no share of the time is promised";
const SERVER = "serves one caller at a time, who waits for it; no hard thread is among them";

/** `arrange`: the Ada text by an order of priorities under which the design passes, and what it tells of bounds and priorities. */
function arrangeView(out, { design }) {
  const told = tasksOf(out);
  const isSame = out === state.ada;
  const head = isSame
    ? "The order by deadlines passes, so this is the text of the tab Ada text."
    : "The order by deadlines fails, and under this order each thread keeps its deadline in every run of this text.";
  const ceilings = [...told.program.ceilings].map(([name, ceiling]) => ({ name, ceiling }));
  return [
    make("p", {}, make("b", {}, head)),
    hardTable(told.hard, tickOf(design), state.clock),
    ...ceilingTable(ceilings),
    make("p", { class: "note" }, "The slack and the bars are reckoned by the page."),
    make("h3", {}, "Its Ada text"),
    linesOf(out.trimEnd().split("\n")),
  ];
}

/** Clients and servers of a design as a table, of which the Ada text tells priorities and ceilings. */
function backgroundTable(design, { program, clients }) {
  const rows = backgroundOf(design).map(({ name, hasThread }) => {
    const priority = hasThread ? clients.find((task) => task.name === name)?.priority : program.ceilings.get(name);
    return [name, hasThread ? "client" : "server", priority ?? "-", make("td", { class: "wide" }, hasThread ? CLIENT : SERVER)];
  });
  const table = tableOf("Background objects, below all hard threads", ["Object", "Kind", "Priority", "What it does"], rows);
  table.className = "plain";
  return table;
}

/** `background`: the Ada text of a design with clients and servers, and what it tells of bounds and priorities. */
function backgroundView(out, { design }) {
  const told = tasksOf(out);
  const isPlain = backgroundOf(design).length === 0;
  const head = isPlain
    ? "The design has no background objects, so its Ada text is that of the tab Ada text."
    : "Each hard thread keeps its deadline, whatever the clients and servers of the background do.";
  const ceilings = [...told.program.ceilings].map(([name, ceiling]) => ({ name, ceiling }));
  return [
    make("p", {}, make("b", {}, head)),
    ...(told.hard.length === 0 ? [] : [hardTable(told.hard, tickOf(design), state.clock)]),
    ...(isPlain ? [] : [backgroundTable(design, told)]),
    ...ceilingTable(ceilings),
    make("p", { class: "note" }, "The slack and the bars are reckoned by the page. What a client does inside a protected object counts as blocking."),
    make("h3", {}, "Its Ada text"),
    linesOf(out.trimEnd().split("\n")),
  ];
}

/** `accepts`: whether a trace from anywhere is one that the design allows under the arrivals. */
function acceptsView(out) {
  const [, lines] = /^yes lines (\d+)\n$/.exec(out);
  return [
    make("p", {}, make("b", {}, `Yes: the design allows this trace under these arrivals. It has ${lines} lines.`)),
    make("p", { class: "note" }, "Priorities and bounds aren't asked: an activation may wait as long as it likes."),
  ];
}

/** `explain`: what each response time is made up of, also where threads are over their limits. */
function explainView(out) {
  const explanation = readExplanation(out);
  return [make("p", {}, make("b", {}, explainedHead(explanation))), ...explainedParts(explanation, state.clock, at("panel-explain"))];
}

const NO_TRACE = "Paste a trace below, open a file, or take that of this page's run and change it: is it one that the design allows under the "
  + "arrivals, wherever it comes from?";
const NO_MACHINE = "No trace of a design with background objects can be judged.";

// Of each verb its tab, the files that it takes, the file that Save writes, and how its lines are shown; and what is told where one of its files
// is empty, which is left out where none may be.
const VERBS = [
  { verb: "scale", label: "Margin", takes: ["design"], file: "margin.txt", view: marginView },
  { verb: "search", label: "Search", takes: ["design"], file: "search.txt", view: searchView },
  { verb: "background", label: "Background", takes: ["design"], file: "background.ada", view: backgroundView },
  { verb: "accepts", label: "Check a trace", takes: ["design", "arrivals", "trace"], file: "verdict.txt", view: acceptsView, none: NO_TRACE },
  { verb: "explain", label: "Explain", takes: ["design"], file: "explanation.txt", view: explainView },
  { verb: "arrange", label: "Arrange", takes: ["design"], file: "arranged.ada", view: arrangeView },
];

/** A hint with the names of tabs in the place of verbs, as the page knows them. */
function withTabs(text) {
  const labels = new Map([["analyse", "Bounds"], ...VERBS.map(({ verb, label }) => /** @type {[string, string]} */ ([verb, label]))]);
  return text.replace(/, `(tools\/\S+)`/g, ", and outside this page `$1`").replace(/(?<=(^|\. )?)`(\w+)`/g, (whole, before, verb, place) => {
    if (!labels.has(verb)) return whole;
    return `${before !== undefined || place === 0 ? "The" : "the"} tab ${labels.get(verb)}`;
  });
}

/** The tab of a verb. Its run begins when the tab is chosen, and again when a text that it takes has changed meanwhile. */
class VerbTab {
  constructor({ verb, label, takes, file, view, none = undefined }) {
    this.verb = verb;
    this.takes = takes;
    this.file = file;
    this.view = view;
    this.none = none;
    this.texts = null; // of the answer that is shown, or on its way
    this.mark = null; // of what it refuses
    this.told = null; // what it answered
    this.tab = make("button", { type: "button", role: "tab", id: `tab-${verb}`, "aria-controls": `panel-${verb}` }, label);
    this.panel = at(`panel-${verb}`)
      ?? make("div", { role: "tabpanel", id: `panel-${verb}`, "aria-labelledby": `tab-${verb}`, tabindex: "0", hidden: "" });
    this.answer = answerPart(this.panel);
  }

  isChosen() {
    return !this.panel.hidden;
  }

  isOf(texts) {
    return this.texts !== null && this.takes.every((kind) => this.texts[kind] === texts[kind]);
  }

  /** Shows what the verb answers of these texts, when it is there. */
  async want(texts) {
    if (this.isOf(texts)) {
      if (this.panel.getAttribute("aria-busy") !== "true") this.answer.classList.remove("stale");
      return;
    }
    const given = Object.fromEntries(this.takes.map((kind) => [kind, texts[kind]]));
    [this.texts, this.mark, this.told] = [given, null, null];
    if (this.none !== undefined && this.takes.some((kind) => given[kind] === "")) return this.put(make("p", { class: "note" }, this.none));
    this.panel.setAttribute("aria-busy", "true");
    const stop = make("button", { type: "button", class: "go cut" }, "Stop");
    const slow = setTimeout(() => this.answer.replaceChildren(make("p", { class: "note" }, "Running\u2026 ", stop)), SLOW);
    const told = await run([this.verb, ...this.takes], given).catch((fault) => ({ fault: fault.message }));
    clearTimeout(slow);
    // A text has changed meanwhile, and its answer comes behind.
    if (this.texts !== given) return;
    this.told = told;
    this.showTold();
    showMarks();
  }

  showTold() {
    this.put(...this.shown(this.told, this.texts));
    if (this.told.fault === undefined) this.answer.classList.add(this.told.status === 0 ? "good" : "bad");
  }

  /** Shows the same answer again, as when times are told in another unit. */
  showAgain() {
    if (this.told !== null && this.texts !== null && this.panel.getAttribute("aria-busy") !== "true") this.showTold();
  }

  put(...parts) {
    this.panel.setAttribute("aria-busy", "false");
    this.answer.classList.remove("stale", "good", "bad");
    this.answer.replaceChildren(...parts);
  }

  shown({ fault, status, out, err }, given) {
    if (fault !== undefined) {
      this.texts = null;
      const again = make("button", { type: "button", class: "go" }, "Run again");
      again.addEventListener("click", () => this.want(textsNow()));
      return [make("p", { class: "note" }, fault === "cut off" ? "The run was stopped. " : `${fault} `, again)];
    }
    if (status !== 0) return this.refused(err.trimEnd() || "no memory", given);
    const lines = make("details", {}, make("summary", {}, "The program's own lines"), make("pre", { class: "text" }, out.trimEnd()));
    return [make("div", { class: "tools" }, saveButton(this.file, () => out)), ...this.view(out, given), lines];
  }

  /** What is refused, in plain words, with the button that leads to its place. */
  refused(line, given) {
    const [head, hint] = refusals.plain(line, given);
    this.mark = markOf(line, given) ?? (given.trace === undefined ? null : markOfTrace(line, given, state.trace?.lines ?? null));
    const why = this.mark?.why ? [make("p", {}, `The program tells the part; the page marks a line of it: ${this.mark.why}.`)] : [];
    const isOther = this.verb === "accepts" && backgroundOf(given.design).length > 0;
    return [
      ...goButton(this.mark).map((button) => make("div", { class: "tools" }, button)),
      make("p", {}, make("b", {}, ...withWords(head))),
      ...why,
      make("p", {}, ...withWords(isOther ? NO_MACHINE : withTabs(hint))),
      make("pre", { class: "text told" }, line),
    ];
  }
}
