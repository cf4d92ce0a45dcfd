// What `explain` tells of a design as a table, bars and text, whether or not the design passes.
"use strict";

const BARS_WIDTH = 640; // pixels of the bars, at least where there is room

/** The words of the head: whether each thread keeps its limits. */
function explainedHead({ miss, threads }) {
  if (miss === null) return "Each thread keeps its limits, and these are the terms of its response time.";
  const late = threads.filter(isLate).map((one) => one.name);
  const words = late.length === 0 ? "" : `: ${late.join(", ")}`;
  return `${late.length === 1 ? "One thread is" : `${late.length} of ${threads.length} threads are`} over the limits${words}.`;
}

/** Whether a thread is over its deadline, or before its next release not done; one that is given up is. */
function isLate(thread) {
  const [slack, spare] = [slackOf(thread), spareOf(thread)];
  return slack === null || slack < 0 || spare < 0;
}

/** The headline of a late design: how long the thread takes that its refusal names, and how many more are late. Null for other refusals. */
function lateHead(line, { threads }, clock) {
  const [, code, name] = /^refused (U[12]) (\S+) /.exec(line) ?? [];
  const thread = threads.find((one) => one.name === name);
  if (thread === undefined || !isLate(thread)) return null;
  const { response, deadline, jitter, period } = thread;
  const limit = code === "U1" ? `its deadline of ${clock.span(deadline)}` : `its next release, ${clock.span(period)} after the one before`;
  const others = threads.filter((one) => one !== thread && isLate(one)).length;
  const more = others === 0 ? "" : others === 1 ? " One more thread is over its limits." : ` ${others} more threads are over their limits.`;
  if (response === null) return `The response of ${name} is over ten times ${limit}, if there is one at all.${more}`;
  const isByJitter = jitter > 0 && code === "U2";
  const takes = `The response of ${name} is up to ${clock.span(response)}${isByJitter ? ` behind a jitter of up to ${clock.span(jitter)}` : ""}`;
  const over = code === "U1" ? response - deadline : jitter + response - period;
  return `${takes}, which is ${clock.span(over)} past ${limit}.${more}`;
}

const SPARE_HEADS = ["Thread", "Priority", "Period", "Deadline", "Jitter", "Cost", "Blocking", "Response", "Slack", "Spare"];
const SPARE = "Slack is what is left to the deadline, and spare what is left to the next release.";

/** The threads as a table, of which those that are late are marked. */
function explainedTable(explanation, clock) {
  const rows = explanation.threads.map((one) => [one.name, one.priority,
    ...[one.period, one.deadline, one.jitter, one.cost, one.blocking, one.response, slackOf(one), spareOf(one)]
      .map((ticks) => (ticks === null ? "-" : clock.number(ticks)))]);
  const table = tableOf(`Threads, by priority; times in ${clock.unit}`, SPARE_HEADS, rows);
  explanation.threads.forEach((thread, place) => table.tBodies[0].rows[place].classList.toggle("late", isLate(thread)));
  return table;
}

/** What each line of a thread says, in words: who starts it, what blocks it, what comes in between. */
function explainedList({ threads }, clock) {
  const items = threads.map((one) => {
    const parts = [];
    if (one.started !== null) parts.push(`started by ${one.started.by}, whose release may come ${clock.time(one.started.jitter)} late`);
    if (one.blocked !== null) parts.push(`blocked by ${one.blocked.by} in ${one.blocked.inside} for ${clock.span(one.blocked.ticks)}`);
    if (one.beyond !== null) parts.push("given up, as its response is over ten times its limit");
    if (one.behind !== null) parts.push(`given up behind ${one.behind}`);
    const sum = one.response === null ? [] : [parts.length === 0 ? "" : "; ", `${clock.number(one.response)} = `, ...sumOf(one, threads, clock)];
    return make("li", { class: isLate(one) ? "late" : "" }, make("b", {}, one.name), ` ${parts.join("; ")}`, ...sum);
  });
  return make("ul", { class: "why", "aria-label": "Of what each response is made" }, ...items);
}

/** Chains of requests, each with its bound from the release of the first thread to the end of the last. */
function explainedChains(explanation, clock) {
  if (explanation.chains.length === 0) return [];
  const { caption, heads, rows } = chainTable(explanation, clock);
  return [tableOf(caption, heads, rows)];
}

/** The bars, with a choice of their scale and a button that saves them. `room` is the element in which they stand. */
function explainedBars(explanation, clock, room) {
  const { threads } = explanation;
  const scales = [["deadline", "each bar up to its deadline"], ["response", "each bar up to its response"], ["ticks", "one scale for all"]];
  const pick = make("select", { class: "scale", "aria-label": "Scale of the bars" }, ...scales.map(([value, words]) => make("option", { value }, words)));
  const isMissed = threads.some(isLate);
  pick.value = isMissed ? "deadline" : scaleFor(threads);
  const holder = make("div", { class: "holder still" });
  let drawn;
  const show = () => {
    const inner = room.clientWidth - 30;
    const width = inner > 0 && inner < 560 ? Math.max(320, inner) : Math.max(BARS_WIDTH, inner);
    drawn = withNames(new Bars(explanation, width, { scale: pick.value, clock }).draw(), room.id);
    holder.innerHTML = drawn.write();
  };
  pick.addEventListener("change", show);
  show();
  const wrong = wrongSums(threads);
  const sums = wrong === null
    ? make("p", { class: "note" }, "Each response is the sum of its terms, as was checked here. Bars and sums are reckoned by the page.")
    : make("p", { class: "wrong" }, wrong);
  return [make("div", { class: "tools" }, saveButton("bars.svg", () => asFile(drawn, BARS_STYLE)), pick), sums, holder];
}

/** The background objects of a design: clients, which have no bound, and servers with their ceilings. */
function explainedBackground({ clients, servers }, clock) {
  const tables = [];
  if (clients.length > 0) {
    const rows = clients.map(({ name, priority, cost }) => [name, priority, clock.number(cost)]);
    tables.push(tableOf(`Clients, which run in what the threads leave; times in ${clock.unit}`, ["Client", "Priority", "Cost of a turn"], rows));
  }
  if (servers.length > 0) tables.push(tableOf("Servers", ["Server", "Ceiling"], servers.map(({ name, ceiling }) => [name, ceiling])));
  return tables;
}

/** All that is told of an explanation. */
function explainedParts(explanation, clock, room) {
  const background = explainedBackground(explanation, clock);
  if (explanation.threads.length === 0) return [make("p", { class: "note" }, "The design has no thread, so nothing is bounded."), ...background];
  const sums = make("p", { class: "sums" }, `${SPARE} Costs by periods come to ${utilisationOf(explanation.threads)} of the processor.`);
  return [explainedTable(explanation, clock), sums, ...explainedBars(explanation, clock, room), ...explainedChains(explanation, clock), ...background,
    make("details", {}, make("summary", {}, "The bars as text"), explainedList(explanation, clock))];
}
