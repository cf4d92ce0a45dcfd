// The tab of the timeline: a window of the trace, moved by mouse, keys and buttons, with what it shows as text too.
"use strict";

const MOST_EVENTS = 3000; // in a window, of which each is drawn
const MOST_LINES = 1500000; // of a trace, of which a timeline is made
const FIRST_EVENTS = 90;
const LIST_LINES = 5000;

/** The words below a window in which too much happens, where ends are judged by a bound or a deadline. */
function farWords(limit) {
  return `Too much happens here to be drawn: each height is the greatest response of what is released there, before the ${limit}. Go closer to see who runs.`;
}

const NEAR = "Drag to move, double-click to go closer; Ctrl and the wheel change the size. "
  + "Who runs follows from the trace; that is tested, and not proved.";

/** What the marks mean, where ends are judged by a bound or a deadline. */
function legend(limit) {
  return make("div", { class: "legend" }, ...LEGEND.map(([kind, words]) => {
    const made = make("span", { class: "key" });
    made.innerHTML = withNames(pictureOf(MARK, MARK, null, ...marksOf(kind)), "key").write();
    made.append(kind === "kept" ? `release to ${limit}` : words);
    return made;
  }));
}

/** Judges the ends of a task by its deadline, where it has no bound. */
function judgeBy(task, deadline) {
  task.deadline = task.bound = deadline;
  task.limit = "deadline";
}

class Timeline {
  constructor(panel, style) {
    this.panel = panel;
    this.style = style;
    this.trace = null;
    this.clock = TICKS;
    this.simulated = null; // of a late design: its deadlines, and the words that say what this is
    this.drawn = draw("svg", {}); // of the window that is shown
    this.from = 0;
    this.to = 1;
    this.moves = {
      Earlier: () => this.move(this.from - this.span() / 2),
      Later: () => this.move(this.from + this.span() / 2),
      Closer: () => this.scale(0.5),
      Wider: () => this.scale(2),
      Whole: () => this.window(0, this.trace.last),
    };
    const name = "Timeline. The arrow keys move it, plus and minus change its size, 0 shows all.";
    this.holder = make("div", { class: "holder", tabindex: "0", role: "group", id: "window", "aria-label": name });
    this.list = make("pre", { class: "text", tabindex: "0", "aria-label": "Who runs when" });
    this.details = make("details", {}, make("summary", {}, "Who runs when, as text"), this.list);
    this.legend = legend("bound");
    this.listen();
  }

  listen() {
    const keys = { ArrowLeft: "Earlier", ArrowRight: "Later", "+": "Closer", "=": "Closer", "-": "Wider", "0": "Whole" };
    this.holder.addEventListener("keydown", (event) => {
      const name = event.ctrlKey || event.altKey || event.metaKey ? undefined : keys[event.key];
      if (name === undefined || this.trace === null) return;
      event.preventDefault();
      this.moves[name]();
    });
    this.holder.addEventListener("pointerdown", (event) => this.drag(event));
    this.holder.addEventListener("dblclick", (event) => this.scale(event.shiftKey ? 2 : 0.5, this.tickAt(event.clientX)));
    this.holder.addEventListener("wheel", (event) => this.turn(event), { passive: false });
    this.details.addEventListener("toggle", () => this.showList());
  }

  span() {
    return this.to - this.from;
  }

  /** What ends are judged by. */
  limit() {
    return this.simulated === null ? "bound" : "deadline";
  }

  /** The tick at a place of the screen. */
  tickAt(place) {
    const box = this.holder.getBoundingClientRect();
    const left = leftOf(box.width);
    return this.from + ((place - box.left - left) / (box.width - left - RIGHT)) * this.span();
  }

  /** The window follows the mouse while its button is held. */
  drag(event) {
    if (event.button !== 0 || this.trace === null) return;
    const [start, from] = [event.clientX, this.from];
    const ticks = this.tickAt(1) - this.tickAt(0);
    const moved = ({ clientX }) => this.move(from - (clientX - start) * ticks);
    this.holder.setPointerCapture(event.pointerId);
    this.holder.addEventListener("pointermove", moved);
    const end = () => this.holder.removeEventListener("pointermove", moved);
    this.holder.addEventListener("pointerup", end, { once: true });
    this.holder.addEventListener("pointercancel", end, { once: true });
  }

  /** The wheel moves the page as everywhere; with Ctrl it changes the size, and sideways or with Shift it moves the window. */
  turn(event) {
    if (this.trace === null) return;
    const isSideways = event.shiftKey || Math.abs(event.deltaX) > Math.abs(event.deltaY);
    if (!event.ctrlKey && !isSideways) return;
    event.preventDefault();
    const by = event.deltaX !== 0 ? event.deltaX : event.deltaY;
    if (event.ctrlKey) this.scale(event.deltaY > 0 ? 1.25 : 0.8, this.tickAt(event.clientX));
    else this.move(this.from + (Math.sign(by) * this.span()) / 8);
  }

  scale(factor, at = (this.from + this.to) / 2) {
    const from = at - (at - this.from) * factor;
    this.window(from, from + this.span() * factor);
  }

  /** Shows another window of the same size. */
  move(from) {
    this.window(from, from + this.span());
  }

  /** Shows the window, or the nearest to it that the trace has. */
  window(from, to) {
    const most = Math.max(1, this.trace.last);
    const span = Math.max(1, Math.min(most, Math.round(to - from)));
    this.from = Math.round(Math.max(0, Math.min(from, most - span)));
    this.to = this.from + span;
    this.render();
  }

  tell(words) {
    this.trace = null;
    this.panel.replaceChildren(make("p", { class: "note" }, words));
  }

  /** Takes a trace, of the Ada text that was run. The window stays where the trace is as long as the one before. */
  take(ada, lines, isOther, clock = TICKS, simulated = null) {
    const before = this.trace?.last;
    this.clock = clock;
    this.simulated = simulated;
    try {
      const program = readProgram(ada);
      if (simulated !== null) for (const task of program.tasks.values()) judgeBy(task, simulated.deadlines.get(task.name) ?? null);
      this.trace = new Trace(program, lines.slice(0, MOST_LINES));
    } catch (fault) {
      return this.tell(`There is no timeline: ${fault.message}.`);
    }
    this.isCut = lines.length > MOST_LINES;
    if (isOther || before !== this.trace.last || this.to > this.trace.last) {
      [this.from, this.to] = this.firstWindow();
    }
    this.build();
  }

  /** The first activation of a simulation that ends past its deadline, if any. */
  firstLate() {
    if (this.simulated === null) return undefined;
    return this.trace.activations.find((one) => one.end !== null && one.task.bound !== null && one.response() > one.task.bound);
  }

  /** What is shown at first: the first events, or the first late activation of a simulation. */
  firstWindow() {
    const { events, last } = this.trace;
    const late = this.firstLate();
    if (late === undefined) return [0, Math.max(1, events[Math.min(FIRST_EVENTS, events.length - 1)].time)];
    const room = Math.max(1, Math.round(late.response() / 10));
    return [Math.max(0, late.release - room), Math.min(last, late.end + room)];
  }

  /** Which thread is late in a simulation, or that none is. */
  lateWords() {
    const late = this.firstLate();
    if (late === undefined) return "No activation of this run is late. Its arrivals are one case; Bounds has the responses over all arrivals.";
    const release = `${this.clock.unit === "ticks" ? "tick " : ""}${this.clock.time(late.release)}`;
    return `The first late activation is that of ${late.task.name}, released at ${release}.`;
  }

  build() {
    const buttons = Object.keys(this.moves).map((name) => {
      const button = make("button", { type: "button" }, name);
      button.addEventListener("click", () => this.moves[name]());
      return button;
    });
    this.inputs = ["from", "to"].map((name) => {
      const input = make("input", { type: "number", min: 0, step: "any", id: `window-${name}` });
      input.addEventListener("change", () => this.read());
      return input;
    });
    const [from, to] = this.inputs;
    this.whole = make("span", {});
    const save = saveButton("timeline.svg", () => this.picture());
    const cut = this.isCut ? [make("p", { class: "note" }, `The timeline is of the first ${MOST_LINES} lines of the trace.`)] : [];
    if (this.simulated !== null) cut.unshift(make("p", { class: "simulated" }, `${this.simulated.words} ${this.lateWords()}`));
    this.legend = legend(this.limit());
    this.note = make("p", { class: "note" });
    this.totalsHolder = make("div", {}, this.totals());
    this.panel.replaceChildren(make("div", { class: "tools" }, save, ...buttons, make("label", {}, "from ", from), make("label", {}, "to ", to),
      this.whole), ...cut, this.holder, this.note, this.legend, this.details, this.totalsHolder);
    this.render();
  }

  read() {
    const [from, to] = this.inputs.map((input) => Math.max(0, this.clock.ticks(Number(input.value)) || 0));
    this.window(Math.min(from, to - 1), Math.max(to, from + 1));
  }

  render() {
    if (this.trace === null || this.panel.hidden) return;
    const [from, to] = this.inputs;
    [from.value, to.value] = [this.from, this.to].map((ticks) => this.clock.number(ticks));
    this.whole.textContent = `of ${this.clock.span(this.trace.last)}`;
    const width = Math.max(360, this.holder.clientWidth || this.panel.clientWidth - 30);
    const isFar = this.trace.countBetween(this.from, this.to) > MOST_EVENTS;
    try {
      this.run = isFar ? null : new Run(this.trace, this.from, this.to);
      const { clock } = this;
      this.drawn = isFar ? new Heights(this.trace, this.from, this.to, width, clock).draw() : new Chart(this.run, width, { clock }).draw();
      if (this.simulated !== null) this.drawn.append(textAt(8, 30, "simulated, no promise", "small bad"));
      this.holder.innerHTML = this.drawn.write();
      this.note.textContent = isFar ? farWords(this.limit()) : NEAR;
      this.legend.hidden = isFar;
    } catch (fault) {
      this.run = null;
      this.drawn = draw("svg", {});
      this.holder.replaceChildren();
      this.note.textContent = `This window can't be drawn: ${fault.message}.`;
    }
    this.showList();
  }

  /** Tells times in another unit. */
  setClock(clock) {
    this.clock = clock;
    if (this.trace === null) return;
    this.totalsHolder.replaceChildren(this.totals());
    this.render();
  }

  showList() {
    if (!this.details.open) return;
    const lines = this.run === null ? ["Go closer to see who runs."] : listed(this.run);
    this.list.textContent = lines.slice(0, LIST_LINES).join("\n") + (lines.length > LIST_LINES ? `\n\u2026 ${lines.length - LIST_LINES} more` : "");
  }

  /** A table of the whole trace. */
  totals() {
    const rows = tasksByPriority(this.trace.program).map((task) => {
      const { releases, ends, greatest, overBound } = this.trace.totals.get(task.name);
      const time = (ticks) => (ticks === null ? "-" : this.clock.number(ticks));
      return [task.name, task.kind(), task.priority, time(task.bound), time(greatest), releases, ends, overBound];
    });
    const end = this.clock.unit === "ticks" ? `tick ${this.trace.last}` : this.clock.time(this.trace.last);
    return tableOf(`The whole trace: ${this.trace.events.length} lines, up to ${end}`,
      ["Task", "Kind", "Priority", this.simulated === null ? "Bound" : "Deadline", "Greatest response", "Releases", "Ends", "Late ends"], rows);
  }

  /** The picture as a file, which needs nothing of the page. */
  picture() {
    return asFile(this.drawn, this.style);
  }
}
