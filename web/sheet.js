// A run as one picture that stands by itself: a head, what the marks mean, panels of lanes one below the other, and a table of the whole trace.
import { TICKS } from "./clock.js";
import { Chart, LEGEND, MARK, marksOf, pictureOf, tasksByPriority, Canvas } from "./chart.js";
import { group } from "./markup.js";

const EDGE = 14; // pixels beside words
const LATE = "late ends"; // those over their bound
const DOUBT = ["doubt", "in doubt, see its title"];

/** Marks that are moved. */
function movedBy(x, y, marks) {
  return group({ transform: `translate(${x} ${y})` }, ...marks);
}

/** The columns of the table in which something stands: a head, what stands in the rows, and whether that is a word. */
function columnsOf(trace, clock) {
  const time = (ticks) => (ticks === null ? null : clock.number(ticks));
  const totals = (task) => trace.totals.get(task.name);
  /** @type {[string, (task: any) => any][]} */
  const columns = [
    ["task", (task) => task.name], ["kind", (task) => task.kind()], ["priority", (task) => task.priority], ["period", (task) => time(task.period)],
    ["deadline", (task) => time(task.deadline)], ["jitter", (task) => time(task.jitter)], ["cost", (task) => time(task.cost)],
    ["blocking", (task) => time(task.blocking)], ["bound", (task) => time(task.bound)],
    ["greatest response", (task) => time(totals(task).greatest)], ["releases", (task) => totals(task).releases],
    ["ends", (task) => totals(task).ends], [LATE, (task) => (task.bound === null ? null : totals(task).overBound)],
  ];
  return columns.map(([head, value]) => ({ head, cells: tasksByPriority(trace.program).map(value), isText: head === "task" || head === "kind" }))
    .filter(({ cells }) => cells.some((cell) => cell !== null));
}

/** The picture of a run of so many pixels, in panels of so many ticks. */
export class Sheet {
  constructor(run, width, { fold = run.end - run.start, title = `Run of ${run.program.design}`, clock = TICKS } = {}) {
    this.run = run;
    this.width = width;
    this.fold = fold;
    this.title = title;
    this.clock = clock;
    this.parts = run.parts();
    this.canvas = new Canvas();
    this.y = 0;
  }

  draw() {
    this.drawHead();
    this.drawLegend();
    for (let from = this.run.start; from < this.run.end; from += this.fold) this.drawPanel(from, Math.min(from + this.fold, this.run.end));
    this.drawTable();
    return pictureOf(this.width, this.y + 8, this.title, ...this.canvas.marks);
  }

  drawHead() {
    const { run, clock } = this;
    const busy = this.parts.reduce((sum, { start, end }) => sum + end - start, 0);
    this.canvas.text(EDGE, 26, this.title, "title");
    const window = `${clock.unit} ${clock.number(run.start)} to ${clock.number(run.end)} of ${clock.number(run.trace.last)}`;
    this.canvas.text(EDGE, 43, `${window}, processor busy for ${clock.number(busy)} of ${clock.number(run.end - run.start)}`, "small");
    this.y = 56;
  }

  drawLegend() {
    const items = this.parts.some(({ rivals }) => rivals.length > 0) ? [...LEGEND, DOUBT] : LEGEND;
    let x = EDGE;
    for (const [kind, words] of items) {
      const whole = MARK + 6 + 5.8 * words.length + 14;
      if (x > EDGE && x + whole > this.width) [x, this.y] = [EDGE, this.y + 28];
      this.canvas.marks.push(movedBy(x, this.y, marksOf(kind)));
      this.canvas.text(x + MARK + 6, this.y + 15, words, "small");
      x += whole;
    }
    this.y += 34;
  }

  drawPanel(from, to) {
    const panel = new Chart(this.run, this.width, { from, to, parts: this.parts, clock: this.clock, scaled: this.fold });
    this.canvas.marks.push(movedBy(0, this.y, panel.drawMarks()));
    this.y += panel.bottom + 14;
  }

  drawTable() {
    const { trace } = this.run;
    const columns = columnsOf(trace, this.clock);
    const rows = trace.program.tasks.size;
    this.y += 12;
    const unit = this.clock.unit === "ticks" ? "" : ", times in ms";
    this.canvas.text(EDGE, this.y, `Whole trace: ${trace.events.length} lines, up to ${this.clock.unit === "ticks" ? "tick " : ""}`
      + `${this.clock.time(trace.last)}${unit}`, "name");
    this.y += 30;
    let left = EDGE;
    for (const column of columns) left = this.drawColumn(column, left);
    this.canvas.path("base", `M${EDGE} ${this.y + 5}H${left - EDGE}`);
    this.y += 16 * rows + 22;
  }

  /** Draws a column with this left edge, and returns that of the next one. */
  drawColumn({ head, cells, isText }, left) {
    const shown = cells.map((cell) => (cell === null ? "-" : String(cell)));
    const words = head.split(" ");
    const width = Math.max(...words.map((word) => 6.3 * word.length), ...shown.map((cell) => 7.6 * cell.length)) + 14;
    const place = isText ? left : left + width - 14;
    words.reverse().forEach((word, index) => this.canvas.text(place, this.y - 12 * index, word, isText ? "small" : "small right"));
    shown.forEach((cell, index) => {
      const isBad = head === LATE && cell !== "-" && cell !== "0";
      this.canvas.text(place, this.y + 18 + 16 * index, cell, `${isText ? "" : "right"}${isBad ? " bad" : ""}`);
    });
    return left + width;
  }
}
