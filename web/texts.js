// The two texts: a text area each, with numbers of lines beside it and marks behind it.
"use strict";

const LINE = 19; // pixels, as in page.css

class Editor {
  constructor(area, changed) {
    this.area = area;
    this.numbers = area.closest(".editor").querySelector(".numbers");
    this.marks = area.closest(".editor").querySelector(".marks");
    this.mark = null;
    this.rows = this.row = 0;
    area.addEventListener("input", () => { this.show(null); changed(); });
    area.addEventListener("scroll", () => this.follow());
    area.addEventListener("keydown", (event) => this.indent(event));
  }

  /** Tab moves on as everywhere. Enter keeps the spaces at the head of the line. */
  indent(event) {
    if (event.key !== "Enter" || event.ctrlKey || event.altKey || event.isComposing) return;
    const head = /(?:^|\n)([ \t]*)[^\n]*$/.exec(this.area.value.slice(0, this.area.selectionStart))?.[1];
    if (!head) return;
    event.preventDefault();
    // So that the browser can undo it.
    document.execCommand("insertText", false, `\n${head}`);
  }

  set(text) {
    this.area.value = text;
    this.area.scrollTop = 0;
    this.show(null);
  }

  /** Puts another text in the place of this one, which Ctrl and Z take back. A text of a tab that isn't chosen is shown meanwhile, to be written. */
  replace(text) {
    if (text === this.area.value) return;
    const panel = this.area.closest("[hidden]");
    if (panel !== null) panel.hidden = false;
    this.area.focus();
    this.area.select();
    const isDone = text === "" ? document.execCommand("delete") : document.execCommand("insertText", false, text);
    if (!isDone) this.set(text);
    this.area.setSelectionRange(0, 0);
    this.area.scrollTop = 0;
    if (panel !== null) panel.hidden = true;
  }

  rowOf(index) {
    return this.area.value.slice(0, index).split("\n").length;
  }

  /** Marks a place, or none. */
  show(mark) {
    this.mark = mark;
    const text = this.area.value;
    this.number(text.split("\n").length, mark === null ? 0 : this.rowOf(mark.index));
    this.marks.replaceChildren();
    if (mark !== null) {
      const end = mark.index + Math.max(mark.length, 1);
      const marked = document.createElement("mark");
      marked.textContent = text.slice(mark.index, end).replace(/^$|^\n/, " \n");
      // The last line has no height of its own without more behind it.
      this.marks.append(text.slice(0, mark.index), marked, text.slice(end), "\n ");
    }
    this.area.setAttribute("aria-invalid", String(mark !== null));
    this.follow();
  }

  /** Numbers so many rows, of which one may be marked. */
  number(rows, row) {
    if (rows === this.rows && row === this.row) return;
    this.rows = rows;
    this.row = row;
    const from = (first, last) => Array.from({ length: Math.max(0, last - first + 1) }, (_, index) => `${first + index}\n`).join("");
    const marked = document.createElement("b");
    marked.textContent = `\u25b8${row}\n`;
    this.numbers.replaceChildren(...(row === 0 ? [from(1, rows)] : [from(1, row - 1), marked, from(row + 1, rows)]), " ");
  }

  follow() {
    this.numbers.scrollTop = this.area.scrollTop;
    this.marks.scrollTop = this.area.scrollTop;
    this.marks.scrollLeft = this.area.scrollLeft;
  }

  /** Shows which part is picked, also while the focus is elsewhere, without a word of a fault. */
  pick(start, end) {
    if (this.mark !== null) return;
    const text = this.area.value;
    const picked = document.createElement("mark");
    picked.className = "picked";
    picked.textContent = text.slice(start, end);
    this.marks.replaceChildren(text.slice(0, start), picked, text.slice(end), "\n ");
    this.follow();
  }

  /** Brings the marked place into view, and selects it. */
  go() {
    if (this.mark === null) return;
    const { index, length } = this.mark;
    this.area.focus();
    this.area.setSelectionRange(index, index + length);
    this.area.scrollTop = Math.max(0, (this.rowOf(index) - 4) * LINE);
    const { offsetLeft, offsetWidth } = this.marks.querySelector("mark");
    this.area.scrollLeft = Math.max(0, Math.min(offsetLeft - 24, offsetLeft + offsetWidth + 24 - this.area.clientWidth));
    this.follow();
  }
}
