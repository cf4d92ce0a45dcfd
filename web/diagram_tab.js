// The tab of the diagram: a design, or one object of it, which can be moved and made greater; what is known of the object that is chosen; and all of
// it as text.
"use strict";

const LEAST_SCALE = 0.1;
const MOST_SCALE = 4;

/** What is known of an object: pairs of a term and words. */
function factsOf(design, object, bounds, clock) {
  const thread = bounds?.threads.find((one) => one.name === object.name);
  const ceiling = bounds?.ceilings.find((one) => one.name === object.name);
  const users = design.objects.filter((one) => one.required.some((required) => required.object === object.name)).map((one) => one.name);
  const facts = [["Times", linesOfObject(object, null).join(" · ")]];
  if (thread !== undefined) {
    const { response, deadline, priority, jitter } = thread;
    const spare = response === null ? null : deadline - response;
    const why = response === null || thread.cost === undefined ? "" : ` = ${termsOf(thread, bounds.threads, clock).join(" + ")}`;
    const left = spare === null ? "given up" : spare < 0 ? `late by ${clock.span(-spare)}` : `slack ${clock.span(spare)}`;
    facts.push(["Response", `${response === null ? "none" : clock.number(response)}${why}, of the deadline ${clock.time(deadline)}: ${left}`]);
    facts.push(["Priority", `${priority}${jitter ? `, released up to ${clock.span(jitter)} late` : ""}`]);
  }
  if (ceiling !== undefined) facts.push(["Ceiling", String(ceiling.ceiling)]);
  if (object.isBackground()) facts.push(["Background", object.hasThread ? "a client, without a bound" : "a server, without a bound"]);
  facts.push(["Provides", object.operations.map(({ name, constraint }) => `${name}${constraint === null ? "" : ` ${constraint.toUpperCase()}`}`).join(", ")]);
  facts.push(["Includes", object.children.map((one) => one.name).join(", ")], ["Is used by", users.join(", ")]);
  facts.push(["Uses", object.required.map((one) => `${one.object}.${one.operation}`).join(", ")]);
  facts.push(["Implemented by", [...object.links].map(([name, link]) => `${name} by ${link.object}.${link.operation}`).join(", ")]);
  return facts.filter(([, words]) => words !== "");
}

/** The tree of a design as lists of lists, with what is known of each object: the same as the diagram for who doesn't see it. */
function listOfObjects(design, parent, bounds, clock) {
  const children = design.objects.filter((one) => one.parent === parent);
  return make("ul", {}, ...children.map((one) => {
    const facts = factsOf(design, one, bounds, clock).map(([term, words]) => `${term.toLowerCase()}: ${words}`);
    const words = `, ${one.kind}${facts.length === 0 ? "" : `; ${facts.join("; ")}`}`;
    return make("li", {}, make("b", {}, one.name), words, ...(one.hasChildren() ? [listOfObjects(design, one, bounds, clock)] : []));
  }));
}

class DiagramTab {
  constructor(panel, style, chosen) {
    this.panel = panel;
    this.style = style;
    this.chosen = chosen;
    this.scale = 1;
    this.isFit = true;
    this.name = null; // of the object that is chosen
    this.picked = null; // what was asked to be drawn, of the design of this name
    this.designName = null;
    this.design = null;
    this.isDrawn = false;
    this.bounds = this.drawn = this.picture = null;
    this.clock = TICKS;
    this.faults = [];
    this.build();
    this.listen();
  }

  build() {
    this.pick = make("select", { "aria-label": "What is drawn" });
    this.pick.addEventListener("change", () => this.draw(this.pick.value));
    const button = (name, action) => {
      const made = make("button", { type: "button" }, name);
      made.addEventListener("click", action);
      return made;
    };
    const buttons = [button("Larger", () => this.zoom(this.scale * 1.25)), button("Smaller", () => this.zoom(this.scale * 0.8)),
      button("Fit", () => { this.isFit = true; this.fit(); })];
    this.wide = button("Whole window", () => this.widen(!document.body.classList.contains("widened")));
    this.wide.setAttribute("aria-pressed", "false");
    const save = saveButton("diagram.svg", () => (this.drawn === null ? "" : asFile(this.drawn, this.style)));
    const name = "HOOD diagram. The arrow keys move it, plus and minus change its size, 0 fits it into its frame; Tab goes from object to object.";
    this.holder = make("div", { class: "holder diagram-holder", tabindex: "0", role: "group", id: "diagram", "aria-label": name });
    this.facts = make("div", { class: "facts", role: "status", "aria-live": "polite" });
    this.note = make("p", { class: "note" });
    this.list = make("div", {});
    this.details = make("details", {}, make("summary", {}, "The diagram as text"), this.list);
    this.panel.replaceChildren(make("div", { class: "tools" }, save, this.pick, ...buttons, this.wide), this.note, this.holder, this.facts, this.details);
  }

  listen() {
    const { holder } = this;
    holder.addEventListener("click", (event) => this.choose(event.target.closest("[data-object]")));
    for (const kind of ["mouseover", "focusin"]) holder.addEventListener(kind, (event) => this.light(event.target.closest("[data-object], [data-net]")));
    for (const kind of ["mouseleave", "focusout"]) holder.addEventListener(kind, () => this.light(null));
    holder.addEventListener("keydown", (event) => this.key(event));
    holder.addEventListener("pointerdown", (event) => this.drag(event));
    holder.addEventListener("dblclick", (event) => this.zoom(this.scale * (event.shiftKey ? 0.6 : 1.6), event));
    holder.addEventListener("wheel", (event) => {
      if (!event.ctrlKey || this.picture === null) return;
      event.preventDefault();
      this.zoom(this.scale * (event.deltaY > 0 ? 0.9 : 1.1), event);
    }, { passive: false });
    this.details.addEventListener("toggle", () => this.showList());
  }

  key(event) {
    if (event.ctrlKey || event.altKey || event.metaKey || this.picture === null) return;
    const object = event.target.closest("[data-object]");
    const move = { ArrowLeft: [-60, 0], ArrowRight: [60, 0], ArrowUp: [0, -60], ArrowDown: [0, 60] }[event.key];
    if (move !== undefined) this.holder.scrollBy(move[0], move[1]);
    else if (event.key === "+" || event.key === "=") this.zoom(this.scale * 1.25);
    else if (event.key === "-") this.zoom(this.scale * 0.8);
    else if (event.key === "0") { this.isFit = true; this.fit(); } else if ((event.key === "Enter" || event.key === " ") && object) this.choose(object);
    else return;
    event.preventDefault();
  }

  /** The picture follows the mouse while its button is held. */
  drag(event) {
    if (event.button !== 0 || event.pointerType === "touch") return;
    const [x, y, left, top] = [event.clientX, event.clientY, this.holder.scrollLeft, this.holder.scrollTop];
    const moved = ({ clientX, clientY }) => this.holder.scrollTo(left - clientX + x, top - clientY + y);
    const end = () => {
      window.removeEventListener("pointermove", moved);
      window.removeEventListener("pointerup", end);
      window.removeEventListener("pointercancel", end);
    };
    window.addEventListener("pointermove", moved);
    window.addEventListener("pointerup", end);
    window.addEventListener("pointercancel", end);
  }

  /** Another size; what stands under the mouse, or else in the middle, stays there. */
  zoom(scale, at = null) {
    if (this.picture === null) return;
    const box = this.holder.getBoundingClientRect();
    const [x, y] = at === null ? [box.width / 2, box.height / 2] : [at.clientX - box.left, at.clientY - box.top];
    const [wide, high] = [this.holder.scrollLeft + x, this.holder.scrollTop + y];
    const by = Math.min(MOST_SCALE, Math.max(LEAST_SCALE, scale)) / this.scale;
    this.isFit = false;
    this.setScale(this.scale * by);
    this.holder.scrollTo(wide * by - x, high * by - y);
  }

  sizes() {
    return this.drawn.get("viewBox").split(" ").map(Number).slice(2);
  }

  setScale(scale) {
    this.scale = scale;
    const [width, height] = this.sizes();
    this.picture.setAttribute("width", String(Math.round(width * scale)));
    this.picture.setAttribute("height", String(Math.round(height * scale)));
  }

  /** Shows all of it, or where that is too small to be read, the part with what is marked, in a size that can be. */
  fit() {
    if (this.picture === null) return;
    const [width, height] = this.sizes();
    const room = [this.holder.clientWidth, Math.max(240, this.holder.clientHeight)];
    const whole = Math.min(room[0] / width, room[1] / height);
    this.setScale(Math.min(1, Math.max(LEGIBLE, whole)));
    this.holder.scrollTo(0, 0);
    if (whole < LEGIBLE) this.goTo(this.holder.querySelector(".fault[data-object]"));
  }

  /** Brings an object into the middle of the frame, as far as that moves. */
  goTo(element) {
    if (element === null) return;
    const [box, frame] = [element.getBoundingClientRect(), this.holder.getBoundingClientRect()];
    this.holder.scrollBy(box.left + box.width / 2 - frame.left - frame.width / 2, box.top + box.height / 2 - frame.top - frame.height / 2);
  }

  /** Draws the whole design, or the object of this name with its children. */
  draw(name) {
    this.pick.value = this.picked = name;
    this.isFit = true;
    this.drawAgain();
  }

  /** Gives the diagram the whole window, without the texts, or takes it back. */
  widen(isWide) {
    document.body.classList.toggle("widened", isWide);
    this.wide.setAttribute("aria-pressed", String(isWide));
    if (this.isFit && !this.panel.hidden) this.fit();
  }

  /** Takes a design as its text is now, with its bounds or null, the place of what is refused or null, and how times are told. */
  take(text, bounds, mark, clock) {
    this.design = readOutline(text);
    this.bounds = bounds;
    this.clock = clock;
    const fault = mark?.kind === "design" ? objectAt(this.design, mark.index) : undefined;
    const late = (bounds?.threads ?? []).filter((one) => one.response === null || one.response > one.deadline || one.jitter + one.response > one.period);
    this.refused = fault?.name ?? null;
    this.late = late.map((one) => one.name);
    this.faults = [...new Set([...(fault === undefined ? [] : [fault.name]), ...this.late])];
    this.isDrawn = false;
    this.fillPick();
    this.render();
  }

  /** The whole, and each object with children. */
  fillPick() {
    if (this.design.name !== this.designName) this.picked = null;
    this.designName = this.design.name;
    const parents = this.design.objects.filter((one) => one.hasChildren());
    const option = (value, words) => make("option", { value }, words);
    this.pick.replaceChildren(option("", "the whole design"), ...parents.map((one) => option(one.name, `${one.name} with its children`)));
    const isKept = this.picked === "" || parents.some((one) => one.name === this.picked);
    this.pick.value = isKept ? this.picked : this.firstDrawn(parents);
  }

  /** What is drawn at first: the whole, or of a large design the parent of what is marked, or of all. */
  firstDrawn(parents) {
    if (this.design.objects.length <= MOST_AT_ONCE) return "";
    const marked = this.design.objects.find((one) => this.faults.includes(one.name));
    return (marked?.parent ?? parents[0])?.name ?? "";
  }

  render() {
    if (this.panel.hidden) this.widen(false);
    if (this.panel.hidden || this.design === null) return;
    if (!this.isDrawn) this.drawAgain();
    else if (this.isFit) this.fit();
  }

  drawAgain() {
    const { design, bounds, faults, clock } = this;
    const focus = design.objects.find((one) => one.name === this.pick.value) ?? null;
    const isEmpty = design.objects.length === 0;
    this.note.textContent = isEmpty ? "There is no object in the text yet." : this.words();
    this.holder.replaceChildren();
    this.drawn = this.picture = null;
    this.isDrawn = true;
    this.showList();
    if (isEmpty) return this.tell(null);
    this.drawn = new Diagram(design, { bounds, focus, isFlat: focus !== null, faults, isLive: true, clock }).draw();
    this.holder.innerHTML = this.drawn.write();
    this.picture = this.holder.firstElementChild;
    this.picture.classList.add("live");
    if (this.isFit) this.fit();
    else this.setScale(this.scale);
    this.tell(design.objects.find((one) => one.name === this.name) ?? null);
  }

  words() {
    const part = this.pick.value === "" ? "" : "One parent is drawn; the list above has the others and the whole design. ";
    const told = `${part}Choose an object to see its text and its bounds; drag to move; a double click, or Ctrl and the wheel, change the size.`;
    if (this.late.length > 0) return `Marked are the threads that are late: ${this.late.join(", ")}. ${told}`;
    if (this.refused !== null) return `What is refused stands in ${this.refused}, which is marked. ${told}`;
    return this.bounds === null ? `The design is refused, so there are no bounds. ${told}` : told;
  }

  showList() {
    if (this.details.open && this.design !== null) this.list.replaceChildren(listOfObjects(this.design, null, this.bounds, this.clock));
  }

  /** An object was chosen: its text is selected, and what is known of it told. */
  choose(element) {
    const object = this.design?.objects.find((one) => one.name === element?.dataset.object);
    if (object === undefined) return;
    this.name = object.name;
    this.tell(object);
    this.chosen(object);
  }

  tell(object) {
    for (const one of this.holder.querySelectorAll(".chosen")) one.classList.remove("chosen");
    if (object === null) return this.facts.replaceChildren();
    this.holder.querySelector(`[data-object="${object.name}"]`)?.classList.add("chosen");
    const facts = factsOf(this.design, object, this.bounds, this.clock);
    const rows = facts.map(([term, words]) => make("div", {}, make("dt", {}, term), make("dd", {}, words)));
    this.facts.replaceChildren(make("h3", {}, `${object.name}, ${object.kind.toUpperCase()}`), make("dl", {}, ...rows), ...this.waysFrom(object));
  }

  /** Buttons that draw a parent with its children, or the parent of an object. */
  waysFrom(object) {
    const ways = [];
    if (object.hasChildren() && this.pick.value !== object.name) ways.push([`Draw ${object.name} with its children`, object.name]);
    const { parent } = object;
    if (parent !== null && this.pick.value !== "" && this.pick.value !== parent.name) ways.push([`Draw ${parent.name}, in which it stands`, parent.name]);
    return ways.map(([words, name]) => {
      const button = make("button", { type: "button", class: "way" }, words);
      button.addEventListener("click", () => { this.draw(name); this.holder.focus(); });
      return button;
    });
  }

  /** Shows who uses an object and whom it uses, or all who use an operation. */
  light(element) {
    for (const one of this.holder.querySelectorAll(".lit")) one.classList.remove("lit");
    if (element === null) return;
    const { object, net } = element.dataset;
    for (const one of this.holder.querySelectorAll("[data-net]")) {
      const isNear = object === undefined
        ? one.dataset.net === net
        : one.dataset.users.split(" ").includes(object) || one.dataset.net.startsWith(`${object}.`);
      if (isNear) one.classList.add("lit");
    }
  }
}
