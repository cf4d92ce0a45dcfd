// Elements of pictures and of pages as a tree that is written as text, the same in the page, in a file and by node.

/** Elements that HTML writes without an end. */
const EMPTY = new Set(["br", "hr", "img", "input", "link", "meta"]);

/** A text as it stands in markup. */
export function escaped(/** @type {unknown} */ text) {
  return String(text).replace(/[&<>"]/g, (sign) => `&${{ "&": "amp", "<": "lt", ">": "gt", '"': "quot" }[sign]};`);
}

/** An element with its attributes and children; a child that is a text stands as it is. */
export class Element {
  constructor(/** @type {string} */ name, /** @type {boolean} */ isSvg) {
    this.name = name;
    this.isSvg = isSvg;
    /** @type {Map<string, string>} */
    this.attributes = new Map();
    /** @type {(Element|string)[]} */
    this.children = [];
  }

  /** Sets an attribute; a number is rounded to a tenth. */
  set(/** @type {string} */ key, /** @type {string|number} */ value) {
    this.attributes.set(key, String(typeof value === "number" ? Math.round(value * 10) / 10 : value));
    return this;
  }

  get(/** @type {string} */ key) {
    return this.attributes.get(key);
  }

  append(/** @type {(Element|string)[]} */ ...children) {
    this.children.push(...children);
    return this;
  }

  /** The element as it is written in HTML, and an SVG element as in a file of its own too. */
  write() {
    /** @type {string[]} */
    const pieces = [];
    this.writeTo(pieces);
    return pieces.join("");
  }

  writeTo(/** @type {string[]} */ pieces) {
    pieces.push(`<${this.name}`);
    for (const [key, value] of this.attributes) pieces.push(` ${key}="${escaped(value)}"`);
    if (this.isSvg && this.children.length === 0) return void pieces.push("/>");
    pieces.push(">");
    if (!this.isSvg && EMPTY.has(this.name)) return undefined;
    for (const child of this.children) {
      if (child instanceof Element) child.writeTo(pieces);
      else pieces.push(this.name === "style" ? child : escaped(child));
    }
    return void pieces.push(`</${this.name}>`);
  }
}

/** An element of a page. */
export function htmlOf(/** @type {string} */ name, /** @type {Record<string, string|number>} */ attributes = {}, /** @type {(Element|string)[]} */ ...children) {
  const made = new Element(name, false);
  for (const [key, value] of Object.entries(attributes)) made.set(key, value);
  return made.append(...children);
}

/** An element of a picture, with a title for the mouse if there is one. */
export function draw(/** @type {string} */ name, /** @type {Record<string, string|number>} */ attributes, /** @type {string|undefined} */ title = undefined) {
  const made = new Element(name, true);
  for (const [key, value] of Object.entries(attributes)) made.set(key, value);
  return title === undefined ? made : made.append(new Element("title", true).append(title));
}

/** Elements of a picture as one. */
export function group(/** @type {Record<string, string|number>} */ attributes, /** @type {(Element|string)[]} */ ...children) {
  return draw("g", attributes).append(...children);
}

/** A text at a place of a picture. */
export function textAt(/** @type {number} */ x, /** @type {number} */ y, /** @type {string|number} */ text, /** @type {string} */ kind = "") {
  return draw("text", kind === "" ? { x, y } : { x, y, class: kind }).append(String(text));
}

/** A fill by a pattern of the same picture. */
export function fillBy(/** @type {string} */ id) {
  return `url(#${id})`;
}

/** Gives each pattern of a picture a name that begins with this word, since in a page with more pictures no two may share one. */
export function withNames(/** @type {Element} */ picture, /** @type {string} */ word) {
  const id = picture.get("id");
  if (id !== undefined) picture.set("id", `${word}-${id}`);
  const used = /^url\(#(.*)\)$/.exec(picture.get("fill") ?? "")?.[1];
  if (used !== undefined) picture.set("fill", fillBy(`${word}-${used}`));
  for (const child of picture.children) if (child instanceof Element) withNames(child, word);
  return picture;
}

/** A picture as a file that needs nothing else, with its style. */
export function asFile(/** @type {Element} */ picture, /** @type {string} */ style) {
  const file = new Element("svg", true).set("xmlns", "http://www.w3.org/2000/svg");
  for (const [key, value] of picture.attributes) file.set(key, value);
  return `${file.append(new Element("style", true).append(style), ...picture.children).write()}\n`;
}

/** A name that is cut where it has too many characters. */
export function short(/** @type {string} */ name, /** @type {number} */ most) {
  return name.length <= most ? name : `${name.slice(0, most - 2)}..`;
}

/** A name that is cut where it is wider than so many pixels. */
export function within(/** @type {string} */ name, /** @type {number} */ pixels, /** @type {number} */ size, isBold = false) {
  let most = name.length;
  while (most > 3 && widthOf(short(name, most), size, isBold) > pixels) most--;
  return short(name, most);
}

// The widths of the signs from the space on, in thousandths of the size of DejaVu Sans, which is as wide as the fonts that stand in for it.
const SIGNS = ("318 401 460 838 636 950 780 275 390 390 500 838 318 361 318 337 636 636 636 636 636 636 636 636 636 636 337 337 838 838 838 531 1000 "
  + "684 686 698 770 632 575 775 752 295 295 656 557 863 748 787 603 787 695 635 611 732 684 989 685 611 685 390 337 390 838 500 500 613 635 550 "
  + "635 615 352 635 634 278 278 579 278 974 634 612 635 635 411 521 392 634 592 818 592 592 525 636 337 636 838").split(" ").map(Number);

/** About how many pixels a text is wide. */
export function widthOf(/** @type {string} */ text, /** @type {number} */ size, isBold = false) {
  const units = [...text].reduce((sum, sign) => sum + (SIGNS[(sign.codePointAt(0) ?? 0) - 32] ?? 838), 0);
  return Math.ceil((units * size * (isBold ? 1.12 : 1)) / 1000);
}
