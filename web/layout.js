// Places boxes in layers, from those that use to those that are used, and leads a wire to each port. No two boxes overlap, and wires pass between
// boxes. It knows nothing of designs; the same boxes always get the same places. The layers are those of Sugiyama, Tagawa and Toda (1981).

const BOX_GAP = 22; // pixels between boxes of a layer
const WIRE_GAP = 12; // between wires that pass a layer, and to boxes
const OUTS_GAP = 10; // between wires that leave a box, at least
const TRACK_GAP = 8; // between upright parts of wires
const CORNER = 4; // radius
const APART = 4; // pixels by which two wires differ at least, so that they are told apart
const STRAIGHTENED = 12; // pixels by which a wire is moved at most to become straight
const MOST_TRIES = 100; // places that are tried for wires that would lie on others
const ROUNDS = 12; // of ordering, and of placing
const ASPECT = 1.5; // width by height that is aimed at
const WIDE = 1500; // pixels from which on, and width by height from which on, layers are joined
const WIDEST = 2.2;
const CHANNEL = 60; // about the width between two layers

/** What stands in a layer: a box, or a wire that passes. Its `top` is found last; ports are at offsets from it. */
class Slot {
  constructor(box, net, layer) {
    this.box = box;
    this.net = net;
    this.layer = layer;
    this.height = box === null ? 0 : box.height;
    this.top = 0;
  }

  gapTo(below) {
    return this.box !== null && below.box !== null ? BOX_GAP : WIRE_GAP;
  }
}

/** The least-squares places of slots one below the other, near to where each would like to be (pool adjacent violators). */
function placedNear(slots, wanted, weights) {
  const blocks = [];
  let offset = 0;
  slots.forEach((slot, index) => {
    if (index > 0) offset += slots[index - 1].height + slots[index - 1].gapTo(slot);
    blocks.push({ sum: (wanted[index] - offset) * weights[index], weight: weights[index], members: [[slot, offset]] });
    while (blocks.length > 1 && blocks.at(-2).sum / blocks.at(-2).weight >= blocks.at(-1).sum / blocks.at(-1).weight) {
      const last = blocks.pop();
      blocks.at(-1).sum += last.sum;
      blocks.at(-1).weight += last.weight;
      blocks.at(-1).members.push(...last.members);
    }
  });
  for (const { sum, weight, members } of blocks) for (const [slot, before] of members) slot.top = sum / weight + before;
}

/** Boxes with ports and the nets between them.
 *
 * A box has `width`, `height`, the width `left` of what stands before it, `ins` with the places of its ports, and `outs` with those of what it uses,
 * by the keys of nets. Where `isFree` its outs may stand anywhere, from `first` on. A net has a `key`, `sources`, which are boxes, or entries of
 * the left edge by `entry`, and a `target`: a box and its `port`, or null for the right edge. `words` are the pixels that it needs there. */
export class Level {
  /** @type {any} */
  spans; // of the tracks of gaps between layers
  /** @type {any} */
  starts; // where layers begin

  constructor(boxes, nets, entries) {
    this.boxes = boxes;
    this.nets = nets;
    this.entries = new Map(entries.map(({ key, y }) => [key, y]));
    this.slots = new Map(); // of boxes
    this.layerOf();
    this.passWires();
    this.orderLayers();
    this.placeLayers();
    this.routeWires();
  }

  // ---- In which layer each box stands ----

  /** The boxes that each one uses, without the arcs that lead back to one whose uses are being followed. */
  forwardUses() {
    const uses = new Map(this.boxes.map((box) => [box, []]));
    for (const { sources, target } of this.nets) {
      for (const { box } of sources) {
        if (box !== undefined && target !== null && target.box !== box && !uses.get(box).includes(target.box)) uses.get(box).push(target.box);
      }
    }
    const [state, forward] = [new Map(), new Map(this.boxes.map((box) => [box, []]))];
    const follow = (box) => {
      state.set(box, "open");
      for (const used of uses.get(box)) {
        if (state.get(used) === "open") continue;
        forward.get(box).push(used);
        if (!state.has(used)) follow(used);
      }
      state.set(box, "done");
    };
    for (const box of this.boxes) if (!state.has(box)) follow(box);
    return forward;
  }

  /** The height up to which a layer is filled: that of a picture of the shape that is aimed at, and of the tallest box at least. */
  fullHeight() {
    const area = this.boxes.reduce((sum, box) => sum + (box.width + box.left + 40) * (box.height + BOX_GAP), 0);
    return Math.max(Math.sqrt(area / ASPECT), ...this.boxes.map((box) => box.height));
  }

  layerOf() {
    const forward = this.forwardUses();
    const depths = new Map();
    const depthOf = (box) => {
      if (!depths.has(box)) depths.set(box, Math.max(0, ...forward.get(box).map((used) => depthOf(used) + 1)));
      return depths.get(box);
    };
    const joined = new Set(this.nets.flatMap(({ sources, target }) => [...sources.map((one) => one.box), target?.box]));
    const sorted = [...this.boxes].sort((one, other) => Number(joined.has(other)) - Number(joined.has(one)) || depthOf(one) - depthOf(other));
    const [full, heights, levels] = [this.fullHeight(), [], new Map()];
    for (const box of sorted) {
      // From the right on: a box stands before all that it uses, in the first layer with room. One that is alone stands where most room is.
      let level = Math.max(0, ...forward.get(box).map((used) => levels.get(used) + 1));
      if (!joined.has(box) && heights.length > 0) level = heights.indexOf(Math.min(...heights));
      while ((heights[level] ?? 0) > 0 && heights[level] + box.height > full) level++;
      levels.set(box, level);
      heights[level] = (heights[level] ?? 0) + box.height + BOX_GAP;
    }
    const layers = heights.map((_, level) => this.boxes.filter((box) => levels.get(box) === level)).reverse();
    this.layers = this.joinLayers(layers).map((layer, index) => layer.map((box) => new Slot(box, null, index)));
    for (const slot of this.layers.flat()) this.slots.set(slot.box, slot);
  }

  /** Joins neighbouring layers as long as the picture is too wide: those between which the fewest wires lead, which then lead round. */
  joinLayers(layers) {
    const widthOfLayer = (layer) => Math.max(0, ...layer.map((box) => box.width + box.left)) + CHANNEL;
    const heightOfLayer = (layer) => layer.reduce((sum, box) => sum + box.height + BOX_GAP, 0);
    const widthOfAll = (all) => all.reduce((sum, layer) => sum + widthOfLayer(layer), 0);
    // Boxes stand where their wires are short, which makes layers half as high again.
    const shapeOf = (all) => widthOfAll(all) / (1.5 * Math.max(1, ...all.map(heightOfLayer)));
    const leads = ({ sources, target }, one, other) => other.includes(target?.box) && sources.some(({ box }) => one.includes(box));
    const wires = ([one, other]) => this.nets.filter((net) => leads(net, one, other) || leads(net, other, one)).length;
    let best = layers;
    while (best.length > 1 && widthOfAll(best) > WIDE && shapeOf(best) > WIDEST) {
      const pairs = best.slice(1).map((layer, index) => [best[index], layer]);
      const joined = pairs.map(([one, other], index) => [...best.slice(0, index), [...one, ...other], ...best.slice(index + 2)]);
      const costs = joined.map((all, index) => wires(pairs[index]) * 0.15 + Math.abs(Math.log(shapeOf(all) / ASPECT)));
      best = joined[costs.indexOf(Math.min(...costs))];
    }
    return best;
  }

  // ---- Which wires pass which layers ----

  /** Each net gets a slot in each layer that it passes, and its ends in each channel: those on its left, and those on its right. */
  passWires() {
    const count = this.layers.length;
    this.exits = [];
    this.channels = Array.from({ length: count + 1 }, () => []);
    for (const net of this.nets) {
      const goal = net.target === null ? count : this.slots.get(net.target.box).layer;
      const from = net.sources.map(({ box }) => (box === undefined ? -1 : this.slots.get(box).layer));
      const passed = new Map();
      for (let layer = 0; layer < count; layer++) {
        if (!from.some((one) => (one < layer && layer < goal) || (goal <= layer && layer <= one))) continue;
        const slot = new Slot(null, net, layer);
        passed.set(layer, slot);
        this.layers[layer].push(slot);
      }
      const exit = net.target === null ? new Slot(null, net, count) : null;
      if (exit !== null) this.exits.push(exit);
      for (let channel = 0; channel <= count; channel++) this.joinEnds(net, channel, goal, from, passed, exit);
    }
  }

  joinEnds(net, channel, goal, from, passed, exit) {
    const [left, right] = [[], []];
    net.sources.forEach((source, index) => {
      if (from[index] !== channel - 1) return;
      const slot = source.box === undefined ? null : this.slots.get(source.box);
      left.push({ slot, offset: () => (slot === null ? this.entries.get(source.entry) : source.box.outs.get(net.key)) });
    });
    if (passed.has(channel - 1)) left.push({ slot: passed.get(channel - 1), offset: () => 0 });
    if (passed.has(channel)) right.push({ slot: passed.get(channel), offset: () => 0 });
    if (goal === channel) {
      const slot = exit ?? this.slots.get(net.target.box);
      right.push({ slot, offset: () => (exit === null ? net.target.box.ins.get(net.target.port) : 0), isExit: exit !== null });
    }
    if (left.length + right.length > 1) this.channels[channel].push({ net, left, right });
  }

  yOf({ slot, offset }) {
    return (slot?.top ?? 0) + offset();
  }

  // ---- In which order they stand ----

  stack(layer) {
    let y = 0;
    layer.forEach((slot, index) => {
      if (index > 0) y += layer[index - 1].height + layer[index - 1].gapTo(slot);
      slot.top = y;
    });
  }

  /** All that is ordered: the layers, and behind them the right edge. */
  columns() {
    return [...this.layers, this.exits];
  }

  /** Of each slot of a column the places at the other ends of its wires, in the channel before it or behind it. A wire that leads back has its
   * other end on the same side. */
  farEnds(column, isBefore) {
    const found = new Map(this.columns()[column].map((slot) => [slot, []]));
    for (const { left, right } of this.channels[isBefore ? column : column + 1] ?? []) {
      const [near, far] = isBefore ? [right, left] : [left, right];
      for (const one of near.filter(({ slot }) => found.has(slot))) {
        const others = far.length === 0 ? near.filter((other) => other !== one) : far;
        const isBeside = others !== far;
        for (const other of others) found.get(one.slot).push({ at: this.yOf(other), own: one.offset(), far: other.slot, isBeside });
      }
    }
    return found;
  }

  orderLayers() {
    const columns = this.columns();
    for (const layer of columns) this.stack(layer);
    let best = null;
    for (let round = 0; round < ROUNDS; round++) {
      const isDown = round % 2 === 0;
      for (let step = 0; step < columns.length; step++) this.orderLayer(isDown ? step : columns.length - 1 - step, isDown);
      this.exchange();
      const crossings = this.crossings();
      if (best === null || crossings < best.crossings) best = { crossings, order: columns.map((layer) => [...layer]) };
      if (crossings === 0) break;
    }
    columns.forEach((layer, column) => {
      layer.splice(0, layer.length, ...best.order[column]);
      this.stack(layer);
    });
    this.sortOuts();
  }

  orderLayer(column, isBefore) {
    const layer = this.columns()[column];
    const ends = this.farEnds(column, isBefore);
    const goals = new Map(layer.map((slot) => {
      const found = ends.get(slot);
      const middle = slot.top + slot.height / 2;
      return [slot, found.length === 0 ? middle : found.reduce((sum, end) => sum + end.at, 0) / found.length];
    }));
    layer.sort((one, other) => goals.get(one) - goals.get(other));
    this.stack(layer);
  }

  /** Exchanges neighbours of a layer as long as wires cross less so. */
  exchange() {
    this.columns().forEach((layer, column) => {
      const sides = [this.farEnds(column, true), this.farEnds(column, false)];
      const crossed = (upper, lower) => sides.reduce((sum, ends) => sum + crossingsOf(ends.get(upper), ends.get(lower)), 0);
      for (let round = 0, hasMoved = true; hasMoved && round < ROUNDS; round++) {
        hasMoved = false;
        for (let index = 0; index + 1 < layer.length; index++) {
          const [upper, lower] = [layer[index], layer[index + 1]];
          if (crossed(upper, lower) <= crossed(lower, upper)) continue;
          [layer[index], layer[index + 1]] = [lower, upper];
          hasMoved = true;
        }
      }
      this.stack(layer);
    });
  }

  /** How many pairs of wires cross in all channels. */
  crossings() {
    let count = 0;
    for (const nets of this.channels) {
      const wires = nets.flatMap(({ net, left, right }) =>
        left.flatMap((one) => right.map((other) => ({ net, from: this.yOf(one), to: this.yOf(other) }))));
      wires.forEach((one, index) => {
        for (const other of wires.slice(index + 1)) if (one.net !== other.net && (one.from - other.from) * (one.to - other.to) < 0) count++;
      });
    }
    return count;
  }

  /** The outs of a box in the order of where their wires lead, where they may stand in any. */
  sortOuts() {
    for (const [box, slot] of this.slots) {
      if (!box.isFree || box.outs.size < 2) continue;
      const goals = new Map();
      for (const { net, left, right } of this.channels[slot.layer + 1]) {
        if (!left.some((end) => end.slot === slot) || right.length === 0) continue;
        goals.set(net.key, right.reduce((sum, end) => sum + this.yOf(end), 0) / right.length);
      }
      const places = [...box.outs.values()].sort((one, other) => one - other);
      const keys = [...box.outs.keys()].sort((one, other) => (goals.get(one) ?? Infinity) - (goals.get(other) ?? Infinity));
      box.outs = new Map(keys.map((key, index) => [key, places[index]]));
    }
  }

  // ---- At what height they stand ----

  placeLayers() {
    const columns = this.columns();
    for (let round = 0; round < ROUNDS; round++) {
      for (let step = 0; step < columns.length; step++) {
        const column = round % 2 === 0 ? step : columns.length - 1 - step;
        const isBoth = round >= ROUNDS - 4;
        this.placeLayer(column, isBoth ? [true, false] : [round % 2 === 0]);
      }
      if (round === ROUNDS / 2) this.sortOuts();
    }
    const top = Math.min(0, ...columns.flat().map((slot) => slot.top));
    for (const slot of columns.flat()) slot.top = Math.round(slot.top - top);
    this.spreadOuts();
    this.straighten();
    this.height = Math.max(0, ...columns.flat().map((slot) => slot.top + slot.height));
  }

  /** How much a slot is drawn to the other end of a wire: most where both are wires, so that long ones are straight. */
  static weightOf(slot, { far, isBeside }) {
    if (isBeside) return 0.01;
    if (slot.box === null && far?.box === null) return 8;
    return slot.box === null || far === null || far.box === null ? 2 : 1;
  }

  /** Moves the outs of a box along its edge to where their wires lead, where they may stand anywhere. */
  spreadOuts() {
    for (const [box, slot] of this.slots) {
      if (!box.isFree || box.outs.size === 0) continue;
      const wanted = new Map([...box.outs].map(([key, offset]) => [key, slot.top + offset]));
      for (const { net, left, right } of this.channels[slot.layer + 1]) {
        if (right.length === 1 && left.some((end) => end.slot === slot)) wanted.set(net.key, this.yOf(right[0]));
      }
      const outs = [...box.outs.keys()].map(() => ({ height: 0, top: 0, gapTo: () => OUTS_GAP }));
      const room = OUTS_GAP * (outs.length - 1);
      const [low, high] = [slot.top + box.first, slot.top + box.height - 10];
      const inside = [...wanted.values()].map((y, index) => Math.min(Math.max(y, low + OUTS_GAP * index), high - room + OUTS_GAP * index));
      placedNear(outs, inside, outs.map(() => 1));
      box.outs = new Map([...box.outs.keys()].map((key, index) => [key, Math.round(outs[index].top) - slot.top]));
    }
  }

  /** Moves a wire that passes a layer a little, where it becomes straight so. */
  straighten() {
    for (const nets of [...this.channels, ...[...this.channels].reverse()]) {
      for (const { left, right } of nets) {
        if (left.length !== 1 || right.length !== 1) continue;
        const by = this.yOf(left[0]) - this.yOf(right[0]);
        if (by === 0 || Math.abs(by) > STRAIGHTENED) continue;
        if (!this.move(right[0].slot, by)) this.move(left[0].slot, -by);
      }
    }
  }

  /** Moves a slot by so much, where its neighbours leave room. A box is moved only where that is asked for, and then may stand nearer to others. */
  move(slot, by, isAny = false) {
    if (slot === null || (slot.box !== null && !isAny)) return false;
    const layer = this.columns()[slot.layer];
    const place = layer.indexOf(slot);
    const [above, below] = [layer[place - 1], layer[place + 1]];
    const top = slot.top + by;
    const gap = (one, other) => (isAny ? WIRE_GAP / 2 : one.gapTo(other));
    if (top < 0 || (above !== undefined && above.top + above.height + gap(above, slot) > top)) return false;
    if (below !== undefined && top + slot.height + gap(slot, below) > below.top) return false;
    slot.top = top;
    return true;
  }

  placeLayer(column, sides) {
    const layer = this.columns()[column];
    const ends = sides.map((isBefore) => this.farEnds(column, isBefore));
    const [wanted, weights] = [[], []];
    for (const slot of layer) {
      const found = ends.flatMap((one) => one.get(slot));
      const weight = found.reduce((sum, end) => sum + Level.weightOf(slot, end), 0);
      wanted.push(weight === 0 ? slot.top : found.reduce((sum, end) => sum + Level.weightOf(slot, end) * (end.at - end.own), 0) / weight);
      weights.push(weight === 0 ? 0.05 : weight);
    }
    placedNear(layer, wanted, weights);
  }

  // ---- Where wires go ----

  routeWires() {
    this.paths = new Map(this.nets.map((net) => [net, []]));
    this.dots = new Map(this.nets.map((net) => [net, []]));
    const routes = this.untangled();
    this.spread(routes);
    routes.forEach((nets, channel) => {
      for (const one of nets) this.drawRoute(one, channel);
    });
    this.layers.forEach((layer, index) => {
      const { x, end } = this.spans[index];
      for (const slot of layer) if (slot.box === null) this.paths.get(slot.net).push(`M${x} ${slot.top}H${end}`);
    });
  }

  /** The routes in all channels. Where two wires would lie on each other, one of them, or the box at its end, is moved a little. */
  untangled() {
    this.tries = MOST_TRIES;
    for (let round = 0; round < ROUNDS; round++) {
      const tangles = this.channels.flatMap((_, channel) => tanglesOf(this.routesOf(channel)));
      if (tangles.filter((ends) => ends.some((end) => this.moveAway(end.slot))).length === 0) break;
    }
    this.height = Math.max(0, ...this.columns().flat().map((slot) => slot.top + slot.height));
    return this.channels.map((_, channel) => this.routesOf(channel));
  }

  /** Moves a slot to where fewer wires lie on each other in the channels beside it, if there is such a place. */
  moveAway(slot) {
    if (slot === null) return false;
    const count = () => [slot.layer, slot.layer + 1].filter((channel) => channel < this.channels.length)
      .reduce((sum, channel) => sum + tanglesOf(this.routesOf(channel)).length, 0);
    const before = count();
    if (before === 0) return false;
    for (const isAny of [false, true]) {
      for (const by of [6, -6, 13, -13, 20, -20]) {
        if (this.tries === 0) return false;
        if (!this.move(slot, by, isAny)) continue;
        this.tries--;
        if (count() < before) return true;
        slot.top -= by;
      }
    }
    return false;
  }

  /** The nets of a channel with tracks for their upright parts, such that no two touch. */
  routesOf(channel) {
    const found = this.channels[channel].map(({ net, left, right }) => {
      const [lefts, rights] = [left.map((end) => this.yOf(end)), right.map((end) => this.yOf(end))];
      const all = [...lefts, ...rights];
      return { net, left, right, lefts, rights, top: Math.min(...all), bottom: Math.max(...all), track: 0 };
    });
    const ordered = orderTracks(found.filter((one) => one.top < one.bottom));
    ordered.forEach((one, index) => {
      for (const other of ordered.slice(0, index)) {
        const isNear = one.top <= other.bottom + CORNER && other.top <= one.bottom + CORNER;
        if (isNear || mustPrecede(other, one)) one.track = Math.max(one.track, other.track + 1);
      }
    });
    return found;
  }

  /** From left to right the places of channels and layers. */
  spread(routes) {
    [this.spans, this.starts] = [[], []];
    let x = 0;
    routes.forEach((nets, channel) => {
      const isLast = channel === this.layers.length;
      const words = isLast ? Math.max(0, ...this.exits.map((exit) => exit.net.words ?? 0)) : 0;
      const tracks = Math.max(1, ...nets.map(({ track }) => track + 1));
      this.starts.push(x);
      x += (nets.length > 0 ? 24 + (tracks - 1) * TRACK_GAP : 14) + words;
      if (isLast) this.width = x;
      else x = this.placeAt(channel, x);
    });
  }

  /** Places the boxes of a layer at its left edge, and returns its right edge. */
  placeAt(layer, x) {
    const boxes = this.layers[layer].filter((slot) => slot.box !== null).map((slot) => slot.box);
    const left = x + Math.max(0, ...boxes.map((box) => box.left));
    for (const box of boxes) [box.x, box.y] = [left, this.slots.get(box).top];
    this.spans[layer] = { x, end: left + Math.max(0, ...boxes.map((box) => box.width)) };
    return this.spans[layer].end;
  }

  drawRoute({ net, left, right, top, bottom, track }, channel) {
    const [paths, dots] = [this.paths.get(net), this.dots.get(net)];
    const x = this.starts[channel] + 12 + track * TRACK_GAP;
    const ends = [...left.map((end) => ({ end, isLeft: true })), ...right.map((end) => ({ end, isLeft: false }))];
    if (top === bottom) {
      for (const { end, isLeft } of ends) paths.push(`M${x} ${top}H${this.farX(end, isLeft, channel)}`);
      return;
    }
    const corner = Math.min(CORNER, (bottom - top) / 2);
    const countNear = (y, near) => ends.filter((one) => Math.abs(this.yOf(one.end) - y) <= near).length;
    const isEnd = (y) => (y === top || y === bottom) && countNear(y, 0) === 1;
    // A wire that is alone at an end of the upright part turns round a corner; others meet it.
    const isRound = (y) => isEnd(y) && (countNear(y, corner) === 1 || bottom - top < 2 * CORNER);
    paths.push(`M${x} ${isRound(top) ? top + corner : top}V${isRound(bottom) ? bottom - corner : bottom}`);
    for (const { end, isLeft } of ends) {
      const [y, far] = [this.yOf(end), this.farX(end, isLeft, channel)];
      if (isRound(y)) paths.push(`M${x} ${y === top ? y + corner : y - corner}Q${x} ${y} ${isLeft ? x - corner : x + corner} ${y}H${far}`);
      else {
        paths.push(`M${x} ${y}H${far}`);
        if (!isEnd(y)) dots.push([x, y]);
      }
    }
  }

  /** Where a wire that ends in a channel meets what stands beside it. */
  farX({ slot, isExit }, isLeft, channel) {
    if (isExit) return this.width;
    if (slot === null) return 0;
    if (slot.box === null) return isLeft ? this.spans[channel - 1].end : this.spans[channel].x;
    return isLeft ? slot.box.x + slot.box.width : slot.box.x - slot.box.tip;
  }
}

/** How many pairs of wires of two slots cross, where the first stands above. */
function crossingsOf(upper, lower) {
  let count = 0;
  for (const one of upper) for (const other of lower) if (one.at > other.at) count++;
  return count;
}

/** Whether the one has to stand left of the other, since a level part of it on the left is at the height of one of the other's on the right. */
function mustPrecede(one, other) {
  for (const left of one.lefts) for (const right of other.rights) if (Math.abs(left - right) < APART) return true;
  return false;
}

/** The ends of wires that lie on another net's, in a channel whose nets have tracks. */
function tanglesOf(nets) {
  const found = [];
  const isNear = (one, other) => Math.abs(one - other) < APART;
  for (const one of nets) {
    for (const other of nets) {
      if (one === other || other.top === other.bottom) continue;
      // A straight wire goes through the whole channel; else the level parts reach up to the tracks.
      const isStraight = one.top === one.bottom;
      if (!isStraight && one.track < other.track) continue;
      const note = (ends, ys, others, otherYs) => ends.forEach((end, index) => others.forEach((far, place) => {
        if (isNear(ys[index], otherYs[place])) found.push([end, far]);
      }));
      note(one.left, one.lefts, other.right, other.rights);
      if (isStraight) note(one.right, one.rights, other.left, other.lefts);
    }
  }
  return found;
}

/** How often two nets cross, where the upright part of the first stands left of that of the second. */
function crossedSo(first, second) {
  let count = 0;
  for (const y of first.rights) if (second.top < y && y < second.bottom) count++;
  for (const y of second.lefts) if (first.top < y && y < first.bottom) count++;
  return count;
}

/** The nets of a channel from the left on, so that few cross, and none lies on another where there is such an order. */
function orderTracks(nets) {
  const costs = nets.map((one) => nets.map((other) => crossedSo(one, other)));
  const ordered = [];
  nets.forEach((_, net) => {
    // Each is put where it costs least among those before it: first left of all, then one further to the right each time.
    let cost = ordered.reduce((sum, other) => sum + costs[net][other], 0);
    let best = { cost, place: 0 };
    ordered.forEach((other, index) => {
      cost += costs[other][net] - costs[net][other];
      if (cost < best.cost) best = { cost, place: index + 1 };
    });
    ordered.splice(best.place, 0, net);
  });
  return precededOrder(ordered, nets).map((net) => nets[net]);
}

/** The same order, but for those that have to stand left of others that are before them. In a ring of such the first goes first. */
function precededOrder(ordered, nets) {
  const left = [...ordered];
  const before = new Map(left.map((net) => [net, left.filter((other) => other !== net && mustPrecede(nets[other], nets[net])).length]));
  const found = [];
  while (left.length > 0) {
    const least = Math.min(...left.map((net) => before.get(net)));
    const [net] = left.splice(left.findIndex((one) => before.get(one) === least), 1);
    found.push(net);
    for (const other of left) if (mustPrecede(nets[net], nets[other])) before.set(other, before.get(other) - 1);
  }
  return found;
}
