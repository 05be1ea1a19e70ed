// What the page knows: items of the gateway, where they are at a moment, and what meets there.
import { around, cellsOf, commonOf, outlineOf } from "./cells.js";

const ALWAYS = 1e15;
const BINS = 240; // on a side of the plane, by which references are near each other
let marks = 0; // of the lists of cells that were made

// Most urgent first: the one that a cell has its colour of.
export const STATES = ["Contingent", "Nonconforming", "constraint", "Activated", "Accepted"];
export const stateOf = (item) => item.kind === "constraint" ? "constraint" : item.state;
export const nameOf = (item) => (item.kind === "supplier" ? "u" : item.kind[0]) + item.id;

export class Airspace {
  constructor() {
    this.items = new Map();
    this.version = "";
    this.away = new Set();
    this.serial = this.taken = 0; // of what is known, and of what is known with what is away
    this.build();
  }

  // Takes an answer of the gateway; true where something changed.
  take(data) {
    const before = this.items.size;
    if (data.is_all) this.items.clear();
    for (const it of data.items) this.items.set(nameOf(it), it);
    for (const name of data.gone) this.items.delete(name);
    this.version = data.version;
    this.isWhole = data.is_whole;
    const away = new Set(data.away ?? []), isOther = away.size !== this.away.size || [...away].some((it) => !this.away.has(it));
    this.away = away;
    const isChanged = data.items.length > 0 || data.gone.length > 0 || data.is_all && before > 0;
    if (isChanged) this.build();
    if (isChanged || isOther) this.taken++;
    return isChanged || isOther;
  }

  // Flat lists of the references, their volumes and the cells of these, coarse cells first.
  build() {
    this.serial++;
    const all = [...this.items.values()];
    this.references = all.filter((it) => it.kind === "intent" || it.kind === "constraint");
    this.subscriptions = all.filter((it) => it.kind === "subscription");
    this.suppliers = [...new Set(all.map((it) => it.kind === "supplier" ? it.id : it.manager))].sort();
    this.indexOf = new Map(this.references.map((it, k) => [nameOf(it), k]));
    this.rank = Uint8Array.from(this.references, (it) => STATES.indexOf(stateOf(it)));
    this.madeGroups = null;
    const volumes = [], cells = [], mark = ++marks;
    this.firstVolume = new Int32Array(this.references.length + 1);
    this.waiting = 0;
    this.references.forEach((it, reference) => {
      for (const one of volumesOf(it)) {
        volumes.push(one);
        for (const cell of one.cells) {
          if (cell.mark === mark) continue;
          cell.mark = mark;
          cells.push(cell);
        }
        if (one.isPerhaps) this.waiting += one.cells.length;
      }
      this.firstVolume[reference + 1] = volumes.length;
    });
    this.volumes = volumes;
    this.buildCells(cells);
    this.from = new Int32Array(volumes.length + 1);
    volumes.forEach((it, k) => { this.from[k + 1] = this.from[k] + it.cells.length; });
    this.held = new Int32Array(this.from[volumes.length]);
    let at = 0;
    for (const it of volumes) for (const cell of it.cells) this.held[at++] = cell.index;
    this.referenceOf = new Int32Array(volumes.length);
    this.references.forEach((_, k) => this.referenceOf.fill(k, this.firstVolume[k], this.firstVolume[k + 1]));
    this.perhaps = Uint8Array.from(volumes, (it) => it.isPerhaps ? 1 : 0);
    this.isIntent = Uint8Array.from(this.references, (it) => it.kind === "intent" ? 1 : 0);
    this.numbers = new Float64Array(4 * volumes.length);
    volumes.forEach((it, k) => this.numbers.set([it.start, it.end, it.lower, it.upper], 4 * k));
    const count = this.cells.length;
    Object.assign(this, { top: new Int32Array(count), isSure: new Uint8Array(count), count: new Uint16Array(count), shared: new Uint8Array(count),
      intents: new Uint16Array(count), last: new Int32Array(count), there: new Uint8Array(this.references.length), active: new Uint8Array(volumes.length) });
    this.lastEnd = this.references.reduce((last, it) => Math.max(last, it.time_end), 0);
  }

  // The cells, coarse ones first, and for each the finest one of them that is around it.
  buildCells(cells) {
    this.cells = cells.sort((a, b) => a.level - b.level);
    this.cells.forEach((it, k) => { it.index = k; });
    const deepest = this.cells.at(-1)?.level ?? 0, coarse = new Map();
    for (const it of this.cells) if (it.level < deepest) coarse.set(it.number, it.index);
    this.parent = new Int32Array(this.cells.length).fill(-1);
    if (coarse.size)
      this.cells.forEach((it, k) => { this.parent[k] = coarse.get(around(it).find((one) => coarse.has(one))) ?? -1; });
  }

  // Where the references are at a second and an altitude in metres or null: the most urgent reference of each cell, and what is
  // shared. With `fits` by reference only those that fit are seen.
  show(at, altitude, fits = null) {
    const { top, isSure, count, shared, intents, last, there, active, numbers, from, held, rank, references, parent,
      referenceOf, perhaps, isIntent } = this;
    const height = altitude === null ? null : altitude * 10;
    top.fill(-1);
    isSure.fill(0);
    count.fill(0);
    intents.fill(0);
    last.fill(-1);
    there.fill(0);
    active.fill(0);
    const away = this.away.size ? Uint8Array.from(references, (it) => this.away.has(nameOf(it))) : new Uint8Array(references.length);
    for (let v = 0, k = 0; v < active.length; v++, k += 4) {
      if (at < numbers[k] || at > numbers[k + 1] || height !== null && (height < numbers[k + 2] || height > numbers[k + 3])) continue;
      const reference = referenceOf[v], isPerhaps = perhaps[v];
      if (away[reference]) continue;
      active[v] = there[reference] = 1;
      if (fits && !fits[reference]) continue;
      for (let n = from[v]; n < from[v + 1]; n++) {
        const cell = held[n], before = top[cell];
        const isBefore = before < 0 || (isSure[cell] ? !isPerhaps && rank[reference] < rank[before] : !isPerhaps || rank[reference] < rank[before]);
        if (isBefore) {
          top[cell] = reference;
          isSure[cell] = isPerhaps ? 0 : 1;
        }
        if (isPerhaps || last[cell] === reference) continue;
        last[cell] = reference;
        count[cell]++;
        intents[cell] += isIntent[reference];
      }
    }
    for (let cell = 0; cell < top.length; cell++) {
      const above = parent[cell];
      if (above >= 0) {
        count[cell] += count[above];
        intents[cell] += intents[above];
        const is = top[above];
        if (is >= 0 && (top[cell] < 0 || (isSure[above] === isSure[cell] ? rank[is] < rank[top[cell]] : isSure[above]))) {
          top[cell] = is;
          isSure[cell] = isSure[above];
        }
      }
      shared[cell] = count[cell] > 1 && intents[cell] ? 1 : 0;
    }
    this.fits = fits;
    this.shownCount = there.reduce((sum, it) => sum + it, 0);
  }

  // Whether a reference is there at the moment that is shown, and fits.
  isSeen(reference) { return this.there[reference] === 1 && (!this.fits || this.fits[reference] === 1); }

  get shown() { return this.references.filter((_, k) => this.isSeen(k)); }

  // The references in a cell at the moment that is shown, the most urgent first.
  referencesIn(cell) {
    const cells = new Set(), found = new Set();
    for (let it = cell; it >= 0; it = this.parent[it]) cells.add(it);
    for (let v = 0; v < this.volumes.length; v++) {
      if (!this.active[v] || !this.isSeen(this.referenceOf[v])) continue;
      for (let n = this.from[v]; n < this.from[v + 1]; n++) if (cells.has(this.held[n])) found.add(this.referenceOf[v]);
    }
    return [...found].sort((a, b) => this.rank[a] - this.rank[b]).map((it) => this.references[it]);
  }

  // The outline of a reference where it is at the moment, or of all that it ever has.
  outline(item) {
    const reference = this.indexOf.get(nameOf(item));
    const volumes = reference === undefined ? volumesOf(item) : this.volumes.slice(this.firstVolume[reference], this.firstVolume[reference + 1]);
    const isThere = reference !== undefined && this.there[reference];
    const shown = volumes.filter((_, k) => !isThere || this.active[this.firstVolume[reference] + k]);
    const key = isThere && shown.length !== volumes.length ? shown.map((it) => volumes.indexOf(it)).join() : "";
    const made = outlines.get(item) ?? outlines.set(item, new Map()).get(item);
    if (!made.has(key)) made.set(key, outlineOf([...new Set(shown.flatMap((it) => it.cells))]));
    return made.get(key);
  }

  availabilityOf(uss) {
    return this.items.get("u" + uss)?.uss_availability ?? this.references.find((it) => it.manager === uss)?.uss_availability ?? "";
  }

  isThere(item) {
    const reference = this.indexOf.get(nameOf(item));
    return reference !== undefined && this.there[reference] === 1;
  }

  // The cells in which two items meet, from a second on; the finer ones where one is inside of another.
  sharedCells(one, other, since) {
    const found = new Set();
    for (const a of volumesOf(one))
      for (const b of volumesOf(other)) {
        if (a.isPerhaps || b.isPerhaps || Math.max(since, a.start, b.start) > Math.min(a.end, b.end)) continue;
        if (Math.max(a.lower, b.lower) > Math.min(a.upper, b.upper)) continue;
        for (const it of commonOf(a.cells, b.cells)) found.add(it);
      }
    return [...found];
  }

  // Groups of references that are near each other, the largest first: each with the box around its cells on the plane.
  groups() {
    if (this.madeGroups) return this.madeGroups;
    // squares of the plane by their numbers, and the references in each
    const bins = new Map(), across = 1024;
    for (let k = 0; k < this.references.length; k++) {
      const first = this.from[this.firstVolume[k]];
      if (first === this.from[this.firstVolume[k + 1]]) continue;
      const { corners } = this.cells[this.held[first]];
      const bin = Math.floor(corners[1] * BINS) * across + Math.floor(corners[0] * BINS);
      if (!bins.has(bin)) bins.set(bin, []);
      bins.get(bin).push(k);
    }
    const groups = [], seen = new Int32Array(this.cells.length); // by cells, the last group that had them
    for (const bin of bins.keys()) {
      const group = { references: [], box: [Infinity, Infinity, -Infinity, -Infinity] }, open = [bin];
      while (open.length) {
        const at = open.pop(), list = bins.get(at);
        if (!list?.length) continue;
        for (const k of list) group.references.push(k);
        bins.set(at, []);
        for (const step of [-across, 0, across]) open.push(at + step - 1, at + step, at + step + 1);
      }
      if (!group.references.length) continue;
      groups.push(group);
      this.surround(group, seen, groups.length);
    }
    return this.madeGroups = groups.sort((a, b) => b.references.length - a.references.length);
  }

  // Sets the box around the cells of a group.
  surround({ references, box }, seen, number) {
    for (const k of references)
      for (let n = this.from[this.firstVolume[k]]; n < this.from[this.firstVolume[k + 1]]; n++) {
        const cell = this.held[n];
        if (seen[cell] === number) continue;
        seen[cell] = number;
        const { corners } = this.cells[cell];
        for (let c = 0; c < 8; c += 2) {
          box[0] = Math.min(box[0], corners[c]);
          box[1] = Math.min(box[1], corners[c + 1]);
          box[2] = Math.max(box[2], corners[c]);
          box[3] = Math.max(box[3], corners[c + 1]);
        }
      }
  }
}

const outlines = new WeakMap();

const volumesOfItems = new WeakMap();

// The volumes of an item; of one whose volumes are not known, where it is and where it may be. No item ever changes.
export function volumesOf(item) {
  if (!volumesOfItems.has(item)) volumesOfItems.set(item, madeVolumes(item));
  return volumesOfItems.get(item);
}

function madeVolumes(item) {
  if (item.volumes)
    return item.volumes.map((it) => ({ cells: cellsOf(it.cells), start: it.start, end: it.end, lower: it.lower, upper: it.upper, isPerhaps: false }));
  return ["in", "perhaps"].filter((it) => item[it]).map((it) => (
    { cells: cellsOf(item[it]), start: item.time_start, end: item.time_end, lower: -ALWAYS, upper: ALWAYS, isPerhaps: it === "perhaps" }));
}
