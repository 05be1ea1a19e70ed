// Which references meet from a moment on: all pairs, found in slices between frames, the most urgent first.
import { nameOf } from "./airspace.js";

// A pair has three numbers: its references, the more urgent first, and the seconds until they meet.
const PARTS = 3;
// Beyond so many, pairs are counted and not stored. Those of the most urgent references are found first.
const MOST = 1 << 22;
const LONGEST = 2 ** 31 - 1;
// How urgent a pair is. A known overlap is no conflict: the key of one of the two listed the other.
export const URGENCIES = ["Contingent", "Nonconforming", "other", "overlap"];
const OVERLAP = 3;

export class Conflicts {
  // From a second on, and at an altitude in metres or at all of them.
  constructor(airspace, since, altitude) {
    const { references, rank, firstVolume, from, held, parent, numbers, isIntent, referenceOf, cells } = airspace;
    Object.assign(this, { references, rank, firstVolume, from, held, parent, numbers, isIntent, referenceOf, cells, since });
    this.order = byRank(rank);
    this.isUsed = usedVolumes(airspace, since, altitude);
    this.next = this.count = 0;
    this.counts = URGENCIES.map(() => 0);
  }

  // The second slice of the work.
  prepare() {
    const { references, order } = this, count = references.length;
    [this.position, this.isPlanned] = [new Int32Array(count), new Uint8Array(count)];
    for (let k = 0; k < count; k++) {
      this.position[order[k]] = k;
      // Nobody has to know an Accepted flight of a USS that is Down, nor a flight outside of its plan.
      const { state, uss_availability } = references[k];
      this.isPlanned[k] = state === "Activated" || state === "Accepted" && uss_availability !== "Down" ? 1 : 0;
    }
    this.listVolumes();
    this.below = belowOf(this.parent);
    this.found = new Int32Array(PARTS * 1024);
    [this.seen, this.begin] = [new Int32Array(count).fill(-1), new Float64Array(count)];
  }

  // For each cell its volumes, in the order of their references.
  listVolumes() {
    const { order, firstVolume, from, held, isUsed } = this;
    this.first = new Int32Array(this.cells.length + 1);
    for (let v = 0; v < isUsed.length; v++)
      if (isUsed[v]) for (let n = from[v]; n < from[v + 1]; n++) this.first[held[n] + 1]++;
    for (let cell = 0; cell < this.cells.length; cell++) this.first[cell + 1] += this.first[cell];
    this.listed = new Int32Array(this.first[this.cells.length]);
    const end = this.first.slice();
    for (const reference of order)
      for (let v = firstVolume[reference]; v < firstVolume[reference + 1]; v++)
        if (isUsed[v]) for (let n = from[v]; n < from[v + 1]; n++) this.listed[end[held[n]]++] = v;
  }

  // Works for so many milliseconds, or some more; true once all pairs are known.
  work(milliseconds) {
    const until = performance.now() + milliseconds;
    if (!this.found) {
      this.prepare();
      return false;
    }
    if (this.next === this.order.length) {
      if (!this.conflicts) this.sort();
      return true;
    }
    do this.meet(this.next++); while (this.next < this.order.length && performance.now() < until);
    return false;
  }

  // Finds what the reference at a position meets among those behind it.
  meet(position) {
    const reference = this.order[position], { firstVolume, from, held, parent, below } = this;
    this.others = [];
    for (let v = firstVolume[reference]; v < firstVolume[reference + 1]; v++) {
      if (!this.isUsed[v]) continue;
      for (let n = from[v]; n < from[v + 1]; n++) {
        for (let cell = held[n]; cell >= 0; cell = parent[cell]) this.meetIn(cell, v, position);
        for (const cell of below.get(held[n]) ?? []) this.meetIn(cell, v, position);
      }
    }
    for (const it of this.others) this.add(reference, it);
  }

  meetIn(cell, v, position) {
    const { listed, first, referenceOf, numbers, isIntent, seen, begin, since } = this, mine = isIntent[referenceOf[v]];
    for (let k = first[cell + 1] - 1; k >= first[cell]; k--) {
      const w = listed[k], other = referenceOf[w];
      if (this.position[other] <= position) return;
      if (!mine && !isIntent[other]) continue;
      const at = Math.max(since, numbers[4 * v], numbers[4 * w]);
      if (seen[other] === position && begin[other] <= at) continue;
      if (at > numbers[4 * v + 1] || at > numbers[4 * w + 1]) continue;
      if (numbers[4 * v + 2] > numbers[4 * w + 3] || numbers[4 * w + 2] > numbers[4 * v + 3]) continue;
      if (seen[other] !== position) this.others.push(other);
      seen[other] = position;
      begin[other] = at;
    }
  }

  urgency(one, other) {
    return this.rank[one] < 2 ? this.rank[one] : this.isPlanned[one] && this.isPlanned[other] ? OVERLAP : 2;
  }

  add(one, other) {
    this.counts[this.urgency(one, other)]++;
    const at = PARTS * this.count;
    if (this.count === MOST) return;
    if (at === this.found.length) {
      const longer = new Int32Array(2 * at);
      longer.set(this.found);
      this.found = longer;
    }
    this.found[at] = one;
    this.found[at + 1] = other;
    this.found[at + 2] = Math.min(LONGEST, this.begin[other] - this.since);
    this.count++;
  }

  // By urgency, then by the time until they meet, then by the more urgent of the two.
  sort() {
    const lists = URGENCIES.map(() => []);
    for (let k = 0; k < this.count; k++) lists[this.urgency(this.found[PARTS * k], this.found[PARTS * k + 1])].push(this.found[PARTS * k + 2] * MOST + k);
    const [overlaps, ...others] = [lists.pop(), ...lists].map((it) => Uint32Array.from(Float64Array.from(it).sort(), (one) => one % MOST));
    this.overlaps = overlaps;
    this.conflicts = Uint32Array.from(others.flatMap((it) => [...it]));
    this.found = this.found.slice(0, PARTS * this.count);
    this.listed = this.first = this.seen = this.begin = null;
  }

  get isCut() { return this.counts.reduce((sum, it) => sum + it) > this.count; }

  // A pair by its number, with how urgent it is and the seconds until it meets.
  pair(number) {
    const [one, other, wait] = this.found.subarray(PARTS * number);
    return { pair: [this.references[one], this.references[other]], urgency: this.urgency(one, other), wait };
  }

  // Calls with the two references, the urgency and the number of each of these pairs.
  each(numbers, use) {
    for (const it of numbers) {
      const [one, other] = [this.found[PARTS * it], this.found[PARTS * it + 1]];
      use(one, other, this.urgency(one, other), it);
    }
  }

  // The numbers among these of the pairs whose references pass a test.
  fitting(numbers, test) {
    return test ? numbers.filter((it) => test(this.found[PARTS * it], this.found[PARTS * it + 1])) : numbers;
  }
}

// References with the most urgent first, otherwise in their order.
function byRank(rank) {
  const order = new Int32Array(rank.length), counts = new Int32Array(9);
  for (const it of rank) counts[it + 1]++;
  for (let k = 0; k < 8; k++) counts[k + 1] += counts[k];
  for (let k = 0; k < rank.length; k++) order[counts[rank[k]]++] = k;
  return order;
}

// Which volumes can still meet others. Those that may be somewhere, and those of what is away, count as nowhere.
function usedVolumes({ referenceOf, references, numbers, perhaps, away }, since, altitude) {
  const lowest = altitude === null ? Infinity : 10 * altitude, highest = altitude === null ? -Infinity : 10 * altitude;
  const isAway = away.size ? references.map((it) => it.time_start <= since && away.has(nameOf(it))) : [];
  const isUsed = new Uint8Array(perhaps.length);
  for (let v = 0, k = 0; v < isUsed.length; v++, k += 4)
    if (!perhaps[v] && !isAway[referenceOf[v]] && numbers[k + 1] >= since && numbers[k + 2] <= lowest && numbers[k + 3] >= highest) isUsed[v] = 1;
  return isUsed;
}

// The cells inside of each cell that has some.
function belowOf(parent) {
  const below = new Map();
  for (let cell = 0; cell < parent.length; cell++)
    for (let it = parent[cell]; it >= 0; it = parent[it]) {
      if (!below.has(it)) below.set(it, []);
      below.get(it).push(cell);
    }
  return below;
}
