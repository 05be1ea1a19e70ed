// What is new since the viewer last looked: conflicts, and USSs that went Down.
import { nameOf } from "./airspace.js";

const OVERLAP = 3; // as in conflicts.js
const APART = 2 ** 26; // more than there are items

export class Warnings {
  constructor() {
    this.numbers = new Map(); // of items by their names
    this.known = this.down = null; // urgencies by pair, and USSs that are Down; null before the first look
    this.pairs = new Set();
    this.unseen = [];
    this.suppliers = new Set();
  }

  numberOf(item) {
    const name = nameOf(item);
    if (!this.numbers.has(name)) this.numbers.set(name, this.numbers.size);
    return this.numbers.get(name);
  }

  keyOf([one, other]) { return pairKey(this.numberOf(one), this.numberOf(other)); }

  // Takes all pairs that there are; the numbers of new conflicts, and of those that are still to be seen, the most urgent first.
  // What there was at first is not new. A pair is new again if one of it becomes Contingent, or Nonconforming.
  takePairs(found) {
    const before = this.known, fresh = [], numbers = found.references.map((it) => this.numberOf(it));
    this.known = new Map();
    this.unseen = [];
    for (const list of [found.conflicts, found.overlaps])
      found.each(list, (one, other, urgency, number) => {
        const key = pairKey(numbers[one], numbers[other]), was = before?.get(key) ?? OVERLAP + 1;
        this.known.set(key, urgency);
        const isNew = before && (was > OVERLAP ? urgency < OVERLAP : urgency < Math.min(2, was));
        if (isNew) fresh.push(number);
        if (isNew) this.pairs.add(key);
        if (this.pairs.has(key)) this.unseen.push(number);
      });
    for (const key of this.pairs) if (!this.known.has(key)) this.pairs.delete(key);
    return fresh;
  }

  // Takes the USSs that are Down; those that were not.
  takeDown(down) {
    const fresh = this.down ? down.filter((it) => !this.down.has(it)) : [];
    this.down = new Set(down);
    for (const it of fresh) this.suppliers.add(it);
    for (const it of this.suppliers) if (!this.down.has(it)) this.suppliers.delete(it);
    return fresh;
  }

  isNew(pair) { return this.pairs.has(this.keyOf(pair)); }

  get count() { return this.pairs.size + this.suppliers.size; }

  // What there is to be seen, in words.
  get text() {
    const { size } = this.pairs, parts = [...this.suppliers].map((it) => `${it} is Down`);
    if (size) parts.unshift(`${size} new conflict${size > 1 ? "s" : ""}`);
    return parts.join(", ");
  }

  see(pair) { this.pairs.delete(this.keyOf(pair)); }

  seeAll() {
    this.pairs.clear();
    this.suppliers.clear();
  }
}

// One number for a pair, in either order.
const pairKey = (a, b) => Math.min(a, b) * APART + Math.max(a, b);

let context = null;

// A short tone, if the browser permits one: not before the viewer has used the page.
export function sound() {
  try {
    context ??= new AudioContext();
    context.resume();
    const tone = context.createOscillator(), gain = context.createGain(), from = context.currentTime;
    tone.frequency.value = 660;
    gain.gain.setValueAtTime(0.2, from);
    gain.gain.exponentialRampToValueAtTime(0.001, from + 0.5);
    tone.connect(gain).connect(context.destination);
    tone.start(from);
    tone.stop(from + 0.5);
  } catch {
    // without sound, the page still shows and announces it
  }
}
