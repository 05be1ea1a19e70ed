// Which items are shown: those that fit all words of a filter, and whose state is switched on.
import { STATES, stateOf, volumesOf } from "./airspace.js";

const BINS = 2048; // on a side of the plane, each with one name of a place

export class Filter {
  constructor(ground) {
    this.ground = ground;
    this.words = [];
    this.off = new Set();
    this.places = new Map();
    this.serial = this.groundSerial = 0; // of what is filtered by
    this.texts = new WeakMap();
    this.made = new WeakMap();
  }

  get isOn() { return this.words.length > 0 || this.off.size > 0; }

  set(text, off) {
    this.words = text.toLowerCase().split(/\s+/).filter(Boolean);
    this.off = new Set(STATES.filter((it) => [...off].includes(it)));
    this.serial++;
  }

  toggle(state) {
    if (!this.off.delete(state)) this.off.add(state);
    this.serial++;
  }

  // What the words are looked for in. No item ever changes.
  textOf(item) {
    if (this.groundSerial !== this.ground.serial) {
      this.groundSerial = this.ground.serial;
      this.places.clear();
      this.texts = new WeakMap();
      this.serial++;
    }
    if (!this.texts.has(item)) this.texts.set(item, [item.id, item.manager, stateOf(item) ?? item.kind, item.uss_availability, this.placeOf(item)].join(" ").toLowerCase());
    return this.texts.get(item);
  }

  // The city next to an item, as on the buttons of the groups.
  placeOf(item) {
    const corners = volumesOf(item).find((it) => it.cells.length)?.cells[0].corners;
    if (!corners) return "";
    const key = Math.floor(corners[0] * BINS) * BINS + Math.floor(corners[1] * BINS);
    if (!this.places.has(key)) this.places.set(key, this.ground.nearest(corners[0], corners[1]));
    return this.places.get(key);
  }

  fits(item) {
    return !this.off.has(stateOf(item)) && (!this.words.length || this.words.every((it) => this.textOf(item).includes(it)));
  }

  // For a list of references: by word which have it, which states are on, and which fit in all. Made once for a list and a filter.
  marks(references) {
    if (this.words.length && references.length) this.textOf(references[0]); // by the ground that there is now
    const before = this.made.get(references);
    if (before?.serial === this.serial) return before;
    const mark = (test) => Uint8Array.from(references, (it) => test(it) ? 1 : 0);
    const words = this.words.map((word) => mark((it) => this.textOf(it).includes(word))), isOn = mark((it) => !this.off.has(stateOf(it)));
    const fits = isOn.map((it, k) => it && words.every((one) => one[k]) ? 1 : 0);
    const made = { serial: this.serial, words, isOn, fits };
    this.made.set(references, made);
    return made;
  }

  // Whether a pair fits: each word fits one of the two, and the state of one is on.
  pairTest(references) {
    const { words, isOn } = this.marks(references);
    return (one, other) => (isOn[one] || isOn[other]) && words.every((it) => it[one] || it[other]);
  }
}
