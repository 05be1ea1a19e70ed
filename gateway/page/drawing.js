// The map itself: Mercator's projection, and references on canvases over the ground. A picture in memory says which cell each pixel
// is in; so a change of time or altitude costs one pass over the pixels, however many references there are.
import { nameOf, STATES, stateOf } from "./airspace.js";
import { project } from "./cells.js";

const TILT = Math.PI / 180;
const EARTH = 40075016;
const [FARTHEST, NEAREST] = [256, 5e7];
// Up to so many references in view have outlines of their own, where a finest cell has so many pixels; otherwise pixels beside
// another reference have the outline's colour. Lines around what is shared need more pixels.
const [OUTLINED, SMALL, TINY, SHARED] = [800, 7, 4, 14];
// From so many cells on, a map that moves is the last picture, moved along; it is drawn anew once it rests for so many milliseconds.
const [MANY, REST] = [2000, 120];
// How each state is filled, with stripes or without, and how its outline is drawn.
const FILLS = { Contingent: 0.5, Nonconforming: 0.14, constraint: 0.08, Activated: 0.5, Accepted: 0.14 };
const STRIPES = { Nonconforming: [1, 0.75], constraint: [2, 0.6] };
const WIDTHS = { Contingent: 3.5, Nonconforming: 2, constraint: 1.4, Activated: 1.6, Accepted: 1.6 };
// Pixels of the ground's colour on both sides of an outline, with which it can be seen on the fill of a more urgent flight.
const CASING = 2.4;
const DASHES = { Nonconforming: [6, 4], constraint: [3, 3] };
// What a pixel lies on: 1 for rising stripes, 2 for falling ones, 4 for a dot.
const STRIPE_OF = Uint8Array.from({ length: 64 }, (_, k) => (((k >> 3) + k) % 8 < 2 ? 1 : 0) + (((k >> 3) - k + 64) % 8 < 1 ? 2 : 0) + ((k & 7) < 3 && k >> 3 < 3 ? 4 : 0));
const DOT = 4;

const latitude = (y) => 2 * Math.atan(Math.exp((0.5 - y) * 2 * Math.PI)) / TILT - 90;
const longitude = (x) => (x - 0.5) * 360;

// A step of 1, 2 or 5 of some power of ten.
function niceStep(least) {
  const power = 10 ** Math.floor(Math.log10(least));
  return [1, 2, 5, 10].find((it) => it * power >= least) * power;
}

function degrees(value, names, step) {
  const digits = Math.max(0, Math.ceil(-Math.log10(step) - 1e-9));
  return `${Math.abs(value).toFixed(digits)}° ${Math.abs(value) < step / 2 ? "" : names[value < 0 ? 1 : 0]}`;
}

export class Drawing {
  // On the canvases of the ground, of the references, and of what is over them.
  constructor(canvas, over, ground) {
    Object.assign(this, { canvas, over, ground });
    this.context = canvas.getContext("2d");
    this.overContext = over.getContext("2d");
    this.pixels = document.createElement("canvas");
    [this.px, this.py] = [new Float64Array(4), new Float64Array(4)]; // corners of one cell in pixels
    this.view = { x: 0.5, y: 0.5, scale: 1000 };
    this.airspace = null;
    this.home = [];
    this.colourOf = (it) => `--${stateOf(it).toLowerCase()}`;
    this.selected = this.partner = this.hovered = null;
    this.shared = []; // the outline of the cells in which a selected pair meets
    this.watched = [];
    this.isDue = this.isOverDue = this.isMoving = this.usesKeys = false;
    this.built = "";
    this.onView = () => {};
    new ResizeObserver(() => this.resize()).observe(canvas);
    matchMedia("(prefers-color-scheme: dark)").addEventListener("change", () => this.draw());
  }

  // Takes the size that the map has now; true where it had another.
  measure() {
    const ratio = window.devicePixelRatio || 1, { clientWidth: width, clientHeight: height } = this.canvas;
    if (width === this.width && height === this.height && ratio === this.ratio) return false;
    Object.assign(this, { width, height, ratio });
    for (const it of [this.canvas, this.over, this.ground.canvas])
      Object.assign(it, { width: Math.round(width * ratio), height: Math.round(height * ratio) });
    return true;
  }

  resize() {
    if (!this.measure()) return;
    if (this.isHome) this.showHome();
    this.drawNow();
  }

  moveOn() {
    this.isHome = false;
    this.isMoving = this.airspace?.cells.length > MANY;
    clearTimeout(this.rest);
    if (this.isMoving) this.rest = setTimeout(() => {
      this.isMoving = false;
      this.draw();
    }, REST);
    this.draw();
    this.onView();
  }

  // What is framed first and again by Home: a box on the plane.
  setHome(box) {
    this.home = box;
    this.showHome();
  }

  showHome() {
    this.isHome = true;
    if (this.home.length && this.width) this.frame(...this.home);
  }

  frame(left, top, right, bottom) {
    const scale = 0.86 * Math.min(this.width / (right - left), this.shownHeight() / (bottom - top));
    this.go((left + right) / 2, (top + bottom) / 2, scale);
  }

  // The longitude and latitude of the middle of what is not covered.
  place() {
    const { x, y, scale } = this.view;
    return [longitude(x), latitude(y - (this.covered ?? 0) / 2 / scale)];
  }

  goTo(lng, lat, scale) { this.go(...project(lng, lat), scale); }

  // A sheet may be over the lower part of the map.
  shownHeight() { return this.height - (this.covered ?? 0); }

  go(x, y, scale) {
    scale = Math.max(FARTHEST, Math.min(NEAREST, scale));
    this.view = { x, y: y + (this.covered ?? 0) / 2 / scale, scale };
    this.draw();
    this.onView();
  }

  // Shows a box: moves there where it is not in view, and nearer where it would be small.
  reveal([left, top, right, bottom]) {
    const { view: { x, y, scale }, width } = this, height = this.shownHeight(), size = Math.max(right - left, bottom - top);
    const middle = y - (this.covered ?? 0) / 2 / scale;
    const isInView = left > x - width / 2 / scale && right < x + width / 2 / scale && top > middle - height / 2 / scale && bottom < middle + height / 2 / scale;
    if (isInView && size * scale > 24) return;
    this.isHome = false;
    this.go((left + right) / 2, (top + bottom) / 2, Math.min(0.6 * Math.min(width, height) / size, Math.max(scale, 60 / size)));
  }

  move(dx, dy) {
    this.view.x -= dx / this.view.scale;
    this.view.y = Math.max(0, Math.min(1, this.view.y - dy / this.view.scale));
    this.moveOn();
  }

  // Around a point that stays where it is.
  zoom(factor, px = this.width / 2, py = this.height / 2) {
    const [x, y] = this.at(px, py);
    const scale = Math.max(FARTHEST, Math.min(NEAREST, this.view.scale * factor));
    this.view = { x: x - (px - this.width / 2) / scale, y: y - (py - this.height / 2) / scale, scale };
    this.moveOn();
  }

  at(px, py) { return [this.view.x + (px - this.width / 2) / this.view.scale, this.view.y + (py - this.height / 2) / this.view.scale]; }

  // The finest cell that is drawn at a point, by its number; -1 where there is none.
  cellAt(px, py) {
    const [x, y] = [Math.floor(px), Math.floor(py)];
    if (!this.ids || x < 0 || y < 0 || x >= this.width || y >= this.height) return -1;
    return this.ids[y * this.width + x] - 1;
  }

  // The most urgent reference at a point.
  referenceAt(px, py) {
    const cell = this.cellAt(px, py), top = cell < 0 ? -1 : this.airspace.top[cell];
    return top < 0 ? null : this.airspace.references[top];
  }

  draw() {
    if (this.isDue || !this.width) return;
    this.isDue = true;
    requestAnimationFrame(() => { if (this.isDue) this.drawNow(); });
  }

  drawNow() {
    this.isDue = false;
    if (!this.width) return;
    const style = getComputedStyle(document.documentElement), known = new Map();
    this.colour = (name) => known.get(name) ?? known.set(name, style.getPropertyValue(name).trim()).get(name);
    this.drawGround();
    const { context, ratio } = this;
    context.setTransform(1, 0, 0, 1, 0, 0);
    context.clearRect(0, 0, this.canvas.width, this.canvas.height);
    context.setTransform(ratio, 0, 0, ratio, 0, 0);
    if (this.airspace) {
      if (this.isMoving && this.painted) {
        this.drawLast();
      } else {
        this.findCells();
        this.paint();
        this.drawOutlines();
      }
    }
    this.drawOver();
  }

  // Only where something of it has changed.
  drawGround() {
    const { view, width, height, ground } = this;
    const key = [view.x, view.y, view.scale, width, height, ground.canvas.width, this.colour("--land"), ground.serial].join();
    if (key !== this.groundKey) ground.draw(view, width, height, this.colour);
    this.groundKey = key;
  }

  drawLast() {
    const { view, width, height, painted: old } = this, factor = view.scale / old.scale;
    this.context.drawImage(this.pixels, (old.x - view.x) * view.scale + width / 2 * (1 - factor),
      (old.y - view.y) * view.scale + height / 2 * (1 - factor), width * factor, height * factor);
  }

  // For each pixel the number of its cell and one more, or 0: the finest of the cells that are around it.
  findCells() {
    const { view: { x, y, scale }, width, height, airspace } = this;
    const key = [x, y, scale, width, height, airspace.serial].join();
    if (key === this.built) return;
    this.built = key;
    if (this.ids?.length !== width * height) {
      Object.assign(this, { ids: new Int32Array(width * height), edgeRoom: new Int32Array(width * height) });
      Object.assign(this.pixels, { width, height });
      this.image = this.pixels.getContext("2d").createImageData(width, height);
      this.out = new Uint32Array(this.image.data.buffer);
    }
    this.ids.fill(0);
    this.finest = Infinity;
    this.inView = new Uint8Array(airspace.cells.length);
    airspace.cells.forEach(({ corners }, cell) => this.findCell(corners, cell));
    this.findRows();
    this.findEdges();
  }

  // Gives the pixels of a cell its number and one more.
  findCell(corners, cell) {
    const { view: { x, y, scale }, width, height, ids, px, py } = this;
    const [dx, dy] = [width / 2 + (Math.round(x - corners[0]) - x) * scale, height / 2 - y * scale];
    let [left, right, low, high] = [Infinity, -Infinity, Infinity, -Infinity];
    for (let k = 0; k < 4; k++) {
      px[k] = corners[2 * k] * scale + dx;
      py[k] = corners[2 * k + 1] * scale + dy;
      left = Math.min(left, px[k]);
      right = Math.max(right, px[k]);
      low = Math.min(low, py[k]);
      high = Math.max(high, py[k]);
    }
    if (right < 0 || left > width || high < 0 || low > height) return;
    this.inView[cell] = 1;
    this.finest = Math.min(this.finest, high - low);
    // one that is smaller than a pixel still has one
    if (right - left < 1.5 || high - low < 1.5) {
      const column = Math.floor((left + right) / 2), row = Math.floor((low + high) / 2);
      if (column >= 0 && column < width && row >= 0 && row < height) ids[row * width + column] = cell + 1;
    }
    for (let row = Math.max(0, Math.ceil(low - 0.5)), end = Math.min(height - 1, Math.floor(high - 0.5)); row <= end; row++) {
      let [from, to] = [Infinity, -Infinity];
      for (let k = 0; k < 4; k++) {
        const n = (k + 1) & 3, level = row + 0.5;
        if (py[k] > level === py[n] > level) continue;
        const cut = px[k] + (level - py[k]) / (py[n] - py[k]) * (px[n] - px[k]);
        from = Math.min(from, cut);
        to = Math.max(to, cut);
      }
      const [first, last] = [Math.max(0, Math.ceil(from - 0.5)), Math.min(width, Math.floor(to - 0.5) + 1)];
      if (last > first) ids.fill(cell + 1, row * width + first, row * width + last);
    }
  }

  // Where each row has cells.
  findRows() {
    const { ids, width, height } = this;
    this.out.fill(0);
    this.rows = new Int32Array(2 * height);
    for (let row = 0; row < height; row++) {
      let [from, to] = [row * width, (row + 1) * width];
      while (from < to && ids[from] === 0) from++;
      while (to > from && ids[to - 1] === 0) to--;
      this.rows[2 * row] = from;
      this.rows[2 * row + 1] = to;
    }
  }

  // Pixels whose neighbour on the right or below is in another cell.
  findEdges() {
    const { ids, width, height, rows, edgeRoom } = this;
    let count = 0;
    if (this.finest >= TINY)
      for (let row = 0; row < height - 1; row++) {
        const from = Math.max(row * width, Math.min(rows[2 * row] - 1, rows[2 * row + 2] - width));
        const to = Math.min((row + 1) * width - 1, Math.max(rows[2 * row + 1], rows[2 * row + 3] - width));
        for (let at = from; at < to; at++) if (ids[at] !== ids[at + 1] || ids[at] !== ids[at + width]) edgeRoom[count++] = at;
      }
    this.edges = edgeRoom.subarray(0, count);
  }

  // The styles of references: numbers from 1 on, each with colours by stripes and dots, and one of an outline. Flights of a USS
  // that is Down have dots.
  styles() {
    const { airspace, colourOf } = this, numbers = new Map(), fills = Array(16).fill(0), edges = [0, 0];
    const dot = packed(this.colour("--ink"), 0.9);
    const isFar = this.finest < SMALL;
    const styleOf = new Uint16Array(airspace.references.length);
    airspace.references.forEach((it, k) => {
      const state = stateOf(it), name = colourOf(it), isDown = it.uss_availability === "Down", key = state + name + isDown;
      if (!numbers.has(key)) {
        numbers.set(key, numbers.size + 1);
        const colour = this.colour(name), [stripe, ink] = STRIPES[state] ?? [0, 0];
        const fill = FILLS[state] + (isFar ? 0.35 : 0); // so small that they have no outline
        for (const isSure of [true, false]) {
          for (let k = 0; k < 8; k++) fills.push(isDown && k & DOT ? dot : packed(colour, isSure ? k & stripe ? ink : fill : 0.12));
          edges.push(packed(colour, isSure ? 0.95 : 0.5));
        }
      }
      styleOf[k] = numbers.get(key);
    });
    return { styleOf, fills: Uint32Array.from(fills), edges: Uint32Array.from(edges) };
  }

  paint() {
    const { airspace, width, height, ids, out, edges: places } = this, { top, isSure, shared } = airspace;
    const key = [airspace.serial, this.colour("--land"), this.colourKey, this.finest < SMALL].join();
    if (key !== this.styleKey) Object.assign(this, { styleKey: key, style: this.styles() });
    const { styleOf, fills, edges } = this.style;
    const cells = new Uint16Array(top.length + 1);
    this.flights = 0;
    const seen = new Uint8Array(airspace.references.length);
    for (let cell = 0; cell < top.length; cell++) {
      const it = top[cell];
      if (it < 0) continue;
      cells[cell + 1] = 2 * styleOf[it] + (isSure[cell] ? 0 : 1);
      if (this.inView[cell] && !seen[it]) {
        seen[it] = 1;
        this.flights++;
      }
    }
    const { rows } = this;
    for (let row = 0; row < height; row++) {
      const stripes = (row & 7) << 3, begin = row * width, end = rows[2 * row + 1];
      for (let at = rows[2 * row]; at < end; at++) out[at] = fills[cells[ids[at]] << 3 | STRIPE_OF[stripes | (at - begin & 7)]];
    }
    this.isOutlined = this.flights <= OUTLINED && this.finest >= SMALL;
    if (!this.isOutlined) this.paintEdges(places, cells, edges);
    if (this.finest >= SHARED) this.paintShared(places, shared);
    this.pixels.getContext("2d").putImageData(this.image, 0, 0);
    this.context.imageSmoothingEnabled = false;
    this.context.drawImage(this.pixels, 0, 0, width, height);
    this.painted = { ...this.view };
  }

  // An outline in the colour of the more urgent of two neighbours.
  paintEdges(places, cells, edges) {
    const { airspace: { top, rank }, ids, out, width } = this;
    for (const at of places) {
      const cell = ids[at];
      for (const next of [at + 1, at + width]) {
        const other = ids[next];
        const [a, b] = [cell ? top[cell - 1] : -1, other ? top[other - 1] : -1];
        if (a === b) continue;
        const isOwn = b < 0 || a >= 0 && rank[a] <= rank[b];
        out[isOwn ? at : next] = edges[cells[isOwn ? cell : other]];
      }
    }
  }

  // A thin line two pixels inside of where more than one is.
  paintShared(places, shared) {
    const { ids, out, width } = this, ink = packed(this.colour("--ink"), 0.85);
    const isShared = (at) => ids[at] > 0 && shared[ids[at] - 1];
    for (const at of places)
      for (const step of [1, width]) {
        const [here, there] = [isShared(at), isShared(at + step)];
        if (here && !there && isShared(at - 2 * step)) out[at - 2 * step] = ink;
        if (there && !here && isShared(at + 3 * step)) out[at + 3 * step] = ink;
      }
  }

  // Where few are in view, each has an outline of its own, the most urgent on top.
  drawOutlines() {
    const { airspace, context } = this;
    if (!this.isOutlined) return;
    const paths = new Map();
    const inView = this.airspace.references.filter((_, k) => airspace.isSeen(k) && this.isInView(k));
    for (const it of inView) {
      const key = `${STATES.length - STATES.indexOf(stateOf(it))} ${this.colourOf(it)}`;
      if (!paths.has(key)) paths.set(key, [stateOf(it), this.colourOf(it), new Path2D()]);
      this.trace(airspace.outline(it), paths.get(key)[2]);
    }
    context.lineJoin = "round";
    const casing = this.finest >= SHARED ? CASING : CASING / 2;
    for (const [, [state, colour, path]] of [...paths].sort()) {
      context.strokeStyle = this.colour("--ground");
      context.lineWidth = WIDTHS[state] + casing;
      context.setLineDash([]);
      context.stroke(path);
      context.strokeStyle = this.colour(colour);
      context.lineWidth = WIDTHS[state];
      context.setLineDash(DASHES[state] ?? []);
      context.stroke(path);
    }
    context.setLineDash([]);
  }

  isInView(reference) {
    const { firstVolume, from, held } = this.airspace;
    for (let n = from[firstVolume[reference]]; n < from[firstVolume[reference + 1]]; n++) if (this.inView[held[n]]) return true;
    return false;
  }

  trace(rings, path) {
    const { view: { x, y, scale }, width, height } = this;
    for (const ring of rings) {
      const [dx, dy] = [width / 2 + (Math.round(x - ring[0]) - x) * scale, height / 2 - y * scale];
      path.moveTo(ring[0] * scale + dx, ring[1] * scale + dy);
      for (let k = 2; k < ring.length; k += 2) path.lineTo(ring[k] * scale + dx, ring[k + 1] * scale + dy);
    }
    return path;
  }

  // ---- over the references

  drawOverSoon() {
    if (this.isOverDue || this.isDue) return;
    this.isOverDue = true;
    requestAnimationFrame(() => {
      this.isOverDue = false;
      if (this.colour) this.drawOver();
    });
  }

  drawOver() {
    const { overContext: context, ratio, width, height } = this;
    context.setTransform(1, 0, 0, 1, 0, 0);
    context.clearRect(0, 0, this.over.width, this.over.height);
    context.setTransform(ratio, 0, 0, ratio, 0, 0);
    this.drawWatched(context);
    this.drawShared(context);
    for (const [it, colour, line] of [[this.hovered, "--ink", 3], [this.partner, "--selected", 4], [this.selected, "--selected", 4]])
      if (it && this.airspace) this.drawLine(context, this.airspace.outline(it), colour, line);
    for (const it of ["hovered", "selected", "partner"]) this.over.dataset[it] = this[it] ? nameOf(this[it]) : "";
    this.drawLabels(context, width, height);
    this.drawMiddle(context);
  }

  // An outline with the ground's colour on both sides.
  drawLine(context, rings, colour, line) {
    const path = this.trace(rings, new Path2D());
    context.lineJoin = "round";
    context.strokeStyle = this.colour("--ground");
    context.lineWidth = line + 3;
    context.stroke(path);
    context.strokeStyle = this.colour(colour);
    context.lineWidth = line;
    context.stroke(path);
  }

  // The cells in which a selected pair meets, filled below its outlines.
  drawShared(context) {
    this.over.dataset.shared = this.shared.length;
    if (!this.shared.length || !this.airspace) return;
    const path = this.trace(this.shared, new Path2D());
    context.fillStyle = `${this.colour("--selected")}99`;
    context.fill(path, "evenodd");
    context.setLineDash([4, 4]);
    context.strokeStyle = this.colour("--ink");
    context.lineWidth = 2;
    context.stroke(path);
    context.setLineDash([]);
  }

  // Where subscriptions are, by lines of dots.
  drawWatched(context) {
    if (!this.watched.length) return;
    context.strokeStyle = this.colour("--ink");
    context.lineWidth = 2;
    context.setLineDash([2, 5]);
    const path = new Path2D();
    for (const it of this.watched) this.trace(this.airspace.outline(it), path);
    context.stroke(path);
    context.setLineDash([]);
  }

  // Lines of latitude and longitude, as lists of degrees and pixels.
  graticule() {
    const { width, height } = this, [left, top] = this.at(0, 0), [right, bottom] = this.at(width, height);
    const step = niceStep((longitude(right) - longitude(left)) * 110 / width), across = [], up = [];
    for (let lng = Math.ceil(longitude(left) / step) * step; lng <= longitude(right); lng += step)
      across.push([lng, Math.round((project(lng, 0)[0] - left) * this.view.scale) + 0.5]);
    for (let lat = Math.ceil(latitude(bottom) / step) * step; lat <= latitude(top); lat += step)
      up.push([lat, Math.round((project(0, lat)[1] - top) * this.view.scale) + 0.5]);
    return { step, across, up };
  }

  // What the lines are, and a scale, over the cells.
  drawLabels(context, width, height) {
    const { step, across, up } = this.graticule(), low = this.covered ?? 0;
    context.strokeStyle = this.colour("--lines");
    context.lineWidth = 1;
    context.beginPath();
    for (const [, px] of across) {
      context.moveTo(px, 0);
      context.lineTo(px, height);
    }
    for (const [, py] of up) {
      context.moveTo(0, py);
      context.lineTo(width, py);
    }
    context.stroke();
    context.font = "11px system-ui, sans-serif";
    context.textAlign = "left";
    context.lineJoin = "round";
    context.strokeStyle = this.colour("--ground");
    context.fillStyle = this.colour("--soft");
    const write = (text, px, py) => {
      context.lineWidth = 3;
      context.strokeText(text, px, py);
      context.fillText(text, px, py);
    };
    for (const [lng, px] of across) write(degrees((lng + 540) % 360 - 180, "EW", step), px + 4, height - low - 6);
    for (const [lat, py] of up) if (py < height - low - 24) write(degrees(lat, "NS", step), 4, py - 4);
    // a bar of a length that is easily read, at the latitude of the middle
    const metre = this.view.scale / (EARTH * Math.cos(latitude(this.view.y) * TILT));
    const length = niceStep(50 / metre);
    const [px, py] = [width - 14 - length * metre, height - low - 24];
    context.lineWidth = 2;
    context.strokeStyle = this.colour("--ink");
    context.beginPath();
    context.moveTo(px, py - 5);
    context.lineTo(px, py);
    context.lineTo(px + length * metre, py);
    context.lineTo(px + length * metre, py - 5);
    context.stroke();
    context.strokeStyle = this.colour("--ground");
    context.textAlign = "right";
    write(length >= 1000 ? `${length / 1000} km` : `${length} m`, width - 14, py - 9);
  }

  // What Enter takes, while the keyboard is used.
  drawMiddle(context) {
    if (!this.canvas.matches(":focus-visible") && !(this.usesKeys && this.canvas === document.activeElement)) return;
    const [px, py] = [Math.round(this.width / 2) + 0.5, Math.round(this.height / 2) + 0.5];
    context.strokeStyle = this.colour("--ink");
    context.lineWidth = 1.5;
    context.beginPath();
    for (const [dx, dy] of [[1, 0], [-1, 0], [0, 1], [0, -1]]) {
      context.moveTo(px + 4 * dx, py + 4 * dy);
      context.lineTo(px + 14 * dx, py + 14 * dy);
    }
    context.stroke();
  }
}

// A colour of the form #rrggbb and how much it covers, as a number of four bytes.
function packed(colour, alpha) {
  const number = parseInt(colour.slice(1, 7), 16);
  return (Math.round(255 * alpha) << 24 | (number & 255) << 16 | (number >> 8 & 255) << 8 | number >> 16) >>> 0;
}
