// Mercator's projection, and cells of S2 down to level 13, from their tokens alone.

export function project(lng, lat) {
  const bounded = Math.max(-85, Math.min(85, lat));
  return [lng / 360 + 0.5, 0.5 - Math.log(Math.tan(Math.PI / 4 + bounded * Math.PI / 180 / 2)) / (2 * Math.PI)];
}

const FINEST = 13;
export const SIDE = 1 << FINEST; // cells of the finest level on a side of a face
const TO_IJ = Uint8Array.of(0, 1, 3, 2, 0, 2, 3, 1, 3, 2, 0, 1, 3, 1, 0, 2);
const TURN = Uint8Array.of(1, 0, 0, 3);
const HIGHEST = Math.asinh(Math.tan(85 * Math.PI / 180)); // as in `project`

const unbent = (s) => s >= 0.5 ? (4 * s * s - 1) / 3 : (1 - 4 * (1 - s) * (1 - s)) / 3;
const bent = (u) => u >= 0 ? 0.5 * Math.sqrt(1 + 3 * u) : 1 - 0.5 * Math.sqrt(1 - 3 * u);
const UNBENT = Float64Array.from({ length: SIDE + 1 }, (_, k) => unbent(k / SIDE));

// Cells by their numbers: the first 30 bits of a cell's number of S2, which have all of it down to level 13.
const known = new Map();

export const cellOf = (token) => cellsOf(token)[0];

// The cells of tokens with blanks in between. No text is cut out, since there are very many.
export function cellsOf(tokens) {
  const cells = [];
  for (let k = 0, bits = 0, left = 32; k <= tokens.length; k++) {
    const code = k < tokens.length ? tokens.charCodeAt(k) : 32;
    if (code !== 32) {
      if (left) bits |= (code < 58 ? code - 48 : code - 87) << (left -= 4);
      continue;
    }
    if (left < 32) cells.push(known.get(bits >>> 2) ?? made(bits >>> 2));
    bits = 0;
    left = 32;
  }
  return cells;
}

export const tokenOf = ({ number }) => (number * 4).toString(16).padStart(8, "0").replace(/0+$/, "");

// The numbers of the cells around a cell, from the finest to those of level 1.
export function around({ number }) {
  const found = [];
  for (let last = 4 * (number & -number); last <= 1 << 24; last *= 4) found.push(number & -2 * last | last);
  return found;
}

// The cells of two lists that the other has, too, or of which it has one around them.
export function commonOf(one, other) {
  const [ones, others] = [one, other].map((list) => new Set(list.map((it) => it.number)));
  const isIn = (it, numbers) => numbers.has(it.number) || around(it).some((number) => numbers.has(number));
  return [...one.filter((it) => isIn(it, others)), ...other.filter((it) => isIn(it, ones) && !ones.has(it.number))];
}

// The face of a cell, its place on it and its size in cells of the finest level, and its corners on the plane.
function made(number) {
  const level = FINEST - (31 - Math.clz32(number & -number)) / 2, face = number >>> 27, size = 1 << (FINEST - level);
  let [i, j, orientation] = [0, 0, face & 1];
  for (let k = 0; k < level; k++) {
    const bits = number >>> (25 - 2 * k) & 3, ij = TO_IJ[orientation << 2 | bits];
    i = i << 1 | ij >> 1;
    j = j << 1 | ij & 1;
    orientation ^= TURN[bits];
  }
  const corners = [0.5, 0.5, 0.5, 0.5, 0.5, 0.5, 0.5, 0.5];
  i *= size;
  j *= size;
  putOnPlane(face, i, j, corners, 0);
  putOnPlane(face, i + size, j, corners, 2);
  putOnPlane(face, i + size, j + size, corners, 4);
  putOnPlane(face, i, j + size, corners, 6);
  for (let k = 2; k < 8; k += 2) corners[k] -= Math.round(corners[k] - corners[0]); // over the antimeridian
  const cell = { number, level, face, i, j, size, corners, index: -1, mark: 0 }; // the last two are an airspace's
  known.set(number, cell);
  return cell;
}

function inSpace(face, u, v) {
  return [[1, u, v], [-u, 1, v], [-u, -v, 1], [-1, -v, -u], [v, -1, -u], [v, u, -1]][face];
}

// Writes a corner of cells on the plane into a list, without making anything.
function putOnPlane(face, i, j, list, at) {
  const u = UNBENT[i], v = UNBENT[j];
  const x = face === 0 ? 1 : face === 3 ? -1 : face === 1 || face === 2 ? -u : v;
  const y = face === 1 ? 1 : face === 4 ? -1 : face === 0 || face === 5 ? u : -v;
  const z = face === 2 ? 1 : face === 5 ? -1 : face === 0 || face === 1 ? v : -u;
  list[at] = Math.atan2(y, x) / (2 * Math.PI) + 0.5;
  list[at + 1] = 0.5 - Math.max(-HIGHEST, Math.min(HIGHEST, Math.asinh(z / Math.sqrt(x * x + y * y)))) / (2 * Math.PI);
}

function onPlane(face, i, j) {
  const place = [0.5, 0.5];
  putOnPlane(face, i, j, place, 0);
  return place;
}

const keyOf = (face, i, j) => (face * SIDE + i) * SIDE + j;

// The key of a finest cell beside a face, which lies on another one.
function keyBeside(face, i, j) {
  const [x, y, z] = inSpace(face, unbent((i + 0.5) / SIDE), unbent((j + 0.5) / SIDE));
  const sizes = [x, y, z].map(Math.abs), axis = sizes.indexOf(Math.max(...sizes)), other = axis + ([x, y, z][axis] < 0 ? 3 : 0);
  const [u, v] = [[y / x, z / x], [-x / y, z / y], [-x / z, -y / z], [z / x, y / x], [z / y, -x / y], [-y / z, -x / z]][other];
  return keyOf(other, Math.floor(bent(u) * SIDE), Math.floor(bent(v) * SIDE));
}

// The outline of cells together, as lists of places on the plane: edges between two of them are left out.
export function outlineOf(cells) {
  const unit = Math.min(...cells.map((it) => it.size)), held = new Set();
  for (const { face, i, j, size } of cells)
    for (let a = 0; a < size; a += unit) for (let b = 0; b < size; b += unit) held.add(keyOf(face, i + a, j + b));
  const isHeld = (face, i, j) => held.has(i < 0 || j < 0 || i >= SIDE || j >= SIDE
    ? snapped(keyBeside(face, Math.max(-1, Math.min(SIDE, i)), Math.max(-1, Math.min(SIDE, j))), unit) : keyOf(face, i, j));
  // Edges by the corner that they begin at, with the inside on the left.
  const edges = new Map();
  const add = (face, from, to) => {
    const key = `${face} ${from}`;
    if (!edges.has(key)) edges.set(key, []);
    edges.get(key).push([face, ...to]);
  };
  for (const key of held) {
    const j = key % SIDE, i = (key - j) / SIDE % SIDE, face = Math.floor(key / SIDE / SIDE);
    if (!isHeld(face, i, j - unit)) add(face, [i, j], [i + unit, j]);
    if (!isHeld(face, i + unit, j)) add(face, [i + unit, j], [i + unit, j + unit]);
    if (!isHeld(face, i, j + unit)) add(face, [i + unit, j + unit], [i, j + unit]);
    if (!isHeld(face, i - unit, j)) add(face, [i, j + unit], [i, j]);
  }
  const rings = [];
  for (const [start, out] of edges)
    while (out.length) {
      const [face, first] = [Number(start.split(" ")[0]), start.split(" ")[1].split(",").map(Number)];
      const ring = onPlane(face, ...first);
      for (let at = out.pop(); at;) {
        const place = onPlane(...at);
        ring.push(place[0] - Math.round(place[0] - ring[0]), place[1]);
        const key = `${at[0]} ${at[1]},${at[2]}`;
        at = key === start ? null : edges.get(key)?.pop();
      }
      rings.push(ring);
    }
  return rings;
}

function snapped(key, unit) {
  const j = key % SIDE, i = (key - j) / SIDE % SIDE, face = Math.floor(key / SIDE / SIDE);
  return keyOf(face, i - i % unit, j - j % unit);
}
