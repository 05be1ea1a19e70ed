// The ground: land and water, lakes, borders, cities and airports, and what the operator's file adds.
import { project } from "./cells.js";

const DIGITS = "ABCDEFGHIJKLMNOPQRSTUVWXYZabcdefghijklmnopqrstuvwxyz0123456789+/";
const VALUES = new Map([...DIGITS].map((it, k) => [it, k]));
// Pixels of the world's width from which cities of the second rank, all cities and airports are drawn.
const [LARGE_CITIES, ALL_CITIES, AIRPORTS, CODES] = [1500, 6000, 30000, 90000];

// The corners of a line as written by gateway/ground, on the plane.
export function decoded(text, unit) {
  const numbers = [];
  let [value, shift] = [0, 0];
  for (const letter of text) {
    const digit = VALUES.get(letter);
    value |= (digit & 31) << shift;
    shift += 5;
    if (digit & 32) continue;
    numbers.push(value & 1 ? -(value >> 1) : value >> 1);
    [value, shift] = [0, 0];
  }
  const points = [];
  let [lng, lat] = [0, 0];
  for (let k = 0; k + 1 < numbers.length; k += 2) {
    lng += numbers[k];
    lat += numbers[k + 1];
    points.push(...project(lng / unit, lat / unit));
  }
  return line(points);
}

// With the box around it.
function line(points) {
  const box = [Infinity, Infinity, -Infinity, -Infinity];
  for (let k = 0; k < points.length; k += 2) {
    box[0] = Math.min(box[0], points[k]);
    box[1] = Math.min(box[1], points[k + 1]);
    box[2] = Math.max(box[2], points[k]);
    box[3] = Math.max(box[3], points[k + 1]);
  }
  return { points: Float64Array.from(points), box };
}

export const lineOf = (corners) => line(corners.flatMap(([lng, lat]) => project(lng, lat)));

export class Ground {
  constructor(canvas) {
    this.canvas = canvas;
    this.context = canvas.getContext("2d");
    this.land = this.borders = this.lakes = [];
    this.cities = this.airports = [];
    this.own = { areas: [], lines: [], points: [] };
    this.area = [];
    this.serial = 0; // of what there is to draw
  }

  take(data) {
    this.serial++;
    for (const name of ["land", "borders"]) this[name] = data[name].map((it) => decoded(it, data.unit));
    this.lakes = data.lakes.map((it) => decoded(it, data.lake_unit));
    this.cities = data.cities.map(([name, lng, lat, rank]) => ({ name, rank, at: project(lng / data.unit, lat / data.unit) }));
    this.airports = data.airports.map(([name, lng, lat]) => ({ name, at: project(lng / data.unit, lat / data.unit) }));
  }

  // The GeoJSON of the operator, in place of an earlier one.
  add(data) {
    this.serial++;
    this.own = { areas: [], lines: [], points: [] };
    const features = data.type === "FeatureCollection" ? data.features : [data.type === "Feature" ? data : { geometry: data }];
    for (const { geometry, properties } of features) this.addGeometry(geometry, String(properties?.name ?? ""));
  }

  addGeometry(it, name) {
    const { areas, lines, points } = this.own;
    if (!it) return;
    if (it.type === "GeometryCollection") for (const one of it.geometries) this.addGeometry(one, name);
    if (it.type === "Point") points.push({ name, at: project(...it.coordinates) });
    if (it.type === "MultiPoint") for (const one of it.coordinates) points.push({ name, at: project(...one) });
    if (it.type === "LineString") lines.push(lineOf(it.coordinates));
    if (it.type === "MultiLineString") lines.push(...it.coordinates.map(lineOf));
    if (it.type === "Polygon") areas.push(...it.coordinates.map(lineOf));
    if (it.type === "MultiPolygon") areas.push(...it.coordinates.flat().map(lineOf));
  }

  // The name of the city next to a place on the plane, or of the place itself where none is near.
  nearest(x, y) {
    const far = (it) => Math.hypot(it.at[0] - x, it.at[1] - y);
    const best = this.cities.reduce((best, it) => !best || far(it) < far(best) ? it : best, null);
    if (best && far(best) < 0.004) return best.name;
    const lat = 2 * Math.atan(Math.exp((0.5 - y) * 2 * Math.PI)) * 180 / Math.PI - 90, lng = (x - 0.5) * 360;
    return `${Math.abs(lat).toFixed(1)}° ${lat < 0 ? "S" : "N"} ${Math.abs(lng).toFixed(1)}° ${lng < 0 ? "W" : "E"}`;
  }

  draw(view, width, height, colour) {
    const { context, canvas } = this, ratio = canvas.width / width;
    Object.assign(this, { view, width, height });
    context.setTransform(ratio, 0, 0, ratio, 0, 0);
    context.fillStyle = colour("--water");
    context.fillRect(0, 0, width, height);
    context.lineJoin = "round";
    context.lineWidth = 1;
    this.shape(this.land, (path) => {
      context.fillStyle = colour("--land");
      context.fill(path, "evenodd");
    });
    this.shape(this.land, (path) => {
      context.strokeStyle = colour("--coast");
      context.stroke(path);
    }, true);
    this.shape(this.lakes, (path) => {
      context.fillStyle = colour("--water");
      context.fill(path, "evenodd");
      context.stroke(path);
    });
    this.shape(this.borders, (path) => {
      context.strokeStyle = colour("--border");
      context.stroke(path);
    });
    this.shape(this.own.areas, (path) => {
      context.fillStyle = colour("--own");
      context.fill(path, "evenodd");
      context.strokeStyle = colour("--soft");
      context.stroke(path);
    });
    this.shape(this.own.lines, (path) => {
      context.strokeStyle = colour("--soft");
      context.stroke(path);
    });
    context.setLineDash([6, 4]);
    this.shape(this.area, (path) => context.stroke(path));
    context.setLineDash([]);
    this.drawPlaces(colour);
  }

  // A path of lines in view, also where the view goes over the antimeridian. Lines along it are left out of what is drawn along.
  shape(lines, use, isStroke = false) {
    const { view: { x, y, scale }, width, height } = this;
    const [left, top, right, bottom] = [x - width / 2 / scale, y - height / 2 / scale, x + width / 2 / scale, y + height / 2 / scale];
    const path = new Path2D();
    let isEmpty = true;
    for (const turn of [-1, 0, 1]) {
      if (turn + 1 < left || turn > right) continue;
      for (const { points, box } of lines) {
        if (box[2] + turn < left || box[0] + turn > right || box[3] < top || box[1] > bottom) continue;
        isEmpty = false;
        const [dx, dy] = [width / 2 + (turn - x) * scale, height / 2 - y * scale];
        for (let k = 0; k < points.length; k += 2) {
          const isAlong = isStroke && k && (points[k] <= 0 || points[k] >= 1) && points[k] === points[k - 2];
          if (k === 0 || isAlong) path.moveTo(points[k] * scale + dx, points[k + 1] * scale + dy);
          else path.lineTo(points[k] * scale + dx, points[k + 1] * scale + dy);
        }
      }
    }
    if (!isEmpty) use(path);
  }

  // Names that would overlap are left out, the later ones.
  drawPlaces(colour) {
    const { context, view: { scale } } = this, taken = [];
    context.textBaseline = "middle";
    context.textAlign = "left";
    context.lineJoin = "round";
    const name = (text, px, py, font, ink) => {
      context.font = font;
      const box = [px - 3, py - 8, px + 8 + context.measureText(text).width, py + 8];
      if (taken.some((it) => box[0] < it[2] && it[0] < box[2] && box[1] < it[3] && it[1] < box[3])) return false;
      taken.push(box);
      context.lineWidth = 3;
      context.strokeStyle = colour("--land");
      context.strokeText(text, px + 6, py);
      context.fillStyle = colour(ink);
      context.fillText(text, px + 6, py);
      return true;
    };
    const dot = (px, py, size) => {
      context.beginPath();
      context.arc(px, py, size, 0, 2 * Math.PI);
      context.fill();
    };
    for (const it of this.own.points)
      this.each(it, (px, py) => { if (name(it.name, px, py, "600 12px system-ui, sans-serif", "--ink")) dot(px, py, 2.5); });
    for (const it of this.cities)
      if (scale > (it.rank ? LARGE_CITIES : ALL_CITIES))
        this.each(it, (px, py) => { if (name(it.name, px, py, `${it.rank ? 600 : 400} 12px system-ui, sans-serif`, "--place")) dot(px, py, it.rank ? 2.5 : 2); });
    if (scale < AIRPORTS) return;
    context.strokeStyle = colour("--place");
    for (const it of this.airports)
      this.each(it, (px, py) => {
        context.strokeStyle = colour("--place");
        context.lineWidth = 1;
        context.beginPath();
        context.moveTo(px - 3.5, py);
        context.lineTo(px + 3.5, py);
        context.moveTo(px, py - 3.5);
        context.lineTo(px, py + 3.5);
        context.stroke();
        if (scale > CODES) name(it.name, px, py, "11px system-ui, sans-serif", "--soft");
      });
  }

  each(place, use) {
    const { view: { x, y, scale }, width, height } = this;
    const turn = Math.round(x - place.at[0]);
    const [px, py] = [(place.at[0] + turn - x) * scale + width / 2, (place.at[1] - y) * scale + height / 2];
    if (px > -20 && px < width + 20 && py > -20 && py < height + 20) use(px, py);
  }
}
