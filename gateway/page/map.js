// The page: who may look, what is asked of the gateway and when, the controls, and the lists beside the map.
import { Airspace, nameOf, stateOf, volumesOf } from "./airspace.js";
import { outlineOf, project, tokenOf } from "./cells.js";
import { Conflicts } from "./conflicts.js";
import { Drawing } from "./drawing.js";
import { Filter } from "./filter.js";
import { Ground, lineOf } from "./ground.js";
import { Instances } from "./instances.js";
import { Pointing } from "./pointing.js";
import { hashOf, keepChoices, storedToken, storeToken, viewOf } from "./session.js";
import { chosen, clock, duration, height, heights, stamp } from "./units.js";
import { sound, Warnings } from "./warnings.js";

const EVERY = 3000; // milliseconds between two readings
const [LATE, STALE] = [6, 12]; // seconds of age from which data is amber, and red
const FARTHEST = 7 * 86400; // seconds that the time can be ahead
const [LISTED, MORE] = [20, 200];
const MOST_GROUPS = 6;
const [SLICE, HIDDEN_SLICE] = [6, 200]; // milliseconds at once in which conflicts are looked for; a hidden page is seldom let run
const ALTITUDES = [null, ...range(0, 150, 10), ...range(150, 300, 25), ...range(300, 1000, 50), ...range(1000, 6001, 250)];

const of = (id) => document.getElementById(id);
const ground = new Ground(of("ground")), filter = new Filter(ground);
const drawing = new Drawing(of("map"), of("over"), ground);
let token = "", airspace = null, data = null, ahead = 0, altitude = null, lastAnswer = 0, skew = 0, timer = 0, asking = null;
let isDue = false, resting = 0, isFirst = true, linking = 0, wantedSelection = [];
// The pairs that are listed and for what, those that warnings are of and for which data, and what is looked for.
let pairs = null, pairsKey = "", warned = null, warnedOf = -1, finding = null, warnings = new Warnings();
let instances = new Instances(), askingInstances = false;
let isSettled = false; // whether the gateway had found all flights once
// What is selected: an item by its name, and the list or the map where it was chosen; also what else is in the cell there, or
// the other one of a pair.
let selection = null;
const opened = new Set();

function range(from, to, step) { return Array.from({ length: Math.ceil((to - from) / step) }, (_, k) => from + k * step); }

// ---- asking

// A JSON that the gateway gives, else an Error; with `status` where it answered.
async function read(path, isOpen = false) {
  const headers = isOpen ? {} : { Authorization: `Bearer ${token}` };
  const answer = await fetch(path, { headers, cache: isOpen ? "default" : "no-store", signal: AbortSignal.timeout(20000) });
  const body = await answer.json().catch(() => ({}));
  if (!answer.ok) throw Object.assign(new Error(body.message ?? `status ${answer.status}`), { status: answer.status });
  return body;
}

const now = () => Math.floor(Date.now() / 1000) + skew;
// The moment that is looked at: what is now in steps, so that viewers ask for the same.
const moment = () => ahead ? now() + ahead : now() - now() % 10;

async function look() {
  clearTimeout(timer);
  if (asking) return;
  const wanted = `${ahead} ${altitude}`, isMoment = airspace && !airspace.isWhole;
  const query = isMoment ? `&at=${moment()}${altitude === null ? "" : `&altitude=${altitude}`}` : "";
  try {
    asking = read(`map/changes.json?since=${airspace?.version ?? ""}${query}`);
    const reply = await asking;
    if (token) take(reply); // the viewer may have left meanwhile
  } catch (fault) {
    if (fault.status === 401) leave("The gateway does not know this token.");
    else tellFault(`The gateway does not answer${since(lastAnswer)}: ${fault.message}`);
  }
  asking = null;
  if (!token) return;
  lookAtInstances();
  const isSoon = isMoment && wanted !== `${ahead} ${altitude}`;
  timer = setTimeout(look, isSoon ? 0 : !data?.asked ? 700 : document.hidden ? 10 * EVERY : EVERY);
}

async function lookAtInstances() {
  if (askingInstances || !airspace || !instances.isAsked) return;
  askingInstances = true;
  const { instances: found } = await read("map/instances.json").catch(() => ({}));
  askingInstances = false;
  if (!token) return; // the viewer has left meanwhile
  if (found) instances.take(found).forEach(announce);
  else instances.lose();
  listInstances();
}

const since = (second) => second ? ` since ${clock(second)}` : "";

function take(reply) {
  data = reply;
  skew = reply.now - Math.floor(Date.now() / 1000);
  lastAnswer = reply.now;
  const isNew = !airspace;
  airspace ??= new Airspace();
  const isChanged = airspace.take(reply);
  isSettled ||= reply.asked > 0 && !airspace.waiting;
  if (isChanged) warnOfDown();
  if (isNew) begin(reply);
  const isSilent = reply.fault && reply.asked < reply.now - 2 || reply.asked && reply.asked < reply.now - STALE;
  tellFault(isSilent ? `The service does not answer${since(reply.asked)}${reply.fault ? `: ${reply.fault}` : ""}` : "");
  tellAge();
  boundTime();
  if (isFirst && airspace.references.some((_, k) => airspace.firstVolume[k] < airspace.firstVolume[k + 1])) firstView();
  if (isNew) showFirst();
  else if (isChanged || moment() !== shownAt) show();
}

// The map first, and the lists once it can be seen.
function showFirst() {
  showOnMap();
  requestAnimationFrame(() => setTimeout(() => { if (airspace) list(); }));
}

let shownAt = null;

function begin(reply) {
  storeToken(token);
  enter();
  lay("map/ground.geojson", false, (it) => ground.add(it));
  tellWhole(airspace.isWhole);
  drawing.airspace = airspace;
  const corners = reply.area ?? [];
  ground.area = corners.map((it) => lineOf([0, 2, 4, 6, 0].map((k) => [it[k], it[k + 1]])));
  const box = [Infinity, Infinity, -Infinity, -Infinity];
  for (const it of corners)
    for (let k = 0; k < 8; k += 2) {
      const [x, y] = project(it[k], it[k + 1]);
      box[0] = Math.min(box[0], x);
      box[1] = Math.min(box[1], y);
      box[2] = Math.max(box[2], x);
      box[3] = Math.max(box[3], y);
    }
  drawing.setHome(corners.length ? box : [0.1, 0.15, 0.9, 0.75]);
  follow();
}

// The first view is that of the densest group, unless the address says another one.
function firstView() {
  isFirst = false;
  const isLinked = of("map").dataset.linked === "true";
  const [largest] = airspace.groups();
  if (!ground.area.length) {
    drawing.home = largest.box;
    if (!isLinked) drawing.showHome();
  } else if (!isLinked) {
    drawing.frame(...largest.box);
  }
}

// Whether the airspace was read as a whole, with the subscriptions.
function tellWhole(isWhole) {
  of("with-subscriptions").hidden = of("watching").hidden = of("read-whole").hidden = !isWhole;
  of("read-by-queries").hidden = isWhole;
  of("pairs-title").textContent = isWhole ? "Conflicts" : "Sharing a cell";
  of("overlaps-title").textContent = isWhole ? "Known overlaps" : "Sharing a cell, both planned";
}

// Lays a part of the ground. The map goes without one that cannot be read.
async function lay(path, isOpen, take) {
  try {
    take(await read(path, isOpen));
    if (!airspace) return;
    if (filter.isOn) showOnMap();
    drawing.draw();
    listGroups();
  } catch (fault) {
    tellFault(`The ground cannot be drawn: ${fault.message}`);
  }
}
// What is shipped needs no token, and is there before one is written.
lay("map/ground.json", true, (it) => ground.take(it));

// A status is told once, and not again with each reading.
function tellFault(text) { if (of("fault").textContent !== text) of("fault").textContent = text; }

// How old the data is, whether or not a request hangs.
function tellAge() {
  if (!data) return;
  const age = data.asked ? Math.max(0, now() - data.asked) : null, it = of("age");
  it.textContent = age === null ? "no data yet" : age < LATE ? "live" : age < 120 ? `${age} s old` : `${Math.floor(age / 60)} min old`;
  it.className = age === null || age >= STALE ? "stale" : age >= LATE ? "late" : "";
}
setInterval(tellAge, 500);

// ---- who may look

function enter() {
  of("entry").hidden = true;
  of("view").hidden = false;
  of("token").value = "";
  cover();
  drawing.measure();
  of("map").focus({ preventScroll: true, focusVisible: false });
}

function leave(why) {
  clearTimeout(timer);
  token = "";
  isSettled = false;
  storeToken("");
  airspace = data = drawing.airspace = drawing.selected = drawing.partner = selection = pairs = warned = finding = null;
  pairsKey = "";
  warnedOf = -1;
  warnings = new Warnings();
  tellWarnings();
  instances = new Instances();
  isFirst = true;
  of("entry").hidden = false;
  of("view").hidden = true;
  of("entry-fault").textContent = why;
}

of("entry").addEventListener("submit", (event) => {
  event.preventDefault();
  of("entry-fault").textContent = "";
  token = of("token").value.trim();
  // a field of HTTP takes no other letters
  if (!/^[!-~]+$/.test(token)) return leave("This is no token.");
  firstLook();
});

of("leave").addEventListener("click", () => leave(""));

async function firstLook() {
  await look();
  if (!airspace && token) of("entry-fault").textContent = of("fault").textContent;
}

// ---- links to a view

function link() {
  clearTimeout(linking);
  linking = setTimeout(() => {
    if (!airspace) return;
    const [lng, lat] = drawing.place(), names = selection ? [selection.name, selection.partner].filter(Boolean) : wantedSelection;
    const view = { lat, lng, zoom: Math.log2(drawing.view.scale / 256), time: ahead ? moment() : "now", altitude: altitude ?? "all", names };
    history.replaceState(null, "", hashOf({ ...view, words: of("filter").value.trim(), off: filter.off }));
  }, 250);
}
drawing.onView = () => {
  link();
  requestAnimationFrame(() => pointing.hover());
};

function follow() {
  const view = viewOf(location.hash);
  if (!view) return;
  of("map").dataset.linked = "true";
  drawing.isHome = false;
  drawing.goTo(view.lng, view.lat, 256 * 2 ** view.zoom);
  boundTime();
  const wanted = view.time === null ? 0 : view.time - now();
  if (wanted > 0) of("time").max = Math.max(of("time").max, wanted);
  of("time").value = Math.max(0, wanted || 0);
  of("altitude").value = Math.max(0, ALTITUDES.findIndex((it) => it === null ? view.metres === null : view.metres !== null && it >= view.metres));
  wantedSelection = view.names;
  of("filter").value = view.words;
  filter.set(view.words, view.off);
  ahead = Number(of("time").value);
  altitude = ALTITUDES[of("altitude").value];
  show();
}
addEventListener("hashchange", () => { if (airspace) follow(); });

// ---- time and altitude

// From now to the last end.
function boundTime() {
  const most = Math.max(600, Number(of("time").value), Math.min(FARTHEST, airspace.lastEnd - now()));
  const step = most > 86400 ? 600 : 60;
  Object.assign(of("time"), { step, max: Math.floor(most / step) * step });
  ahead = Number(of("time").value);
}

function tellMoment() {
  const at = moment();
  const text = ahead ? `in ${duration(ahead)}, ${ahead > 43200 ? stamp(at) : clock(at)}` : "now";
  const shownHeight = altitude === null ? "all" : `${height(altitude)} (WGS84)`;
  for (const [id, it] of [["time", text], ["altitude", shownHeight]]) {
    of(`${id}-shown`).textContent = it;
    of(id).setAttribute("aria-valuetext", it);
  }
}

// Shows what is known with the next picture; once the slider rests, lists it and, where the moment matters for that, asks.
function change() {
  ahead = Number(of("time").value);
  altitude = ALTITUDES[of("altitude").value];
  tellMoment();
  if (!isDue) requestAnimationFrame(() => {
    isDue = false;
    const from = performance.now();
    if (airspace) showOnMap();
    of("over").dataset.step = (performance.now() - from).toFixed(2); // milliseconds, for tests
  });
  isDue = true;
  clearTimeout(resting);
  resting = setTimeout(() => { if (airspace) list(); }, 200);
  link();
  if (!airspace || airspace.isWhole) return;
  clearTimeout(timer);
  if (!asking) timer = setTimeout(look, 250);
}

of("altitude").max = ALTITUDES.length - 1;
of("time").addEventListener("input", change);
of("altitude").addEventListener("input", change);
keepChoices(["by-supplier", "subscriptions", "sound", "feet", "local"].map(of));
for (const id of ["by-supplier", "subscriptions", "feet", "local"]) of(id).addEventListener("change", choose);

function choose() {
  Object.assign(chosen, { feet: of("feet").checked, local: of("local").checked });
  show();
}
choose();

// ---- showing

function colourOf(reference) {
  if (of("by-supplier").checked) return `--s${airspace.suppliers.indexOf(reference.manager) % 8}`;
  return `--${stateOf(reference).toLowerCase()}`;
}

function make(name, text = "", more = {}) { return Object.assign(document.createElement(name), { textContent: text }, more); }

// A square as on the map. No text of a USS comes near its style.
function swatch(colour, className) {
  const it = make("i", "", { className });
  if (colour) it.style.setProperty("--c", `var(${colour})`);
  return it;
}

const isDown = (it) => it.uss_availability === "Down";
const swatchOf = (it) => it.kind === "subscription" ? make("span") : swatch(colourOf(it), `${stateOf(it)}${isDown(it) ? " down" : ""}`);
const short = (id) => id.slice(0, 8);
const title = (it) => `${it.kind === "subscription" ? "Subscription" : it.kind === "constraint" ? "Constraint" : it.state} ${short(it.id)} of ${it.manager}${isDown(it) ? " (Down)" : ""}`;
const fits = (it) => filter.fits(it);
const isWatching = (it) => it.volumes.some((one) => one.start <= shownAt && shownAt <= one.end);

function show() {
  if (!airspace) return;
  showOnMap();
  list();
}

function showOnMap() {
  shownAt = moment();
  airspace.show(shownAt, altitude, filter.isOn ? filter.marks(airspace.references).fits : null);
  Object.assign(drawing, { colourOf, colourKey: of("by-supplier").checked, watched: of("subscriptions").checked ? airspace.subscriptions.filter(isWatching).filter(fits) : [] });
  outlineSelection();
  drawing.drawNow();
  tellMoment();
  of("asked").textContent = data.asked ? `As of ${clock(data.asked)}:` : "Not yet asked.";
  const parts = [`${airspace.shownCount} of ${airspace.references.length} are there`];
  if (filter.isOn) parts.push("some are filtered out");
  if (airspace.waiting) parts.push(`${airspace.waiting} cells are yet to be looked into`);
  of("counts").textContent = data.asked ? parts.join(", ") : "";
}

function list() {
  const [name, partner] = wantedSelection;
  if (airspace.items.has(name)) select(name, "link", [], partner);
  listGroups();
  listLegend();
  listSuppliers();
  tellSelection();
  listPairs();
  findPairs();
  const shown = airspace.shown;
  fill("all", shown, itemRow("all"));
  of("all-count").textContent = countOf(shown.length, airspace.shownCount);
  const watching = airspace.subscriptions.filter(isWatching);
  const fitting = watching.filter(fits);
  fill("watching-list", fitting, itemRow("watching"));
  of("watching-count").textContent = countOf(fitting.length, watching.length);
}

const countOf = (count, total) => filter.isOn ? `${count} of ${total}` : total;

// Finds the pairs from the moment that is shown on; and after a change those from now on, for warnings. The last ones stay
// listed until all are found.
function findPairs() {
  const key = [airspace.taken, shownAt, altitude].join(), isAll = !ahead && altitude === null, isListed = isAll || warnedOf === airspace.taken;
  if (finding || isListed && key === pairsKey) return;
  finding = { found: isListed ? new Conflicts(airspace, shownAt, altitude) : new Conflicts(airspace, now(), null), isListed, isWarned: isAll || !isListed, isSettled };
  if (isListed) pairsKey = key;
  if (finding.isWarned) warnedOf = airspace.taken;
  setTimeout(findMore);
}

function findMore() {
  if (!finding) return;
  const { found, isListed, isWarned } = finding;
  if (!found.work(document.hidden ? HIDDEN_SLICE : SLICE)) return void setTimeout(findMore);
  if (isListed) pairs = found;
  setTimeout(() => {
    if (!finding) return;
    if (isWarned) warn(found, finding.isSettled);
    finding = null;
    listPairs();
    findPairs();
  });
}

function listPairs() {
  if (!pairs) return;
  const test = filter.isOn ? filter.pairTest(pairs.references) : null;
  for (const [id, all, total] of [["pairs", pairs.conflicts, pairs.counts.slice(0, 3).reduce((a, b) => a + b)], ["overlaps", pairs.overlaps, pairs.counts[3]]]) {
    const found = pairs.fitting(all, test);
    fill(id, found, pairRow(id, pairs));
    of(`${id}-count`).textContent = countOf(found.length, total);
  }
  const kinds = ["Contingent", "Nonconforming"].map((name, k) => [pairs.counts[k], name]).filter(([count]) => count);
  of("pairs-kinds").textContent = kinds.map((it) => it.join(" with ")).join(", ");
}

// The seconds until a pair meets, from the moment that is looked at on.
function waitOf(wait, isAhead) {
  if (!wait) return isAhead ? "then" : "now";
  return isAhead ? `${duration(wait)} later` : `in ${duration(wait)}`;
}

const pairRow = (id, found) => (number) => {
  const { pair, wait } = found.pair(number), key = `${id} ${pair.map(nameOf).join()}`;
  const it = row(pair.map(swatchOf), `${pair.map(title).join(" and ")}, ${waitOf(wait, ahead && found === pairs)}`, key, () => {
    warnings.see(pair);
    tellWarnings();
    select(nameOf(pair[0]), key, [], nameOf(pair[1]));
    const cells = airspace.sharedCells(...pair, shownAt);
    if (cells.length) drawing.reveal(boxAround(cells));
  });
  if (warnings.isNew(pair)) it.firstChild.prepend(make("b", "new", { className: "new" }));
  return it;
};

// ---- warnings: what is new since the viewer last looked

// Where the gateway still looks for flights, what it finds is not new.
function warn(found, isSettled) {
  const fresh = warnings.takePairs(found);
  if (!isSettled) warnings.known = null;
  warned = found;
  if (fresh.length) {
    const { pair, wait } = found.pair(fresh[0]), first = `${pair.map(title).join(" and ")}, ${waitOf(wait)}`;
    announce(fresh.length === 1 ? `New conflict: ${first}` : `${fresh.length} new conflicts. The most urgent: ${first}`);
  }
  tellWarnings();
}

function warnOfDown() {
  const fresh = warnings.takeDown(airspace.suppliers.filter((it) => airspace.availabilityOf(it) === "Down"));
  if (!isSettled) warnings.down = null;
  if (fresh.length) announce(fresh.map((it) => `${it} is Down`).join(", "));
  tellWarnings();
}

// Said once by a screen reader, and by a tone where that was chosen.
function announce(text) {
  const it = of("announced");
  it.append(make("p", text));
  while (it.children.length > 3) it.firstChild.remove();
  if (of("sound").checked) sound();
}

function tellWarnings() {
  document.title = warnings.count ? `(${warnings.count}) Airspace` : "Airspace";
  of("warnings").hidden = !warnings.count;
  if (of("warned").textContent !== warnings.text) of("warned").textContent = warnings.text;
  fill("new-pairs", warnings.unseen.filter((it) => warnings.isNew(warned.pair(it).pair)), pairRow("new-pairs", warned));
}

of("see-all").addEventListener("click", () => {
  warnings.seeAll();
  tellWarnings();
  list1();
});
of("sound").addEventListener("change", () => { if (of("sound").checked) sound(); });

of("filter").addEventListener("input", () => {
  filter.set(of("filter").value, filter.off);
  show();
  link();
});

const itemRow = (place) => (it) => row([swatchOf(it)], title(it), `${place} ${nameOf(it)}`, () => {
  select(nameOf(it), `${place} ${nameOf(it)}`);
  revealItem(it);
});

// A list of twenty rows, and a button for more. What is made anew keeps the focus where it was.
function fill(id, items, make1) {
  const list = of(id), focused = list.contains(document.activeElement) ? document.activeElement.dataset.key : null;
  const most = opened.has(id) ? MORE : LISTED, rows = Array.from(items.slice(0, most), make1);
  if (items.length > LISTED) {
    const text = opened.has(id) ? `Show ${LISTED} of ${items.length}` : `Show ${Math.min(MORE, items.length)} of ${items.length}`;
    rows.push(row([], text, `${id} more`, () => {
      if (!opened.delete(id)) opened.add(id);
      list1();
    }));
  }
  list.replaceChildren(...rows);
  if (focused) [...list.querySelectorAll("button")].find((it) => it.dataset.key === focused)?.focus();
}

function list1() { if (airspace) list(); }

// What was chosen here has its details below.
function row(swatches, text, key, act) {
  const it = make("li"), line = make("div"), button = make("button", text, { type: "button" });
  button.dataset.key = key;
  button.addEventListener("click", act);
  line.append(...swatches, button);
  it.append(line);
  if (selection?.key === key) it.append(...selectedItems().map(detailsOf));
  return it;
}

function listGroups() {
  const groups = airspace.groups().slice(0, MOST_GROUPS);
  const rows = groups.length < 2 ? [] : groups.map(({ references, box }) => {
    const place = ground.nearest((box[0] + box[2]) / 2, (box[1] + box[3]) / 2);
    const it = make("button", `${place} ${references.length}`, { type: "button" });
    it.addEventListener("click", () => {
      drawing.isHome = false;
      drawing.frame(...box);
    });
    return it;
  });
  of("groups").replaceChildren(...rows);
}

function listLegend() {
  const isBySupplier = of("by-supplier").checked;
  const rows = ["Accepted", "Activated", "Nonconforming", "Contingent", "constraint"].map((it) => [stateSwitch(it, isBySupplier ? "--ink" : `--${it.toLowerCase()}`), ""]);
  if (isBySupplier) rows.push(...airspace.suppliers.slice(0, 8).map((it, k) => [swatch(`--s${k % 8}`, ""), it]));
  rows.push([swatch("", "both"), "shared"]);
  if (airspace.references.some(isDown)) rows.push([swatch("", "down"), "of a USS that is Down"]);
  if (!airspace.isWhole) rows.push([swatch("", "perhaps"), "perhaps"]);
  const focused = document.activeElement?.dataset.state;
  of("legend").replaceChildren(...rows.map(([it, text]) => {
    const row = make("li");
    row.append(it, text);
    return row;
  }));
  if (focused) of("legend").querySelector(`[data-state=${focused}]`).focus();
}

// A row of the legend that shows or hides a state, on the map and in the lists.
function stateSwitch(state, colour) {
  const it = make("button", "", { type: "button" });
  it.append(swatch(colour, state), state === "constraint" ? "Constraint" : state);
  it.dataset.state = state;
  it.setAttribute("aria-pressed", String(!filter.off.has(state)));
  it.addEventListener("click", () => {
    filter.toggle(state);
    show();
    link();
  });
  return it;
}

function listSuppliers() {
  const counts = new Map();
  airspace.references.forEach((it, k) => { if (airspace.there[k]) counts.set(it.manager, (counts.get(it.manager) ?? 0) + 1); });
  const rows = airspace.suppliers.map((uss) => {
    const cells = [uss, airspace.availabilityOf(uss), counts.get(uss) ?? 0], it = make("tr");
    it.append(...cells.map((text, k) => make("td", text, k === 1 ? { className: text } : {})));
    if (warnings.suppliers.has(uss)) it.children[1].append(make("b", "new", { className: "new" }));
    return it;
  });
  of("suppliers").tBodies[0].replaceChildren(...rows);
  const down = airspace.suppliers.filter((it) => airspace.availabilityOf(it) === "Down");
  of("suppliers-count").textContent = `${rows.length}${down.length ? `, down: ${down.join(", ")}` : ""}`;
}

function listInstances() {
  of("pool").hidden = !instances.list?.length;
  if (of("pool").hidden) return;
  of("instances").tBodies[0].replaceChildren(...instances.list.map(({ name, state, is_well: isWell }) => {
    const it = make("tr");
    it.append(make("td", name), make("td", state, { className: isWell === false ? "Down" : "" }));
    return it;
  }));
  of("instances-count").textContent = instances.text;
  of("instances-count").className = instances.list.some((it) => it.is_well === false) ? "count ill" : "count";
}

// ---- what is selected

const wanted = (it) => [["notify_for_operational_intents", "intents"], ["notify_for_constraints", "constraints"]]
  .filter(([name]) => it[name]).map(([, text]) => text).join(" and ");

function listOf(rows) {
  const list = make("dl");
  for (const [name, text] of rows) list.append(make("dt", name), make("dd", text));
  return list;
}

// With their reference, of the volumes that are there at the moment, or else of all.
function altitudesOf(it) {
  if (!it.volumes) return "not known: queries do not tell (WGS84)";
  const there = it.volumes.filter((one) => one.start <= shownAt && shownAt <= one.end), all = there.length ? there : it.volumes;
  return heights(Math.min(...all.map((one) => one.lower)), Math.max(...all.map((one) => one.upper)));
}

// As its manager published it.
function detailsOf(it) {
  const rows = [["id", it.id], ["manager", `${it.manager} (${it.uss_availability})`], ["altitude", altitudesOf(it)]];
  const [start, end] = it.kind === "subscription" ? [it.volumes[0].start, it.volumes[0].end] : [it.time_start, it.time_end];
  rows.push(["from", stamp(start)], ["to", stamp(end)]);
  if (it.kind === "subscription") rows.push(["for", wanted(it)], ["notified at", it.uss_base_url], ["notified", `${it.notification_index} times`]);
  else rows.push(["details at", it.uss_base_url], ["version", it.version], ["shown", airspace.isThere(it) ? "yes" : "no, not at this time and altitude"]);
  return listOf(rows);
}

const boxOf = (corners) => [Math.min(corners[0], corners[2], corners[4], corners[6]), Math.min(corners[1], corners[3], corners[5], corners[7]),
  Math.max(corners[0], corners[2], corners[4], corners[6]), Math.max(corners[1], corners[3], corners[5], corners[7])];

function boxAround(cells) {
  const boxes = cells.map((it) => boxOf(it.corners));
  return [0, 1].map((k) => Math.min(...boxes.map((it) => it[k]))).concat([2, 3].map((k) => Math.max(...boxes.map((it) => it[k]))));
}

function revealItem(it) {
  const cells = volumesOf(it).flatMap((one) => one.cells);
  if (cells.length) drawing.reveal(boxAround(cells));
}

// The item that is selected, and the other one of a pair.
const selectedItems = () => [selection.name, selection.partner].map((it) => airspace.items.get(it)).filter(Boolean);

// Outlines what is selected, the other one of a pair, and the cells in which they meet from the moment that is shown on.
function outlineSelection() {
  const [item, partner] = [selection?.name, selection?.partner].map((it) => airspace.items.get(it) ?? null);
  const cells = item && partner ? airspace.sharedCells(item, partner, shownAt) : [];
  drawing.selected = item ?? (selection ? drawing.selected : null);
  drawing.partner = partner;
  drawing.shared = cells.length ? outlineOf(cells) : [];
}

function select(name, key, others = [], partner = "") {
  const isOther = selection?.key !== key || selection?.name !== name;
  wantedSelection = [];
  selection = { name, key, others: others.map(nameOf), partner };
  outlineSelection();
  of("side").classList.add("open");
  of("sheet").setAttribute("aria-expanded", "true");
  cover();
  if (isOther) list();
  if (matchMedia("(max-width: 760px)").matches) of("side").scrollTop = 0;
  drawing.drawOverSoon();
  link();
}

function tellSelection() {
  of("selected").hidden = !selection;
  if (!selection) return;
  const item = airspace.items.get(selection.name), isInList = /^(new-pairs|pairs|overlaps|all|watching) /.test(selection.key);
  const items = selectedItems(), names = items.flatMap((it, k) => [k ? " and " : "", swatchOf(it), title(it)]);
  of("selected-title").replaceChildren(...item ? names : ["It has been deleted, or has ended"]);
  const others = selection.others.map((it) => airspace.items.get(it)).filter(Boolean), parts = item ? items.map(detailsOf) : [];
  // its row has them
  if (isInList && !matchMedia("(max-width: 760px)").matches && of("side").querySelector(`.list [data-key="${CSS.escape(selection.key)}"]`)) parts.length = 0;
  if (others.length) {
    const also = make("ul");
    also.append(...others.slice(0, LISTED).map((it) => row([swatchOf(it)], title(it), `other ${nameOf(it)}`, () => {
      const rest = [selection.name, ...selection.others].filter((one) => one !== nameOf(it)).map((one) => airspace.items.get(one)).filter(Boolean);
      select(nameOf(it), "map", rest);
    })));
    parts.push(make("p", `In the same cell (${others.length}):`), also);
  }
  of("selected-list").replaceChildren(...parts);
}

// Where several are, the most urgent is selected, and the others are named.
function selectAt(px, py) {
  const cell = airspace ? drawing.cellAt(px, py) : -1, found = cell < 0 ? [] : airspace.referencesIn(cell);
  if (!found.length) return letGo();
  select(nameOf(found[0]), "map", found.slice(1));
  if (!airspace.isWhole) askFor(tokenOf(airspace.cells[cell]), selection);
}

// What is in a cell at the moment that is looked at, as the service answers to just that.
async function askFor(cell, mine) {
  try {
    const { references } = await read(`map/cell.json?cell=${cell}&at=${moment()}${altitude === null ? "" : `&altitude=${altitude}`}`);
    if (mine !== selection) return;
    selection.others = references.map(nameOf).filter((it) => it !== selection.name);
    tellSelection();
  } catch (fault) {
    tellFault(`The cell could not be asked for: ${fault.message}`);
  }
}

function letGo() {
  selection = null;
  wantedSelection = [];
  if (airspace) {
    outlineSelection();
    list();
  }
  drawing.drawOverSoon();
  link();
}
of("let-go").addEventListener("click", letGo);

// ---- the sheet of a narrow window

function cover() {
  drawing.covered = matchMedia("(max-width: 760px)").matches ? of("side").getBoundingClientRect().height : 0;
}

of("sheet").addEventListener("click", () => {
  const isOpen = of("side").classList.toggle("open");
  of("sheet").setAttribute("aria-expanded", String(isOpen));
  cover();
  drawing.draw();
});
addEventListener("resize", cover);

// ---- the pointer and the keyboard

const pointing = new Pointing({
  map: of("map"), tip: of("tip"), drawing, title, selectAt, letGo, referenceAt: (px, py) => airspace && drawing.referenceAt(px, py),
});

of("nearer").addEventListener("click", () => drawing.zoom(1.5));
of("farther").addEventListener("click", () => drawing.zoom(1 / 1.5));
of("whole").addEventListener("click", () => drawing.showHome());
document.addEventListener("visibilitychange", () => { if (!document.hidden && token && !asking) look(); });
// After a reload, the token of this tab.
token = storedToken();
if (token) firstLook();
