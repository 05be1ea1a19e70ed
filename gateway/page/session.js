// What outlives a reload: the token in this tab, the viewer's choices in this browser, and the view in the address.

const TOKEN = "dss-map-token", CHOICES = "dss-map-choices";

// A browser can refuse to store anything. Then nothing outlives a reload but the view.
function attempt(act) {
  try {
    return act();
  } catch {
    return null;
  }
}

export const storedToken = () => attempt(() => sessionStorage.getItem(TOKEN)) ?? "";
export const storeToken = (token) => attempt(() => token ? sessionStorage.setItem(TOKEN, token) : sessionStorage.removeItem(TOKEN));

// Boxes that are ticked as they were left.
export function keepChoices(boxes) {
  const before = attempt(() => JSON.parse(localStorage.getItem(CHOICES))) ?? {};
  for (const it of boxes) {
    it.checked = before[it.id] === true;
    it.addEventListener("change", () => attempt(() => localStorage.setItem(CHOICES, JSON.stringify(Object.fromEntries(boxes.map((one) => [one.id, one.checked]))))));
  }
}

// The address of a view: latitude, longitude, zoom, time, altitude, selection, filter, and states that are off. What is empty
// at its end is left out.
export function hashOf({ lat, lng, zoom, time, altitude, names, words, off }) {
  const parts = [lat.toFixed(5), lng.toFixed(5), zoom.toFixed(2), time, altitude, names.map(encodeURIComponent).join("+"), encodeURIComponent(words), [...off].join("+")];
  while (parts.length > 6 && !parts.at(-1)) parts.pop();
  return `#${parts.join()}`;
}

// The view of an address; null if it has none.
export function viewOf(hash) {
  const [lat, lng, zoom, time, altitude, names = "", words = "", off = ""] = hash.slice(1).split(",");
  const numbers = [lat, lng, zoom].map(Number), decoded = (it) => attempt(() => decodeURIComponent(it)) ?? "";
  if (!zoom || !numbers.every(Number.isFinite)) return null;
  const metres = altitude === "all" || !altitude ? null : Number(altitude), list = (it) => it.split("+").filter(Boolean).map(decoded);
  return { lat: numbers[0], lng: numbers[1], zoom: numbers[2], time: time === "now" ? null : Number(time), metres, names: list(names), words: decoded(words), off: list(off) };
}
