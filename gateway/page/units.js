// Times and heights as the viewer chose to read them.

export const chosen = { feet: false, local: false };
const FOOT = 0.3048;
const UNBOUNDED = [-100000, 1000000]; // decimetres that the gateway puts in place of absent altitudes

const minutesOf = (second) => chosen.local ? -new Date(1000 * second).getTimezoneOffset() : 0;
const text = (second) => new Date(1000 * (second + 60 * minutesOf(second))).toISOString();

// UTC, or how far local time is from it then.
function zone(second) {
  const minutes = minutesOf(second), rest = Math.abs(minutes) % 60;
  if (!chosen.local) return "UTC";
  return `UTC${minutes < 0 ? "-" : "+"}${Math.floor(Math.abs(minutes) / 60)}${rest ? `:${String(rest).padStart(2, "0")}` : ""}`;
}

export const clock = (second) => `${text(second).slice(11, 19)} ${zone(second)}`;
export const stamp = (second) => `${text(second).slice(0, 10)} ${clock(second)}`;

export function duration(seconds) {
  if (seconds < 60) return `${seconds} s`;
  const minutes = Math.round(seconds / 60), parts = [[Math.floor(minutes / 60), "h"], [minutes % 60, "min"]];
  return parts.filter(([count]) => count).map((it) => it.join(" ")).join(" ");
}

const unit = () => chosen.feet ? "ft" : "m";
const lengthOf = (metres) => chosen.feet ? Math.round(metres / FOOT) : metres;

export const height = (metres) => `${lengthOf(metres)} ${unit()}`;

// From one height to another, in decimetres.
export function heights(lower, upper) {
  const [low, high] = [lower, upper].map((it) => UNBOUNDED.includes(it) ? null : lengthOf(it / 10));
  return low === null && high === null ? "all (WGS84 ellipsoid)" : `${low ?? "below"} to ${high ?? "above"} ${unit()} over the WGS84 ellipsoid`;
}
