// The health of each instance of a pool, beside the map.
export class Instances {
  constructor() {
    this.list = null; // as the gateway gives them; null before its first answer
    this.well = new Map(); // whether each served when it was last known
  }

  // Whether the gateway is to be asked: it was not yet, or it has instances.
  get isAsked() { return !this.list || this.list.length > 0; }

  // Takes an answer; what changed since the one before, in words.
  take(list) {
    const news = [];
    for (const { name, is_well: isWell, state } of list) {
      if (this.well.has(name) && this.well.get(name) !== isWell) news.push(isWell ? `Instance ${name} serves again` : `Instance ${name} does not serve: ${state}`);
      this.well.set(name, isWell);
    }
    this.list = list;
    return news;
  }

  // The gateway does not answer: nothing is known.
  lose() { this.list = this.list?.map(({ name }) => ({ name, is_well: null, state: "not known" })) ?? null; }

  // The number of instances, and those that do not serve.
  get text() {
    const ill = this.list.filter((it) => it.is_well === false).map((it) => it.name);
    return `${this.list.length}${ill.length ? `, not serving: ${ill.join(", ")}` : ""}`;
  }
}
