// The pointer and the keyboard on the map.

// Moves, zooms and points by the events of a canvas.
export class Pointing {
  constructor({ map, tip, drawing, title, selectAt, letGo, referenceAt }) {
    Object.assign(this, { map, tip, drawing, title, selectAt, referenceAt });
    this.pointers = new Map();
    this.moved = 0;
    this.pointed = null;
    this.isHoverDue = false;
    map.addEventListener("pointerdown", (event) => this.begin(event));
    map.addEventListener("pointermove", (event) => this.go(event));
    map.addEventListener("pointerup", (event) => {
      if (this.pointers.size === 1 && this.moved <= 4) selectAt(...this.place(event));
      this.pointers.delete(event.pointerId);
    });
    map.addEventListener("pointercancel", (event) => this.pointers.delete(event.pointerId));
    map.addEventListener("pointerleave", () => {
      this.pointed = null;
      this.hover();
    });
    map.addEventListener("wheel", (event) => {
      event.preventDefault();
      drawing.zoom(2 ** (-event.deltaY / (event.deltaMode ? 6 : 300)), ...this.place(event));
    }, { passive: false });
    listenToKeys({ map, drawing, selectAt, letGo });
  }

  place(event) {
    const box = this.map.getBoundingClientRect();
    return [event.clientX - box.left, event.clientY - box.top];
  }

  // The whole reference under the pointer is highlighted.
  hover() {
    const { map, tip, drawing, pointed } = this, it = pointed ? this.referenceAt(...pointed) : null;
    if (it !== drawing.hovered) {
      drawing.hovered = it;
      drawing.drawOverSoon();
      map.classList.toggle("hit", Boolean(it));
      tip.textContent = it ? this.title(it) : "";
      tip.hidden = !it;
    }
    if (it) {
      const [x, y] = pointed, isLeft = x > drawing.width - 260;
      tip.style.transform = `translate(${x + (isLeft ? -10 : 14)}px, ${y + 16}px) translateX(${isLeft ? -100 : 0}%)`;
    }
  }

  hoverSoon(isFirst) {
    if (!isFirst && this.isHoverDue) return;
    this.isHoverDue = true;
    requestAnimationFrame(() => {
      this.isHoverDue = false;
      this.hover();
    });
  }

  begin(event) {
    this.map.setPointerCapture(event.pointerId);
    this.drawing.usesKeys = false;
    if (!this.pointers.size) this.moved = 0;
    this.pointers.set(event.pointerId, this.place(event));
  }

  go(event) {
    const { drawing, pointers } = this, from = pointers.get(event.pointerId);
    if (event.pointerType === "mouse") {
      const isFirst = !this.pointed;
      this.pointed = from ? null : this.place(event);
      if (from) this.hover();
      else this.hoverSoon(isFirst);
    }
    if (!from) return;
    const to = this.place(event), before = pointers.size === 2 ? spread(pointers) : null;
    pointers.set(event.pointerId, to);
    this.moved += Math.hypot(to[0] - from[0], to[1] - from[1]);
    if (before) {
      const [distance, px, py] = spread(pointers);
      drawing.zoom(distance / Math.max(1, before[0]), px, py);
      drawing.move(px - before[1], py - before[2]);
    } else if (pointers.size === 1 && this.moved > 4) {
      drawing.move(to[0] - from[0], to[1] - from[1]);
    }
  }
}

// Of two pointers, how far apart they are, and where their middle is.
function spread(pointers) {
  const [a, b] = [...pointers.values()];
  return [Math.hypot(a[0] - b[0], a[1] - b[1]), (a[0] + b[0]) / 2, (a[1] + b[1]) / 2];
}

function listenToKeys({ map, drawing, selectAt, letGo }) {
  const keys = {
    ArrowLeft: () => drawing.move(60, 0), ArrowRight: () => drawing.move(-60, 0), ArrowUp: () => drawing.move(0, 60), ArrowDown: () => drawing.move(0, -60),
    "+": () => drawing.zoom(1.5), "=": () => drawing.zoom(1.5), "-": () => drawing.zoom(1 / 1.5), Home: () => drawing.showHome(),
    Enter: () => selectAt(drawing.width / 2, drawing.height / 2), Escape: letGo,
  };
  map.addEventListener("keydown", (event) => {
    if (!keys[event.key] || event.ctrlKey || event.metaKey || event.altKey) return;
    event.preventDefault();
    drawing.usesKeys = true;
    keys[event.key]();
  });
  for (const name of ["focus", "blur"]) map.addEventListener(name, () => drawing.draw());
}
