// Mouse, pen and fingers on the picture: a click selects, a movement drags, two fingers zoom.

const LEAST_DRAG = 4;

export class Pointers {
  constructor(timeline) {
    this.timeline = timeline;
    this.down = new Map();
    const { box } = timeline;
    box.addEventListener("pointerdown", (event) => this.begin(event));
    box.addEventListener("pointermove", (event) => this.move(event));
    box.addEventListener("pointerup", (event) => this.end(event));
    box.addEventListener("pointercancel", (event) => this.down.delete(event.pointerId));
  }

  begin(event) {
    const { timeline } = this;
    if (!timeline.history || event.button !== 0 || event.target !== timeline.canvas) return;
    const { x, y } = timeline.place(event);
    const [from, top] = [timeline.window.from, timeline.box.scrollTop];
    this.down.set(event.pointerId, { x, y, first: { x, y, from, top }, isDrag: false });
  }

  move(event) {
    const pointer = this.down.get(event.pointerId);
    const place = this.timeline.place(event);
    if (!pointer) return this.hover(event, place);
    const before = this.spread();
    Object.assign(pointer, place);
    if (this.down.size === 2) return this.pinch(before);
    const { first } = pointer;
    if (!pointer.isDrag && Math.hypot(place.x - first.x, place.y - first.y) < LEAST_DRAG) return;
    if (!pointer.isDrag) this.timeline.canvas.setPointerCapture(event.pointerId);
    pointer.isDrag = true;
    this.drag(first, place, event.pointerType === "mouse");
  }

  end(event) {
    const pointer = this.down.get(event.pointerId);
    this.down.delete(event.pointerId);
    if (pointer && !pointer.isDrag) this.timeline.click(this.timeline.place(event));
  }

  // Fingers scroll up and down by the browser's own means.
  drag(first, place, isMouse) {
    const { timeline } = this;
    const from = first.from - timeline.spanOf(place.x - first.x);
    timeline.window.set(from, from + timeline.window.span);
    if (isMouse) timeline.box.scrollTop = first.top - (place.y - first.y);
    timeline.draw();
  }

  // The distance of two fingers and the middle between them, or nothing for one pointer.
  spread() {
    const [one, other] = [...this.down.values()];
    return other ? { width: Math.abs(one.x - other.x), middle: (one.x + other.x) / 2 } : null;
  }

  pinch(before) {
    const { timeline } = this;
    for (const it of this.down.values()) it.isDrag = true;
    const after = this.spread();
    const moment = timeline.momentAt(before.middle);
    timeline.zoom(Math.max(before.width, 1) / Math.max(after.width, 1), moment);
  }

  hover(event, place) {
    const { timeline } = this;
    const isOver = timeline.history && event.target === timeline.canvas && timeline.hit(place) !== null;
    timeline.canvas.style.cursor = isOver ? "pointer" : "grab";
  }
}
