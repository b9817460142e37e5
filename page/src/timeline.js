// The picture of a history: a canvas as large as its visible part, with wheel, pointer and keys.

import { firstAtLeast } from "./columns.js";
import { LANE_COUNT } from "./kinds.js";
import { Layout } from "./layout.js";
import { AXIS_HEIGHT, coloursOf, Painter } from "./painter.js";
import { Pointers } from "./pointers.js";
import { TimeWindow } from "./window.js";

const NARROW = 600;
const NEAR = 8;
const ZOOM = 1.5;
// The free space below the last row.
const FOOT = 8;

export class Timeline {
  // `onSelect` is called with a mark or a bar: { mark } or { bar }.
  constructor(box, onSelect) {
    this.box = box;
    this.canvas = box.querySelector("canvas");
    this.spacer = box.querySelector(".spacer");
    this.onSelect = onSelect;
    this.history = null;
    this.selection = null;
    box.addEventListener("wheel", (event) => this.wheel(event), { passive: false });
    box.addEventListener("keydown", (event) => this.key(event));
    box.addEventListener("scroll", () => this.draw());
    this.pointers = new Pointers(this);
    new ResizeObserver(() => this.resize()).observe(box);
    matchMedia("(prefers-color-scheme: dark)").addEventListener("change", () => this.draw());
  }

  show(history) {
    this.history = history;
    this.selection = null;
    this.window = new TimeWindow(history.end);
    this.box.scrollTop = 0;
    this.resize();
  }

  clear() {
    this.history = null;
  }

  get scrollTop() {
    return this.box.scrollTop;
  }

  get labelWidth() {
    return this.layout.labelHeight > 0 ? 0 : this.wideLabels;
  }

  resize() {
    if (!this.history || this.box.clientWidth === 0) return;
    this.layout = new Layout(this.history, this.box.clientWidth < NARROW);
    this.wideLabels = this.widthOfLabels();
    const height = this.layout.height + AXIS_HEIGHT + FOOT;
    this.spacer.style.height = `${height}px`;
    this.box.style.height = `${height + 2}px`;
    this.draw();
  }

  // As wide as the longest of the first names, within bounds.
  widthOfLabels() {
    const longest = this.history.names.slice(0, 2000).reduce((most, it) => Math.max(most, it.length), 0);
    return Math.min(Math.max(110, longest * 7 + 24), this.box.clientWidth * 0.3);
  }

  draw() {
    if (this.history && !this.frame) this.frame = requestAnimationFrame(() => this.drawNow());
  }

  drawNow() {
    this.frame = 0;
    if (!this.history || !this.layout) return;
    const size = { width: this.box.clientWidth, height: this.box.clientHeight };
    const scale = window.devicePixelRatio || 1;
    this.canvas.width = Math.round(size.width * scale);
    this.canvas.height = Math.round(size.height * scale);
    this.canvas.style.width = `${size.width}px`;
    this.canvas.style.height = `${size.height}px`;
    const pen = this.canvas.getContext("2d");
    pen.scale(scale, scale);
    const { marks, bars, columns } = new Painter(pen, size, coloursOf(this.box), this).paint();
    Object.assign(this.canvas.dataset, { marks, bars, columns });
  }

  // `selection` is a mark or a bar, or null.
  select(selection) {
    this.selection = selection;
    if (selection) this.reach(selection);
    this.draw();
  }

  // Brings a mark, or some of a bar, into view.
  reach({ mark, bar }) {
    const { marks, bars } = this.history;
    const row = mark === undefined ? bars.row[bar] : marks.row[mark];
    const ofBar = (it) => Math.min(Math.max(this.window.from, bars.begin[it]), bars.end[it]);
    this.window.reach(mark === undefined ? ofBar(bar) : marks.time[mark]);
    const [top, bottom] = [this.layout.tops[row], this.layout.tops[row + 1] + AXIS_HEIGHT + FOOT];
    if (top < this.box.scrollTop) this.box.scrollTop = top;
    else if (bottom > this.box.scrollTop + this.box.clientHeight) this.box.scrollTop = bottom - this.box.clientHeight;
  }

  zoom(factor, moment) {
    const isOther = this.window.zoom(factor, moment);
    this.draw();
    return isOther;
  }

  go(share) {
    const isOther = this.window.go(share);
    this.draw();
    return isOther;
  }

  whole() {
    this.window.whole();
    this.draw();
  }

  // The time that a number of pixels stands for.
  spanOf(pixels) {
    return (pixels * this.window.span) / (this.box.clientWidth - this.labelWidth);
  }

  momentAt(x) {
    return this.window.from + this.spanOf(x - this.labelWidth);
  }

  place(event) {
    const { left, top } = this.canvas.getBoundingClientRect();
    return { x: event.clientX - left, y: event.clientY - top };
  }

  // The wheel zooms over the bars. With shift, or sideways, it moves the window. If that changes nothing, it scrolls the page.
  wheel(event) {
    const { x } = this.place(event);
    if (!this.history || (x < this.labelWidth && !event.ctrlKey)) return;
    const along = event.shiftKey ? event.deltaY || event.deltaX : event.deltaX;
    const isAlong = event.shiftKey || Math.abs(event.deltaX) > Math.abs(event.deltaY);
    const steps = (isAlong ? along : event.deltaY) / (event.deltaMode === 1 ? 3 : 100);
    const isOther = isAlong ? this.go(steps * 0.1) : this.zoom(1.25 ** steps, this.momentAt(x));
    if (isOther || event.ctrlKey) event.preventDefault();
  }

  click(place) {
    const hit = this.hit(place);
    if (hit) this.onSelect(hit);
  }

  // Returns the mark or bar at a place, or null. If several marks are at one place, each click finds another one.
  hit({ x, y }) {
    const row = this.layout.rowAt(y - AXIS_HEIGHT + this.box.scrollTop);
    if (row < 0 || y < AXIS_HEIGHT || x < this.labelWidth) return null;
    const height = y - AXIS_HEIGHT + this.box.scrollTop;
    const lanes = this.layout.lanes(row).sort((a, b) => Math.abs(a.middle - height) - Math.abs(b.middle - height));
    for (const { lane, middle } of lanes) {
      const mark = Math.abs(middle - height) <= NEAR ? this.markAt(row, lane, x) : null;
      if (mark !== null) return { mark };
    }
    return this.barAt(row, this.momentAt(x));
  }

  markAt(row, lane, x) {
    const { time, starts } = this.history.marks;
    const [low, high] = [starts[row * LANE_COUNT + lane], starts[row * LANE_COUNT + lane + 1]];
    const [first, behind] = [-NEAR, NEAR].map((it) => firstAtLeast(time, this.momentAt(x + it), low, high));
    const moment = this.momentAt(x);
    const near = Array.from({ length: Math.min(behind - first, 1000) }, (_, it) => first + it);
    near.sort((a, b) => Math.abs(time[a] - moment) - Math.abs(time[b] - moment) || a - b);
    const at = near.indexOf(this.selection?.mark);
    if (at === 0 || (at > 0 && time[near[at]] === time[near[0]])) return near[(at + 1) % near.length];
    return near[0] ?? null;
  }

  barAt(row, moment) {
    const { begin, end, starts } = this.history.bars;
    for (let bar = starts[row]; bar < starts[row + 1]; bar++) if (begin[bar] <= moment && moment <= end[bar]) return { bar };
    return null;
  }

  key(event) {
    if (!this.history || event.ctrlKey || event.metaKey || event.altKey) return;
    const act = this.actionOf(event);
    if (!act) return;
    act();
    event.preventDefault();
  }

  actionOf({ key, shiftKey }) {
    const keys = {
      "+": () => this.zoom(1 / ZOOM, this.selectedMoment()),
      "=": () => this.zoom(1 / ZOOM, this.selectedMoment()),
      "-": () => this.zoom(ZOOM, this.selectedMoment()),
      0: () => this.whole(),
      PageUp: () => this.go(-0.5),
      PageDown: () => this.go(0.5),
      ArrowLeft: () => (shiftKey ? this.go(-0.1) : this.step(-1)),
      ArrowRight: () => (shiftKey ? this.go(0.1) : this.step(1)),
      ArrowUp: () => this.stepRow(-1),
      ArrowDown: () => this.stepRow(1),
      Home: () => this.stepTo(0),
      End: () => this.stepTo(Infinity),
    };
    return keys[key];
  }

  selectedMoment() {
    const mark = this.selection?.mark;
    const moment = mark === undefined ? undefined : this.history.marks.time[mark];
    return moment >= this.window.from && moment <= this.window.to ? moment : undefined;
  }

  // The marks of a row by their moments. The last row asked for is kept.
  marksOfRow(row) {
    const { starts, time } = this.history.marks;
    if (this.kept?.row !== row || this.kept.history !== this.history) {
      const [low, high] = [starts[row * LANE_COUNT], starts[(row + 1) * LANE_COUNT]];
      const marks = new Uint32Array(high - low).map((_, it) => low + it).sort((a, b) => time[a] - time[b] || a - b);
      this.kept = { row, marks, history: this.history };
    }
    return this.kept.marks;
  }

  currentRow() {
    const { mark, bar } = this.selection ?? {};
    if (mark !== undefined) return this.history.marks.row[mark];
    return bar === undefined ? -1 : this.history.bars.row[bar];
  }

  step(by) {
    const row = this.currentRow();
    if (row < 0) return this.stepRow(1);
    const marks = this.marksOfRow(row);
    return this.stepTo(marks.indexOf(this.selection.mark ?? -1) + by);
  }

  // The mark at a place in the current row.
  stepTo(place) {
    const marks = this.marksOfRow(Math.max(0, this.currentRow()));
    const mark = marks[Math.min(Math.max(place, 0), marks.length - 1)];
    if (mark !== undefined) this.onSelect({ mark });
  }

  // The mark nearest in time in the next row that has marks.
  stepRow(by) {
    const { starts, time } = this.history.marks;
    let row = this.currentRow() + by;
    const has = (it) => starts[it * LANE_COUNT] < starts[(it + 1) * LANE_COUNT];
    while (row >= 0 && row < this.history.names.length && !has(row)) row += by;
    if (row < 0 || row >= this.history.names.length) return;
    const moment = this.selectedMoment() ?? this.window.from;
    const marks = this.marksOfRow(row);
    const nearest = marks.reduce((best, it) => (Math.abs(time[it] - moment) < Math.abs(time[best] - moment) ? it : best), marks[0]);
    this.onSelect({ mark: nearest });
  }
}
