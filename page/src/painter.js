// Paints the visible part of a history. If bars share a pixel, it paints one of them. If many marks share a few pixels, it paints a
// column, whose height says how many.

import { firstAtLeast } from "./columns.js";
import { drawBar, drawGlyph } from "./glyphs.js";
import { BARS, KIND, KINDS, LANES, LANE_COUNT } from "./kinds.js";
import { LANE_HEIGHT } from "./layout.js";
import { axisText, stepFor } from "./moments.js";

export const AXIS_HEIGHT = 24;
// The width of a column in pixels, the most marks of that width that are painted one by one, and how many columns beside it count too.
const COLUMN = 4;
const MOST_MARKS = 3;
const BESIDE = 2;
const GROUND = ["ground", "ink", "faint", "line", "select"];
const BAR_COLOURS = ["exclude", "include", "hatched", "stopped"];
const COLOURS = [...GROUND, ...BAR_COLOURS, "wanted", "heard", "finding", "dropped"];
const FONT = "12px system-ui, sans-serif";
const SMALL_FONT = "11px system-ui, sans-serif";

// The colours of the style sheet, by the names of its variables.
export function coloursOf(element) {
  const style = getComputedStyle(element);
  const colour = (name) => style.getPropertyValue(`--${name}`).trim();
  return Object.fromEntries(COLOURS.map((name) => [name, colour(name)]));
}

export class Painter {
  constructor(pen, size, colours, timeline) {
    Object.assign(this, { pen, size, colours });
    const { history, layout, window, scrollTop, labelWidth, selection } = timeline;
    Object.assign(this, { history, layout, window, scrollTop, labelWidth, selection });
    this.drawn = { marks: 0, bars: 0, columns: 0 };
  }

  x(moment) {
    const share = (moment - this.window.from) / this.window.span;
    return this.labelWidth + share * (this.size.width - this.labelWidth);
  }

  y(height) {
    return AXIS_HEIGHT + height - this.scrollTop;
  }

  paint() {
    const { pen, size, layout } = this;
    pen.clearRect(0, 0, size.width, size.height);
    this.paintAxis();
    pen.save();
    pen.beginPath();
    pen.rect(0, AXIS_HEIGHT, size.width, size.height - AXIS_HEIGHT);
    pen.clip();
    const first = Math.max(0, layout.rowAt(this.scrollTop));
    for (let row = first; row < this.history.names.length && this.y(layout.tops[row]) < size.height; row++) this.paintRow(row);
    pen.restore();
    return this.drawn;
  }

  paintAxis() {
    const { pen, size, colours } = this;
    const most = Math.max(2, (size.width - this.labelWidth) / 90);
    const step = stepFor(this.window.span, most);
    pen.font = SMALL_FONT;
    pen.textAlign = "center";
    pen.textBaseline = "middle";
    for (let moment = Math.max(0, Math.ceil(this.window.from / step) * step); moment <= this.window.to; moment += step) {
      const x = Math.round(this.x(moment)) + 0.5;
      pen.strokeStyle = colours.line;
      pen.beginPath();
      pen.moveTo(x, AXIS_HEIGHT - 4);
      pen.lineTo(x, size.height);
      pen.stroke();
      pen.fillStyle = colours.faint;
      const text = axisText(moment, step);
      const half = pen.measureText(text).width / 2;
      pen.fillText(text, Math.min(Math.max(x, half + 2), size.width - half - 2), AXIS_HEIGHT / 2 - 1);
    }
  }

  paintRow(row) {
    const { pen, size, layout } = this;
    const lanes = layout.lanes(row);
    const isSource = this.history.isSource[row];
    if (!isSource) {
      pen.strokeStyle = this.colours.line;
      pen.strokeRect(-1, Math.round(this.y(layout.tops[row])) + 0.5, size.width + 2, 0);
    }
    pen.save();
    pen.beginPath();
    pen.rect(this.labelWidth, AXIS_HEIGHT, size.width - this.labelWidth, size.height);
    pen.clip();
    const columns = lanes.map(({ lane }) => this.columnsOf(row, lane));
    const dense = densePlaces(columns.flat());
    lanes.forEach((lane, at) => {
      if (lane.lane === LANES.bar) this.paintBars(row, lane);
      this.paintMarks(row, lane, columns[at], dense);
    });
    pen.restore();
    this.paintLabel(row, lanes, isSource);
  }

  paintLabel(row, lanes, isSource) {
    const { pen, layout } = this;
    const bar = lanes.find((it) => it.lane === LANES.bar);
    const [top, bottom] = [layout.tops[row], layout.tops[row + 1]];
    const middle = layout.labelHeight > 0 ? top + 9 : (bar?.middle ?? (top + bottom) / 2);
    pen.font = isSource ? SMALL_FONT : FONT;
    pen.fillStyle = isSource ? this.colours.faint : this.colours.ink;
    pen.textAlign = "left";
    pen.textBaseline = "middle";
    const left = isSource ? 20 : 8;
    const most = (layout.labelHeight > 0 ? this.size.width : this.labelWidth) - left - 6;
    pen.fillText(shortened(pen, this.history.names[row], most), left, this.y(middle));
  }

  paintBars(row, { middle, height }) {
    const { bars } = this.history;
    const [low, high] = [bars.starts[row], bars.starts[row + 1]];
    const right = this.size.width;
    for (let bar = firstAtLeast(bars.end, this.window.from, low, high); bar < high; ) {
      const left = Math.max(this.labelWidth - 9, this.x(bars.begin[bar]));
      if (left > right) return;
      const end = Math.min(right + 9, this.x(bars.end[bar]));
      const box = { x: left, y: this.y(middle - height / 2), width: Math.max(1, end - left), height };
      drawBar(this.pen, BARS[bars.kind[bar]].name, box, this.colours);
      if (this.selection?.bar === bar) this.outline(box);
      this.paintBarName(bars.kind[bar], box);
      this.drawn.bars++;
      bar = end - left >= 1 ? bar + 1 : this.nextBar(bar, high, left + 1);
    }
  }

  // The bar behind those that end before the next pixel.
  nextBar(bar, high, x) {
    const moment = this.window.from + ((x - this.labelWidth) * this.window.span) / (this.size.width - this.labelWidth);
    return Math.max(bar + 1, firstAtLeast(this.history.bars.end, moment, bar + 1, high));
  }

  paintBarName(kind, box) {
    if (kind > 1 || box.width < 90) return;
    const { pen, colours } = this;
    pen.font = "bold 10px system-ui, sans-serif";
    pen.textAlign = "left";
    pen.textBaseline = "middle";
    const left = Math.max(box.x, this.labelWidth) + 6;
    pen.strokeStyle = kind === 0 ? colours.exclude : colours.hatched;
    pen.lineWidth = 4;
    pen.strokeText(BARS[kind].name, left, box.y + box.height / 2);
    pen.fillStyle = kind === 0 ? colours.ground : colours.ink;
    pen.fillText(BARS[kind].name, left, box.y + box.height / 2);
  }

  paintMarks(row, { lane, middle, height }, columns, dense) {
    const { marks } = this.history;
    const most = columns.reduce((greatest, { low, high }) => Math.max(greatest, high - low), 0);
    for (const { place, low, high, left } of columns) {
      if (dense.has(place)) this.paintColumn(low, left, middle, (height - 2) * shareOf(high - low, most));
      else for (let mark = low; mark < high; mark++) this.paintMark(mark, middle);
    }
    const selected = this.selection?.mark;
    if (selected !== undefined && marks.row[selected] === row && KINDS[marks.kind[selected]].lane === lane) {
      this.paintSelected(selected, middle);
    }
  }

  // The columns of a lane that have marks. They begin at multiples of their width in time, so they stay while the window moves.
  columnsOf(row, lane) {
    const { marks } = this.history;
    const [first, end] = [marks.starts[row * LANE_COUNT + lane], marks.starts[row * LANE_COUNT + lane + 1]];
    const width = (COLUMN * this.window.span) / (this.size.width - this.labelWidth);
    const columns = [];
    for (let low = firstAtLeast(marks.time, this.window.from - 2 * width, first, end); low < end; ) {
      const place = Math.floor(marks.time[low] / width);
      if (place * width > this.window.to + 2 * width) break;
      const high = Math.max(low + 1, firstAtLeast(marks.time, (place + 1) * width, low, end));
      columns.push({ place, low, high, left: this.x(place * width) });
      low = high;
    }
    return columns;
  }

  paintColumn(mark, left, middle, height) {
    this.pen.fillStyle = this.colourOf(this.history.marks.kind[mark], false);
    this.pen.fillRect(left, this.y(middle) + LANE_HEIGHT / 2 - height, COLUMN - 1, height);
    this.drawn.columns++;
  }

  // A replay drops the queries of the querier itself. They are not marked as dropped.
  paintMark(mark, middle) {
    const { marks } = this.history;
    const kind = marks.kind[mark];
    const isDropped = marks.dropped[mark] !== 0 && kind !== KIND.heard_query;
    const colours = { mark: this.colourOf(kind, isDropped), ground: this.colours.ground };
    drawGlyph(this.pen, KINDS[kind].glyph, this.x(marks.time[mark]), this.y(middle), colours, isDropped);
    this.drawn.marks++;
  }

  colourOf(kind, isDropped) {
    if (KINDS[kind].lane === LANES.finding) return this.colours.finding;
    if (kind === KIND.wanted_query) return this.colours.wanted;
    if (kind === KIND.heard_query) return this.colours.heard;
    return isDropped ? this.colours.dropped : this.colours.ink;
  }

  paintSelected(mark, middle) {
    const { pen, colours } = this;
    const x = this.x(this.history.marks.time[mark]);
    pen.strokeStyle = colours.select;
    pen.lineWidth = 1;
    pen.beginPath();
    pen.moveTo(x, AXIS_HEIGHT);
    pen.lineTo(x, this.size.height);
    pen.stroke();
    this.paintMark(mark, middle);
    pen.strokeStyle = colours.select;
    pen.lineWidth = 2.5;
    pen.beginPath();
    pen.arc(x, this.y(middle), 9, 0, 7);
    pen.stroke();
  }

  outline({ x, y, width, height }) {
    this.pen.strokeStyle = this.colours.select;
    this.pen.lineWidth = 2.5;
    this.pen.strokeRect(x - 2, y - 2, width + 4, height + 4);
  }
}

// The places of columns that stand for the marks of a row: where one lane has too many, or all lanes have on average, with the columns
// beside it.
function densePlaces(columns) {
  const [dense, totals] = [new Set(), new Map()];
  for (const { place, low, high } of columns) {
    if (high - low > MOST_MARKS) dense.add(place);
    for (let near = place - BESIDE; near <= place + BESIDE; near++) totals.set(near, (totals.get(near) ?? 0) + high - low);
  }
  for (const [place, total] of totals) if (total > MOST_MARKS * (2 * BESIDE + 1)) dense.add(place);
  return dense;
}

// The share of the greatest height for a number of marks, by orders of magnitude.
function shareOf(count, most) {
  return Math.max(0.3, Math.log(1 + count) / Math.log(1 + most));
}

// A text whose middle is left out if the text is too wide.
function shortened(pen, text, most) {
  if (pen.measureText(text).width <= most) return text;
  let kept = text.length - 1;
  const cut = () => `${text.slice(0, Math.ceil(kept / 2))}…${text.slice(text.length - Math.floor(kept / 2))}`;
  while (kept > 2 && pen.measureText(cut()).width > most) kept--;
  return cut();
}
