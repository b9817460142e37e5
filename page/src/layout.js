// The positions of the rows and lanes of a history, from the top.

import { firstAtLeast } from "./columns.js";
import { lanesOf } from "./history.js";
import { LANES } from "./kinds.js";

export const LANE_HEIGHT = 12;
const BAR_HEIGHT = 14;
const SOURCE_HEIGHT = 15;
const LABEL_HEIGHT = 15;
const GAP = 8;

const heightOf = (lane) => (lane === LANES.bar ? BAR_HEIGHT : LANE_HEIGHT);

export class Layout {
  // In a narrow window labels stand above their rows.
  constructor(history, isNarrow) {
    this.history = history;
    this.labelHeight = isNarrow ? LABEL_HEIGHT : 0;
    const count = history.names.length;
    this.tops = new Float64Array(count + 1);
    for (let row = 0; row < count; row++) this.tops[row + 1] = this.tops[row] + this.rowHeight(row);
  }

  rowHeight(row) {
    if (this.history.isSource[row]) return SOURCE_HEIGHT + this.labelHeight;
    const lanes = lanesOf(this.history, row).map(heightOf);
    return Math.max(LANE_HEIGHT, lanes.reduce((sum, it) => sum + it, 0)) + GAP + this.labelHeight;
  }

  get height() {
    return this.tops[this.tops.length - 1];
  }

  // The row at a height, or -1.
  rowAt(y) {
    if (y < 0 || y >= this.height) return -1;
    return firstAtLeast(this.tops, y + 0.001, 0, this.tops.length) - 1;
  }

  // The lanes of a row with the middle and the height of each.
  lanes(row) {
    let top = this.tops[row] + this.labelHeight;
    if (this.history.isSource[row]) return [{ lane: LANES.bar, middle: top + SOURCE_HEIGHT / 2, height: SOURCE_HEIGHT - 6 }];
    top += GAP / 2;
    return lanesOf(this.history, row).map((lane) => {
      const height = heightOf(lane);
      top += height;
      return { lane, middle: top - height / 2, height };
    });
  }
}
