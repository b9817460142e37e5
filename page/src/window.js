// The visible part of a history, from one time to another.

const LEAST = 20;
const MARGIN = 0.015;

export class TimeWindow {
  constructor(end) {
    const margin = Math.max(LEAST / 2, end * MARGIN);
    this.least = -margin;
    this.most = end + margin;
    this.whole();
  }

  get span() {
    return this.to - this.from;
  }

  whole() {
    this.set(this.least, this.most);
  }

  // Moves the window into the capture's time, and returns whether it changed.
  set(from, to) {
    const before = [this.from, this.to];
    const span = Math.min(Math.max(to - from, LEAST), this.most - this.least);
    this.from = Math.min(Math.max(from, this.least), this.most - span);
    this.to = this.from + span;
    return before[0] !== this.from || before[1] !== this.to;
  }

  // Zooms by a factor, so that `moment` stays where it is.
  zoom(factor, moment = (this.from + this.to) / 2) {
    const span = Math.min(Math.max(this.span * factor, LEAST), this.most - this.least);
    const from = moment - ((moment - this.from) * span) / this.span;
    return this.set(from, from + span);
  }

  // Moves by a share of the visible time.
  go(share) {
    return this.set(this.from + share * this.span, this.to + share * this.span);
  }

  // Brings a moment into view.
  reach(moment) {
    if (moment >= this.from && moment <= this.to) return false;
    return this.set(moment - this.span / 2, moment + this.span / 2);
  }
}
