// The verdict and the first findings at the top of the page, and steps from finding to finding at the picture.

const FIRST = 5;

export class Findings {
  // `onSelect` is called with the mark of a finding.
  constructor(section, onSelect) {
    this.section = section;
    this.onSelect = onSelect;
    this.marks = [];
    this.current = null;
    document.addEventListener("keydown", (event) => this.key(event));
  }

  clear() {
    this.section.hidden = true;
    this.marks = [];
  }

  // `marks` are those of the findings, by time, and `times` the times of all marks. `lineOf` gives the words of a mark.
  show({ kind, sentence }, marks, times, lineOf) {
    Object.assign(this, { marks, times, current: null });
    this.section.hidden = false;
    this.section.dataset.kind = kind;
    document.getElementById("sentence").textContent = sentence;
    const first = [...marks.slice(0, FIRST)].map((mark) => this.entry(mark, lineOf(mark)));
    document.getElementById("first").replaceChildren(...first);
    document.getElementById("steps").hidden = marks.length === 0;
    this.tellPlace();
  }

  entry(mark, words) {
    const [item, button] = [document.createElement("li"), document.createElement("button")];
    Object.assign(button, { type: "button", textContent: words });
    button.addEventListener("click", () => this.onSelect(mark));
    item.append(button);
    return item;
  }

  // A mark, or none, was chosen somewhere.
  select(mark) {
    this.current = mark ?? null;
    this.tellPlace();
  }

  tellPlace() {
    const at = this.current === null ? -1 : this.marks.indexOf(this.current);
    const count = this.marks.length.toLocaleString("en");
    document.getElementById("place").textContent = at < 0 ? `${count} in all` : `${(at + 1).toLocaleString("en")} of ${count}`;
  }

  // The place of the finding before or after the chosen mark. From a mark that is none it goes by time, and from nothing to an end.
  placeAfter(by) {
    const { marks, times, current } = this;
    if (current === null) return by > 0 ? 0 : marks.length - 1;
    const at = marks.indexOf(current);
    if (at >= 0) return Math.min(Math.max(at + by, 0), marks.length - 1);
    const later = marks.findIndex((it) => times[it] >= times[current]);
    const next = later < 0 ? marks.length : later;
    return Math.min(Math.max(by > 0 ? next : next - 1, 0), marks.length - 1);
  }

  step(by) {
    if (this.marks.length > 0) this.onSelect(this.marks[this.placeAfter(by)]);
  }

  key({ key, target, ctrlKey, metaKey, altKey }) {
    const by = { n: 1, p: -1 }[key];
    if (by && !ctrlKey && !metaKey && !altKey && !/^(INPUT|SELECT|TEXTAREA)$/.test(target.tagName)) this.step(by);
  }
}
