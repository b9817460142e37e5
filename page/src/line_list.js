// A list of lines; only the visible ones are in the document. Keys move the current line, which screen readers announce.

const LINE = 20;
// Browsers limit the height of an element. A list that exceeds the limit is scrolled by shares of its length.
const MOST_HEIGHT = 8_000_000;

export class LineList {
  // `onSelect` is called with the number of a line, from 0 on, that a person chose.
  constructor(box, onSelect) {
    this.box = box;
    this.onSelect = onSelect;
    this.count = 0;
    this.current = -1;
    this.inner = document.createElement("div");
    this.inner.className = "lines";
    this.inner.setAttribute("role", "presentation");
    box.replaceChildren(this.inner);
    box.addEventListener("scroll", () => this.draw());
    box.addEventListener("keydown", (event) => this.key(event));
    box.addEventListener("click", (event) => this.click(event));
    new ResizeObserver(() => this.draw()).observe(box);
  }

  // `textOf` gives the text of a line.
  show(count, textOf) {
    this.count = count;
    this.textOf = textOf;
    this.current = -1;
    this.box.removeAttribute("aria-activedescendant");
    this.inner.style.height = `${Math.min(count * LINE, MOST_HEIGHT)}px`;
    this.box.scrollTop = 0;
    this.draw();
  }

  get visible() {
    return Math.ceil(this.box.clientHeight / LINE);
  }

  // The first visible line.
  get first() {
    const { scrollTop, clientHeight } = this.box;
    if (this.count * LINE <= MOST_HEIGHT) return Math.floor(scrollTop / LINE);
    const share = scrollTop / (MOST_HEIGHT - clientHeight);
    return Math.round(share * (this.count - Math.floor(clientHeight / LINE)));
  }

  topOf(line) {
    if (this.count * LINE <= MOST_HEIGHT) return line * LINE;
    return this.box.scrollTop + (line - this.first) * LINE;
  }

  draw() {
    if (!this.textOf) return;
    const first = Math.max(0, this.first - 2);
    const behind = Math.min(this.count, first + this.visible + 4);
    const lines = [];
    for (let line = first; line < behind; line++) lines.push(this.lineElement(line));
    this.inner.replaceChildren(...lines);
    if (this.current >= first && this.current < behind) this.box.setAttribute("aria-activedescendant", this.idOf(this.current));
    else this.box.removeAttribute("aria-activedescendant");
  }

  idOf(line) {
    return `${this.box.id}-${line + 1}`;
  }

  lineElement(line) {
    const element = document.createElement("div");
    const attributes = { id: this.idOf(line), role: "option", "aria-posinset": line + 1, "aria-setsize": this.count };
    for (const [name, value] of Object.entries(attributes)) element.setAttribute(name, value);
    element.setAttribute("aria-selected", String(line === this.current));
    element.dataset.line = line;
    element.style.top = `${this.topOf(line)}px`;
    element.textContent = this.textOf(line);
    return element;
  }

  // Makes a line the current one and brings it into view. -1 stands for no line.
  select(line) {
    this.current = line;
    if (line >= 0) this.reach(line);
    this.draw();
  }

  reach(line) {
    const whole = Math.floor(this.box.clientHeight / LINE);
    if (line >= this.first && line < this.first + whole) return;
    const first = Math.min(Math.max(0, line - Math.floor(whole / 2)), Math.max(0, this.count - whole));
    const isLong = this.count * LINE > MOST_HEIGHT;
    const share = first / Math.max(1, this.count - whole);
    this.box.scrollTop = isLong ? share * (MOST_HEIGHT - this.box.clientHeight) : first * LINE;
  }

  choose(line) {
    if (this.count === 0) return;
    const chosen = Math.min(Math.max(line, 0), this.count - 1);
    this.select(chosen);
    this.onSelect(chosen);
  }

  click(event) {
    const element = event.target.closest("[data-line]");
    if (element && getSelection().isCollapsed) this.choose(Number(element.dataset.line));
  }

  key(event) {
    const page = Math.max(1, this.visible - 1);
    const steps = { ArrowDown: 1, ArrowUp: -1, PageDown: page, PageUp: -page, Home: -Infinity, End: Infinity };
    const step = steps[event.key];
    if (step === undefined || event.ctrlKey || event.metaKey || event.altKey) return;
    event.preventDefault();
    this.choose(this.current < 0 && Math.abs(step) === 1 ? this.first : this.current + step);
  }
}
