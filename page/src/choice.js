// The choice of an interface, if a file has several. Without a choice their packets are taken as those of one link, and the page says so.

const MOST_NAMES = 6;

function packetCount({ packets }) {
  return `${packets.toLocaleString("en")} ${packets === 1 ? "packet" : "packets"}`;
}

function wordsOf(interfaces, chosen) {
  if (interfaces.length < 2) return "";
  const one = interfaces.find(({ number }) => number === chosen);
  if (one) return `Only packets of ${one.name} are taken: ${packetCount(one)}.`;
  const names = interfaces.slice(0, MOST_NAMES).map((it) => `${it.name} (${packetCount(it)})`);
  const rest = interfaces.length > MOST_NAMES ? ", .." : "";
  return `Packets of ${interfaces.length} interfaces are taken as those of one link: ${names.join(", ")}${rest}.`;
}

export class Choice {
  // `onChoose` is called with the number of an interface, or null for all of them.
  constructor(box, onChoose) {
    this.box = box;
    this.words = box.querySelector("#notes");
    this.label = box.querySelector("label");
    this.list = box.querySelector("select");
    this.list.addEventListener("change", () => onChoose(this.list.value === "" ? null : Number(this.list.value)));
  }

  focus() {
    this.list.focus();
  }

  show(interfaces, chosen) {
    this.words.textContent = wordsOf(interfaces, chosen);
    this.label.hidden = interfaces.length < 2;
    const options = [["all, as one link", ""], ...interfaces.map(({ name, number }) => [name, number])];
    this.list.replaceChildren(...options.map(([name, value]) => new Option(name, value)));
    this.list.value = chosen ?? "";
  }
}
