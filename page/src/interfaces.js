// The interfaces of a file that is converted, each with its number of packets. docs/FORMATS.md has the formats. The page only names
// them; the module reads the packets.

const SECTION = 0x0a0d0d0a;
const ORDER = 0x1a2b3c4d;
const NAME = 2;
const COOKED2 = 276;
const COOKED_HEADER = 20;
// The least lengths of blocks with a packet.
const LEAST = { 6: 32, 2: 32, 3: 16 };
const CLASSIC = { 0xd4c3b2a1: true, 0x4d3cb2a1: true, 0xa1b2c3d4: false, 0xa1b23c4d: false };

const nameless = (number) => `interface ${number}`;

class Interfaces {
  constructor(view) {
    this.view = view;
    this.found = new Map();
  }

  add(number, name) {
    if (!this.found.has(number)) this.found.set(number, { number, name, packets: 0 });
    return this.found.get(number);
  }

  // Counts a packet, whose interface has this number, unless the packet's own header has another one.
  count(number, isCooked, at, length) {
    const own = isCooked && length >= COOKED_HEADER ? this.view.getUint32(at + 4) : number;
    this.add(own, nameless(own)).packets++;
  }

  get used() {
    return [...this.found.values()].filter((it) => it.packets > 0);
  }
}

// The name in the options of a description, or nothing.
function nameIn(view, at, end, isLittle) {
  while (at + 4 <= end) {
    const [code, length] = [view.getUint16(at, isLittle), view.getUint16(at + 2, isLittle)];
    if (code === 0 || at + 4 + length > end) return "";
    if (code === NAME) return new TextDecoder().decode(new Uint8Array(view.buffer, view.byteOffset + at + 4, length));
    at += 4 + ((length + 3) & ~3);
  }
  return "";
}

// The section of pcapng that is read: its interfaces are numbered from `first` on, and for each it is known whether it is cooked.
class Section {
  constructor(view, at, first) {
    this.isLittle = view.getUint32(at + 8, true) === ORDER;
    this.first = first;
    this.cooked = [];
  }

  describe(view, at, end, interfaces) {
    const number = this.first + this.cooked.length;
    this.cooked.push(view.getUint16(at + 8, this.isLittle) === COOKED2);
    interfaces.add(number, nameIn(view, at + 16, end - 4, this.isLittle) || nameless(number));
  }

  // The packet of a block of type 6, 2 or 3.
  take(view, type, at, end, interfaces) {
    const place = type === 6 ? view.getUint32(at + 8, this.isLittle) : type === 2 ? view.getUint16(at + 8, this.isLittle) : 0;
    const [begin, length] = type === 3 ? [at + 12, at + 8] : [at + 28, at + 20];
    const captured = Math.min(view.getUint32(length, this.isLittle), end - 4 - begin);
    interfaces.count(this.first + place, this.cooked[place], begin, captured);
  }
}

function readBlocks(view, interfaces) {
  let section = new Section(view, 0, 0);
  for (let at = 0; at + 12 <= view.byteLength; ) {
    if (at > 0 && view.getUint32(at, true) === SECTION) section = new Section(view, at, section.first + section.cooked.length);
    const [type, length] = [0, 4].map((offset) => view.getUint32(at + offset, section.isLittle));
    const end = at + length;
    if (length < 12 || end > view.byteLength) return;
    if (type === 1) section.describe(view, at, end, interfaces);
    else if (LEAST[type] <= length) section.take(view, type, at, end, interfaces);
    at = end;
  }
}

function readCooked(view, isLittle, interfaces) {
  for (let at = 24; at + 16 <= view.byteLength; ) {
    const length = view.getUint32(at + 8, isLittle);
    if (at + 16 + length > view.byteLength) return;
    interfaces.count(0, true, at + 16, length);
    at += 16 + length;
  }
}

// Returns the interfaces that have packets.
export function interfacesIn(bytes) {
  const view = new DataView(bytes.buffer, bytes.byteOffset, bytes.byteLength);
  const interfaces = new Interfaces(view);
  if (view.byteLength < 24) return [];
  const isLittle = CLASSIC[view.getUint32(0)];
  if (view.getUint32(0) === SECTION) readBlocks(view, interfaces);
  else if (isLittle !== undefined && (view.getUint32(20, isLittle) & 0xffff) === COOKED2) readCooked(view, isLittle, interfaces);
  return interfaces.used;
}
