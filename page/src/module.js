// All calls of the module, which consists of the proved crates. It runs in the Worker.
//
// The module's memory has addresses of 64 bits. A call receives addresses and lengths: of the capture, the settings, memory for its
// work, and memory for its text. The first address is that of the result. The number of bytes of the text before those to be written
// is before the capture.

import { addressBytes } from "./addresses.js";

// The statuses that the page itself handles. From `unjudged` on, a check came to its end and judged nothing.
export const STATUS = { done: 0, full: 1, memory: 2, otherMagic: 12, otherLinkType: 14, noCapture: 32, unjudged: 71 };

const PAGE = 65536;
const UNIT = 16; // the memory for the work is counted in units of so many bytes
const LEAST_TEXT = 1 << 16;
// A listing in lines and a conversion have at most so many bytes for each byte of a capture. Few other texts have more.
const TEXT_A_BYTE = 4;
const LEAST_WORK = 1 << 27;
const NO_END = 2n ** 64n - 1n;

// The settings in memory: numbers of 4 bytes, then the end, of 8 bytes.
const PACKED = ["rv", "qi", "qri", "lmqi", "groups", "group_sources", "sources", "scheduled", "ssm", "changes", "within", "cite", "json"];
const UNTIL = 56; // a multiple of 8
const SETTINGS = UNTIL + 8;
const ANSWER = 3 * 8;
// The choice of an interface in memory: its number, any network, a 1 for a choice by number, and zeros.
const CHOICE = 40;
const BY_NUMBER = 1;

// One call: an instance with its own memory, which grows at its end for each argument.
class Call {
  constructor(compiled) {
    this.exports = new WebAssembly.Instance(compiled, {}).exports;
    this.memory = this.exports.memory;
  }

  // Returns `length` unused bytes.
  lend(length) {
    const at = this.memory.buffer.byteLength;
    this.memory.grow(BigInt(Math.ceil(length / PAGE) || 1));
    return { at: BigInt(at), length: BigInt(length) };
  }

  lendBytes(bytes) {
    const lent = this.lend(bytes.length);
    this.bytes(lent).set(bytes);
    return lent;
  }

  // Memory for the work. The call receives the address of a pair: the begin of the memory and its number of units.
  lendWork(length) {
    const { at } = this.lend(length);
    return this.lendBytes(new Uint8Array(new BigUint64Array([at, BigInt(length / UNIT)]).buffer)).at;
  }

  bytes({ at, length }) {
    return new Uint8Array(this.memory.buffer, Number(at), Number(length));
  }

  answer({ at }) {
    const view = new DataView(this.memory.buffer, Number(at), ANSWER);
    const [status, written, number] = [0, 8, 16].map((offset) => view.getBigUint64(offset, true));
    return { status: Number(status), written, number };
  }
}

function settingsBytes(settings) {
  const view = new DataView(new ArrayBuffer(SETTINGS));
  PACKED.forEach((name, at) => view.setUint32(4 * at, Number(settings[name] ?? 0), true));
  view.setBigUint64(UNTIL, settings.until === null ? NO_END : BigInt(settings.until), true);
  return new Uint8Array(view.buffer);
}

// Lends the arguments of a querier's call before the capture.
function querierOf(settings) {
  const own = addressBytes(settings.own, settings.family);
  return (call) => [call.lendBytes(own).at, call.lendBytes(settingsBytes(settings)).at];
}

function choiceBytes(number) {
  const view = new DataView(new ArrayBuffer(CHOICE));
  view.setBigUint64(0, BigInt(number), true);
  view.setBigUint64(8, NO_END, true);
  view.setUint32(16, BY_NUMBER, true);
  return new Uint8Array(view.buffer);
}

function joinedParts(parts) {
  if (parts.length === 1) return parts[0];
  const whole = new Uint8Array(parts.reduce((sum, it) => sum + it.length, 0));
  parts.reduce((at, it) => (whole.set(it, at), at + it.length), 0);
  return whole;
}

export class Module {
  constructor(compiled) {
    this.compiled = compiled;
  }

  // Compiles the module. A browser without memories of 64 bits can't.
  static async of(bytes) {
    return new Module(await WebAssembly.compile(bytes));
  }

  // Lists a capture in lines, or in objects.
  show(bytes, json = false) {
    return this.run("page_show", bytes, () => [Number(json)]);
  }

  // Converts all packets, or those of the interface with this number.
  convert(bytes, number = null) {
    if (number === null) return this.run("page_convert", bytes);
    return this.run("page_convert_chosen", bytes, (call) => [call.lendBytes(choiceBytes(number)).at]);
  }

  // With `changes`, a replay has those of groups. With `json` it is in objects, as a check is.
  replay(bytes, settings) {
    return this.run(`page_replay_${settings.family}`, bytes, querierOf(settings));
  }

  // `unjudged` is the reason why nothing was judged, or nothing.
  check(bytes, settings) {
    const { status, text, fault } = this.run(`page_check_${settings.family}`, bytes, querierOf(settings));
    return status < STATUS.unjudged ? { text, fault, unjudged: "" } : { text, fault: "", unjudged: fault };
  }

  // Runs an export until its text is whole and its memory suffices. A text that doesn't fit is asked for again from where it stopped, in a
  // memory of its own, which is three times what came so far. The work needs room for that part too. `request` lends the arguments before
  // the number of bytes.
  run(name, bytes, request = () => []) {
    const parts = [];
    for (let skip = 0, room = LEAST_TEXT + TEXT_A_BYTE * bytes.length, work = LEAST_WORK; ; ) {
      const call = new Call(this.compiled);
      const [answer, capture, text] = [call.lend(ANSWER), call.lendBytes(bytes), call.lend(room)];
      const memory = call.lendWork(work + UNIT * Math.ceil(room / UNIT));
      call.exports[name](answer.at, ...request(call), BigInt(skip), capture.at, capture.length, memory, text.at, text.length);
      const { status, written } = call.answer(answer);
      if (status === STATUS.memory) {
        work *= 2;
        continue;
      }
      parts.push(call.bytes({ at: text.at, length: written }).slice());
      if (status !== STATUS.full) return { status, text: joinedParts(parts), fault: this.sentence(call, answer) };
      skip += Number(written);
      room = 3 * skip;
    }
  }

  // The library's sentence for the fault of an answer, or nothing if there is no fault.
  sentence(call, answer) {
    const text = call.lend(LEAST_TEXT);
    const length = call.exports.page_fault_text(answer.at, text.at, text.length);
    return new TextDecoder().decode(call.bytes({ at: text.at, length }).slice());
  }
}
