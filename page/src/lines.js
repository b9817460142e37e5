// A text as bytes: the offsets of its lines, and the objects of JSON in its lines.

import { Column } from "./columns.js";

const LINE_FEED = 10;
const CHUNK = 1 << 16;

// Returns the offsets at which lines begin, followed by the length of the text.
export function lineStarts(bytes) {
  const starts = new Column(Uint32Array);
  starts.push(0);
  for (let at = bytes.indexOf(LINE_FEED); at >= 0; at = bytes.indexOf(LINE_FEED, at + 1)) starts.push(at + 1);
  return starts.taken();
}

// A text that returns a line by its number, from 0 on.
export class Text {
  constructor(bytes, starts) {
    this.bytes = bytes;
    this.starts = starts;
    this.decoder = new TextDecoder();
  }

  get count() {
    return Math.max(0, this.starts.length - 1);
  }

  line(number) {
    return this.decoder.decode(this.bytes.subarray(this.starts[number], this.starts[number + 1] - 1));
  }
}

// A text with an object of JSON in each line.
export class Objects extends Text {
  object(number) {
    return JSON.parse(this.line(number));
  }
}

function endOfChunk(bytes, at) {
  if (at + CHUNK >= bytes.length) return bytes.lastIndexOf(LINE_FEED) + 1;
  const end = bytes.lastIndexOf(LINE_FEED, at + CHUNK) + 1;
  return end > at ? end : bytes.indexOf(LINE_FEED, at) + 1;
}

// Yields the objects of a text, and calls `tell` now and then with the share of the text that was read. A line that a fault cut is left.
export function* objectsIn(bytes, tell) {
  const decoder = new TextDecoder();
  for (let at = 0, chunk = 0, end; (end = endOfChunk(bytes, at)) > at; at = end) {
    yield* JSON.parse(`[${decoder.decode(bytes.subarray(at, end - 1)).replaceAll("\n", ",")}]`);
    if (chunk++ % 32 === 31) tell(at / bytes.length);
  }
}
