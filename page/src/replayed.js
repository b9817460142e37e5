// The contents of a replay with changes: sent queries, the result of each message, and bars.

import { Bars } from "./bars.js";
import { Column, Table } from "./columns.js";

export class Replayed {
  constructor(groups) {
    this.groups = groups;
    this.sent = new Table({ time: Float64Array, group: Uint32Array, line: Uint32Array });
    this.lineOf = new Column(Uint32Array); // of packet N, the line of the replay, counted from 1
    this.droppedFor = new Column(Uint8Array); // of packet N, why it was dropped; 0 where it wasn't
    this.lineOf.push(0);
    this.droppedFor.push(0);
    this.bars = new Bars();
    this.last = new Map(); // of a group, its line at the end
    this.end = 0;
    this.isQuerier = true; // whether the router that is replayed is querier at the end
  }

  take(it, line) {
    this.end = Math.max(this.end, it.time ?? 0);
    if (it.event === "send") this.sent.push({ time: it.time, group: this.groups.number(it.message.group), line });
    else if (it.event === "change") this.bars.change(it.time, this.groups.number(it.group), it, line);
    else if (it.event === "end") this.isQuerier = it.querier;
    else if (it.event === "group") this.last.set(it.group, line);
    else if (it.packet) this.takePacket(it, line);
  }

  // Packets come in their order, so packet N is the next place.
  takePacket({ event, number }, line) {
    this.lineOf.push(line);
    this.droppedFor.push(event === "drop" ? number : 0);
  }
}

export function replayedIn(objects, groups) {
  const replayed = new Replayed(groups);
  let line = 0;
  for (const it of objects) replayed.take(it, ++line);
  replayed.bars.end(replayed.end);
  return replayed;
}
