// Bars for the time in which a group stays in one filter mode, and for the time in which a source is forwarded or stopped. They come
// from the changes of groups.

import { BAR } from "./kinds.js";
import { Table } from "./columns.js";

const NONE = { mode: null, sources: new Map() };

export class Bars {
  constructor() {
    this.table = new Table({
      group: Uint32Array,
      source: Uint32Array, // 0: the group itself; else the number of the source in `sources`, counted from 1
      kind: Uint8Array,
      begin: Float64Array,
      end: Float64Array,
      from: Uint32Array, // the line with which it begins, counted from 1
      to: Uint32Array, // the line with which it ends; 0: it stands at the end
    });
    this.sources = [];
    this.sourceNumbers = new Map();
    this.states = new Map();
  }

  sourceNumber(group, text) {
    const key = `${group} ${text}`;
    if (!this.sourceNumbers.has(key)) {
      this.sources.push({ group, text });
      this.sourceNumbers.set(key, this.sources.length);
    }
    return this.sourceNumbers.get(key);
  }

  open(group, source, kind, begin, from) {
    this.table.push({ group, source, kind, begin, end: Infinity, from, to: 0 });
    return this.table.length - 1;
  }

  close(bar, end, line) {
    this.table.end.items[bar] = end;
    this.table.to.items[bar] = line;
  }

  // A group has another filter. In INCLUDE mode without running timers it forwards nothing, and has no bar.
  change(time, group, { filter, sources }, line) {
    const before = this.states.get(group) ?? NONE;
    const isStopped = filter === "exclude";
    const named = sources.filter(({ timer }) => (timer === null) === isStopped);
    const kind = isStopped ? BAR.EXCLUDE : named.length > 0 ? BAR.INCLUDE : null;
    const after = { mode: kind, bar: before.bar, sources: new Map() };
    if (kind !== before.mode) {
      if (before.mode !== null) this.close(before.bar, time, line);
      if (kind !== null) after.bar = this.open(group, 0, kind, time, line);
    }
    const keys = named.map(({ source }) => (isStopped ? `!${source}` : source));
    this.changeSources(time, group, keys, line, before.sources, after.sources);
    if (kind === null) this.states.delete(group);
    else this.states.set(group, after);
  }

  // Unchanged sources keep their places in `before`. The others end, and new ones begin.
  changeSources(time, group, keys, line, before, after) {
    for (const key of keys) {
      const kept = before.get(key);
      if (kept === undefined) {
        const isStopped = key[0] === "!";
        const source = this.sourceNumber(group, isStopped ? key.slice(1) : key);
        after.set(key, this.open(group, source, isStopped ? BAR.stopped : BAR.forwarded, time, line));
      } else {
        after.set(key, kept);
        before.delete(key);
      }
    }
    for (const bar of before.values()) this.close(bar, time, line);
  }

  // The replay ends at this moment.
  end(time) {
    const { end } = this.table;
    for (let bar = 0; bar < end.length; bar++) if (end.items[bar] === Infinity) end.items[bar] = time;
  }
}
