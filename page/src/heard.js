// The messages of one family in a listing: marks, and the variables of its first querier.

import { ZERO } from "./addresses.js";
import { KIND } from "./kinds.js";
import { Table } from "./columns.js";

// The kind of a record's mark. A record of an unknown type has a number.
export const kindOfRecord = ({ kind }) => KIND[kind] ?? KIND.TYPE;

export const isGeneral = (family, group) => group === ZERO[family];

// Numbers for names, in the order in which they come.
export class Names {
  constructor() {
    this.numbers = new Map();
    this.all = [];
  }

  number(name) {
    let found = this.numbers.get(name);
    if (found === undefined) {
      found = this.all.length;
      this.numbers.set(name, found);
      this.all.push(name);
    }
    return found;
  }
}

export class Heard {
  constructor(family) {
    this.family = family;
    this.groups = new Names();
    this.marks = new Table({ time: Float64Array, kind: Uint8Array, group: Uint32Array, line: Uint32Array });
    this.messages = 0;
    this.general = null;
    this.specific = new Map();
  }

  mark(time, kind, group, line) {
    this.marks.push({ time, kind, group: this.groups.number(group), line });
  }

  take({ time, source, message }, line) {
    this.messages++;
    if (message.type === "query") this.takeQuery(message, source, time, line);
    else if (message.type === "leave") this.mark(time, KIND.Leave, message.group, line);
    else if (message.records) this.takeRecords(message.records, time, line);
    else if (message.type === "report") this.mark(time, KIND.older_Report, message.group, line);
  }

  takeRecords(records, time, line) {
    if (records.length === 0) this.mark(time, KIND.empty_Report, ZERO[this.family], line);
    for (const it of records) this.mark(time, kindOfRecord(it), it.group, line);
  }

  takeQuery({ group, qrv: rv, interval: qi, response }, own, time, line) {
    this.mark(time, KIND.heard_query, group, line);
    const said = { line, own, rv, qi, response };
    if (!isGeneral(this.family, group)) {
      if (!this.specific.has(own)) this.specific.set(own, said);
    } else if (!this.general && this.isQuerier(own)) {
      this.general = said;
    }
  }

  // Returns whether a querier can have the address.
  isQuerier(source) {
    return this.family === "igmp" ? source !== ZERO.igmp : /^fe[89ab]/.test(source);
  }

  // Returns the settings of the querier in the first general query, or null.
  querier() {
    if (!this.general) return null;
    const { own, rv, qi, response } = this.general;
    const found = { own, rv, qi, qri: response, lmqi: this.specific.get(own)?.response ?? null };
    return Object.fromEntries(Object.entries(found).filter(([, value]) => value));
  }
}

// Returns the messages of each family in a listing.
export function heardIn(objects) {
  const heard = { igmp: new Heard("igmp"), mld: new Heard("mld") };
  let line = 0;
  for (const it of objects) {
    line++;
    heard[it.family]?.take(it, line);
  }
  return heard;
}
