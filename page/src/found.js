// The findings of a check.

import { KIND } from "./kinds.js";
import { Table } from "./columns.js";

const KIND_OF = { missing: KIND.missing, extra: KIND.extra, differs: KIND.differs, interval: KIND.general, silence: KIND.general, header: KIND.packet };

// Returns a table of the certain findings, and their number: that of the summary, if the check came to its end.
export function foundIn(objects, groups, zero) {
  const table = new Table({ time: Float64Array, kind: Uint8Array, group: Uint32Array, line: Uint32Array });
  let [line, summary] = [0, null];
  for (const it of objects) {
    line++;
    summary ??= it.summary;
    if (it.certain) table.push({ time: it.time, kind: KIND_OF[it.finding], group: groups.number(it.group ?? zero), line });
  }
  return { table, count: summary ? summary.findings : table.length };
}
