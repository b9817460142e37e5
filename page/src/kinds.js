// The kinds of marks and bars. Each kind has its name, its drawing and its sections of the standards.

export const STANDARDS = { igmp: "RFC 3376", mld: "RFC 3810" };

// The lanes of a row, from above.
export const LANES = { wanted: 0, heard: 1, said: 2, bar: 3, finding: 4 };
export const LANE_COUNT = 5;

const current = { igmp: "6.4.1", mld: "7.4.1" };
const change = { igmp: "6.4.2", mld: "7.4.2" };
const older = { igmp: "7.3.2", mld: "8.3.2" };
const unknown = { igmp: "4.2.12", mld: "5.2.12" };
const empty = { igmp: "4.2.3", mld: "5.2.3" };
const heard = { igmp: "6.6.1", mld: "7.6.1" };
// A specific query. A general query has `GENERAL_QUERY`, and a query for sources has `SOURCE_QUERY`.
const wanted = { igmp: "6.6.3.1", mld: "7.6.3.1" };

export const GENERAL_QUERY = { wanted: { igmp: "6.1", mld: "7.1" }, heard: { igmp: "6.6.2", mld: "7.6.2" } };
export const SOURCE_QUERY = { igmp: "6.6.3.2", mld: "7.6.3.2" };

const { said, finding } = LANES;

// Each kind of mark by its number.
export const KINDS = [
  { name: "IS_IN", label: "IS_IN: these sources", lane: said, glyph: "circle", sections: current },
  { name: "IS_EX", label: "IS_EX: all but these", lane: said, glyph: "disc", sections: current },
  { name: "TO_IN", label: "TO_IN: from now on these", lane: said, glyph: "square", sections: change },
  { name: "TO_EX", label: "TO_EX: from now on all but these", lane: said, glyph: "block", sections: change },
  { name: "ALLOW", label: "ALLOW: these too", lane: said, glyph: "plus", sections: change },
  { name: "BLOCK", label: "BLOCK: no longer these", lane: said, glyph: "minus", sections: change },
  { name: "TYPE", label: "record of an unknown type", lane: said, glyph: "question", sections: unknown },
  { name: "older Report", label: "older Report", lane: said, glyph: "diamond", sections: older },
  { name: "Leave", label: "Leave or Done", lane: said, glyph: "hollow-diamond", sections: older },
  { name: "empty Report", label: "Report without records", lane: said, glyph: "dot", sections: empty },
  { name: "wanted query", label: "query that is wanted", lane: LANES.wanted, glyph: "down", sections: wanted },
  { name: "heard query", label: "query that was heard", lane: LANES.heard, glyph: "hollow-down", sections: heard },
  { name: "missing", label: "missing: wanted, and not heard", lane: finding, glyph: "ring", sections: null },
  { name: "extra", label: "extra: heard, and not wanted", lane: finding, glyph: "cross", sections: null },
  { name: "differs", label: "differs: heard with another field", lane: finding, glyph: "unequal", sections: null },
  { name: "general", label: "general queries too near or too far", lane: finding, glyph: "span", sections: null },
  { name: "packet", label: "packet: a fault of its headers, or of the query's checksum, reserved fields or length", lane: finding, glyph: "diamond", sections: null },
];

export const KIND = Object.fromEntries(KINDS.map(({ name }, number) => [name.replace(" ", "_"), number]));

// Each kind of bar by its number.
export const BARS = [
  { name: "EXCLUDE", label: "EXCLUDE: all sources but those stopped", sections: { igmp: "6.3", mld: "7.3" } },
  { name: "INCLUDE", label: "INCLUDE: only the sources below", sections: { igmp: "6.3", mld: "7.3" } },
  { name: "forwarded", label: "source that is forwarded", sections: { igmp: "6.3", mld: "7.3" } },
  { name: "stopped", label: "source that is stopped", sections: { igmp: "6.3", mld: "7.3" } },
];

export const BAR = Object.fromEntries(BARS.map(({ name }, number) => [name, number]));

// The reason why a well-formed message is dropped, by the number in its line, and the sections of the standards for it.
export const DROPPED = {
  5: ["its source isn't a link-local address", { mld: "7.4, 7.6" }],
  6: ["its hop limit isn't 1", { mld: "7.4, 7.6" }],
  7: ["it has no Router Alert", { mld: "7.4, 7.6" }],
  8: ["it is a query from 0.0.0.0", { igmp: "6.6.2" }],
  9: ["it is a query of IGMPv1", { igmp: "6.6.2, 7.1" }],
  10: ["hosts don't report that group", { igmp: "5", mld: "6" }],
};
