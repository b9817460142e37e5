// The history of the groups of a capture, ready to be drawn: rows, each with its bars and marks in the order of time.

import { addressKey, ZERO } from "./addresses.js";
import { BAR, KIND, KINDS, LANES, LANE_COUNT } from "./kinds.js";

// Places in the order of their keys: a counting sort, in which equal keys stay in their order.
function orderedBy(keys, count) {
  const starts = new Uint32Array(count + 1);
  for (const key of keys) starts[key + 1]++;
  for (let key = 0; key < count; key++) starts[key + 1] += starts[key];
  const next = starts.slice(0, count);
  const places = new Uint32Array(keys.length);
  for (let item = 0; item < keys.length; item++) places[next[keys[item]]++] = item;
  return { places, starts };
}

function pick(items, places) {
  const picked = new items.constructor(places.length);
  for (let at = 0; at < places.length; at++) picked[at] = items[places[at]];
  return picked;
}

function pickAll(columns, places) {
  return Object.fromEntries(Object.entries(columns).map(([name, items]) => [name, pick(items, places)]));
}

// Returns the rows: row 0 for all groups, then each group in ascending order with its sources in ascending order below it.
function rowsOf(family, groups, bars) {
  const sourcesOf = new Map();
  bars.sources.forEach(({ group, text }, at) => {
    if (!sourcesOf.has(group)) sourcesOf.set(group, []);
    sourcesOf.get(group).push({ text, number: at + 1, key: addressKey(text, family) });
  });
  const [ofGroup, ofSource] = [new Uint32Array(groups.length), new Uint32Array(bars.sources.length + 1)];
  const rows = { names: ["all groups"], isSource: [0], ofGroup, ofSource };
  const add = (name, isSource) => rows.names.push(name) && rows.isSource.push(isSource) - 1;
  const byKey = (a, b) => (a.key < b.key ? -1 : a.key > b.key ? 1 : 0);
  const ordered = groups.map((name, group) => ({ name, group, key: addressKey(name, family) })).sort(byKey);
  for (const { name, group } of ordered) {
    if (name === ZERO[family]) continue;
    rows.ofGroup[group] = add(name, 0);
    for (const { text, number } of (sourcesOf.get(group) ?? []).sort(byKey)) rows.ofSource[number] = add(text, 1);
  }
  return rows;
}

function markColumns(count) {
  return {
    time: new Float64Array(count),
    kind: new Uint8Array(count),
    row: new Uint32Array(count),
    listing: new Uint32Array(count), // lines, counted from 1; 0: none
    replay: new Uint32Array(count),
    check: new Uint32Array(count),
    dropped: new Uint8Array(count),
  };
}

// Adds the common fields of all three kinds of marks. `kindAt` returns the kind of the mark at a place of the table.
function putMarks(all, first, table, rows, kindAt) {
  for (let at = 0; at < table.length; at++) {
    all.time[first + at] = table.time.items[at];
    all.kind[first + at] = kindAt(at);
    all.row[first + at] = rows.ofGroup[table.group.items[at]];
  }
}

// All marks: first received messages, then sent queries, then findings.
function marksOf(heard, replayed, found, rows) {
  const { marks } = heard;
  const { sent, lineOf, droppedFor } = replayed;
  const { table } = found;
  const all = markColumns(marks.length + sent.length + table.length);
  putMarks(all, 0, marks, rows, (at) => marks.kind.items[at]);
  putMarks(all, marks.length, sent, rows, () => KIND.wanted_query);
  putMarks(all, marks.length + sent.length, table, rows, (at) => table.kind.items[at]);
  for (let at = 0; at < marks.length; at++) {
    const listing = marks.line.items[at];
    all.listing[at] = listing;
    if (listing >= lineOf.length) continue;
    all.replay[at] = lineOf.items[listing];
    all.dropped[at] = droppedFor.items[listing];
  }
  all.replay.set(sent.line.taken(), marks.length);
  all.check.set(table.line.taken(), marks.length + sent.length);
  return all;
}

// The marks by row, lane and time. `byTime` has their places by time alone.
function sortedMarks(all, rowCount) {
  const count = all.time.length;
  const byMoment = new Uint32Array(count).map((_, at) => at).sort((a, b) => all.time[a] - all.time[b] || a - b);
  const laneKeys = new Uint32Array(count);
  byMoment.forEach((mark, at) => (laneKeys[at] = all.row[mark] * LANE_COUNT + KINDS[all.kind[mark]].lane));
  const { places, starts } = orderedBy(laneKeys, rowCount * LANE_COUNT);
  const byTime = new Uint32Array(count);
  places.forEach((moment, place) => (byTime[moment] = place));
  const order = pick(byMoment, places);
  return { ...pickAll(all, order), starts, byTime };
}

// The bars by row and moment.
function sortedBars(bars, rows) {
  const columns = Object.fromEntries(bars.table.columns.map(([name, it]) => [name, it.taken()]));
  const { group, source, kind, begin, end, from, to } = columns;
  const rowKeys = new Uint32Array(kind.length);
  for (let at = 0; at < kind.length; at++) rowKeys[at] = source[at] ? rows.ofSource[source[at]] : rows.ofGroup[group[at]];
  const { places, starts } = orderedBy(rowKeys, rows.names.length);
  return { ...pickAll({ kind, begin, end, from, to, row: rowKeys }, places), starts };
}

function different(numbers) {
  return [...new Set(numbers)].sort((a, b) => a - b);
}

// The kinds of the present bars and marks. `hasDropped` is true if a mark other than a query belongs to a dropped message.
function kindsIn(marks, bars) {
  const hasDropped = marks.dropped.some((it, at) => it !== 0 && marks.kind[at] !== KIND.heard_query);
  return { bars: different(bars.kind), marks: different(marks.kind), hasDropped };
}

// The marks of findings, by time.
function findingsIn({ kind, byTime }) {
  return byTime.filter((mark) => KINDS[kind[mark]].lane === LANES.finding);
}

export function historyOf(family, groups, heard, replayed, found) {
  const rows = rowsOf(family, groups.all, replayed.bars);
  const marks = sortedMarks(marksOf(heard, replayed, found, rows), rows.names.length);
  const bars = sortedBars(replayed.bars, rows);
  const last = Object.fromEntries(replayed.last);
  // A replay that a fault ended may end before the last received message.
  const end = Math.max(replayed.end, marks.time[marks.byTime[marks.byTime.length - 1]] ?? 0);
  const isSource = Uint8Array.from(rows.isSource);
  const check = { found: found.count, marks: findingsIn(marks) };
  const { isQuerier } = replayed;
  return { family, names: rows.names, isSource, marks, bars, last, end, isQuerier, check, kinds: kindsIn(marks, bars) };
}

export function isGroupBar(kind) {
  return kind === BAR.EXCLUDE || kind === BAR.INCLUDE;
}

// The lanes in which a row has marks or bars.
export function lanesOf({ marks, bars }, row) {
  const first = row * LANE_COUNT;
  const has = (lane) => marks.starts[first + lane] < marks.starts[first + lane + 1];
  const hasBars = bars.starts[row] < bars.starts[row + 1];
  return Object.values(LANES).filter((lane) => (lane === LANES.bar ? hasBars : has(lane)));
}
