// The description of a mark or a bar in words, and its section of the standard.

import { ZERO } from "./addresses.js";
import { firstAtLeast } from "./columns.js";
import { isGeneral, kindOfRecord } from "./heard.js";
import { isGroupBar } from "./history.js";
import { BARS, DROPPED, GENERAL_QUERY, KIND, KINDS, LANE_COUNT, LANES, SOURCE_QUERY, STANDARDS } from "./kinds.js";
import { momentText } from "./moments.js";

// The reason for which the querier's own queries are dropped, and those from 0.0.0.0.
const OWN_QUERY = 8;

// A mark at the same time in another lane of its row, for example the query of a finding.
function besideOf(history, mark, lane) {
  const { time, starts, row } = history.marks;
  const key = row[mark] * LANE_COUNT + lane;
  const found = firstAtLeast(time, time[mark], starts[key], starts[key + 1]);
  return found < starts[key + 1] && time[found] === time[mark] ? found : null;
}

// The lines that belong to a mark or a bar, in each text, counted from 1. 0 is no line.
export function linesOf(history, { mark, bar }) {
  if (mark === undefined) return { listing: 0, replay: history.bars.from[bar], check: 0 };
  const { kind, listing, replay, check } = history.marks;
  const lines = { listing: listing[mark], replay: replay[mark], check: check[mark] };
  if (KINDS[kind[mark]].lane !== LANES.finding) return lines;
  const [heard, wanted] = [LANES.heard, LANES.wanted].map((lane) => besideOf(history, mark, lane));
  if (heard !== null) lines.listing = listing[heard];
  if (wanted !== null) lines.replay = replay[wanted];
  if (!lines.replay && heard !== null) lines.replay = replay[heard];
  return lines;
}

function cited(family, sections) {
  return sections ? `${STANDARDS[family]} section ${sections}` : "";
}

// The subject of a query: all groups, a group, or sources of it.
function subjectOf(family, { group, sources = [] }) {
  if (isGeneral(family, group)) return "all groups";
  return sources.length > 0 ? `${group}, sources ${sources.join(" ")}` : group;
}

function recordWords({ kind, group, sources }) {
  return [typeof kind === "number" ? `TYPE ${kind}` : kind, group, ...sources].join(" ");
}

// A message in words, or the record of it that a mark stands for.
function saidWords(family, { type, version, group, records, ...more }, kind, name) {
  if (type === "query") return `Query v${version} for ${subjectOf(family, { group, ...more })}${more.s ? ", with S set" : ""}`;
  if (type === "leave") return `Leave of ${group}`;
  if (!records) return `Report v${version} of ${group}`;
  const record = records.find((it) => kindOfRecord(it) === kind && it.group === name);
  return record ? recordWords(record) : "Report without records";
}

function markWords(history, mark, objects) {
  const kind = history.marks.kind[mark];
  const lines = linesOf(history, { mark });
  if (KINDS[kind].lane === LANES.finding) return findingWords(history.family, objects.check.object(lines.check - 1));
  if (kind === KIND.wanted_query) return wantedWords(history.family, objects.replay.object(lines.replay - 1).message);
  return heardWords(history, mark, objects.listing.object(lines.listing - 1));
}

// A received message, or one record of it.
function heardWords({ family, names, marks }, mark, { source, message }) {
  const kind = marks.kind[mark];
  const what = `${saidWords(family, message, kind, names[marks.row[mark]])}, from ${source}`;
  const isGeneralQuery = kind === KIND.heard_query && isGeneral(family, message.group);
  const section = isGeneralQuery ? GENERAL_QUERY.heard[family] : KINDS[kind].sections[family];
  const dropped = marks.dropped[mark];
  const isOwn = dropped === OWN_QUERY && source !== ZERO.igmp;
  if (dropped === 0 || isOwn) return { what: isOwn ? `${what}, the querier itself` : what, section: cited(family, section) };
  const [why, sections] = DROPPED[dropped];
  return { what: `${what}. It is dropped, since ${why}`, section: cited(family, sections[family]) };
}

function wantedWords(family, message) {
  const { group, s, sources } = message;
  const specific = sources.length > 0 ? SOURCE_QUERY : KINDS[KIND.wanted_query].sections;
  const sections = isGeneral(family, group) ? GENERAL_QUERY.wanted : specific;
  return { what: `Query that is wanted for ${subjectOf(family, message)}${s ? ", with S set" : ""}`, section: cited(family, sections[family]) };
}

// A value of a finding as in its line.
const valueWord = (value) => (typeof value === "boolean" ? Number(value) : value);

function headerWords(field, seen, wanted) {
  if (seen === null) return "";
  return field === "alert" ? ` ${seen}` : ` ${seen}, wanted ${wanted}`;
}

const FINDINGS = {
  missing: ({ subject }) => `missing ${subject}`,
  extra: ({ subject }) => `extra ${subject}`,
  differs: ({ subject, field, seen, wanted }) => `differs ${subject}: ${field === "destination" ? "to" : field} ${seen}, wanted ${wanted}`,
  interval: ({ seen, wanted }) => `general queries ${seen} ms apart, wanted ${wanted}`,
  silence: ({ seen, wanted }) => `no general query for ${seen} ms, wanted ${wanted}`,
  header: ({ packet, field, seen, wanted }) => `packet ${packet}: ${field}${headerWords(field, seen, wanted)}`,
};

function findingWords(family, it) {
  const subject = it.source === null ? it.group : `${it.group} ${it.source}`;
  const [seen, wanted] = [it.seen, it.wanted].map(valueWord);
  return { what: `Finding: ${FINDINGS[it.finding]({ ...it, subject, seen, wanted })}`, section: cited(family, it.sections.join(", ")) };
}

// A group at the end of a replay.
function stateWords({ timer, sources, v1, v2 }) {
  const until = (words, end) => (end === null ? "" : `${words} until ${momentText(end)}`);
  const ofSource = (it) => until(it.source, it.timer) || `${it.source} stopped`;
  const hosts = [until("hosts of version 1", v1), until("hosts of version 2", v2)];
  return [until("EXCLUDE", timer) || "INCLUDE", ...sources.map(ofSource), ...hosts].filter(Boolean).join(", ");
}

function barWords(history, bar, objects) {
  const { kind, row, end, to } = history.bars;
  const name = history.names[row[bar]];
  const { name: kindName, label, sections } = BARS[kind[bar]];
  const what = isGroupBar(kind[bar]) ? `${name}: ${label}` : `Source ${name}, ${kindName}`;
  const last = to[bar] === 0 && isGroupBar(kind[bar]) ? history.last[name] : 0;
  const state = last ? `. At the end: ${stateWords(objects.replay.object(last - 1))}` : "";
  return { what: `${what}, until ${momentText(end[bar])}${state}`, section: cited(history.family, sections[history.family]) };
}

// `at` is the time as a text, `what` describes the mark or bar, and `section` is the section of the standard.
export function describe(history, selection, objects) {
  const { mark, bar } = selection;
  const moment = mark === undefined ? history.bars.begin[bar] : history.marks.time[mark];
  const words = mark === undefined ? barWords(history, bar, objects) : markWords(history, mark, objects);
  return { at: momentText(moment), ...words };
}

// One line for the list of marks.
export function markLine(history, mark, objects) {
  const { at, what, section } = describe(history, { mark }, objects);
  return `${at}  ${what}${section ? ` (${section})` : ""}`;
}
