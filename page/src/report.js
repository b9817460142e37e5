// The report of conform: the timeline of each case that failed, drawn from the objects of its capture.

import { ZERO } from "./addresses.js";
import { describe } from "./description.js";
import { foundIn } from "./found.js";
import { heardIn, Names } from "./heard.js";
import { historyOf } from "./history.js";
import { showLegend } from "./legend.js";
import { replayedIn } from "./replayed.js";
import { Timeline } from "./timeline.js";

const CHOOSE = "A click on a mark or a bar says what it is.";

// The history of a case, from the objects of the report.
function historyOfCase(family, { listing, replay, check }) {
  const heard = heardIn(listing)[family];
  const groups = Object.assign(new Names(), structuredClone(heard.groups));
  groups.number(ZERO[family]);
  return historyOf(family, groups, heard, replayedIn(replay, groups), foundIn(check, groups, ZERO[family]));
}

function show(section, family, said) {
  const history = historyOfCase(family, said);
  const objects = Object.fromEntries(Object.entries(said).map(([name, them]) => [name, { object: (at) => them[at] }]));
  const detail = section.querySelector(".detail");
  detail.textContent = CHOOSE;
  const timeline = new Timeline(section.querySelector(".timeline"), (selection) => {
    timeline.select(selection);
    const { at, what, section: cited } = describe(history, selection, objects);
    detail.textContent = `${at}  ${what}${cited ? ` (${cited})` : ""}`;
  });
  timeline.show(history);
  return history.kinds;
}

function together(all) {
  const different = (name) => [...new Set(all.flatMap((it) => [...it[name]]))].sort((a, b) => a - b);
  return { bars: different("bars"), marks: different("marks"), hasDropped: all.some((it) => it.hasDropped) };
}

const { family, cases } = JSON.parse(document.getElementById("cases").textContent);
const kinds = Object.entries(cases).map(([name, said]) => show(document.getElementById(name), family, said));
if (kinds.length > 0) showLegend(document.getElementById("legend"), together(kinds));
