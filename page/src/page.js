// The page: the actions of a user, and their results.

import { Choice } from "./choice.js";
import { Client } from "./client.js";
import { base64Bytes, listenToButtons, listenToFiles, listenToForm } from "./controls.js";
import { describe, linesOf, markLine } from "./description.js";
import { Findings } from "./findings.js";
import { showLegend } from "./legend.js";
import { LineList } from "./line_list.js";
import { Objects, Text } from "./lines.js";
import { momentText } from "./moments.js";
import { copy, save } from "./saving.js";
import { fillIn, settingsOf } from "./settings.js";
import { Timeline } from "./timeline.js";
import { nothingJudged, verdictOf } from "./verdict.js";

const $ = (id) => document.getElementById(id);
const TEXTS = ["listing", "replay", "check"];
const EMPTY = new Text(new Uint8Array(), new Uint32Array(1));

const state = { file: "", opened: null, settings: null, history: null, texts: {}, objects: {}, faults: {}, converted: null, run: 0 };
const lists = Object.fromEntries([...TEXTS, "marks"].map((name) => [name, new LineList($(name), (line) => choose(name, line))]));
const choice = new Choice($("choice"), (number) => openFile(state.source, number).then(() => choice.focus()));
const findings = new Findings($("verdict"), showFinding);
const timeline = new Timeline($("timeline"), (selection) => select(selection, "timeline"));
const client = new Client(parts.worker, showProgress);

function setState(name) {
  $("page").dataset.state = name;
  $("page").setAttribute("aria-busy", String(name === "working"));
  $("working").hidden = name !== "working";
}

function showProgress({ step, share }) {
  $("progress").value = share;
  if ($("status").textContent !== `${step} …`) $("status").textContent = `${step} …`;
}

function number(count, one, many) {
  return `${count.toLocaleString("en")} ${count === 1 ? one : many}`;
}

function showFaults() {
  // The fault of a capture ends all texts, and is shown once.
  const sentences = [...new Set(Object.values(state.faults))].filter(Boolean);
  $("faults").replaceChildren(
    ...sentences.map((sentence) => {
      const paragraph = document.createElement("p");
      paragraph.textContent = sentenceOf(sentence.trim());
      return paragraph;
    }),
  );
}

// A fault's words as a sentence.
function sentenceOf(words) {
  return `${words[0].toUpperCase()}${words.slice(1)}${/[.)]$/.test(words) ? "" : "."}`;
}

// Shows a text in its list, with the number of its lines.
function showLines(name, text) {
  state.texts[name] = text;
  lists[name].show(text.count, (line) => text.line(line));
  count(name, number(text.count, "line", "lines"));
}

// Shows a text of the Worker, and keeps its objects.
function showText(name, { bytes, starts, objects }) {
  showLines(name, new Text(bytes, starts));
  if (objects) state.objects[name] = new Objects(objects.bytes, objects.starts);
}

function count(name, words) {
  $(name).parentElement.querySelector(".count").textContent = words;
}

// Runs some work. Each failure becomes a sentence. Work that starts later makes this work void.
async function work(task) {
  const run = ++state.run;
  setState("working");
  try {
    await task(() => run === state.run);
    if (run !== state.run) return;
    showFaults();
    setState("ready");
  } catch (why) {
    if (run !== state.run) return;
    state.faults.work = why.message;
    showFaults();
    if (document.querySelector("#settings [aria-invalid]")) $("querier").open = true;
    findings.clear();
    $("status").textContent = "";
    setState("failed");
  }
}

function start() {
  state.started = client.start(base64Bytes(parts.module));
  state.started.catch((why) => {
    state.faults.work = why.message;
    showFaults();
    setState("failed");
  });
}

// Stops the Worker that has the capture, and starts another one.
function stop() {
  hideResults();
  client.stop();
  start();
}

// `number` is that of an interface whose packets alone are read, or null.
function openFile(file, number = null) {
  return work(async (isCurrent) => {
    Object.assign(state, { source: file, file: file.name ?? "capture", number });
    state.faults = {};
    showFaults();
    hideResults();
    await state.started;
    const opened = await client.call("open", { file, number });
    if (!isCurrent()) return;
    showOpened(opened);
    await run(isCurrent);
  });
}

function hideResults() {
  for (const id of ["settings", "picture", "texts"]) $(id).hidden = true;
  state.history = null;
  timeline.clear();
  findings.clear();
  // Its lines are made of texts, which are others from now on.
  lists.marks.show(0, () => "");
}

function showOpened(opened) {
  state.opened = opened;
  state.converted = opened.converted;
  state.faults.listing = opened.listing.fault;
  state.faults.conversion = opened.conversionFault;
  $("texts").hidden = false;
  document.querySelector('[data-save="converted"]').hidden = !opened.converted;
  showText("listing", opened.listing);
  for (const name of ["replay", "check"]) showLines(name, EMPTY);
  fillInFamily(firstFamily(opened.families));
}

// The family of the first general query. If there is none, it is the family with more messages.
function firstFamily({ igmp, mld }) {
  if (igmp.first !== mld.first) return igmp.first < mld.first ? "igmp" : "mld";
  return igmp.messages >= mld.messages ? "igmp" : "mld";
}

function fillInFamily(family) {
  const { settings, querier, messages } = state.opened.families[family];
  fillIn($("settings"), settings);
  const name = family === "igmp" ? "IGMP" : "MLD";
  const from = querier
    ? `Filled in from the first general query, of ${querier}`
    : `No general query of ${name} is in the capture, so these are the standard's values, and nobody is checked`;
  $("origin").textContent = `${from}; ${number(messages, "message", "messages")} of ${name}.`;
}

// Returns whether to check a querier: the capture has one, or the user gave an address other than the default.
function isChecked(settings) {
  const { querier, settings: first } = state.opened.families[settings.family];
  return querier !== null || settings.own !== first.own;
}

async function run(isCurrent) {
  if (state.texts.listing.count === 0) {
    $("status").textContent = `${state.file}: no packet could be read.`;
    $("texts").hidden = true;
    showVerdict(nothingJudged("no packet could be read"));
    return;
  }
  $("settings").hidden = false;
  state.faults.work = "";
  const settings = settingsOf($("settings"));
  const withCheck = isChecked(settings);
  const answer = await client.call("replay", { settings, withCheck });
  if (isCurrent()) await showRun(settings, answer);
}

async function showRun(settings, { replay, check, history }) {
  state.settings = settings;
  state.faults.replay = replay.fault;
  state.faults.check = check ? check.fault : "";
  showText("replay", replay);
  state.withChanges = state.texts.replay;
  if (check) showText("check", check);
  else showLines("check", EMPTY);
  $("unchecked").hidden = check !== null;
  $("unchecked").textContent = "No querier is checked: give the address of one above.";
  $("picture").hidden = false;
  showHistory(history);
  const unknown = nothingJudged("there is no general query of this family");
  showVerdict(check ? verdictOf(settings, history.check.found, check) : unknown, history);
  await showChanges();
}

// The verdict, and what a reader has to know beside it.
function showVerdict(verdict, history = null) {
  const lineOf = (mark) => markLine(history, mark, state.objects).replace("Finding: ", "");
  findings.show(verdict, history ? history.check.marks : [], history ? history.marks.time : [], lineOf);
  choice.show(state.opened.interfaces, state.number);
}

function showHistory(history) {
  state.history = history;
  const { marks, bars, names, isSource } = history;
  const sources = isSource.reduce((sum, it) => sum + it, 0);
  const parts = [
    number(state.texts.listing.count, "packet", "packets"),
    number(names.length - 1 - sources, "group", "groups"),
    number(bars.kind.length, "bar", "bars"),
    number(marks.kind.length, "mark", "marks"),
    number(history.check.found, "finding", "findings"),
  ];
  const role = history.isQuerier ? "" : " At the end another router is querier.";
  $("summary").textContent = `${parts.join(", ")}, in ${momentText(history.end)}.${role}`;
  const isConverted = state.converted ? " It was converted first." : "";
  $("status").textContent = `${state.file} is shown.${isConverted}`;
  Object.assign($("timeline").dataset, { marks: marks.kind.length, bars: bars.kind.length });
  timeline.show(history);
  showLegend($("legend"), history.kinds);
  lists.marks.show(marks.kind.length, (at) => markLine(history, marks.byTime[at], state.objects));
  count("marks", number(marks.kind.length, "mark", "marks"));
  state.placeOf = null;
  showDetail(null);
}

// The replay without the lines of changed groups is another run. Marks keep their lines in the one with them.
async function showChanges() {
  if ($("changes").checked || !state.history) {
    if (state.texts.replay !== state.withChanges) showLines("replay", state.withChanges);
    return;
  }
  const { replay } = await client.call("replayWithoutChanges", { settings: state.settings });
  showText("replay", replay);
}

// The place of each mark in the list of marks, made at its first use.
function placeInList(mark) {
  if (!state.placeOf) {
    const { byTime } = state.history.marks;
    state.placeOf = new Uint32Array(byTime.length);
    byTime.forEach((it, at) => (state.placeOf[it] = at));
  }
  return state.placeOf[mark];
}

// Shows a mark or a bar in the picture, in all texts and in words. `from` is the place where it was chosen, which does not change.
function select(selection, from) {
  const lines = linesOf(state.history, selection);
  timeline.select(selection);
  for (const name of TEXTS) {
    if (name === from) continue;
    const isShown = name !== "replay" || state.texts.replay === state.withChanges;
    lists[name].select(isShown ? lines[name] - 1 : -1);
  }
  if (from !== "marks") lists.marks.select(selection.mark === undefined ? -1 : placeInList(selection.mark));
  findings.select(selection.mark);
  showDetail(selection, lines);
}

function showFinding(mark) {
  select({ mark }, "verdict");
  const { top } = $("timeline").getBoundingClientRect();
  if (top < 0 || top > innerHeight / 2) $("steps").scrollIntoView();
}

// A line that belongs to no mark and no bar was chosen.
function selectLine(name, line) {
  timeline.select(null);
  findings.select(null);
  for (const other of Object.keys(lists)) if (other !== name) lists[other].select(-1);
  const words = document.createElement("p");
  words.textContent = `Line ${line + 1} of the ${name} has no mark.`;
  $("detail").replaceChildren(words, quoted([`${name} ${line + 1}: ${state.texts[name].line(line)}`]));
}

function showDetail(selection, lines = {}) {
  const detail = $("detail");
  if (!selection) {
    detail.innerHTML = "<p>No mark is chosen.</p>";
    return;
  }
  const texts = { ...state.texts, replay: state.withChanges };
  const { at, what, section } = describe(state.history, selection, state.objects);
  const words = document.createElement("p");
  words.textContent = `${at}: ${what}.${section ? ` ${section}.` : ""}`;
  const said = TEXTS.filter((name) => lines[name]).map((name) => `${name} ${lines[name]}: ${texts[name].line(lines[name] - 1)}`);
  detail.replaceChildren(words, quoted(said));
}

function quoted(lines) {
  const paragraph = document.createElement("p");
  paragraph.className = "lines-of";
  paragraph.textContent = lines.join("\n");
  return paragraph;
}

// A line was chosen in a list: the first mark that belongs to it.
function choose(name, line) {
  if (!state.history) return;
  const { marks, bars } = state.history;
  if (name === "marks") return select({ mark: marks.byTime[line] }, name);
  if (name === "replay" && state.texts.replay !== state.withChanges) return selectLine(name, line);
  const mark = marks.byTime.find((it) => marks[name][it] === line + 1);
  const bar = name === "replay" && mark === undefined ? bars.from.indexOf(line + 1) : -1;
  if (mark !== undefined) select({ mark }, name);
  else if (bar >= 0) select({ bar }, name);
  else selectLine(name, line);
}

function savedBytes(name) {
  return name === "converted" ? [state.converted, ".pcap"] : [state.texts[name].bytes, `.${name}.txt`];
}

function saveText(name) {
  const [bytes, ending] = savedBytes(name);
  save(bytes, `${state.file.replace(/\.[a-z]+$/i, "")}${ending}`);
}

async function copyText(name) {
  try {
    await copy(new TextDecoder().decode(state.texts[name].bytes));
    $("status").textContent = `The ${name} is copied.`;
  } catch (why) {
    $("status").textContent = `The ${name} can't be copied. ${why.message}`;
  }
}

function showView(name) {
  const views = {
    in: () => timeline.zoom(1 / 1.5),
    out: () => timeline.zoom(1.5),
    whole: () => timeline.whole(),
    earlier: () => timeline.go(-0.5),
    later: () => timeline.go(0.5),
  };
  views[name]();
}

if (innerWidth < 600) for (const id of ["key", "querier"]) $(id).open = false;
listenToFiles((file) => openFile(file), parts.samples);
listenToForm(fillInFamily, () => work(run));
listenToButtons({ view: showView, copy: copyText, save: saveText, step: (by) => findings.step(Number(by)) });
$("changes").addEventListener("change", () => work(showChanges));
$("stop").addEventListener("click", stop);
start();
