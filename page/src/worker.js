// The Worker: it has the capture, calls the module, and reads the objects. The texts are for people.

import { ZERO } from "./addresses.js";
import { foundIn } from "./found.js";
import { heardIn, Names } from "./heard.js";
import { historyOf } from "./history.js";
import { interfacesIn } from "./interfaces.js";
import { lineStarts, objectsIn } from "./lines.js";
import { Module, STATUS } from "./module.js";
import { replayedIn } from "./replayed.js";
import { defaultsOf } from "./settings.js";

// The statuses of a listing whose file may be convertible.
const MAY_BE_CONVERTED = [STATUS.otherMagic, STATUS.otherLinkType];

const held = { module: null, capture: null, heard: null };

function tell(step, share) {
  self.postMessage({ progress: { step, share } });
}

// A text as it is sent to the page, with the fault that ended it, and the objects of its lines.
function sent({ text, fault }, objects = null) {
  const lines = (bytes) => ({ bytes, starts: lineStarts(bytes) });
  return { ...lines(text), fault, objects: objects && lines(objects.text) };
}

async function read(file) {
  const bytes = new Uint8Array(file.size);
  let at = 0;
  for (const reader = file.stream().getReader(); ; ) {
    const { done, value } = await reader.read();
    if (done) return bytes;
    bytes.set(value, at);
    at += value.length;
    tell("Reading the file", (0.2 * at) / file.size);
  }
}

// The listing of a file. A file of another form is converted first: all packets, or those of the interface with this number.
async function listed(bytes, number) {
  tell("Listing the packets", 0.2);
  const listing = held.module.show(bytes);
  if (!MAY_BE_CONVERTED.includes(listing.status)) return { bytes, listing, converted: null };
  tell("Converting the file", 0.25);
  const converted = held.module.convert(bytes, number);
  if (converted.status === STATUS.noCapture) return { bytes, listing, converted: null };
  tell("Listing the packets", 0.4);
  return { bytes: converted.text, listing: held.module.show(converted.text), converted };
}

// Returns the number of messages of a family, and its initial settings.
function familyIn(heard) {
  const found = heard.querier();
  const first = heard.general ? heard.general.line : Infinity;
  return { messages: heard.messages, first, querier: found && found.own, settings: { ...defaultsOf(heard.family), ...found } };
}

async function open({ file, number }) {
  const whole = await read(file);
  const { bytes, listing, converted } = await listed(whole, number);
  held.capture = bytes;
  const objects = held.module.show(bytes, true);
  held.heard = heardIn(objectsIn(objects.text, (share) => tell("Reading the listing", 0.6 + 0.4 * share)));
  const families = { igmp: familyIn(held.heard.igmp), mld: familyIn(held.heard.mld) };
  return {
    listing: sent(listing, objects),
    families,
    conversionFault: converted ? converted.fault : "",
    converted: converted ? converted.text.slice() : null,
    interfaces: converted ? interfacesIn(whole) : [],
  };
}

async function replay({ settings, withCheck }) {
  const { family } = settings;
  tell("Replaying the capture", 0);
  const [replayed, events] = [false, true].map((json) => held.module.replay(held.capture, { ...settings, changes: true, json }));
  tell("Checking the querier", 0.3);
  const check = (json) => (withCheck ? held.module.check(held.capture, { ...settings, json }) : { text: new Uint8Array() });
  const [checked, findings] = [false, true].map(check);
  const groups = Object.assign(new Names(), structuredClone(held.heard[family].groups));
  groups.number(ZERO[family]);
  const told = replayedIn(objectsIn(events.text, (share) => tell("Reading the replay", 0.5 + 0.3 * share)), groups);
  const found = foundIn(objectsIn(findings.text, (share) => tell("Reading the check", 0.8 + 0.1 * share)), groups, ZERO[family]);
  tell("Ordering marks and bars", 0.9);
  const history = historyOf(family, groups, held.heard[family], told, found);
  return { replay: sent(replayed, events), check: withCheck ? { ...sent(checked, findings), unjudged: checked.unjudged } : null, history };
}

async function replayWithoutChanges({ settings }) {
  tell("Replaying the capture", 0);
  return { replay: sent(held.module.replay(held.capture, settings)) };
}

async function start({ module }) {
  try {
    held.module = await Module.of(module);
  } catch (why) {
    throw new Error(
      `This browser can't run the module of this page: it wants WebAssembly with memories of 64 bits, as Chromium has them ` +
        `from 133 on and Firefox from 134 on. (${why.message})`,
    );
  }
  return {};
}

const CALLS = { start, open, replay, replayWithoutChanges };

// The buffers of an answer, which go to the page without a copy.
function buffersOf(value, found = new Set()) {
  if (ArrayBuffer.isView(value)) found.add(value.buffer);
  else if (value && typeof value === "object") Object.values(value).forEach((it) => buffersOf(it, found));
  return found;
}

async function answerTo({ id, call, request }) {
  try {
    const answer = await CALLS[call](request);
    self.postMessage({ id, answer }, [...buffersOf(answer)]);
  } catch (why) {
    const isOfMemory = why instanceof RangeError;
    const failure = isOfMemory ? `This browser has no memory for a file of that size. (${why.message})` : why.message;
    self.postMessage({ id, failure });
  }
}

// The calls run one after the other, because a call may need the results of the call before.
let last = Promise.resolve();
self.onmessage = ({ data }) => {
  last = last.then(() => answerTo(data));
};
