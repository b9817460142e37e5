// Calls the module without a page: texts beside those of the program, statuses at the ends of what it is lent.
//
// usage: node module_test.mjs MODULE PROGRAM FILE..      (page/module-test has the words)

import { spawnSync } from "node:child_process";
import { readFileSync } from "node:fs";

const PAGE = 65536;
const UNIT = 16;
const PACKET = 262144; // the bytes of the work that hold one packet
const UNJUDGED = 71; // the first status of a check that judged nothing
const NO_END = 2n ** 64n - 1n;
const NAMES = ["robustness", "query_interval", "response_interval", "last_member_interval", "groups", "group_sources", "sources", "scheduled", "source_specific", "changes", "within", "cite", "json"];
const IGMP = { robustness: 2, query_interval: 125, response_interval: 10000, last_member_interval: 1000, groups: 1024, group_sources: 366, sources: 16384, scheduled: 256, within: 100 };
const QUERIERS = {
  igmp: { text: "10.0.0.9", own: Uint8Array.from([10, 0, 0, 9]), settings: IGMP },
  mld: { text: "fe80::9", own: Uint8Array.from([0xfe, 0x80, ...Array(13).fill(0), 9]), settings: { ...IGMP, group_sources: 89 } },
};
// The querier of samples/igmp.pcap.
const SEEN = { own: Uint8Array.from([10, 9, 0, 1]), settings: IGMP };
// A script of the page that imports nothing.
async function script(name) {
  const text = readFileSync(new URL(`src/${name}`, import.meta.url), "utf8");
  return import(`data:text/javascript,${encodeURIComponent(text)}`);
}

const { interfacesIn } = await script("interfaces.js");
const [module, program, ...files] = process.argv.slice(2);
const compiled = new WebAssembly.Module(readFileSync(module));
const sums = { passed: 0, failed: 0 };

function want(isSo, what) {
  sums[isSo ? "passed" : "failed"] += 1;
  if (!isSo) console.log(`module-test: ${what}`);
}

// An instance, whose memory grows by what it is lent. Node takes a number of pages before its version 24, and a BigInt from then on.
class Lent {
  constructor() {
    this.exports = new WebAssembly.Instance(compiled, {}).exports;
    this.memory = this.exports.memory;
  }

  lend(length) {
    const [at, pages] = [this.memory.buffer.byteLength, Math.ceil(length / PAGE) || 1];
    try {
      this.memory.grow(BigInt(pages));
    } catch {
      this.memory.grow(pages);
    }
    return at;
  }

  put(bytes) {
    const at = this.lend(bytes.length);
    new Uint8Array(this.memory.buffer, at, bytes.length).set(bytes);
    return BigInt(at);
  }

  bytes(at, length) {
    return Buffer.from(this.memory.buffer.slice(at, at + length));
  }
}

function packed(settings) {
  const view = new DataView(new ArrayBuffer(64));
  NAMES.forEach((name, at) => view.setUint32(4 * at, settings[name] ?? 0, true));
  view.setBigUint64(56, settings.until ?? NO_END, true);
  return new Uint8Array(view.buffer);
}

// A choice of packets: of an interface by its number or its name, of a network, each once.
function chosen({ number = null, name = "", vlan = NO_END, once = 0 }) {
  const view = new DataView(new ArrayBuffer(40));
  view.setBigUint64(0, BigInt(number ?? 0), true);
  view.setBigUint64(8, BigInt(vlan), true);
  view.setUint32(16, number !== null ? 1 : name !== "" ? 2 : 0, true);
  view.setUint32(20, once, true);
  new TextEncoder().encodeInto(name, new Uint8Array(view.buffer, 24));
  return new Uint8Array(view.buffer);
}

// Calls an export with memory for so much text and so much work, and behind the text four bytes that have to stay.
function call(name, capture, { querier = null, choice = null, json = 0, skip = 0, room = PAGE + 4 * capture.length, work = 2 ** 27 } = {}) {
  const lent = new Lent();
  const [answer, text] = [lent.lend(24), lent.lend(room + 4)];
  new Uint8Array(lent.memory.buffer, text + room, 4).fill(7);
  const memory = lent.put(new Uint8Array(new BigUint64Array([BigInt(lent.lend(work)), BigInt(work / UNIT)]).buffer));
  const handed = querier ? [lent.put(querier.own), lent.put(packed(querier.settings))] : choice ? [lent.put(chosen(choice))] : name === "page_show" ? [json] : [];
  lent.exports[name](BigInt(answer), ...handed, BigInt(skip), lent.put(capture), BigInt(capture.length), memory, BigInt(text), BigInt(room));
  const [status, written, number] = Array.from(new BigUint64Array(lent.memory.buffer.slice(answer, answer + 24)), Number);
  const sentence = lent.lend(PAGE);
  const said = Number(lent.exports.page_fault_text(BigInt(answer), BigInt(sentence), BigInt(PAGE)));
  want(lent.bytes(text + room, 4).equals(Buffer.from([7, 7, 7, 7])), `${name}: wrote behind its text`);
  want((said > 0) === (status > 0), `${name}: a sentence of ${said} bytes at status ${status}`);
  return { status, number, text: lent.bytes(text, written), sentence: lent.bytes(sentence, said).toString() };
}

// The text of an export is that of the program, which fails if that has a fault, and judges nothing for the same reason.
function beside(file, capture, name, words, querier = null, choice = null, json = 0) {
  const ran = spawnSync(program, words, { input: capture, maxBuffer: 2 ** 30 });
  const told = call(name, capture, { querier, choice, json });
  want(told.text.equals(ran.stdout), `${file}: ${words.join(" ")}: another text`);
  const wanted = told.status === 0 ? [0, 3] : [told.status < UNJUDGED ? 1 : 4];
  want(wanted.includes(ran.status), `${file}: ${words.join(" ")}: status ${told.status} where the program's is ${ran.status}`);
  const why = ran.stderr.toString();
  if (ran.status === 4) want(why === `mquerier: nothing judged: ${told.sentence}\n`, `${file}: ${words.join(" ")}: ${told.sentence}, not ${why}`);
}

function with_settings(family, more) {
  const { own, settings } = QUERIERS[family];
  return { own, settings: { ...settings, ...more } };
}

const CHOICES = [["--interface 0", { number: 0 }], ["--interface 1", { number: 1 }], ["--interface 3", { number: 3 }], ["--interface lo", { name: "lo" }], ["--interface eth0", { name: "eth0" }], ["--vlan 20", { vlan: 20n }], ["--once", { once: 1 }], ["--once --vlan 0 --interface 1", { once: 1, vlan: 0n, number: 1 }]];

// Each interface that the page names has as many packets as the program converts of it. Without one, nothing is to choose.
function interfaces(file, capture) {
  const found = interfacesIn(capture);
  for (const { number, name, packets } of found) {
    const converted = spawnSync(program, ["convert", "--interface", String(number)], { input: capture, maxBuffer: 2 ** 30 }).stdout;
    const lines = spawnSync(program, ["show"], { input: converted }).stdout.toString().split("\n").length - 1;
    want(lines === packets, `${file}: ${packets} packets of interface ${name}, and the program has ${lines}`);
  }
  want(new Set(found.map((it) => it.number)).size === found.length, `${file}: an interface twice`);
}

function all_of(file) {
  const capture = readFileSync(file);
  // The program's check converts a capture, and takes one network. The module's reads a classic capture, which has no tags once converted.
  const one = file.startsWith("samples/") ? spawnSync(program, ["convert"], { input: capture, maxBuffer: 2 ** 30 }).stdout : capture;
  beside(file, capture, "page_show", ["show"]);
  beside(file, capture, "page_show", ["show", "--json"], null, null, 1);
  beside(file, capture, "page_convert", ["convert"]);
  for (const [words, choice] of file.startsWith("samples/") ? CHOICES : CHOICES.slice(0, 1)) {
    beside(file, capture, "page_convert_chosen", ["convert", ...words.split(" ")], null, choice);
  }
  interfaces(file, capture);
  for (const [family, { text, settings }] of Object.entries(QUERIERS)) {
    // The program's limits of a check are greater by default.
    const limits = ["--groups", settings.groups, "--group-sources", settings.group_sources, "--sources", settings.sources, "--scheduled", settings.scheduled];
    const checked = ["check", family, "--possible", "--querier", text, ...limits.map(String)];
    const [replay, check] = [`page_replay_${family}`, `page_check_${family}`];
    beside(file, capture, replay, ["replay", family, "--own", text], with_settings(family, {}));
    const late = { changes: 1, until: 400000n };
    beside(file, capture, replay, ["replay", family, "--json", "--own", text, "--changes", "--until", "400000"], with_settings(family, { ...late, json: 1 }));
    beside(file, capture, replay, ["replay", family, "--own", text, "--changes", "--until", "400000"], with_settings(family, late));
    beside(file, one, check, checked, with_settings(family, {}));
    beside(file, one, check, [...checked, "--cite", "--within", "5"], with_settings(family, { cite: 1, within: 5 }));
    beside(file, one, check, [...checked, "--json"], with_settings(family, { json: 1 }));
  }
}

// The text is cut where its memory ends, and that is told where there is more. What follows its first bytes is written alone.
function text_memory(capture) {
  for (const [name, querier] of [["page_show", null], ["page_convert", null], ["page_replay_igmp", SEEN], ["page_check_igmp", SEEN]]) {
    const whole = call(name, capture, { querier }).text;
    for (const room of [0, 1, whole.length - 1, whole.length, whole.length + 1]) {
      const { status, text } = call(name, capture, { querier, room });
      want(status === (room < whole.length ? 1 : 0), `${name}: status ${status} with memory for ${room} of ${whole.length} bytes`);
      want(text.equals(whole.subarray(0, room)), `${name}: another text in memory for ${room} of ${whole.length} bytes`);
    }
    for (const skip of [1, 4095, 4096, 4097, whole.length - 1, whole.length, whole.length + 1]) {
      for (const room of [0, 1, 1000, whole.length]) {
        const { status, text } = call(name, capture, { querier, skip, room });
        const part = whole.subarray(skip);
        want(status === (room < part.length ? 1 : 0), `${name}: status ${status} with memory for ${room} bytes from byte ${skip} on`);
        want(text.equals(part.subarray(0, room)), `${name}: another text in memory for ${room} bytes from byte ${skip} on`);
      }
    }
  }
}

// The work of a listing wants memory for the text and for a packet, to the byte; that of the others is refused where it is little.
function work_memory(capture) {
  const least = PACKET + PAGE;
  for (const [work, wanted] of [[0, 2], [UNIT, 2], [least - UNIT, 2], [least, 0]]) {
    const { status, text } = call("page_show", capture, { room: PAGE, work });
    want(status === wanted, `page_show: status ${status} with ${work} bytes for its work`);
    want((text.length > 0) === (wanted === 0), `page_show: ${text.length} bytes at status ${status}`);
  }
  for (const name of ["page_replay_igmp", "page_check_igmp"]) {
    for (let work = PAGE, last = 2; last === 2; work *= 2) {
      last = call(name, capture, { querier: SEEN, room: PAGE, work }).status;
      want(last === 2 || (last === 0 && work > PACKET), `${name}: status ${last} with ${work} bytes for its work`);
    }
  }
}

const REFUSED = [[{ robustness: 0 }, 51], [{ query_interval: 0 }, 52], [{ response_interval: 125000 }, 53], [{ last_member_interval: 1 }, 54], [{ groups: 0 }, 61], [{ group_sources: 1025 }, 62], [{ sources: 0 }, 63], [{ scheduled: 65536 }, 64], [{ until: 2n ** 53n + 1n, groups: 0 }, 22]];

// A querier that can't be so is refused by its first fault, and nothing is written.
function refusals(capture) {
  for (const [more, wanted] of REFUSED) {
    const { status, text } = call("page_replay_igmp", capture, { querier: with_settings("igmp", more) });
    want(status === wanted && text.length === 0, `page_replay_igmp: status ${status}, not ${wanted}, and ${text.length} bytes`);
  }
  const { status } = call("page_check_igmp", capture, { querier: { ...QUERIERS.igmp, own: new Uint8Array(4) } });
  want(status === 56, `page_check_igmp: status ${status} at the address 0.0.0.0`);
}

// Captures with faults have the fault's status, its number and its sentence.
function faults(capture) {
  const cut = (length) => capture.subarray(0, length);
  const rows = [["page_show", cut(0), 15, 0, "record 0: the file ends within a header"], ["page_show", cut(30), 15, 1, "record 1: the file ends within a header"], ["page_show", cut(50), 16, 1, "record 1: the file ends within a packet"], ["page_convert", cut(30), 39, 1, "block 1: the file ends within the block"], ["page_convert", Buffer.alloc(30), 32, 0, "block 0: the file is no capture"]];
  for (const [name, bytes, status, number, sentence] of rows) {
    const told = call(name, bytes);
    const is_so = told.status === status && told.number === number && told.sentence === sentence;
    want(is_so, `${name} of ${bytes.length} bytes: ${told.status}, ${told.number}, ${told.sentence}`);
  }
}

function numbers(isLittle, ...all) {
  const view = new DataView(new ArrayBuffer(4 * all.length));
  all.forEach((it, at) => view.setUint32(4 * at, it, isLittle));
  return Buffer.from(view.buffer);
}

// Blocks of pcapng in an order of bytes: a section, interfaces with these names, and a packet of each of these interfaces.
function section(isLittle, names, packets) {
  const block = (type, body) => {
    const [rest, length] = [Buffer.alloc(-body.length & 3), numbers(isLittle, 12 + body.length + (-body.length & 3))];
    return Buffer.concat([numbers(isLittle, type), length, body, rest, length]);
  };
  const halves = (one, other) => numbers(isLittle, isLittle ? one | (other << 16) : (one << 16) | other);
  const named = (it) => (it ? Buffer.concat([halves(2, it.length), Buffer.from(it.padEnd((it.length + 3) & ~3, "\0"))]) : Buffer.alloc(0));
  const described = names.map((it) => block(1, Buffer.concat([halves(101, 0), numbers(isLittle, 0), named(it)])));
  const taken = packets.map((it) => block(6, Buffer.concat([numbers(isLittle, it, 0, 0, 4, 4), Buffer.from("abcd")])));
  const first = block(0x0a0d0d0a, Buffer.concat([numbers(isLittle, 0x1a2b3c4d), halves(1, 0), numbers(isLittle, 0xffffffff, 0xffffffff)]));
  return Buffer.concat([first, ...described, ...taken]);
}

// Interfaces of two sections of different orders: those with packets, with their names and the numbers that the program counts.
function sections() {
  const capture = Buffer.concat([section(true, ["eth0", null, "eth2"], [0, 1, 0]), section(false, ["eth3", "eth4"], [1, 1, 1])]);
  const found = interfacesIn(capture).map(({ number, name, packets }) => `${number} ${name} ${packets}`);
  want(found.join() === "0 eth0 2,1 interface 1 1,4 eth4 3", `interfaces of sections: ${found}`);
  interfaces("sections", capture);
  for (let end = 0; end < capture.length; end += 1) interfacesIn(capture.subarray(0, end));
}

files.forEach(all_of);
sections();
for (const test of [text_memory, work_memory, refusals, faults]) test(readFileSync(files[0]));
console.log(`${sums.passed} passed, ${sums.failed} failed`);
process.exit(sums.failed > 0 ? 1 : 0);
