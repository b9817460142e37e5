// The settings of a replay and of a check: their names, defaults and ranges.

import { addressBytes } from "./addresses.js";

const NO_QUERIER = { igmp: "10.0.0.9", mld: "fe80::9" };
const GROUP_SOURCES = { igmp: 366, mld: 89 };

// The numbers, each with the name of its field in the page, and its default if both families have the same.
export const NUMBERS = {
  rv: 2,
  qi: 125,
  qri: 10000,
  lmqi: 1000,
  groups: 1024,
  group_sources: null,
  sources: 16384,
  scheduled: 256,
  within: 100,
};
const MOST_NUMBER = 2 ** 32 - 1;
const MOST_UNTIL = 2 ** 53;

export function defaultsOf(family) {
  return { family, own: NO_QUERIER[family], ...NUMBERS, group_sources: GROUP_SOURCES[family], until: null, ssm: false, cite: true };
}

// Throws an Error with a sentence for a wrong field.
function refuse(field, words) {
  field.setAttribute("aria-invalid", "true");
  throw new Error(`${field.labels[0].firstChild.textContent.trim()}: “${field.value}” is ${words}.`);
}

function numberOf(field, most) {
  if (!/^[0-9]+$/.test(field.value.trim())) refuse(field, "no whole number");
  if (BigInt(field.value) > BigInt(most)) refuse(field, `too large; the most is ${most}`);
  return Number(field.value);
}

// The settings of a form. If a field can't be read, it throws an Error with a sentence. The module checks the ranges.
export function settingsOf(form) {
  const field = (name) => form.elements[name];
  for (const it of form.elements) it.removeAttribute("aria-invalid");
  const settings = { family: field("family").value, own: field("own").value.trim() };
  if (!addressBytes(settings.own, settings.family)) {
    refuse(field("own"), `no ${settings.family === "igmp" ? "IPv4" : "IPv6"} address`);
  }
  for (const name of Object.keys(NUMBERS)) settings[name] = numberOf(field(name), MOST_NUMBER);
  settings.until = field("until").value.trim() === "" ? null : numberOf(field("until"), MOST_UNTIL);
  for (const name of ["ssm", "cite"]) settings[name] = field(name).checked;
  return settings;
}

// Puts settings into the fields of the form.
export function fillIn(form, settings) {
  for (const [name, value] of Object.entries(settings)) {
    const field = form.elements[name];
    if (!field) continue;
    if (field.type === "checkbox") field.checked = value;
    else field.value = value ?? "";
  }
}
