// Addresses as texts, as bytes, and in order.

// The address that stands for all groups.
export const ZERO = { igmp: "0.0.0.0", mld: "::" };

function bytes4(text) {
  const parts = text.split(".");
  const isWhole = parts.length === 4 && parts.every((it) => /^(0|[1-9][0-9]{0,2})$/.test(it) && Number(it) < 256);
  return isWhole ? Uint8Array.from(parts, Number) : null;
}

function words6(text) {
  const halves = text.split("::").map((half) => (half === "" ? [] : half.split(":")));
  if (halves.length > 2 || !halves.flat().every((it) => /^[0-9a-fA-F]{1,4}$/.test(it))) return null;
  const missing = 8 - halves.flat().length;
  if (halves.length === 1) return missing === 0 ? halves[0] : null;
  return missing >= 1 ? [...halves[0], ...Array(missing).fill("0"), ...halves[1]] : null;
}

function bytes6(text) {
  const words = words6(text);
  return words && Uint8Array.from(words.flatMap((it) => [parseInt(it, 16) >> 8, parseInt(it, 16) & 255]));
}

// The 4 or 16 bytes of an address, or null if the text is not an address of the family.
export function addressBytes(text, family) {
  return family === "igmp" ? bytes4(text) : bytes6(text);
}

// A text that sorts like the addresses of one family.
export function addressKey(text, family) {
  return hexOf(addressBytes(text, family) ?? []);
}

function hexOf(bytes) {
  return Array.from(bytes, (it) => it.toString(16).padStart(2, "0")).join("");
}
