// The legend: the marks and bars of a history, with their names.

import { drawBar, drawGlyph } from "./glyphs.js";
import { BARS, KIND, KINDS, LANES } from "./kinds.js";
import { coloursOf } from "./painter.js";

function picture(width, draw) {
  const canvas = document.createElement("canvas");
  const scale = window.devicePixelRatio || 1;
  Object.assign(canvas, { width: width * scale, height: 18 * scale });
  Object.assign(canvas.style, { width: `${width}px`, height: "18px" });
  canvas.setAttribute("aria-hidden", "true");
  const pen = canvas.getContext("2d");
  pen.scale(scale, scale);
  draw(pen);
  return canvas;
}

function entry(image, text) {
  const item = document.createElement("li");
  item.append(image, text);
  return item;
}

function markColour(kind, colours) {
  if (KINDS[kind].lane === LANES.finding) return colours.finding;
  return { [KIND.wanted_query]: colours.wanted, [KIND.heard_query]: colours.heard }[kind] ?? colours.ink;
}

function drawColumn(pen, left, height, colour) {
  pen.fillStyle = colour;
  pen.fillRect(left, 15 - height, 3, height);
}

// `kinds` are those of a history.
export function showLegend(list, kinds) {
  const colours = coloursOf(list);
  const items = kinds.bars.map((kind) => {
    const box = { x: 0, y: kind < 2 ? 3 : 5, width: 34, height: kind < 2 ? 13 : 9 };
    return entry(picture(34, (pen) => drawBar(pen, BARS[kind].name, box, colours)), BARS[kind].label);
  });
  for (const kind of kinds.marks) {
    const glyph = { mark: markColour(kind, colours), ground: colours.ground };
    items.push(entry(picture(18, (pen) => drawGlyph(pen, KINDS[kind].glyph, 9, 9, glyph)), KINDS[kind].label));
  }
  if (kinds.hasDropped) {
    const glyph = { mark: colours.dropped, ground: colours.ground };
    items.push(entry(picture(18, (pen) => drawGlyph(pen, "disc", 9, 9, glyph, true)), "struck through: dropped, changes nothing"));
  }
  const columns = picture(18, (pen) => [4, 11, 7].forEach((height, at) => drawColumn(pen, 3 + 4 * at, height, colours.ink)));
  items.push(entry(columns, "columns: more than 3 marks in 4 pixels each; zoom in"));
  list.replaceChildren(...items);
}
