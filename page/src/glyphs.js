// The shapes of marks and bars. Shape and filling distinguish a mark, not its colour.

// Each shape draws a path around the origin, and returns how to paint it.
const SHAPES = {
  circle: (pen, r) => pen.arc(0, 0, r, 0, 7) || "hollow",
  disc: (pen, r) => pen.arc(0, 0, r, 0, 7) || "filled",
  dot: (pen, r) => pen.arc(0, 0, r / 2, 0, 7) || "filled",
  ring: (pen, r) => pen.arc(0, 0, r, 0, 7) || "bold",
  square: (pen, r) => pen.rect(-r, -r, 2 * r, 2 * r) || "hollow",
  block: (pen, r) => pen.rect(-r, -r, 2 * r, 2 * r) || "filled",
  diamond: (pen, r) => polygon(pen, [0, -r - 1, r + 1, 0, 0, r + 1, -r - 1, 0]) || "filled",
  "hollow-diamond": (pen, r) => polygon(pen, [0, -r - 1, r + 1, 0, 0, r + 1, -r - 1, 0]) || "hollow",
  down: (pen, r) => polygon(pen, [-r, -r + 1, r, -r + 1, 0, r]) || "filled",
  "hollow-down": (pen, r) => polygon(pen, [-r, -r + 1, r, -r + 1, 0, r]) || "hollow",
  plus: (pen, r) => strokes(pen, [-r, 0, r, 0], [0, -r, 0, r]) || "bold",
  minus: (pen, r) => strokes(pen, [-r, 0, r, 0]) || "bold",
  cross: (pen, r) => strokes(pen, [-r, -r, r, r], [-r, r, r, -r]) || "bold",
  unequal: (pen, r) => strokes(pen, [-r, -2, r, -2], [-r, 2, r, 2], [-2, r, 2, -r]) || "line",
  span: (pen, r) => strokes(pen, [-r, -r, -r, r], [r, -r, r, r], [-r, 0, r, 0]) || "line",
  question: (pen, r) => strokes(pen, [-r, -r, r, -r, r, 0, 0, 0, 0, r]) || "line",
};

function polygon(pen, points) {
  pen.moveTo(points[0], points[1]);
  for (let at = 2; at < points.length; at += 2) pen.lineTo(points[at], points[at + 1]);
  pen.closePath();
}

function strokes(pen, ...lines) {
  for (const points of lines) {
    pen.moveTo(points[0], points[1]);
    for (let at = 2; at < points.length; at += 2) pen.lineTo(points[at], points[at + 1]);
  }
}

// Draws the shape in the colour `mark`, with an edge of `ground` that separates it from its background. A dropped mark is struck
// through.
export function drawGlyph(pen, glyph, x, y, colours, isDropped = false) {
  pen.save();
  pen.translate(x, y);
  pen.beginPath();
  const painted = SHAPES[glyph](pen, 4);
  pen.lineJoin = "round";
  pen.strokeStyle = colours.ground;
  pen.lineWidth = painted === "bold" ? 5 : 4;
  pen.stroke();
  if (painted === "hollow" || painted === "filled") {
    pen.fillStyle = painted === "filled" ? colours.mark : colours.ground;
    pen.fill();
  }
  pen.strokeStyle = colours.mark;
  pen.lineWidth = painted === "bold" ? 2.5 : 1.5;
  pen.stroke();
  if (isDropped) strike(pen);
  pen.restore();
}

function strike(pen) {
  pen.beginPath();
  strokes(pen, [-6, 6, 6, -6]);
  pen.lineWidth = 1.25;
  pen.stroke();
}

function hatch(pen, x, y, width, height, step) {
  pen.save();
  pen.beginPath();
  pen.rect(x, y, width, height);
  pen.clip();
  pen.beginPath();
  for (let at = Math.floor((x - height) / step) * step; at < x + width; at += step) {
    pen.moveTo(at, y + height);
    pen.lineTo(at + height, y);
  }
  pen.stroke();
  pen.restore();
}

// EXCLUDE is full, INCLUDE hatched. A forwarded source is full, a stopped source an empty frame with a line through it.
const BAR_PAINTERS = {
  EXCLUDE(pen, x, y, width, height, colours) {
    pen.fillStyle = colours.exclude;
    pen.fillRect(x, y, width, height);
  },
  INCLUDE(pen, x, y, width, height, colours) {
    pen.fillStyle = colours.hatched;
    pen.fillRect(x, y, width, height);
    pen.strokeStyle = colours.include;
    pen.lineWidth = 1.5;
    hatch(pen, x, y, width, height, 6);
    pen.strokeRect(x + 0.75, y + 0.75, Math.max(0, width - 1.5), height - 1.5);
  },
  forwarded(pen, x, y, width, height, colours) {
    pen.fillStyle = colours.include;
    pen.fillRect(x, y + 1, width, height - 2);
  },
  stopped(pen, x, y, width, height, colours) {
    pen.strokeStyle = colours.stopped;
    pen.lineWidth = 1;
    pen.setLineDash([3, 2]);
    pen.strokeRect(x + 0.5, y + 0.5, Math.max(0, width - 1), height - 1);
    pen.setLineDash([]);
    pen.beginPath();
    pen.moveTo(x, y + height / 2);
    pen.lineTo(x + width, y + height / 2);
    pen.stroke();
  },
};

export function drawBar(pen, name, box, colours) {
  BAR_PAINTERS[name](pen, box.x, box.y, box.width, box.height, colours);
}
