// Moments as texts, and the steps of an axis.

const SECOND = 1000;
const MINUTE = 60 * SECOND;
const HOUR = 60 * MINUTE;
const STEPS = [
  ...[1, 2, 5, 10, 20, 50, 100, 200, 500],
  ...[1, 2, 5, 10, 30].map((it) => it * SECOND),
  ...[1, 2, 5, 10, 30].map((it) => it * MINUTE),
  ...[1, 2, 6, 12, 24].map((it) => it * HOUR),
];

// The step that gives at most this number of marks on the axis.
export function stepFor(span, most) {
  const least = span / most;
  return STEPS.find((it) => it >= least) ?? Math.ceil(least / (24 * HOUR)) * 24 * HOUR;
}

// Returns a time in seconds, minutes and hours, with milliseconds if asked.
export function momentText(milliseconds, withMilliseconds = true) {
  const hours = Math.floor(milliseconds / HOUR);
  const minutes = Math.floor((milliseconds % HOUR) / MINUTE);
  const rest = (milliseconds % MINUTE) / SECOND;
  const seconds = withMilliseconds ? rest.toFixed(3) : String(Math.round(rest));
  const parts = [hours && `${hours} h`, (hours || minutes) && `${minutes} min`, `${seconds} s`];
  return parts.filter(Boolean).join(" ");
}

export function axisText(milliseconds, step) {
  if (step >= SECOND) return momentText(milliseconds, false).replace(/(h|min) 0 s$/, "$1");
  return momentText(milliseconds, true).replace(/(\.\d*?)0+ s$/, "$1 s").replace(/\. s$/, " s");
}
