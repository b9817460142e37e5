// The verdict on a querier, in one sentence.

import { STANDARDS } from "./kinds.js";

function places(count) {
  return count === 1 ? "in 1 place" : `in ${count.toLocaleString("en")} places`;
}

export function nothingJudged(why) {
  return { kind: "none", sentence: `Nothing was judged: ${why}.` };
}

// `found` is the number of findings. A check has the fault that ended it, or the reason why it judged nothing, or neither.
export function verdictOf({ family, own }, found, { fault, unjudged }) {
  const standard = STANDARDS[family];
  if (unjudged || (fault && found === 0)) return nothingJudged(unjudged || fault);
  if (found === 0) return { kind: "right", sentence: `${own} is as ${standard} says.` };
  return { kind: "wrong", sentence: `${own} differs from ${standard} ${places(found)}${fault ? ", and the check ended early" : ""}.` };
}
