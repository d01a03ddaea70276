// The lines in which two texts differ (E. W. Myers, "An O(ND) difference algorithm and its variations", 1986).

/** Texts that differ in more lines than this are shown as replaced between their common ends. */
const MOST = 1500;

/** The furthest points of paths with 0, 1, 2 .. differences, up to those that end; null where there are too many differences. */
function traceOf(before, after) {
  const trace = [];
  let furthest = new Map([[1, 0]]);
  for (let count = 0; count <= Math.min(MOST, before.length + after.length); count += 1) {
    const next = new Map();
    trace.push(furthest);
    for (let diagonal = -count; diagonal <= count; diagonal += 2) {
      const x = furthestOn(before, after, furthest, diagonal, count);
      next.set(diagonal, x);
      if (diagonal === before.length - after.length && x >= before.length) return trace;
    }
    furthest = next;
  }
  return null;
}

/** Whether a path with so many differences comes to a diagonal by a line that is new, and not by one that has gone. */
function comesDown(furthest, diagonal, count) {
  return diagonal === -count || (diagonal !== count && furthest.get(diagonal - 1) < furthest.get(diagonal + 1));
}

function furthestOn(before, after, furthest, diagonal, count) {
  let x = comesDown(furthest, diagonal, count) ? furthest.get(diagonal + 1) : furthest.get(diagonal - 1) + 1;
  while (x < before.length && x - diagonal < after.length && before[x] === after[x - diagonal]) x += 1;
  return x;
}

/** The steps of the path that a trace has, from its end to its start. */
function walkBack(before, after, trace) {
  const steps = [];
  let [x, y] = [before.length, after.length];
  for (let count = trace.length - 1; count >= 0; count -= 1) {
    const diagonal = x - y;
    const down = comesDown(trace[count], diagonal, count);
    const from = down ? diagonal + 1 : diagonal - 1;
    const startX = trace[count].get(from);
    const startY = startX - from;
    while (x > startX + (down ? 0 : 1) && y > startY + (down ? 1 : 0)) {
      x -= 1;
      y -= 1;
      steps.push([" ", before[x]]);
    }
    if (count === 0) break;
    steps.push(down ? ["+", after[startY]] : ["-", before[startX]]);
    [x, y] = [startX, startY];
  }
  return steps.reverse();
}

function middle(before, after) {
  const trace = traceOf(before, after);
  if (trace) return walkBack(before, after, trace);
  return [...before.map((line) => ["-", line]), ...after.map((line) => ["+", line])];
}

/** The lines of both texts in order, each with " " where both have it, "-" where it has gone, and "+" where it is new. */
export function difference(before, after) {
  let start = 0;
  while (start < before.length && start < after.length && before[start] === after[start]) start += 1;
  let end = 0;
  while (end < before.length - start && end < after.length - start && before.at(-1 - end) === after.at(-1 - end)) end += 1;
  const same = (lines) => lines.map((line) => [" ", line]);
  return [...same(before.slice(0, start)), ...middle(before.slice(start, before.length - end), after.slice(start, after.length - end)), ...same(after.slice(after.length - end))];
}

/** The lines that differ, with so many lines around them. Null stands where lines are left out. */
export function hunks(lines, around = 3) {
  const near = new Uint8Array(lines.length);
  lines.forEach(([kind], at) => {
    if (kind !== " ") near.fill(1, Math.max(0, at - around), at + around + 1);
  });
  const shown = [];
  lines.forEach((line, at) => {
    if (near[at]) shown.push(line);
    else if (shown.length > 0 && shown.at(-1) !== null) shown.push(null);
  });
  if (shown.at(-1) === null) shown.pop();
  return shown;
}
