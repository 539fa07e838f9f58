// Lists of ranges `[from, to]` in ticks (BigInt), in rising order and apart from each other, as the engine tells them.

// What one list has and the other has not.
export function difference(ranges, others) {
  const left = [];
  let at = 0;
  for (let [from, to] of ranges) {
    while (at < others.length && others[at][1] <= from) at++;
    for (let other = at; other < others.length && others[other][0] < to; other++) {
      if (others[other][0] > from) left.push([from, others[other][0]]);
      if (others[other][1] > from) from = others[other][1];
    }
    if (from < to) left.push([from, to]);
  }
  return left;
}

// The gaps between the ranges of a list.
export const gapsOf = (ranges) => ranges.slice(1).map(([from], at) => [ranges[at][1], from]);

// The end of the last range that ends at a time or before it; null where there is none.
export function endBefore(ranges, time) {
  let low = 0, high = ranges.length;
  while (low < high) {
    const middle = (low + high) >> 1;
    if (ranges[middle][1] <= time) low = middle + 1; else high = middle;
  }
  return low ? ranges[low - 1][1] : null;
}
