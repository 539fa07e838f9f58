// Small helpers for words and lists.

import { grouped } from "../../../js/src/inspect/times.mjs";

export const quoted = text => `“${text.length > 90 ? text.slice(0, 90) + "…" : text}”`;
export const asCount = (count, one, many = one + "s") => `${grouped(count)} ${count === 1 ? one : many}`;
export const shortened = (text, most) => text.length > most ? text.slice(0, most) + "…" : text;

export function ordinal(number) {
  const tail = number % 100 >= 11 && number % 100 <= 13 ? "th" : ["th", "st", "nd", "rd"][number % 10] ?? "th";
  return number + tail;
}

export function put(map, key, value) {
  const values = map.get(key);
  if (values) values.push(value); else map.set(key, [value]);
}

// How many of the rising numbers are not above a number.
export function countUpTo(numbers, number) {
  let low = 0, high = numbers.length;
  while (low < high) {
    const middle = (low + high) >> 1;
    if (numbers[middle] <= number) low = middle + 1; else high = middle;
  }
  return low;
}

export const pause = () => new Promise(done => setTimeout(done));

// Does a work for each member of a list, bit by bit, so that the page stays awake.
export async function inParts(list, work, size = 4000) {
  for (let at = 0; at < list.length; at += size) {
    for (let member = at; member < Math.min(at + size, list.length); member++) work(list[member], member);
    await pause();
  }
}
