// Times. All are ticks, as BigInt.

export const TICKS = 141120000000n; // of a second

export const TICKS_OF_A_MICROSECOND = 141120n;
const GREATEST_SCALE = 4294967295n;
const absolute = (value) => value < 0n ? -value : value;
export const lesser = (a, b) => a < b ? a : b;
export const greater = (a, b) => a > b ? a : b;
export const grouped = (value) => String(value).replace(/\B(?=(\d{3})+$)/g, ',');

// A quotient in decimal digits, rounded to so many of them, without zeros at the end.
export function decimal(above, below, digits) {
  const scale = 10n ** BigInt(digits);
  const parts = (absolute(above) * scale * 2n + below) / (2n * below);
  const whole = parts / scale;
  const rest = String(parts % scale).padStart(digits, '0').replace(/0+$/, '');
  return (above < 0n && parts > 0n ? '-' : '') + whole + (rest ? '.' + rest : '');
}

export const seconds = (ticks) => decimal(ticks, TICKS, 6);
export const isExact = (ticks, digits) => ticks * 10n ** BigInt(digits) % TICKS === 0n;

// Digits enough that a single tick is seen.
export function microseconds(ticks) {
  const digits = absolute(ticks) < 1000n ? 9 : 3;
  const text = decimal(ticks, TICKS_OF_A_MICROSECOND, digits);
  return text.replace(/^(-?)(\d+)/, (_, sign, whole) => sign + grouped(whole));
}

function commonDivisor(a, b) {
  while (b) [a, b] = [b, a % b];
  return a;
}

// The time as a script writes it, n/scale, or null where no scale says it to the tick.
export function fraction(ticks) {
  const divisor = commonDivisor(absolute(ticks), TICKS);
  const scale = TICKS / divisor;
  return scale > GREATEST_SCALE ? null : `${ticks / divisor}/${scale}`;
}

// A printed time: ticks, or the word `nan` or `inf`.
export const readTime = (word) => word === 'nan' || word === 'inf' ? word : BigInt(word);

export const isTicks = (time) => typeof time === 'bigint';
export const inSeconds = (time) => isTicks(time) ? seconds(time) + ' s' : time;

// A length in the greatest unit that it has one of.
export function length(ticks) {
  if (ticks >= TICKS) return decimal(ticks, TICKS, 3) + ' s';
  if (ticks >= TICKS / 1000n) return decimal(ticks, TICKS / 1000n, 3) + ' ms';
  if (ticks >= TICKS_OF_A_MICROSECOND) return decimal(ticks, TICKS_OF_A_MICROSECOND, 3) + ' µs';
  return ticks === 1n ? '1 tick' : `${grouped(ticks)} ticks`;
}

export function* rangesIn(text) {
  const pairs = text.matchAll(/\[(-?\d+|nan|inf),(-?\d+|nan|inf)[)\]]/g);
  for (const [, from, to] of pairs) yield [readTime(from), readTime(to)];
}

// The ranges of a line are read when they are first looked at.
export function rangesOf(line) {
  line.ranges ??= [...rangesIn(line.rangeText)].filter((range) => range.every(isTicks));
  return line.ranges;
}
