// Times: seconds of a page, which are doubles, and ticks of the engine, which are BigInts.

import { NotThereError } from './errors.mjs';

const TICKS_PER_SECOND = 141_120_000_000n;
const MOST_TICKS = 1n << 110n;

// a number in a line of a script has at most 24 digits
const MOST_NUMBER = 10n ** 24n;
// each double above MOST_NUMBER ticks is a whole number of 1024ths of a second
const SCALE = 1024;
// so many seconds have fewer than 2^53 ticks
const MOST_SECONDS = 43_200;
// more than a product of fewer than 2^38 is rounded by
const UNSURE = 1e-4;

const view = new DataView(new ArrayBuffer(8));

// The same as a number, where numbers do it: up to a half of a day, and where the product is not so near to the middle
// of two ticks that its own rounding matters. Else null.
function ticksAsNumber(seconds) {
  if (!(Math.abs(seconds) < MOST_SECONDS)) return null;
  const whole = Math.floor(seconds);
  const product = (seconds - whole) * Number(TICKS_PER_SECOND);
  const ticks = Math.round(product);
  if (Math.abs(Math.abs(product - ticks) - 0.5) < UNSURE) return null;
  return whole * Number(TICKS_PER_SECOND) + ticks;
}

// The tick nearest to a finite double.
export function ticksOf(seconds) {
  const number = ticksAsNumber(seconds);
  if (number !== null) return BigInt(number);
  view.setFloat64(0, Math.abs(seconds));
  const bits = view.getBigUint64(0);
  const exponent = bits >> 52n;
  const fraction = bits & ((1n << 52n) - 1n);
  // the double is `whole` times 2 to the power of `power`
  const whole = exponent === 0n ? fraction : fraction | (1n << 52n);
  const power = (exponent === 0n ? 1n : exponent) - 1075n;
  const product = whole * TICKS_PER_SECOND;
  const ticks = power >= 0n ? product << power : (product + (1n << (-power - 1n))) >> -power;
  return seconds < 0 ? -ticks : ticks;
}

// The double nearest to so many ticks.
function nearestDouble(ticks) {
  const number = Number(ticks);
  if (Number.isSafeInteger(number)) return number / Number(TICKS_PER_SECOND);
  // the last bit tells whether there is a rest, so that the conversion rounds as it would with the whole quotient
  const dividend = (ticks < 0n ? -ticks : ticks) << 64n;
  const rest = dividend % TICKS_PER_SECOND === 0n ? 0n : 1n;
  const quotient = ((dividend / TICKS_PER_SECOND) << 1n) | rest;
  return (Number(quotient) / 2 ** 65) * (ticks < 0n ? -1 : 1);
}

// The seconds of a time that the engine tells: ticks, NaN or Infinity.
export function secondsOf(time) {
  return typeof time === 'bigint' ? nearestDouble(time) : time;
}

// The time of a line for so many seconds: the tick that is nearest. A line has no negative infinity; wherever a page
// may hand it in, it is refused as NaN is.
export function timeText(seconds) {
  if (Number.isNaN(seconds) || seconds === -Infinity) return 'nan';
  if (seconds === Infinity) return 'inf';
  const number = ticksAsNumber(seconds);
  if (number !== null) return String(number);
  const ticks = ticksOf(seconds);
  const length = ticks < 0n ? -ticks : ticks;
  if (length > MOST_TICKS) {
    throw new NotThereError(`a time of ${seconds} seconds`, 'times end 2^110 ticks from 0, at 9.2e21 seconds');
  }
  if (length < MOST_NUMBER) return String(ticks);
  return Number.isInteger(seconds) ? `${BigInt(seconds)}/1` : `${BigInt(seconds * SCALE)}/${SCALE}`;
}
