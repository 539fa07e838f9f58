// Times as scripts write them and as lines print them.

/** The ticks of a second, and of a microsecond. */
export const SECOND = 141_120_000_000n;
const MICROSECOND = 141_120n;

const MOST_TICKS = 1n << 110n;
const MOST_SCALE = 4_294_967_295n;
const TIME = /^(-?)(0|[1-9][0-9]{0,23})(?:\/([1-9][0-9]{0,9}))?$/;

export const TIME_HELP = 'a time is ticks, n/scale, inf or nan';

/** Whether a word is a time. */
export function isTime(word) {
  if (word === 'inf' || word === 'nan') return true;
  const found = TIME.exec(word);
  if (!found || word.startsWith('-0')) return false;
  const [number, scale] = [BigInt(found[1] + found[2]), BigInt(found[3] ?? SECOND)];
  if (scale > MOST_SCALE && found[3]) return false;
  // rounded down, so that a time a part of a tick below the least one is none
  const ticks = number * SECOND;
  return ticks >= -MOST_TICKS * scale && ticks < (MOST_TICKS + 1n) * scale;
}

/** Whether a word is a bare number of ticks that is not 0 and less than a microsecond. */
export function isTinyTime(word) {
  if (!isTime(word) || !/^-?[1-9][0-9]*$/.test(word)) return false;
  return BigInt(word.replace('-', '')) < MICROSECOND;
}

/** The caution for such a word. */
export function tinyTimeHelp(word) {
  const unit = word === '1' || word === '-1' ? 'tick' : 'ticks';
  return `${word} is ${word} ${unit}, less than a microsecond; ${word} seconds are ${word}/1`;
}

/** Ticks as decimal seconds, to the nearest nanosecond; inf and nan as they are. */
export function secondsOf(ticks) {
  if (ticks === 'inf' || ticks === 'nan') return ticks;
  const value = BigInt(ticks);
  const size = value < 0n ? -value : value;
  const nanoseconds = (size * 1_000_000_000n + SECOND / 2n) / SECOND;
  const fraction = String(nanoseconds % 1_000_000_000n).padStart(9, '0').replace(/0+$/, '');
  const sign = value < 0n && nanoseconds > 0n ? '-' : '';
  return `${sign}${nanoseconds / 1_000_000_000n}${fraction && '.'}${fraction}`;
}
