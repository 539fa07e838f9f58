// Why a call was refused, in words: the first condition of its row in docs/MACHINE.md that holds. Which exception is
// thrown is the engine's to say.

const isRemoved = ['InvalidStateError', ({ buffer }) => buffer === null, 'the source buffer was removed'];
const isUpdating = ['InvalidStateError', ({ buffer }) => buffer.updating, 'the source buffer is updating'];
const isNotOpen = ['InvalidStateError', ({ attributes }) => attributes.readyState !== 'open',
  'the media source is not open'];
const isAnyUpdating = ['InvalidStateError', ({ buffers }) => buffers.some((each) => each?.updating),
  'a source buffer is updating'];
const isInSegment = ['InvalidStateError', () => true, 'the source buffer is in the middle of a media segment'];
const isUnsupported = ['NotSupportedError', () => true, 'the type is not supported'];
const isEmptyType = ['TypeError', () => true, 'the type is empty'];

function isNotFinite(what, count = 1) {
  return ['TypeError', ({ values }) => !values.slice(0, count).every(Number.isFinite), `${what} is not finite`];
}

function typeError(isSo, words) {
  return ['TypeError', isSo, words];
}

const ROWS = {
  add: [isEmptyType, isUnsupported, isNotOpen,
    ['QuotaExceededError', () => true, 'there are as many source buffers as there may be']],
  duration: [typeError(({ values }) => Number.isNaN(values[0]), 'the duration is not a number'),
    typeError(() => true, 'the duration is negative'), isNotOpen, isAnyUpdating,
    ['InvalidStateError', () => true, 'a coded frame begins behind it: remove it first']],
  endofstream: [isNotOpen, isAnyUpdating],
  live: [isNotFinite('a time', 2), isNotOpen, typeError(({ values }) => values[0] < 0, 'the start is negative'),
    typeError(() => true, 'the start is behind the end')],
  clearlive: [isNotOpen],
  mode: [isRemoved, isUpdating, typeError(() => true, 'the type generates timestamps'), isInSegment],
  offset: [isNotFinite('the offset'), isRemoved, isUpdating, isInSegment],
  windowstart: [isNotFinite('the start'), isRemoved, isUpdating,
    typeError(({ values }) => values[0] < 0, 'the start is negative'),
    typeError(() => true, 'the start is not before the end of the append window')],
  windowend: [isRemoved, isUpdating, typeError(({ values }) => Number.isNaN(values[0]), 'the end is not a number'),
    typeError(() => true, 'the end is not behind the start of the append window')],
  append: [isRemoved, isUpdating, ['InvalidStateError', () => true, 'the element has an error'],
    ['QuotaExceededError', () => true, 'the source buffer is full, and no coded frame may be evicted']],
  abort: [isRemoved, isNotOpen, ['InvalidStateError', () => true, 'a removal runs']],
  remove: [isNotFinite('the start'), isRemoved, isUpdating,
    typeError(({ attributes }) => Number.isNaN(attributes.duration), 'the media source has no duration'),
    typeError(({ values }) => values[0] < 0, 'the start is negative'),
    typeError(({ values, duration }) => values[0] > duration, 'the start is behind the duration'),
    typeError(({ values }) => Number.isNaN(values[1]), 'the end is not a number'),
    typeError(() => true, 'the end is not behind the start')],
  changetype: [isEmptyType, isRemoved, isUpdating, isUnsupported],
  seek: [isNotFinite('the time')],
  play: [['NotSupportedError', () => true, 'there is no media source to play']],
};

// The words for a call that was refused with the exception of a name. `state` has `attributes` of the source and the
// element, `duration` in seconds, `buffers` in the list, `buffer`, which was called, and `values`, which were handed
// in.
export function reasonOf(word, name, state) {
  const row = (ROWS[word] ?? []).find(([of, isSo]) => of === name && isSo(state));
  return row === undefined ? name : row[2];
}
