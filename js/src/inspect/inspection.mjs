// Appends files to a live session, one segment at a time, and tells of each what became of it. What is buffered and
// which frames are held is the engine's word; the boxes tell how many samples a segment has.

import { readFragment, readMovie } from './boxes.mjs';
import { lookInto } from './losses.mjs';
import { pieces, Reader } from './reader.mjs';
import { segments } from './segments.mjs';
import { forgetFilled, trackRow } from './track_row.mjs';

// The greatest quota of a script, so that nothing is evicted; and how many segments are looked into for lost frames.
const QUOTA = 2 ** 40;
const MOST_LOOKED_INTO = 200;
const ASKED_AT_EACH = 500;

const pairsOf = (ranges) => ranges.map(({ start, end }) => [start, end]);

// A source buffer of an inspection, with the places in files of the bytes that it received.
class Filled {
  constructor(number, { type, files }) {
    Object.assign(this, { number, type, files, ranges: [], tracks: [], end: 0n, done: false });
    this.places = [];
    this.received = 0;
    this.segments = 0;
    this.init = null;
    this.spans = new Map();
  }

  // The file and the place in it of a byte of the buffer's string.
  placeOf(offset) {
    const place = this.places.findLast((place) => place.at <= offset) ?? this.places[0];
    return { file: place.source.name, at: place.from + offset - place.at };
  }
}

export class Inspection {
  rows = [];
  lines = [];
  steps = [];
  sources = [];
  fault = null;
  #engine;
  #lookedInto = 0;

  constructor(engine, { gap = 0 } = {}) {
    this.#engine = engine;
    this.session = new engine.Session({ quota: QUOTA, gap });
    this.keys = { quota: QUOTA, gap };
  }

  // Does a step; in the script it may stand otherwise, as an append of a part of a file.
  step(line, told = line) {
    const answer = this.session.step(line);
    this.steps.push(told);
    const retold = (printed) => (told === line ? printed : printed.replace(`call ${line}: `, `call ${told}: `));
    for (const printed of answer.lines) this.lines.push(retold(printed));
    return answer;
  }

  // Appends all files of a plan; yields a row for each segment once it is worked.
  async *append(plan) {
    this.step('attach');
    this.step('drain');
    this.buffers = plan.buffers.map((buffer, number) => new Filled(number, buffer));
    for (const { type } of this.buffers) this.step(`add ${type}`);
    this.step('drain');
    for (const buffer of this.buffers) buffer.next = this.#segmentsOf(buffer);
    for (let buffer = this.#nextBuffer(); buffer; buffer = this.#nextBuffer()) {
      const { value, done } = await buffer.next.next();
      if (done) buffer.done = true;
      else yield this.fault ? this.#passOver(buffer, value) : await this.#appendSegment(buffer, value);
    }
    this.#finish();
  }

  // Behind all appends: what is a gap is what still is one.
  #finish() {
    for (const row of this.rows) for (const track of row.tracks) {
      if (track.inside.length === 0 && track.between?.kind !== 'gap') continue;
      const last = this.buffers[row.buffer].tracks.find((one) => one.id === track.id);
      if (last) forgetFilled(track, last.ranges);
    }
  }

  // As a player fills them: the buffer whose media end first.
  #nextBuffer() {
    const left = this.buffers.filter((buffer) => !buffer.done);
    return left.reduce((best, one) => (best && best.end <= one.end ? best : one), null);
  }

  async *#segmentsOf(buffer) {
    for (const file of buffer.files) {
      const reader = new Reader(file.source), blob = this.sources.push(file.source) - 1;
      const isAdts = buffer.type === 'audio/aac';
      const found = isAdts ? [{ kind: 'frames', from: 0, to: file.source.size, boxes: [] }] : segments(reader);
      for await (const segment of found) yield { ...segment, source: file.source, reader, blob };
    }
  }

  async #appendSegment(buffer, segment) {
    const row = this.#rowOf(buffer, segment);
    const told = await this.#read(buffer, segment);
    const before = buffer.tracks;
    await this.#give(buffer, segment, row);
    Object.assign(buffer, this.stateOf(buffer.number));
    buffer.end = buffer.ranges.at(-1)?.[1] ?? 0n;
    row.tracks = buffer.tracks.map((track) =>
      trackRow(track, before.find((one) => one.id === track.id), told.get(track.id), buffer.spans));
    row.lines = this.lines.length;
    this.#takeFault(buffer, row);
    await this.#lookIntoLosses(buffer, segment, row);
    this.#ask(buffer, row);
    this.rows.push(row);
    return row;
  }

  // Behind a fault nothing is read; the segments that are there are told all the same.
  #passOver(buffer, segment) {
    const row = this.#rowOf(buffer, segment);
    row.isRead = false;
    row.lines = this.lines.length;
    this.rows.push(row);
    return row;
  }

  #rowOf(buffer, { kind, source, from, to, boxes }) {
    const sized = boxes.map((box) => ({ type: box.type, size: box.to - box.from, told: box.told }));
    return {
      number: this.rows.length + 1, segment: kind === 'media' ? ++buffer.segments : 0, kind, buffer: buffer.number,
      file: source.name, from, to, boxes: sized, tracks: [],
      fault: null, isFaulty: false, isRead: true, refused: null,
    };
  }

  // What the boxes of a segment tell, of each track.
  async #read(buffer, segment) {
    const box = (type) => segment.boxes.find((box) => box.type === type && box.to - box.from <= 1 << 24);
    const moov = box('moov'), moof = box('moof');
    if (segment.kind === 'init' && moov) {
      buffer.movie = readMovie(await segment.reader.bytes(moov.from, moov.to));
      buffer.init = (await segment.reader.bytes(segment.from, segment.to)).slice();
      buffer.spans = new Map();
    }
    if (!moof || !buffer.movie) return new Map();
    const told = readFragment(await segment.reader.bytes(moof.from, moof.to), buffer.movie.tracks);
    return new Map(told.map((one) => [one.track.id, one]));
  }

  async #give(buffer, segment, row) {
    for await (const { from, bytes } of pieces(segment.reader, segment.from, segment.to)) {
      buffer.places.push({ at: buffer.received, source: segment.source, from });
      const number = this.session.give(bytes);
      const part = `${segment.blob} ${from} ${bytes.length}`;
      const answer = this.step(`append ${buffer.number} ${number}`, `append ${buffer.number} ${part}`);
      if (answer.refused) { row.refused = answer.refused; return; }
      this.step('drain');
      this.session.forget(number + 1);
      buffer.received += bytes.length;
      row.isFaulty = this.session.attributes().fault !== null;
      if (row.isFaulty) return;
    }
  }

  #takeFault(buffer, row) {
    if (!row.isFaulty) return;
    const line = this.block().find((line) => line.startsWith('fault '));
    const found = /^fault (\d+) (.+?)(?: buffer \d+)? at (\d+)$/.exec(line ?? '');
    if (!found) return;
    this.fault = row.fault = { number: Number(found[1]), name: found[2], line, ...buffer.placeOf(Number(found[3])) };
  }

  async #lookIntoLosses(buffer, segment, row) {
    const lossy = row.tracks.some((track) => track.samples && track.samples !== track.after - track.before);
    const isCut = segment.boxes.some((box) => !(box.told <= box.to - box.from));
    if (!lossy || isCut || row.fault || !buffer.init || segment.to - segment.from > 1 << 26) return;
    if (this.#lookedInto++ >= MOST_LOOKED_INTO) return;
    const bytes = await segment.reader.bytes(segment.from, segment.to);
    lookInto(this.#engine, buffer.type, buffer.init, bytes, row.tracks);
  }

  // Questions between the appends, so that the lines tell what was buffered then.
  #ask(buffer, row) {
    const isPlain = row.tracks.every((track) => track.between === null || track.between.kind === 'none');
    if (this.rows.length >= ASKED_AT_EACH && isPlain) return;
    this.step(`buffered ${buffer.number}`);
    this.step('elementbuffered');
  }

  // What the engine says of a buffer, with ranges as pairs.
  stateOf(number) {
    const state = this.session.buffer(number);
    if (!state) return { phase: 'waiting', held: 0, used: 0, ranges: [], tracks: [] };
    const { phase, held, used, ranges, tracks } = state;
    const tracksWithPairs = tracks.map((track) => ({ ...track, ranges: pairsOf(track.ranges) }));
    return { phase, held, used, ranges: pairsOf(ranges), tracks: tracksWithPairs };
  }

  block() {
    return this.session.block();
  }

  close() {
    this.session.close();
  }
}
