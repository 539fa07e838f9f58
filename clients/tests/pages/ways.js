// Fourteen ways in which pages use Media Source Extensions. Each is a function of the page's video, and its promise is
// kept when the page has done all that it does. They wait for what happens, and not for times.
"use strict";

const PICTURES = 'video/mp4; codecs="avc1.42C00A"';
const HIGH = 'video/mp4; codecs="avc1.64000A"';
const SOUND = 'audio/mp4; codecs="mp4a.40.2"';
const ROWS = "../../rows/";
const EXAMPLES = "../../../crates/case_runs/data/";

function once(target, ...types) {
  return new Promise((done) => types.forEach((type) => target.addEventListener(type, done, {once: true})));
}

function later(milliseconds = 30) {
  return new Promise((done) => setTimeout(done, milliseconds));
}

async function until(isSo) {
  while (!isSo()) await later();
}

async function fileOf(name) {
  return new Uint8Array(await (await fetch(name)).arrayBuffer());
}

// the boxes of a file, each as its type, its first byte and its end
function boxesOf(bytes) {
  const view = new DataView(bytes.buffer, bytes.byteOffset);
  const boxes = [];
  for (let at = 0; at + 8 <= bytes.length;) {
    const end = at + view.getUint32(at);
    boxes.push({type: String.fromCharCode(...bytes.subarray(at + 4, at + 8)), at, end});
    at = end;
  }
  return boxes;
}

// the initialization segment, and each media segment
async function segmentsOf(name) {
  const bytes = await fileOf(name);
  const segments = [];
  let start = 0;
  for (const {type, end} of boxesOf(bytes)) {
    if (type !== "moov" && type !== "mdat") continue;
    segments.push(bytes.slice(start, end));
    start = end;
  }
  return segments;
}

async function opened(video) {
  const source = new MediaSource();
  video.src = URL.createObjectURL(source);
  await once(source, "sourceopen");
  return source;
}

async function append(buffer, bytes) {
  buffer.appendBuffer(bytes);
  await once(buffer, "updateend");
}

// the element has what it needs to show the picture at its position
async function seen(video) {
  await until(() => video.readyState >= 2);
  await later(100);
}

const WAYS = {
  // two source buffers, in each of which the updateend of a segment appends the next
  async chained(video) {
    const parts = [await segmentsOf(`${ROWS}plain.mp4`), await segmentsOf(`${EXAMPLES}audio.mp4`)];
    const source = await opened(video);
    const buffers = [source.addSourceBuffer(PICTURES), source.addSourceBuffer(SOUND)];
    const isOver = () => parts.every((segments) => !segments.length) && buffers.every((buffer) => !buffer.updating);
    buffers.forEach((buffer, i) => {
      buffer.addEventListener("updateend", () => {
        if (parts[i].length) buffer.appendBuffer(parts[i].shift());
        else if (isOver()) source.endOfStream();
      });
      buffer.appendBuffer(parts[i].shift());
    });
    await once(source, "sourceended");
    await seen(video);
  },

  // promises alone: the next call stands in the task of the event before it
  async promises(video) {
    const segments = await segmentsOf(`${ROWS}plain.mp4`);
    const source = await opened(video);
    const buffer = source.addSourceBuffer(PICTURES);
    source.duration = 3;
    for (const segment of segments) {
      await append(buffer, segment);
      if (buffer.buffered.length) buffer.buffered.end(0);
    }
    source.endOfStream();
    await seen(video);
    video.currentTime = 2.5;
    await once(video, "seeked");
    await seen(video);
  },

  // another codec, and back
  async types(video) {
    const [plain, high] = [await segmentsOf(`${ROWS}plain.mp4`), await segmentsOf(`${ROWS}late.mp4`)];
    const source = await opened(video);
    const buffer = source.addSourceBuffer(PICTURES);
    for (const segment of plain) await append(buffer, segment);
    buffer.changeType(HIGH);
    buffer.timestampOffset = 3;
    for (const segment of high) await append(buffer, segment);
    try { buffer.changeType("video/none"); } catch { /* it is refused */ }
    buffer.changeType(PICTURES);
    buffer.timestampOffset = 7;
    for (const segment of plain) await append(buffer, segment);
    console.log(buffer.buffered.length);
    source.endOfStream();
    await seen(video);
  },

  // a timer looks at what is ahead, appends, seeks once, and plays to the end
  async timers(video) {
    const segments = await segmentsOf(`${ROWS}plain.mp4`);
    const source = await opened(video);
    const buffer = source.addSourceBuffer(PICTURES);
    video.play();
    let hasSought = false;
    const timer = setInterval(() => {
      if (buffer.updating) return;
      const end = buffer.buffered.length ? buffer.buffered.end(buffer.buffered.length - 1) : 0;
      if (segments.length && end - video.currentTime < 1.5) buffer.appendBuffer(segments.shift());
      else if (!segments.length && source.readyState === "open") source.endOfStream();
      if (!hasSought && video.currentTime > 0.4 && end > 1.2) {
        hasSought = true;
        video.currentTime = 1;
      }
    }, 40);
    await once(video, "ended");
    clearInterval(timer);
    await later(100);
  },

  // a live stream: no end, a window that moves, and old media that are removed
  async live(video) {
    const [head, ...media] = await segmentsOf(`${ROWS}plain.mp4`);
    const source = await opened(video);
    const buffer = source.addSourceBuffer(PICTURES);
    source.duration = Infinity;
    await append(buffer, head);
    for (let i = 0; i < 3; i += 1) {
      buffer.timestampOffset = 3 * i;
      for (const segment of media) await append(buffer, segment);
      source.setLiveSeekableRange(Math.max(0, 3 * i - 2), 3 * i + 3);
      console.log(video.seekable.length);
    }
    video.currentTime = 7;
    await once(video, "seeked");
    buffer.remove(0, 5);
    await once(buffer, "updateend");
    console.log(buffer.buffered.length);
    source.clearLiveSeekableRange();
    await seen(video);
  },

  // aborts at once, behind whole segments and in the middle of one
  async aborts(video) {
    const [head, ...media] = await segmentsOf(`${ROWS}plain.mp4`);
    const source = await opened(video);
    const buffer = source.addSourceBuffer(PICTURES);
    await append(buffer, head);
    await append(buffer, media[0]);
    await append(buffer, media[1].slice(0, 400));
    buffer.abort();
    await append(buffer, media[1]);
    buffer.appendBuffer(media[2]);
    buffer.abort();
    await later(100);
    console.log(buffer.buffered.length);
    await append(buffer, media[2]);
    source.endOfStream();
    await seen(video);
  },

  // appends until the browser refuses one, makes room, and goes on
  async quota(video) {
    const [head, ...media] = await segmentsOf(`${ROWS}large.mp4`);
    const source = await opened(video);
    const buffer = source.addSourceBuffer(PICTURES);
    await append(buffer, head);
    let hasMet = false;
    for (let i = 0; i < 12 && !hasMet; i += 1) {
      buffer.timestampOffset = Math.floor(i / 3) * 3;
      try {
        await append(buffer, media[i % 3]);
      } catch (error) {
        if (error.name !== "QuotaExceededError") throw error;
        hasMet = true;
      }
    }
    if (!hasMet) throw new Error("the quota was not met");
    console.log(buffer.buffered.length);
    buffer.remove(1, 3);
    await once(buffer, "updateend");
    await append(buffer, media[0]);
    console.log(buffer.buffered.length);
    await seen(video);
  },

  // a moof that is broken inside
  async broken(video) {
    const [head, ...media] = await segmentsOf(`${ROWS}plain.mp4`);
    const source = await opened(video);
    const buffer = source.addSourceBuffer(PICTURES);
    await append(buffer, head);
    await append(buffer, media[0]);
    await seen(video);
    const broken = media[1].slice();
    const text = String.fromCharCode(...broken);
    broken.fill(0xFF, text.indexOf("traf") - 4, text.indexOf("traf"));
    await append(buffer, broken);
    try { await append(buffer, media[2]); } catch { /* the source has ended */ }
    await later(100);
  },

  // the source is given as an object, where the browser takes it
  async object(video) {
    const segments = await segmentsOf(`${ROWS}plain.mp4`);
    const source = new MediaSource();
    try {
      video.srcObject = source;
    } catch {
      video.src = URL.createObjectURL(source);
    }
    await once(source, "sourceopen");
    const buffer = source.addSourceBuffer(PICTURES);
    for (const segment of segments) await append(buffer, segment);
    source.endOfStream();
    await seen(video);
  },

  // sources that are left in four ways, each with a part of what the next one has
  async second(video) {
    const segments = await segmentsOf(`${ROWS}plain.mp4`);
    const ways = [
      () => { video.src = ""; },
      () => { video.removeAttribute("src"); video.load(); },
      () => { video.load(); },
      () => {},
    ];
    for (const [i, leave] of ways.entries()) {
      const source = await opened(video);
      const buffer = source.addSourceBuffer(PICTURES);
      for (const segment of segments.slice(0, i + 1)) await append(buffer, segment);
      await until(() => video.readyState >= (i > 0 ? 2 : 1));
      await later(100);
      leave();
      await until(() => i === ways.length - 1 || source.readyState === "closed");
    }
    video.src = URL.createObjectURL(new Blob([]));
    await once(video, "error");
  },

  // a player in a frame
  async frame(video) {
    const frame = document.createElement("iframe");
    frame.src = "frame.html";
    video.after(frame);
    await once(frame, "load");
    await frame.contentWindow.eval("done");
  },

  // it plays before there is anything to play, and comes to the end of what there is
  async early(video) {
    const [head, ...media] = await segmentsOf(`${ROWS}plain.mp4`);
    const source = await opened(video);
    const buffer = source.addSourceBuffer(PICTURES);
    await append(buffer, head);
    await append(buffer, media[0]);
    video.play();
    await until(() => video.currentTime > 0.3);
    await append(buffer, media[1]);
    await append(buffer, media[2]);
    source.endOfStream();
    await once(video, "ended");
    await later(100);
  },

  // seeks to where nothing is yet, which is appended then
  async seeks(video) {
    const [head, ...media] = await segmentsOf(`${ROWS}plain.mp4`);
    const source = await opened(video);
    const buffer = source.addSourceBuffer(PICTURES);
    source.duration = 3;
    await append(buffer, head);
    await append(buffer, media[0]);
    await seen(video);
    for (const [time, segment] of [[2.2, media[2]], [1.2, media[1]]]) {
      video.currentTime = time;
      await once(video, "seeking");
      await append(buffer, segment);
      await until(() => !video.seeking);
      await seen(video);
    }
    video.currentTime = 0.5;
    await once(video, "seeked");
    await seen(video);
    source.endOfStream();
    await later(100);
  },

  // mode, offset and window, and a removal in the middle
  async windows(video) {
    const [head, ...media] = await segmentsOf(`${ROWS}plain.mp4`);
    const source = await opened(video);
    const buffer = source.addSourceBuffer(PICTURES);
    buffer.mode = "sequence";
    await append(buffer, head);
    for (const segment of [media[1], media[0], media[2]]) await append(buffer, segment);
    buffer.mode = "segments";
    buffer.timestampOffset = 4;
    buffer.appendWindowStart = 5;
    for (const segment of media) await append(buffer, segment);
    console.log(buffer.buffered.length);
    buffer.remove(1, 2);
    await once(buffer, "updateend");
    console.log(buffer.buffered.length);
    source.endOfStream();
    await seen(video);
  },
};
