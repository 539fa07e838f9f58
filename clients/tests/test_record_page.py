"""record.js leaves the page as it was: what a page sees, what its arguments are asked, what reads cost, and which media
sources are recorded."""

import base64
import io
import itertools
import json
import zipfile

import kit
from driven import browser, close, in_each_browser  # noqa: F401
from test_record import ARCHIVE, OPENED, SECOND, script_of, unexplained

RECORD = (kit.CLIENTS / "record.js").read_text()
numbers = itertools.count()


def blank(kind):
    """An empty page."""
    return browser(kind).page(f"about:blank?{next(numbers)}")


def body(page, code):
    """What the body of an async function answers on a page."""
    return page.call(f"async () => {{ {code} }}")


def recorder(kind, code):
    """The recording of a page with record.js alone, on which code was run, and what the code answers."""
    page = blank(kind)
    page.call(f"() => {{ {RECORD} }}")
    told = body(page, code)
    return zipfile.ZipFile(io.BytesIO(base64.b64decode(page.call(ARCHIVE, None)))), told


def without_and_with(kind, code):
    """What code answers on a page without record.js, and on one with it; and the second page's recording."""
    plain = body(blank(kind), code)
    archive, wrapped = recorder(kind, code)
    return plain, wrapped, archive


def check_names_and_lengths(kind):
    """Every property of the types that are wrapped is as the browser made it."""
    plain, wrapped, _ = without_and_with(kind, """
        const facts = [];
        const types = {MediaSource, SourceBuffer, HTMLMediaElement, HTMLVideoElement, HTMLIFrameElement, HTMLSourceElement,
          Element, URL};
        for (const [type, {prototype}] of Object.entries(types)) {
          for (const object of [types[type], prototype]) {
            for (const key of Reflect.ownKeys(object)) {
              const {value, get, set, ...rest} = Object.getOwnPropertyDescriptor(object, key);
              const of = (f) => typeof f === "function" ? [f.name, f.length, "prototype" in f] : typeof f;
              facts.push([type, String(key), of(value), of(get), of(set), JSON.stringify(rest)]);
            }
          }
        }
        new MediaSource();
        return facts;""")
    assert plain == wrapped, [pair for pair in zip(plain, wrapped) if pair[0] != pair[1]]
    return f"{len(plain)} properties"


def check_arguments_are_asked_once(kind):
    """`valueOf` and `toString` run as often as without the recorder, and in the same order."""
    plain, wrapped, archive = without_and_with(kind, OPENED + """
        const asked = [];
        const number = (name, value) => ({valueOf() { asked.push(name); return value; }});
        const text = (name, value) => ({toString() { asked.push(name); return value; }});
        const tried = [
          () => { source.duration = number("duration", 10); },
          () => { buffer.timestampOffset = number("offset", 1); },
          () => { buffer.appendWindowStart = number("start", 0.5); },
          () => { buffer.appendWindowEnd = number("end", 8); },
          () => { buffer.mode = text("mode", "sequence"); },
          () => { video.currentTime = number("seek", 2); },
          () => source.setLiveSeekableRange(number("first", 0), number("last", 1)),
          () => source.addSourceBuffer(text("type", "video/none")),
          () => buffer.changeType(text("other type", "video/none")),
          () => buffer.remove(number("remove", NaN), number("never asked", 1)),
          () => buffer.remove(number("once", 1)),
          () => source.endOfStream(text("error", "neither")),
          () => buffer.remove(number("from", 0), number("to", 1)),
          () => { source.duration = {valueOf() { throw new RangeError("of the page"); }}; },
          () => { buffer.timestampOffset = Symbol("none"); },
          () => { source.duration = 10n; },
          () => document.createElement("video").setAttribute(text("name", "src"), text("value", "")),
          () => { document.createElement("video").src = text("address", ""); },
        ];
        return tried.map((call) => {
          asked.length = 0;
          try { call(); return [[...asked], "done"]; } catch (error) { return [[...asked], error.name]; }
        });""")
    assert plain == wrapped, "\n".join(f"{one} | {other}" for one, other in zip(plain, wrapped) if one != other)
    steps = script_of(archive)["steps"]
    for line in (f"duration {10 * SECOND}", f"offset 0 {SECOND}", "mode 0 sequence", f"seek {2 * SECOND}",
                 "add video/none", f"remove 0 0 {SECOND}"):
        assert line in steps, (line, steps)


def check_memory_that_was_given_away(kind):
    plain, wrapped, archive = without_and_with(kind, OPENED + """
        const tried = [];
        const lost = [new Uint8Array(8), new Uint8Array(8).buffer, new DataView(new ArrayBuffer(8))];
        for (const bytes of lost) {
          structuredClone(null, {transfer: [bytes.buffer ?? bytes]});
          try { buffer.appendBuffer(bytes); await heard("updateend"); tried.push("done"); } catch (error) { tried.push(error.name); }
        }
        for (const bytes of [null, [1, 2], "text", 5]) {
          try { buffer.appendBuffer(bytes); tried.push("done"); } catch (error) { tried.push(error.name); }
        }
        return tried;""")
    assert plain == wrapped, (plain, wrapped)
    steps = script_of(archive)["steps"]
    assert [step for step in steps if step.startswith("append")] == ["append 0 0 0 0"] * plain.count("done"), steps
    assert unexplained(archive, kind.name) == []


def check_reads_cost_little(kind):
    """72,000 reads of `buffered` take at most 1.5 times as long as without the recorder. They are timed in 60 parts, by
    turns with those without, and the quickest part of each counts: what else the machine does takes others longer."""
    ratios = body(blank(kind), """
        const own = [SourceBuffer, HTMLMediaElement].map(({prototype}) =>
          Object.getOwnPropertyDescriptor(prototype, "buffered").get);
        %s
        %s
        const bytes = Uint8Array.from(atob(%s), (character) => character.charCodeAt(0));
        buffer.appendBuffer(bytes);
        await heard("updateend");
        const timed = (read) => {
          const start = performance.now();
          for (let i = 0; i < 1200; i += 1) read();
          return performance.now() - start;
        };
        return [buffer, video].map((target, i) => {
          const get = own[i];
          const [plain, wrapped] = [[], []];
          for (let trial = 0; trial < 60; trial += 1) {
            plain.push(timed(() => get.call(target)));
            wrapped.push(timed(() => target.buffered));
          }
          return Math.min(...wrapped) / Math.min(...plain);
        });""" % (RECORD, OPENED, json.dumps(base64_of("plain.mp4"))))
    told = ", ".join(f"{ratio:.2f}" for ratio in ratios)
    assert max(ratios) <= 1.5, told
    return f"{told} times"


def base64_of(name):
    return base64.b64encode((kit.CLIENTS / "rows" / name).read_bytes()).decode()


def check_reads_that_change_are_kept(kind):
    """Of reads that stand together the first and the last are kept, where they differ, and where anything else comes."""
    archive, _ = recorder(kind, OPENED + f"""
        const bytes = Uint8Array.from(atob({json.dumps(base64_of("plain.mp4"))}), (character) => character.charCodeAt(0));
        for (let i = 0; i < 100; i += 1) buffer.buffered;
        buffer.appendBuffer(bytes.slice(0, 1627));
        await heard("updateend");
        for (let i = 0; i < 100; i += 1) {{ buffer.buffered; video.buffered; }}
        source.removeSourceBuffer(buffer);
        try {{ buffer.buffered; }} catch (error) {{ }}""")
    reads = [line for line in archive.read("browser.txt").decode().splitlines() if "buffered" in line and "call" in line]
    assert reads[0] == "call buffered 0: ranges none" and reads[-1] == "call buffered 0: refused InvalidStateError", reads
    assert reads[1:3] == [f"call buffered 0: ranges [0,{SECOND})", f"call elementbuffered: ranges [0,{SECOND})"], reads


def check_an_element_in_a_closed_shadow_root(kind):
    archive, _ = recorder(kind, """
        const host = document.createElement("div");
        document.body.append(host);
        const root = host.attachShadow({mode: "closed"});
        const source = new MediaSource();
        root.innerHTML = `<video muted><source src="${URL.createObjectURL(source)}"></video>`;
        await new Promise((done) => { source.onsourceopen = done; });
        root.querySelector("video").currentTime = 2;""")
    assert f"seek {2 * SECOND}" in script_of(archive)["steps"], script_of(archive)


def check_a_source_of_a_frame(kind):
    """One that is made of a frame's own MediaSource, in the task that puts the frame into the page."""
    archive, _ = recorder(kind, """
        const frame = document.createElement("iframe");
        document.body.append(frame);
        const source = new frame.contentWindow.MediaSource();
        const video = frame.contentDocument.createElement("video");
        video.src = frame.contentWindow.URL.createObjectURL(source);
        await new Promise((done) => { source.onsourceopen = done; });
        const buffer = source.addSourceBuffer('video/mp4; codecs="avc1.42C00A"');
        buffer.appendBuffer(new frame.contentWindow.Uint8Array([0, 0, 0, 8, 102, 114, 101, 101]));
        await new Promise((done) => { buffer.onupdateend = done; });
        frame.contentWindow.record.list();
        video.currentTime = 2;""")
    steps = script_of(archive)["steps"]
    assert "append 0 0 0 8" in steps and f"seek {2 * SECOND}" in steps, steps
    assert unexplained(archive, kind.name) == []


def check_what_cannot_be_recorded_is_told_once(kind):
    told = body(blank(kind), """
        const told = [];
        console.warn = (text) => told.push(text);
        %s
        if (!window.MediaSourceHandle) return null;
        const code = `
          const source = new MediaSource();
          postMessage(source.handle, [source.handle]);`;
        for (let i = 0; i < 2; i += 1) {
          const worker = new Worker(URL.createObjectURL(new Blob([code])));
          const {data} = await new Promise((done) => { worker.onmessage = done; });
          document.createElement("video").srcObject = data;
        }
        return told;""" % RECORD)
    if told is None:
        raise kit.Skip("this browser has no media sources in workers")
    assert told == ["record.js: a media source of a worker is not recorded"], told


CHECKS = [check for name, check in list(globals().items()) if name.startswith("check_")]
for one in CHECKS:
    globals().update(in_each_browser(one))
