"""The differences between mseplay and browsers that docs/BROWSERS.md tells of, for compare.py.

Each entry of KNOWN has the words by which its row is found in docs/BROWSERS.md, the browsers that it is about, and a
test that a difference meets or not. An entry that `ends` is about a thing that all that follows depends on, such as a
file that one of the two refuses: what comes behind it is not compared.
"""
import re
import struct
from collections import Counter
from dataclasses import dataclass
from typing import Callable

SECOND = 141_120_000_000
# Chromium and Firefox count microseconds
NEAR = 3 * SECOND // 1_000_000
SMALL = SECOND // 10
BOTH = ("Chromium", "Firefox")
# the events of the element that tell of its level
LEVEL_EVENTS = ("loadeddata", "canplay", "canplaythrough", "playing", "waiting")


@dataclass
class Known:
    row: str
    test: Callable
    browsers: tuple = BOTH
    ends: bool = False


def near(one, other):
    if isinstance(one, int) and isinstance(other, int):
        return abs(one - other) <= NEAR
    return one == other


# What a difference is. `program` and `browser` are its two lines, one of which may be missing; where both are there,
# `field` names what differs.


def is_event(difference, target, *types):
    line = difference.program or difference.browser
    return difference.field is None and line.kind == "event" and line.target == target and line.type in types


def only_browser(difference):
    return difference.program is None


def only_program(difference):
    return difference.browser is None


def is_moved(difference, *types):
    """An event of the element that comes at another place among its events."""
    return difference.field == "order" and difference.program.target == "element" and difference.program.type in types


def values(difference):
    """What the program and the browser say of the field that differs."""
    return difference.program.fields[difference.field], difference.browser.fields[difference.field]


def is_level(difference, lower, higher):
    """The field `level`, which is one of `lower` in the program and one of `higher` in the browser."""
    if difference.field != "level":
        return False
    program, browser = values(difference)
    return program in lower and browser in higher


def is_of_level(difference):
    """Events and levels of a position that has data in the browser alone."""
    if is_event(difference, "element", "waiting"):
        return only_program(difference)
    if is_event(difference, "element", *LEVEL_EVENTS):
        return only_browser(difference)
    return is_level(difference, (1,), (2, 3, 4))


# Where the media begin: the greatest first start of the buffers.


def start(lines):
    spans = [line.fields["ranges"] for line in lines if line.kind == "buffer"]
    if not spans or not all(spans):
        return None
    return max(ranges[0][0] for ranges in spans)


def starts(run):
    return start(run.program), start(run.browser)


def has_audio_alone(run):
    tracks = [line.text for line in run.program if line.kind == "track"]
    return bool(tracks) and all(" audio " in track for track in tracks)


def fits(ranges, others, pairs_fit):
    """Whether two lists of ranges have the same number, and each pair meets the test."""
    return len(ranges) == len(others) and all(pairs_fit(*pair) for pair in zip(ranges, others))


# The tests, in the order of the page.


def fault_of(name):
    """The program has this fault; the browser took the same append in another way."""
    return lambda difference, run: run.fault == name and difference.is_of_fault


def samples_and_base(difference, run):
    return fault_of("Init HasSamples")(difference, run) and run.has_base_offset()


def samples_alone(difference, run):
    return fault_of("Init HasSamples")(difference, run) and not run.has_base_offset()


def is_at_zero(difference, run):
    """Whether the position is 0 still: the line says so, or no seek comes before it."""
    line = difference.program or difference.browser
    if "position" in line.fields:
        return difference.program is not None and difference.program.fields["position"] == 0
    return not has_called(run, difference, "seek")


def has_called(run, difference, *names):
    """Whether a call of such a name stands before the line."""
    line = difference.program or difference.browser
    lines = run.program if difference.program else run.browser
    return any(one.kind in ("call", "listener") and one.words[0] in names for one in lines[:line.index])


def starts_above(difference, run):
    """The position 0 has no data; the browser plays from the start of the first range."""
    program, browser = starts(run)
    if not program or not browser or program <= NEAR or browser <= NEAR or has_called(run, difference, "remove"):
        return False
    # where a seek mends it, the program tells the level behind the seek, and the browser before it
    is_mended = is_moved(difference, "seeking", "seeked", "timeupdate", *LEVEL_EVENTS)
    return is_mended or (is_of_level(difference) and is_at_zero(difference, run))


def is_cut_front(run, longest):
    program, browser = starts(run)
    return program is not None and browser is not None and near(browser, 0) and NEAR < program < longest


def front_is_longer(difference):
    """Ranges of which only the first start differs, which is at 0 in the browser."""
    if difference.field != "ranges":
        return False
    program, browser = values(difference)
    return (len(program) == len(browser) and bool(program) and near(browser[0][0], 0)
            and near(program[0][1], browser[0][1])
            and fits(program[1:], browser[1:], lambda a, b: near(a[0], b[0]) and near(a[1], b[1])))


def priming(difference, run):
    return (has_audio_alone(run) and is_cut_front(run, SMALL)
            and (front_is_longer(difference) or is_of_level(difference)))


def window_on_sound(difference, run):
    return has_audio_alone(run) and window_trims(difference, run)


def window_trims(difference, run):
    """The browser has the part of a frame up to the bound of the window, which the program drops."""
    first, last = run.times_of("windowstart"), run.times_of("windowend")
    if difference.field == "duration":
        program, browser = values(difference)
        return browser in last and isinstance(program, int) and 0 < browser - program < SMALL
    if difference.field != "ranges":
        return False

    def pair_fits(ours, theirs):
        starts_fit = near(ours[0], theirs[0]) or (theirs[0] in first and 0 < ours[0] - theirs[0] < SMALL)
        ends_fit = near(ours[1], theirs[1]) or (theirs[1] in last and 0 < theirs[1] - ours[1] < SMALL)
        return starts_fit and ends_fit

    return fits(*values(difference), pair_fits)


def begins_with_sound(difference, run):
    """Pictures that begin later than the sound beside them: the range of the browser begins with the first of both."""
    kinds = {track[3] for track in run.tracks()}
    return (kinds == {"video", "audio"} and is_cut_front(run, SECOND)
            and (front_is_longer(difference) or is_of_level(difference)))


def cut_without_encoding(difference, run):
    return run.begins_within_media() and begins_with_sound(difference, run)


def shift_of(program, browser):
    """By how much all ranges of the program are later, or None."""
    if not program or len(program) != len(browser):
        return None
    shift = program[0][0] - browser[0][0]
    is_same = fits(program, browser, lambda a, b: near(a[0] - b[0], shift) and near(a[1] - b[1], shift))
    return shift if is_same and shift > NEAR else None


def is_shifted(run):
    pairs = zip((line for line in run.program if line.kind == "buffer"),
                (line for line in run.browser if line.kind == "buffer"))
    return any(shift_of(ours.fields["ranges"], theirs.fields["ranges"]) for ours, theirs in pairs)


def empty_edit(difference, run):
    if not run.has_empty_edit():
        return False
    if difference.field == "ranges":
        return shift_of(*values(difference)) is not None
    return is_shifted(run) and is_of_level(difference)


def joined(ranges, gap):
    result = []
    for first, last in ranges:
        if result and first - result[-1][1] <= gap:
            result[-1] = (result[-1][0], last)
        else:
            result.append((first, last))
    return result


def small_gap(difference, run):
    if difference.field != "ranges":
        return False
    program, browser = values(difference)
    return len(browser) < len(program) and fits(
        joined(program, SMALL), browser, lambda a, b: near(a[0], b[0]) and near(a[1], b[1]))


def seek_before_all(difference, run):
    """The first seek stands before the first append, and the duration was unknown or infinite then."""
    calls = run.calls_of_program()
    names = [call.words[0] for call in calls]
    if "seek" not in names or "append" not in names or names.index("seek") > names.index("append"):
        return False
    if "duration" in names[:names.index("append")] or run.has(run.program, "element", "seeking"):
        return False
    goal = int(calls[names.index("seek")].words[1])
    if is_event(difference, "element", "seeking", "seeked", "timeupdate"):
        return only_browser(difference)
    if is_event(difference, "element", "canplaythrough"):
        return only_program(difference)
    # the level is that of another position
    line = difference.program
    return difference.field in ("position", "level") and line.fields["position"] == 0 and near(
        difference.browser.fields["position"], goal)


def duration_by_frames(difference, run):
    """A duration was set, and the frames outgrew it: the browser has fewer of these events, at another place."""
    ours, theirs = (sum(1 for line in lines if line.target == "element" and line.type == "durationchange")
                    for lines in (run.program, run.browser))
    is_of_duration = is_event(difference, "element", "durationchange") or is_moved(difference, "durationchange")
    return is_of_duration and bool(run.times_of("duration")) and 1 <= theirs < ours


def error_without_metadata(difference, run):
    """Both have the error, and the browser closed the source."""
    is_closed = run.has(run.browser, "source", "sourceclose") and not run.has(run.program, "element", "loadedmetadata")
    if not is_closed or not run.has(run.program, "element", "error"):
        return False
    line = difference.program or difference.browser
    if only_browser(difference):
        return is_event(difference, "source", "sourceclose") or line.text.endswith(" removesourcebuffer")
    if only_program(difference):
        return line.kind == "buffer" or is_event(difference, "element", "durationchange")
    if difference.field == "answer":
        return values(difference)[1] == "refused InvalidStateError"
    return difference.field in ("source", "duration")


def not_yet_decoded(difference, run):
    """The run ended before the decoder of the browser came to the position, whose bytes are there: level 1."""
    last = next((line.fields for line in run.browser if line.kind == "state"), {})
    ranges = [line.fields["ranges"] for line in run.browser if line.kind == "buffer"]
    is_there = bool(ranges) and all(any(first <= last["position"] <= end for first, end in spans) for spans in ranges)
    if last.get("level") != 1 or last["error"] or not is_there:
        return False
    if is_event(difference, "element", "seeked", "timeupdate"):
        return only_program(difference) and last["seeking"] == "true"
    if is_event(difference, "element", *LEVEL_EVENTS):
        return only_program(difference) or difference.browser.type == "waiting"
    return difference.field == "seeking" and values(difference) == ("false", "true") or is_level(
        difference, (2, 3, 4), (1,))


def no_metadata_yet(difference, run):
    """The run ended before the browser told of the metadata, whose bytes are there: level 0."""
    last = next((line.fields for line in run.browser if line.kind == "state"), {})
    if last.get("level") != 0 or last["error"] or run.has(run.browser, "element", "loadedmetadata"):
        return False
    if is_event(difference, "element", "loadedmetadata", "durationchange", *LEVEL_EVENTS):
        return only_program(difference)
    return is_level(difference, (1, 2, 3, 4), (0,)) or (
        difference.field == "duration" and values(difference)[1] == "nan")


def passed(difference, run):
    """The types of the events of the element that a moved one comes behind on one side and before on the other."""
    ours, theirs = (Counter(line.type for line in lines[:own.index] if line.target == "element") for lines, own in
                    ((run.program, difference.program), (run.browser, difference.browser)))
    return set((ours - theirs) + (theirs - ours))


def level_four_early(difference, run):
    """Level 4 comes earlier in the browser, so `canplaythrough` does too; later the program may come to it alone."""
    if is_event(difference, "element", "canplaythrough") or is_moved(difference, "canplaythrough"):
        return run.has(run.browser, "element", "canplaythrough")
    if difference.field == "order":
        return difference.program.target == "element" and passed(difference, run) == {"canplaythrough"}
    return is_level(difference, (3,), (4,))


def level_four_stays(difference, run):
    """Once there, level 4 stays in the browser where less is ahead than before; in the program it falls."""
    if is_event(difference, "element", "canplaythrough"):
        return only_program(difference) and run.has(run.browser, "element", "canplaythrough")
    line = difference.program or difference.browser
    return is_level(difference, (3,), (4,)) and run.has(run.program[:line.index], "element", "canplaythrough")


def clock(difference, run):
    if is_event(difference, "element", "timeupdate") or is_moved(difference, "timeupdate"):
        return True
    return difference.field == "position" and has_called(run, difference, "play")


def picture_is_kept(difference, run):
    """What the position had was removed: the level falls in the program alone, and may rise again later."""
    if not has_called(run, difference, "remove", "removebuffer"):
        return False
    if is_event(difference, "element", "canplay", "playing", "waiting", "timeupdate"):
        return only_program(difference)
    return is_level(difference, (1,), (2, 3, 4))


def no_mp4(difference, run):
    """The browser fails where the program waits for the end of a box."""
    return run.fault is None and difference.is_of_refusal and run.has_no_track()


def two_fragments(difference, run):
    return run.has_loose_fragments() and difference.is_of_element_error


def less_is_looked_at(difference, run):
    return difference.is_of_refusal and (run.lacks_configuration() or run.has_two_videos() or run.has_other_codec())


def type_text(difference, run):
    """The types of which the row speaks: without codecs or with a bare one, and with other parameters."""
    if difference.field != "answer" or difference.program.words[0] not in ("add", "changetype"):
        return False
    program, browser = values(difference)
    text = difference.program.type_text
    if browser == "refused NotSupportedError":
        is_bare = "codecs" not in text or re.search(r'["=, ]avc1["\s,]', text + " ") is not None
        return is_bare and text.startswith(("video/mp4", "audio/mp4"))
    parameters = re.findall(r";\s*([^=;\"]+)=", text)
    return program == "refused NotSupportedError" and browser == "done" and any(name != "codecs" for name in parameters)


def no_adts(difference, run):
    """Firefox has no `audio/aac`."""
    if difference.field != "answer" or difference.program.words[0] not in ("add", "changetype"):
        return False
    return difference.program.type_text == "audio/aac" and values(difference) == ("done", "refused NotSupportedError")


def ape_tag(difference, run):
    return fault_of("Sync")(difference, run) and any(b"APETAGEX" in blob for blob in run.blobs)


def duration_cut(difference, run):
    """The browser has the duration that was asked for, and the program that of the last frame."""
    asked = run.times_of("duration")
    if difference.field == "duration":
        program, browser = values(difference)
        return isinstance(program, int) and any(near(browser, time) and program > time for time in asked)
    if difference.field != "ranges":
        return False
    program, browser = values(difference)
    if not program or not browser:
        return False
    return any(near(browser[-1][1], time) and program[-1][1] > time for time in asked)


def has_abort_at_once(run):
    steps = run.steps()
    pairs = [(one.split(), other.split()) for one, other in zip(steps, steps[1:])]
    return any(one[0] == "append" and other == ["abort", one[1]] for one, other in pairs)


def aborted_at_once(difference, run):
    """An abort follows its append with no line between; the program keeps nothing."""
    if not has_abort_at_once(run):
        return False
    if difference.field == "ranges":
        return values(difference)[0] == [] and values(difference)[1] != []
    if difference.field == "duration":
        return values(difference)[0] == "nan"
    return (is_of_level(difference) or is_level(difference, (0,), (1, 2, 3, 4))
            or is_event(difference, "element", "loadedmetadata", "durationchange")
            or is_event(difference, "activesourcebuffers", "addsourcebuffer"))


def abort_of_segment(difference, run):
    """An abort follows the append of a media segment with no line between; the browser drops its frames."""
    if not has_abort_at_once(run):
        return False
    if difference.field == "ranges":
        program, browser = values(difference)
        return program != browser and all(
            any(ours[0] - NEAR <= first and last <= ours[1] + NEAR for ours in program) for first, last in browser)
    if is_event(difference, "element", *LEVEL_EVENTS):
        return only_program(difference)
    return is_level(difference, (2, 3, 4), (1,))


def level_of_seek(difference, run):
    """A seek that both made: the level falls with it in the browser, and rises behind `seeked`."""
    if not has_sought(difference, run):
        return False
    if is_event(difference, "element", "canplay", "canplaythrough", "playing", "waiting"):
        return only_browser(difference)
    return is_moved(difference, "seeked", "timeupdate", "canplay", "canplaythrough", "playing", "waiting")


def told_late(difference, run):
    """An event of a seek, of the duration or of what plays, and one of the level, that change places."""
    others = ("seeking", "seeked", "timeupdate", "durationchange", "play", "pause")
    if not is_moved(difference, *others, *LEVEL_EVENTS):
        return False
    return bool(passed(difference, run) & set(LEVEL_EVENTS if difference.program.type in others else others))


def calls_before(lines, line):
    return sum(1 for one in lines[:line.index] if one.kind in ("call", "listener"))


def passed_level_four(difference, run):
    """The program came to level 4 when the browser had no picture yet, and less was ahead when it had one."""
    if not is_event(difference, "element", "canplaythrough") or not only_program(difference):
        return False
    first = next((line for line in run.browser if line.target == "element" and line.type == "loadeddata"), None)
    return first is None or calls_before(run.browser, first) > calls_before(run.program, difference.program)


def plays_first(difference, run):
    """`play` at a level of the program that has data, and before the browser has its first picture."""
    if is_moved(difference, "play"):
        return bool(passed(difference, run)) and passed(difference, run) <= set(LEVEL_EVENTS)
    if not is_event(difference, "element", "waiting") or not only_browser(difference):
        return False
    events = [line for line in run.browser[:difference.browser.index + 1] if line.target == "element"
              and line.type != "timeupdate"]
    return len(events) > 1 and events[-2].type == "play" and run.has(run.program, "element", "playing")


def has_sought(difference, run):
    line = difference.browser or difference.program
    lines = run.browser if difference.browser else run.program
    return run.has(lines[:line.index], "element", "seeking") and run.has(run.program, "element", "seeking")


def stands_at_end(line):
    """Whether the position of a state is the duration, as far as a browser can tell."""
    return "position" in line.fields and near(line.fields["position"], line.fields["duration"])


def end_of_playback(difference, run):
    """At the end of playback the level is 2 in the program, and 4 in the browser."""
    return is_level(difference, (2,), (4,)) and stands_at_end(difference.program)


def seek_to_the_end(difference, run):
    """A seek to the end of what is buffered is over in the program, and waits in the browser."""
    waiting = [line for line in run.browser if line.fields.get("seeking") == "true" and stands_at_end(line)]
    if difference.field in ("level", "seeking"):
        return (difference.browser in waiting and stands_at_end(difference.program)
                and difference.program.fields["level"] == 2)
    return bool(waiting) and is_event(difference, "element", "seeked", "timeupdate") and only_program(difference)


def track_ends_early(difference, run):
    """Two buffers of an ended source, one of which ends earlier: behind its end the browser goes on to the end."""
    ends = [line.fields["ranges"][-1][1] for line in run.program if line.kind == "buffer" and line.fields["ranges"]]
    if len(ends) < 2 or near(min(ends), max(ends)) or not run.has(run.program, "source", "sourceended"):
        return False
    if difference.field == "position":
        program, browser = values(difference)
        return min(ends) <= program < max(ends) and near(browser, max(ends))
    if is_event(difference, "element", "ended", "pause"):
        return only_browser(difference)
    return is_level(difference, (4,), (2, 3))


def has_ended_without_metadata(run):
    ended = any(call.text.endswith("endofstream: done") for call in run.calls_of_program())
    return ended and not run.has(run.program, "element", "loadedmetadata")


def end_without_metadata(difference, run):
    """Chromium has an error and closes the source; Firefox tells no duration and has nothing that can be sought."""
    if not has_ended_without_metadata(run):
        return False
    if not run.has(run.browser, "element", "error"):
        return (difference.field == "range" and values(difference)[1] == []
                or is_event(difference, "element", "durationchange") and only_program(difference))
    if difference.field:
        return difference.field in ("source", "duration", "error", "range")
    if only_program(difference):
        return difference.program.kind == "buffer"
    return (is_event(difference, "element", "error") or is_event(difference, "source", "sourceclose")
            or difference.browser.text.endswith(" removesourcebuffer"))


def told_again(difference, run):
    """The duration was set before the first append; the browser tells it again with the metadata."""
    is_more = is_event(difference, "element", "durationchange") and only_browser(difference)
    return sets_duration_first(run) and (is_more or is_moved(difference, "durationchange"))


def sets_duration_first(run):
    names = [call.words[0] for call in run.calls_of_program()]
    return "duration" in names and ("append" not in names or names.index("duration") < names.index("append"))


def told_with_metadata(difference, run):
    """The duration was set before the first append; the browser tells it when the metadata come."""
    return sets_duration_first(run) and is_moved(difference, "durationchange")


def later_buffer(difference, run):
    """A source buffer that is added behind the metadata, or a seventeenth."""
    if difference.field != "answer" or difference.program.words[0] != "add":
        return False
    before = run.browser[:difference.browser.index]
    if values(difference) == ("done", "refused QuotaExceededError"):
        return run.has(before, "element", "loadedmetadata") or run.has(before, "activesourcebuffers", "addsourcebuffer")
    return values(difference) == ("refused QuotaExceededError", "done")


def quota_of_browser(difference, run):
    """The browser refused an append for which the program made room ahead of the position."""
    return (difference.field == "answer" and difference.program.words[0] == "append"
            and values(difference) == ("done", "refused QuotaExceededError"))


def appended_at_once(difference, run):
    """Behind a fault: the browser takes an append as long as it did not tell the element of the error."""
    return (run.fault is not None and difference.field == "answer" and difference.program.words[0] == "append"
            and values(difference) == ("refused InvalidStateError", "done"))


def quota_of_script(difference, run):
    """The script sets a quota; the program refused an append, or evicted frames, where the browser had room."""
    if "quota" not in run.script:
        return False
    if difference.field == "answer":
        return difference.program.words[0] == "append" and values(difference)[0] == "refused QuotaExceededError"
    return difference.field == "ranges" and values(difference)[0] != values(difference)[1] and all(
        any(theirs[0] - NEAR <= ours[0] and ours[1] <= theirs[1] + NEAR for theirs in values(difference)[1])
        for ours in values(difference)[0])


def overlapped(difference, run):
    """Frames went that a later append covered; the browser shows one range still."""
    appends = [call.words for call in run.calls_of_program() if call.words[0] == "append"]
    if difference.field != "ranges" or len(appends) < 2:
        return False
    program, browser = values(difference)
    return len(browser) < len(program) and fits(
        joined(program, SECOND), browser, lambda a, b: near(a[0], b[0]) and near(a[1], b[1]))


def not_decoded(difference, run):
    """The decoder of the browser failed behind the metadata; the program, which decodes nothing, has no error."""
    codes = [line.fields["error"] for line in run.browser if line.kind == "state"]
    has_fault = run.has(run.program, "element", "error") or run.has(run.browser, "buffer", "error")
    if has_fault or codes != [3]:
        return False
    # where the first picture or sound is the one that is not decoded, no level is told before the error
    is_of_first = not run.has(run.browser, "element", "loadeddata") and only_program(difference)
    return difference.is_of_element_error or (is_of_first and is_event(difference, "element", *LEVEL_EVENTS))


def error_after_metadata(difference, run):
    """Both have an error behind the metadata; the browser's level is that to which its decoder had come."""
    both = all(run.has(lines, "element", "error") and run.has(lines, "element", "loadedmetadata")
               for lines in (run.program, run.browser))
    return both and (is_event(difference, "element", "loadeddata", "canplay", "canplaythrough")
                     or is_level(difference, (1, 3, 4), (1, 4)))


CHROMIUM, FIREFOX = ("Chromium",), ("Firefox",)

# The first entry that a difference meets names it, so the more exact ones stand first.
KNOWN = [
    Known("the same with base data offsets", samples_and_base, ends=True),
    Known("samples in the movie box, fragments behind it", samples_alone, ends=True),
    Known("base data offset in `tfhd`", fault_of("Moof BaseOffset"), FIREFOX, ends=True),
    Known("a `traf` without `tfdt`", fault_of("Moof NoTfdt"), FIREFOX, ends=True),
    Known("no `ftyp` before the `moov`", fault_of("MoovPlace"), ends=True),
    Known("a last `mdat` of size 0", fault_of("SizeZero"), FIREFOX, ends=True),
    Known("encrypted tracks", fault_of("Codec"), CHROMIUM, ends=True),
    Known("a classic file", fault_of("Init NoMvex"), FIREFOX, ends=True),
    Known("an edit list of two edits of media", fault_of("Init EditList"), ends=True),
    Known("ADTS.", no_adts, FIREFOX, ends=True),
    Known("ADTS.", ape_tag, CHROMIUM, ends=True),
    Known("Type texts", type_text, ends=True),
    Known("A source buffer behind the metadata", later_buffer, CHROMIUM, ends=True),
    Known("Bytes that are no MP4.", no_mp4, FIREFOX, ends=True),
    Known("Two track fragments without default-base-is-moof.", two_fragments, ends=True),
    Known("a `moof` that is broken inside", fault_of("Moof Size"), FIREFOX, ends=True),
    Known("a `moof` that is broken inside", appended_at_once, CHROMIUM, ends=True),
    Known("Less than in browsers", less_is_looked_at, ends=True),
    Known("Nothing is decoded", not_decoded, ends=True),
    Known("The quota", quota_of_script, ends=True),
    Known("The quota", quota_of_browser, ends=True),
    Known("Sound whose priming is no whole number of frames.", priming),
    Known("Append windows on sound.", window_on_sound),
    Known("Append windows on sound.", window_trims, FIREFOX),
    Known("Empty edits", empty_edit, CHROMIUM),
    Known("Cuts without encoding", cut_without_encoding, CHROMIUM),
    Known("A start above 0.", begins_with_sound, CHROMIUM),
    Known("Gaps", small_gap),
    Known("Gaps", overlapped, CHROMIUM),
    Known("Chromium truncates the duration", duration_cut, CHROMIUM),
    Known("An abort in the same task as the append", aborted_at_once, FIREFOX),
    Known("An abort in the same task as the append", abort_of_segment, CHROMIUM),
    Known("A seek before anything is appended", seek_before_all),
    Known("An error before there is metadata", error_without_metadata),
    Known("The end of a stream without metadata", end_without_metadata),
    Known("An error behind the metadata", error_after_metadata, CHROMIUM),
    Known("What plays", picture_is_kept),
    Known("A start above 0.", starts_above),
    Known("`durationchange`", duration_by_frames),
    Known("`durationchange`", told_again, CHROMIUM),
    Known("`durationchange`", told_with_metadata, FIREFOX),
    Known("The end of playback", end_of_playback, CHROMIUM),
    Known("A seek to the end", seek_to_the_end),
    Known("A track that ends early", track_ends_early, FIREFOX),
    Known("Levels and seeks", level_of_seek),
    Known("`play()` behind the first segment", plays_first),
    Known("When a level is told.", told_late),
    Known("When a level is told.", passed_level_four),
    Known("When a level is told.", not_yet_decoded),
    Known("When a level is told.", no_metadata_yet),
    Known("Levels.", level_four_early, CHROMIUM),
    Known("Levels.", level_four_stays, FIREFOX),
    Known("What plays", clock),
]


# What the bytes of a script say, where a row is about them.

CONTAINERS = (b"moov", b"trak", b"mdia", b"minf", b"stbl", b"moof", b"traf", b"edts")
CONFIGURATIONS = {b"avc1": b"avcC", b"avc3": b"avcC", b"hvc1": b"hvcC", b"hev1": b"hvcC", b"av01": b"av1C",
                  b"vp09": b"vpcC", b"mp4a": b"esds", b"Opus": b"dOps", b"fLaC": b"dfLa"}


def boxes(content):
    """The boxes of a byte string, those inside of others too, each as its type and its payload."""
    at = 0
    while at + 8 <= len(content):
        size, kind = struct.unpack_from(">I4s", content, at)
        if size < 8:
            return
        payload = content[at + 8:at + size]
        yield kind, payload
        if kind in CONTAINERS:
            yield from boxes(payload)
        at += size


def sample_entries(blob):
    """The types of the sample entries of a file, with their bytes."""
    for kind, payload in boxes(blob):
        if kind == b"stsd" and len(payload) >= 16:
            size = struct.unpack_from(">I", payload, 8)[0]
            yield payload[12:16], payload[16:8 + size]


def lacks_configuration(blob):
    return any(kind in CONFIGURATIONS and CONFIGURATIONS[kind] not in entry for kind, entry in sample_entries(blob))


def has_empty_edit(blob):
    return any(kind == b"elst" and payload[:1] == b"\0" and payload[12:16] == b"\xff\xff\xff\xff"
               for kind, payload in boxes(blob))


def begins_within_media(blob):
    """An edit list whose first edit of the media begins behind the first frame."""
    return any(kind == b"elst" and payload[:1] == b"\0" and int.from_bytes(payload[12:16], "big", signed=True) > 0
               for kind, payload in boxes(blob))


def has_base_offset(blob):
    """A track fragment with a base data offset."""
    return any(kind == b"tfhd" and payload[3:4] and payload[3] & 1 for kind, payload in boxes(blob))


def has_loose_fragments(blob):
    """A movie fragment of two track fragments, neither with a base data offset nor with default-base-is-moof."""
    for kind, moof in boxes(blob):
        heads = [payload for one, payload in boxes(moof) if one == b"tfhd"] if kind == b"moof" else []
        if len(heads) >= 2 and not any(int.from_bytes(head[:4], "big") & 0x20001 for head in heads):
            return True
    return False
