// Why a segment left fewer frames than it has samples. The engine says it: the segment is appended by itself to a new
// session, once as it is and once moved to late times, where no frame begins before 0.

const LATER = '1000000/1'; // seconds

function heldAlone({ Session }, type, init, bytes, offset) {
  const session = new Session({ quota: 2 ** 40, gap: 0 });
  const append = (some) => {
    session.step(`append 0 ${session.give(some)}`);
    session.step('drain');
  };
  session.step('attach');
  session.step(`add ${type}`);
  append(init);
  if (offset) session.step(`offset 0 ${offset}`);
  append(bytes);
  const held = new Map((session.buffer(0)?.tracks ?? []).map((track) => [track.id, Number(track.frames)]));
  session.close();
  return held;
}

// Sets `lost` of each track: samples that were dropped for want of a random access point, for beginning before 0 (or
// being decoded behind one that does), and frames of earlier segments that these replaced.
export function lookInto(engine, type, init, bytes, tracks) {
  const alone = heldAlone(engine, type, init, bytes), moved = heldAlone(engine, type, init, bytes, LATER);
  for (const track of tracks.filter((track) => track.samples)) {
    const held = alone.get(track.id) ?? 0, late = moved.get(track.id) ?? 0, grown = track.after - track.before;
    const isReplacing = track.between?.kind === 'overlap' || grown > track.samples || grown < 0;
    if (grown === track.samples) continue;
    const lost = { unsynced: 0, early: 0, replaced: 0, other: 0 };
    if (isReplacing || grown === held) {
      Object.assign(lost, { unsynced: track.samples - late, early: late - held, replaced: held - grown });
    } else {
      lost.other = track.samples - grown;
    }
    track.lost = lost;
  }
}
