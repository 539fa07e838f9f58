// MediaSource and a media element over the engine. README.md says how to use it.

export { Clock } from './clock.mjs';
export { control, cuts } from './control.mjs';
export { NotThereError } from './errors.mjs';
export {
  attach, HTMLAudioElement, HTMLMediaElement, HTMLVideoElement, HTMLVideoElement as MediaElement, settled,
} from './media_element.mjs';
export { MediaError } from './media_error.mjs';
export { MediaSource } from './media_source.mjs';
export { saveScript } from './save.mjs';
export { SourceBuffer } from './source_buffer.mjs';
export { SourceBufferList } from './source_buffer_list.mjs';
export { TimeRanges } from './time_ranges.mjs';
export { AudioTrackList, TextTrack, TextTrackList, VideoTrackList } from './track_lists.mjs';
