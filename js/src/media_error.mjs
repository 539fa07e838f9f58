// MediaError (HTML, 4.8.11.1).

import { onlyInside } from './inside.mjs';
import { tag } from './tags.mjs';

export class MediaError {
  #code;
  #message;

  // The message says what happened.
  constructor(given, code, message) {
    onlyInside(given, 'MediaError');
    this.#code = code;
    this.#message = message;
  }

  get code() {
    return this.#code;
  }

  get message() {
    return this.#message;
  }
}

['MEDIA_ERR_ABORTED', 'MEDIA_ERR_NETWORK', 'MEDIA_ERR_DECODE', 'MEDIA_ERR_SRC_NOT_SUPPORTED'].forEach((name, index) => {
  Object.defineProperty(MediaError, name, { value: index + 1 });
  Object.defineProperty(MediaError.prototype, name, { value: index + 1 });
});
tag(MediaError);
