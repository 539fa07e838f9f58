// Addresses of media sources (File API, 8.3; Media Source Extensions, 13).

const sources = new Map();
let made = 0;

export function addressOf(source) {
  made += 1;
  const url = `blob:mseplay/${made}`;
  sources.set(url, source);
  return url;
}

// The media source of an address, or undefined.
export function sourceAt(url) {
  return sources.get(url);
}

// Takes an address back, and tells whether it was one of a media source.
export function revoke(url) {
  return sources.delete(url);
}
