// The names of classes, as Object.prototype.toString tells them (Web IDL, 3.7.3).

export function tag(...classes) {
  for (const each of classes) {
    Object.defineProperty(each.prototype, Symbol.toStringTag, { value: each.name, configurable: true });
  }
}
