// What is thrown.

// A part of the standard that is left out.
export class NotThereError extends Error {
  constructor(what, why) {
    super(`${what} is not there: ${why}`);
    this.name = 'NotThereError';
  }
}

// The exception of a refused call: TypeError is one of the language, all others are DOMExceptions.
export function refusal(name, message) {
  return name === 'TypeError' ? new TypeError(message) : new DOMException(message, name);
}

// Defines members that throw, on the prototype of a class or on the class itself.
export function leaveOut(owner, prefix, why, names) {
  for (const name of names) {
    const refuse = () => {
      throw new NotThereError(`${prefix}.${name}`, why);
    };
    Object.defineProperty(owner, name, { get: refuse, set: refuse, configurable: true });
  }
}
