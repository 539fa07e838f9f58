// The errors of mseplay/engine. Each leaves everything as it was, but for OutOfMemoryError and EngineStoppedError,
// which end a session.

class NamedError extends Error {
  get name() {
    return this.constructor.name;
  }
}

/** An argument is of the wrong kind, or out of its range. */
export class ArgumentError extends TypeError {
  get name() {
    return 'ArgumentError';
  }
}

/** A line is no step. */
export class LineError extends NamedError {
  constructor(line) {
    super(`no step: ${JSON.stringify(line)}`);
    this.line = line;
  }
}

/** A step names a blob that was not handed over, or was forgotten. */
export class BytesError extends NamedError {
  constructor(line) {
    super(`its bytes are not there: ${JSON.stringify(line)}`);
    this.line = line;
  }
}

/** The session was closed. */
export class ClosedError extends NamedError {
  constructor() {
    super('the session was closed');
  }
}

/** The engine's module could not be loaded; `cause` says why. */
export class ModuleError extends NamedError {}

/** There was no memory. A session whose step found none has ended. */
export class OutOfMemoryError extends NamedError {
  constructor() {
    super('no memory');
  }
}

/** The engine stopped in the middle of a call, as where the caller's stack has no room left; `cause` says why. */
export class EngineStoppedError extends NamedError {
  constructor(cause) {
    super('the engine stopped in the middle of a call, and its sessions have ended', { cause });
  }
}

/** What a value is, for the text of an error. */
export function kindOf(value) {
  if (value === null) return 'null';
  if (typeof value !== 'object') return typeof value;
  return value.constructor?.name ?? 'object';
}
