// What the classes show to each other and not to a page.

export const attachTo = Symbol('attachTo');
export const detach = Symbol('detach');
export const leaveList = Symbol('leaveList');
export const numberOf = Symbol('numberOf');
export const refresh = Symbol('refresh');
export const resourceOf = Symbol('resourceOf');
export const targetOf = Symbol('targetOf');

// the first argument of constructors that a page cannot call
export const token = Symbol('token');

export function onlyInside(given, name) {
  if (given !== token) throw new TypeError(`${name} cannot be constructed`);
}

export function needArguments(given, count) {
  if (given.length < count) throw new TypeError(`${count} argument(s) required, but only ${given.length} present`);
}
