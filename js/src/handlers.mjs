// Event handlers: the attributes on... of an event target.

const handlersOf = new WeakMap();

function handlers(target) {
  if (!handlersOf.has(target)) handlersOf.set(target, new Map());
  return handlersOf.get(target);
}

function setHandler(target, type, handler) {
  const known = handlers(target);
  const old = known.get(type);
  if (typeof handler !== 'function') {
    if (old) target.removeEventListener(type, old.listener);
    known.delete(type);
  } else if (old) {
    old.handler = handler;
  } else {
    // the listener stays in its place among the others when the handler is exchanged
    const entry = { handler, listener: (event) => entry.handler.call(target, event) };
    known.set(type, entry);
    target.addEventListener(type, entry.listener);
  }
}

// Gives a class of event targets an attribute on... for each type.
export function defineHandlers(targetClass, types) {
  for (const type of types) {
    Object.defineProperty(targetClass.prototype, `on${type}`, {
      get() {
        return handlers(this).get(type)?.handler ?? null;
      },
      set(handler) {
        setHandler(this, type, handler);
      },
      configurable: true,
      enumerable: true,
    });
  }
}
