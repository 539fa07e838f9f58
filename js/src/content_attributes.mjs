// Content attributes of an element (DOM, 4.9), and properties that reflect them (HTML, 2.6.1).

const attributesOf = new WeakMap();

function attributes(element) {
  if (!attributesOf.has(element)) attributesOf.set(element, new Map());
  return attributesOf.get(element);
}

// names of an HTML element are in lower case
function key(name) {
  return String(name).toLowerCase();
}

export class ElementWithAttributes extends EventTarget {
  getAttribute(name) {
    return attributes(this).get(key(name)) ?? null;
  }

  setAttribute(name, value) {
    attributes(this).set(key(name), String(value));
  }

  hasAttribute(name) {
    return attributes(this).has(key(name));
  }

  removeAttribute(name) {
    attributes(this).delete(key(name));
  }

  toggleAttribute(name, force = !this.hasAttribute(name)) {
    if (force) this.setAttribute(name, '');
    else this.removeAttribute(name);
    return force;
  }
}

function define(ofClass, property, get, set) {
  Object.defineProperty(ofClass.prototype, property, { get, set, configurable: true, enumerable: true });
}

// Properties that are true where the attribute is there.
export function reflectBooleans(ofClass, names) {
  for (const [property, name] of Object.entries(names)) {
    define(ofClass, property, function get() {
      return this.hasAttribute(name);
    }, function set(value) {
      this.toggleAttribute(name, Boolean(value));
    });
  }
}

// Properties that are the text of the attribute.
export function reflectTexts(ofClass, names) {
  for (const name of names) {
    define(ofClass, name, function get() {
      return this.getAttribute(name) ?? '';
    }, function set(value) {
      this.setAttribute(name, value);
    });
  }
}

// Properties that are unsigned numbers, 0 where there is none.
export function reflectNumbers(ofClass, names) {
  for (const name of names) {
    define(ofClass, name, function get() {
      const [digits] = (this.getAttribute(name) ?? '').match(/^\s*\d+/) ?? [];
      return digits === undefined ? 0 : Number(digits);
    }, function set(value) {
      this.setAttribute(name, String(value >>> 0));
    });
  }
}

// A property that is one of some words. `of` gives the word for the text of the attribute, null where there is none; a
// property that may be null takes the attribute away with it.
export function reflectWord(ofClass, property, of) {
  const name = property.toLowerCase();
  define(ofClass, property, function get() {
    return of(this.getAttribute(name));
  }, function set(value) {
    if (value === null) this.removeAttribute(name);
    else this.setAttribute(name, value);
  });
}
