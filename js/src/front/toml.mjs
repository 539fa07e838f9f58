// Where the values of a TOML text stand. It reads what scripts have; at anything else it gives up, and tells no place.

/** The text is not read; `line` is where, if that is sure. */
export class UnreadError extends Error {
  constructor(message, line) {
    super(message);
    this.line = line;
  }
}

const ESCAPES = { b: '\b', t: '\t', n: '\n', f: '\f', r: '\r', e: '\x1b', '"': '"', '\\': '\\' };
const CODE_LENGTHS = { x: 2, u: 4, U: 8 };

function lineAt(text, at) {
  let line = 1;
  for (let i = text.indexOf('\n'); i >= 0 && i < at; i = text.indexOf('\n', i + 1)) line++;
  return line;
}

/** The character of an escape that begins at a backslash, and where it ends. */
function readEscape(text, at) {
  const sign = text[at + 1];
  if (Object.hasOwn(ESCAPES, sign ?? '')) return [ESCAPES[sign], at + 2];
  const length = CODE_LENGTHS[sign];
  const digits = text.slice(at + 2, at + 2 + length);
  const code = /^[0-9A-Fa-f]+$/.test(digits) && digits.length === length ? parseInt(digits, 16) : Infinity;
  if (code > 0x10ffff) throw new UnreadError('an escape that is none', lineAt(text, at));
  return [String.fromCodePoint(code), at + 2 + length];
}

/** The string that begins at a quote, and where it ends. */
export function readString(text, at) {
  const quote = text[at];
  const isLong = text.startsWith(quote.repeat(3), at);
  const end = isLong ? quote.repeat(3) : quote;
  let value = '';
  let i = at + end.length;
  if (isLong) i += /^\r?\n/.exec(text.slice(i, i + 2))?.[0].length ?? 0;
  for (;;) {
    const isOver = i >= text.length || (!isLong && text[i] === '\n');
    if (isOver) throw new UnreadError('a text that has no end', lineAt(text, at));
    if (text.startsWith(end, i)) {
      // up to two quotes may stand before those that end a long text
      while (isLong && text[i + 3] === quote) value += text[i++];
      return [value, i + end.length];
    }
    if (quote === '"' && text[i] === '\\') {
      const folded = isLong && /^\\[ \t]*\r?\n[ \t\r\n]*/.exec(text.slice(i));
      if (folded) {
        i += folded[0].length;
      } else {
        const [character, next] = readEscape(text, i);
        value += character;
        i = next;
      }
    } else {
      value += text[i++];
    }
  }
}

/** All strings of a text, keys too, in order, as far as the text can be read. */
export function stringsOf(text) {
  const found = [];
  try {
    for (let i = 0; i < text.length;) {
      if (text[i] === '#') {
        const end = text.indexOf('\n', i);
        i = end < 0 ? text.length : end;
      } else if (text[i] === '"' || text[i] === "'") {
        const [value, next] = readString(text, i);
        found.push(value);
        i = next;
      } else {
        i++;
      }
    }
  } catch (error) {
    if (!(error instanceof UnreadError)) throw error;
  }
  return found;
}

class Reader {
  constructor(text) {
    this.text = text;
    this.at = 0;
    this.line = 1;
  }

  get next() {
    return this.text[this.at];
  }

  move(to) {
    for (let i = this.at; i < to; i++) if (this.text[i] === '\n') this.line++;
    this.at = to;
  }

  /** Passes over what a pattern takes here; what it took. */
  take(pattern) {
    pattern.lastIndex = this.at;
    const found = pattern.exec(this.text);
    if (found) this.move(this.at + found[0].length);
    return found?.[0];
  }

  fail(message, line = this.line) {
    throw new UnreadError(message, line);
  }

  skipSpace() {
    this.take(/(?:[ \t\r\n]|#[^\n]*)*/y);
  }

  string() {
    const [value, end] = readString(this.text, this.at);
    this.move(end);
    return value;
  }

  key() {
    const parts = [];
    do {
      this.take(/[ \t]*/y);
      const part = this.next === '"' || this.next === "'" ? this.string() : this.take(/[A-Za-z0-9_-]+/y);
      if (part === undefined) this.fail('a key must stand here');
      parts.push(part);
      this.take(/[ \t]*/y);
    } while (this.take(/\./y));
    return parts;
  }

  value() {
    const line = this.line;
    if (this.next === '"' || this.next === "'") return { kind: 'text', value: this.string(), line };
    if (this.next === '[') return { kind: 'list', items: this.list(), line };
    if (this.next === '{') return { kind: 'table', keys: this.table(), line };
    const word = this.take(/[^\s,#\]}]+(?: [0-9][^\s,#\]}]*)?/y);
    if (word === undefined) this.fail('a value must stand here', line);
    const isNumber = /^[+-]?(0|[1-9](_?[0-9])*)$/.test(word);
    if (isNumber) return { kind: 'number', value: BigInt(word.replace(/[_+]/g, '')), line };
    if (word === 'true' || word === 'false') return { kind: 'boolean', value: word === 'true', line };
    return { kind: 'other', value: word, line };
  }

  list() {
    const [items, line] = [[], this.line];
    this.move(this.at + 1);
    for (;;) {
      this.skipSpace();
      if (this.next === undefined) this.fail('a list that has no end', line);
      if (this.take(/\]/y)) return items;
      items.push(this.value());
      this.skipSpace();
      if (this.next === undefined) this.fail('a list that has no end', line);
      if (!this.take(/,/y) && this.next !== ']') this.fail('a comma or ] must stand here');
    }
  }

  table() {
    const [keys, line] = [new Map(), this.line];
    this.move(this.at + 1);
    for (;;) {
      this.skipSpace();
      if (this.next === undefined) this.fail('a table that has no end', line);
      if (this.take(/\}/y)) return keys;
      this.pair(keys);
      this.skipSpace();
      if (!this.take(/,/y) && this.next !== '}') this.fail('a comma or } must stand here');
    }
  }

  pair(keys) {
    const line = this.line;
    const path = this.key();
    if (!this.take(/=/y)) this.fail('= must stand behind a key', line);
    this.skipSpaceOnLine();
    put(keys, path, this.value(), line);
  }

  skipSpaceOnLine() {
    this.take(/[ \t]*/y);
  }

  header(root) {
    const line = this.line;
    const isList = this.take(/\[\[/y) !== undefined;
    if (!isList) this.take(/\[/y);
    const path = this.key();
    if (!this.take(isList ? /\]\]/y : /\]/y)) this.fail('] must stand behind the name of a table', line);
    const keys = new Map();
    const table = { kind: 'table', keys, line };
    const list = root.get(path[0]);
    if (isList && path.length === 1 && list?.value.kind === 'list' && list.isOfTables) {
      list.value.items.push(table);
    } else if (isList && path.length === 1) {
      put(root, path, { kind: 'list', items: [table], line }, line);
      root.get(path[0]).isOfTables = true;
    } else {
      put(root, path, table, line);
    }
    return keys;
  }
}

/** Puts a value at a path of keys, each with the line where it stands first. */
function put(keys, path, value, line) {
  const [name, ...rest] = path;
  const there = keys.get(name);
  if (rest.length === 0) {
    if (there) throw new UnreadError(`the key ${name} stands twice`, there.value.kind === 'table' ? undefined : line);
    keys.set(name, { value, line });
    return;
  }
  // more may be right here than this reader knows, so it tells no line
  if (there && there.value.kind !== 'table') throw new UnreadError(`the key ${name} is no table`);
  if (!there) keys.set(name, { value: { kind: 'table', keys: new Map(), line }, line });
  put(keys.get(name).value.keys, rest, value, line);
}

/** The keys of a text, each with its value and line. */
export function readKeys(text) {
  const reader = new Reader(text);
  const root = new Map();
  let keys = root;
  for (;;) {
    reader.skipSpace();
    if (reader.next === undefined) return root;
    const line = reader.line;
    if (reader.next === '[') keys = reader.header(root);
    else reader.pair(keys);
    reader.take(/[ \t]*(?:#[^\n]*)?\r?/y);
    if (reader.next !== undefined && reader.next !== '\n') reader.fail('a line ends behind its value', line);
  }
}
