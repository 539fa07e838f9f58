// Of TOML as much is read as is needed to find the steps; the rest of the text stays as it is.

export class ScriptFault extends Error {}

const ESCAPES = { b: "\b", t: "\t", n: "\n", f: "\f", r: "\r", e: "\x1b", '"': '"', "\\": "\\" };

export class Toml {
  constructor(text) { this.text = text; this.at = 0; }

  fail(what) {
    const line = this.text.slice(0, this.at).split("\n").length;
    throw new ScriptFault(`line ${line}: ${what}`);
  }

  // Space, line ends and comments.
  skip() {
    for (;;) {
      const found = /[ \t\r\n]*/y;
      found.lastIndex = this.at;
      found.exec(this.text);
      this.at = found.lastIndex;
      if (this.text[this.at] !== "#") return;
      const end = this.text.indexOf("\n", this.at);
      this.at = end < 0 ? this.text.length : end;
    }
  }

  string() {
    const mark = /"""|'''|"|'/y;
    mark.lastIndex = this.at;
    const opened = mark.exec(this.text)?.[0];
    if (!opened) this.fail("no text where one must stand");
    const from = this.at;
    let at = from + opened.length;
    while (!this.text.startsWith(opened, at)) {
      if (at >= this.text.length || (opened.length === 1 && this.text[at] === "\n")) {
        this.fail("a text that does not end");
      }
      at += opened[0] === '"' && this.text[at] === "\\" ? 2 : 1;
    }
    const inner = this.text.slice(from + opened.length, at);
    this.at = at + opened.length;
    while (opened.length === 3 && this.text[this.at] === opened[0]) this.at++;
    return { from, to: this.at, value: opened[0] === '"' ? unescaped(inner) : inner };
  }

  key() {
    const parts = [];
    do {
      if (parts.length) { this.at++; this.skip(); }
      if (/["']/.test(this.text[this.at] ?? "")) parts.push(this.string().value);
      else parts.push(this.word(/[A-Za-z0-9_-]+/y, "no key where one must stand"));
      this.skip();
    } while (this.text[this.at] === ".");
    return parts.join(".");
  }

  word(shape, what) {
    shape.lastIndex = this.at;
    const found = shape.exec(this.text);
    if (!found) this.fail(what);
    this.at = shape.lastIndex;
    return found[0];
  }

  // A value; of a list its members, of a text its place and what it says.
  value() {
    const first = this.text[this.at];
    if (first === '"' || first === "'") return this.string();
    if (first === "[") return this.list();
    if (first === "{") return this.tableInLine();
    return { value: this.word(/[^\s,\]}#]+/y, "no value where one must stand") };
  }

  list() {
    const from = this.at++, members = [];
    for (this.skip(); this.text[this.at] !== "]"; this.skip()) {
      members.push(this.value());
      this.skip();
      if (this.text[this.at] === ",") this.at++;
      else if (this.text[this.at] !== "]") this.fail("neither a comma nor the end of the list");
    }
    return { from, to: ++this.at, members };
  }

  tableInLine() {
    const keys = {};
    this.at++;
    for (this.skip(); this.text[this.at] !== "}"; this.skip()) {
      const key = this.key();
      this.pass("=");
      keys[key] = this.value();
      this.skip();
      if (this.text[this.at] === ",") this.at++;
      else if (this.text[this.at] !== "}") this.fail("neither a comma nor the end of the table");
    }
    this.at++;
    return { keys };
  }

  pass(mark) {
    this.skip();
    if (this.text[this.at] !== mark) this.fail(`no ${mark} where one must stand`);
    this.at++;
    this.skip();
  }

  // The whole text: the keys at its top, and the tables of `rules`.
  read() {
    const top = {}, rules = [];
    let keys = top;
    for (this.skip(); this.at < this.text.length; this.skip()) {
      if (this.text[this.at] === "[") rules.push(keys = this.header());
      else {
        const key = this.key();
        this.pass("=");
        keys[key] = this.value();
      }
    }
    return { top, rules: rules.concat((top.rules?.members ?? []).map(member => member.keys ?? {})) };
  }

  header() {
    this.word(/\[\[?[^\]\n]*\]\]?/y, "a heading that does not end");
    return {};
  }
}

const unescaped = text => text.replace(/\\(u[0-9A-Fa-f]{4}|U[0-9A-Fa-f]{8}|x[0-9A-Fa-f]{2}|.)/g,
  (whole, mark) => mark.length > 1 ? String.fromCodePoint(parseInt(mark.slice(1), 16)) : ESCAPES[mark] ?? whole);

export const looksLikeScript = text => /^\s*(steps|rules|blobs|quota|drain|gap)\s*=/m.test(text)
  || /^\s*\[\[rules\]\]/m.test(text);
