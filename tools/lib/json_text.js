// A reader of JSON (RFC 8259) that keeps where each value stands. What it refuses, the program refuses: lone surrogates, more than
// 127 levels. Whole numbers are of any size; of two members with one key the last counts.
"use strict";

const LEVELS = 127;
const ESCAPES = { '"': '"', "\\": "\\", "/": "/", b: "\b", f: "\f", n: "\n", r: "\r", t: "\t" };
const NUMBER = /-?(?:0|[1-9][0-9]*)(?:\.[0-9]+)?(?:[eE][+-]?[0-9]+)?/y;

/** Where a text is no JSON: the offset, and what is wanted there. */
class JsonFault extends Error {
  constructor(at, wanted) {
    super(wanted);
    this.at = at;
  }
}

/**
 * Reads a text. The answer is a node: `start`, `type` ("object", "array", "string", "number", "true", "false", "null") and, by type,
 * `members` (a map from keys to `{ at, node }`), `items`, `value`, or `text`, a number as it is written. Throws a `JsonFault`.
 */
function readJson(text) {
  const reader = new Reader(text);
  const node = reader.value(1);
  reader.space();
  if (reader.at < text.length) throw new JsonFault(reader.at, "the end of the file");
  return node;
}

class Reader {
  constructor(text) {
    this.text = text;
    this.at = 0;
  }

  space() {
    while (/[ \t\n\r]/.test(this.text.charAt(this.at))) this.at++;
  }

  /** Passes over a sign, or answers false. */
  take(sign) {
    this.space();
    if (this.text[this.at] !== sign) return false;
    this.at++;
    return true;
  }

  value(level) {
    this.space();
    const start = this.at;
    const sign = this.text[start];
    if (sign === "{" || sign === "[") {
      if (level > LEVELS) throw new JsonFault(start, `at most ${LEVELS} objects and lists inside of each other`);
      return sign === "{" ? this.object(start, level) : this.array(start, level);
    }
    if (sign === '"') return { start, type: "string", value: this.string() };
    for (const type of ["true", "false", "null"]) {
      if (!this.text.startsWith(type, start)) continue;
      this.at += type.length;
      return { start, type };
    }
    return this.number(start);
  }

  number(start) {
    NUMBER.lastIndex = start;
    const text = NUMBER.exec(this.text)?.[0];
    const next = this.text[start + (text?.length ?? 0)];
    if (text === undefined || (next >= "0" && next <= "9")) throw new JsonFault(start, "a value of JSON");
    this.at += text.length;
    return { start, type: "number", text };
  }

  object(start, level) {
    this.at++;
    const members = new Map();
    if (this.take("}")) return { start, type: "object", members };
    do {
      this.space();
      const at = this.at;
      if (this.text[at] !== '"') throw new JsonFault(at, "a key in double quotes");
      const key = this.string();
      if (!this.take(":")) throw new JsonFault(this.at, "a colon");
      members.delete(key);
      members.set(key, { at, node: this.value(level + 1) });
    } while (this.take(","));
    if (!this.take("}")) throw new JsonFault(this.at, "a comma or }");
    return { start, type: "object", members };
  }

  array(start, level) {
    this.at++;
    const items = [];
    if (this.take("]")) return { start, type: "array", items };
    do items.push(this.value(level + 1));
    while (this.take(","));
    if (!this.take("]")) throw new JsonFault(this.at, "a comma or ]");
    return { start, type: "array", items };
  }

  string() {
    const start = this.at++;
    let found = "";
    for (;;) {
      const from = this.at;
      while (this.at < this.text.length && this.isPlain(this.text.charCodeAt(this.at))) this.at++;
      found += this.text.slice(from, this.at);
      const sign = this.text[this.at];
      if (sign === undefined) throw new JsonFault(start, "a text that ends with double quotes");
      if (sign === '"') break;
      if (sign !== "\\") throw new JsonFault(this.at, "an escape for this control character");
      found += this.escape();
    }
    this.at++;
    return found;
  }

  isPlain(code) {
    return code !== 0x22 && code !== 0x5c && code >= 0x20;
  }

  escape() {
    const start = this.at;
    const sign = this.text[start + 1];
    this.at += 2;
    if (sign !== "u") {
      if (!Object.hasOwn(ESCAPES, sign ?? "")) throw new JsonFault(start, "an escape of JSON");
      return ESCAPES[sign];
    }
    const first = this.unit(start);
    const isHigh = first >= 0xd800 && first <= 0xdbff;
    if (!isHigh && first >= 0xdc00 && first <= 0xdfff) throw new JsonFault(start, "a surrogate pair");
    if (!isHigh) return String.fromCharCode(first);
    if (!this.text.startsWith("\\u", this.at)) throw new JsonFault(start, "a surrogate pair");
    this.at += 2;
    const second = this.unit(start);
    if (second < 0xdc00 || second > 0xdfff) throw new JsonFault(start, "a surrogate pair");
    return String.fromCharCode(first, second);
  }

  unit(start) {
    const digits = this.text.slice(this.at, this.at + 4);
    if (!/^[0-9a-fA-F]{4}$/.test(digits)) throw new JsonFault(start, "four hexadecimal digits");
    this.at += 4;
    return parseInt(digits, 16);
  }
}

module.exports = { JsonFault, readJson };
