// What a WebAssembly module imports, by the binary format of the WebAssembly specification. The places of its imports are those in the
// declarations that stand for the module: a line for each module that it imports, in the order of their first imports.
"use strict";

const HEAD = Buffer.from("\0asm\x01\0\0\0", "latin1");
const IMPORTS = 2;
/** What stands behind the names of an import: of a function, a table, a memory, a global, a tag. */
const KINDS = [["number"], ["byte", "limits"], ["limits"], ["byte", "byte"], ["byte", "number"]];

class Unreadable extends Error {}

/** The imports of a WebAssembly module, as an info has them; nothing where the bytes are none. */
function wasmImports(bytes) {
  if (!bytes.subarray(0, HEAD.length).equals(HEAD)) return undefined;
  try {
    return declared(namesOf(bytes));
  } catch (error) {
    if (error instanceof Unreadable) return undefined;
    throw error;
  }
}

/** A WebAssembly module that has nothing, of `size` bytes: what its head leaves is a section without a meaning. */
function emptyWasm(size) {
  const left = size - HEAD.length;
  if (left < 2) return HEAD;
  const length = left < 130 ? [left - 2] : fiveBytes(left - 6);
  return Buffer.concat([HEAD, Buffer.of(0, ...length), Buffer.alloc(left - 1 - length.length)]);
}

/** A number in LEB128, of which the last bytes may say nothing. */
function fiveBytes(number) {
  return [0, 7, 14, 21, 28].map((shift) => (Math.floor(number / 2 ** shift) % 128) + (shift < 28 ? 128 : 0));
}

/** The pairs of module and name. */
function namesOf(bytes) {
  const found = [];
  const all = new Cursor(bytes, HEAD.length);
  while (all.at < bytes.length) {
    const id = all.byte();
    const section = new Cursor(all.take(all.number()), 0);
    if (id !== IMPORTS) continue;
    for (let left = section.number(); left > 0; left--) {
      found.push([section.name(), section.name()]);
      const parts = KINDS[section.byte()];
      if (parts === undefined) throw new Unreadable();
      parts.forEach((it) => section[it]());
    }
  }
  return found;
}

/** The imports of the declarations, of which each names all that comes from one module. */
function declared(pairs) {
  const modules = new Map();
  for (const [module, name] of pairs) {
    if (!modules.has(module)) modules.set(module, []);
    modules.get(module).push(name);
  }
  let count = 0;
  return [...modules].map(([module, names], line) => {
    const parts = names.map((it) => `"${it}" as __deno_wasm_import_${count++}__`);
    const start = `import { ${parts.join(", ")} } from `.length;
    const specifierRange = [[line, start], [line, start + module.length + 2]];
    return { type: "static", kind: "import", specifier: module, specifierRange };
  });
}

class Cursor {
  constructor(bytes, at) {
    this.bytes = bytes;
    this.at = at;
  }

  byte() {
    if (this.at >= this.bytes.length) throw new Unreadable();
    return this.bytes[this.at++];
  }

  /** A number in LEB128. */
  number() {
    let value = 0;
    for (let scale = 1; ; scale *= 128) {
      const byte = this.byte();
      value += (byte & 127) * scale;
      if (byte < 128) return value;
    }
  }

  take(length) {
    if (length > this.bytes.length - this.at) throw new Unreadable();
    this.at += length;
    return this.bytes.subarray(this.at - length, this.at);
  }

  name() {
    try {
      return new TextDecoder("utf-8", { fatal: true, ignoreBOM: true }).decode(this.take(this.number()));
    } catch {
      throw new Unreadable();
    }
  }

  limits() {
    const flags = this.byte();
    this.number();
    if (flags & 1) this.number();
  }
}

module.exports = { emptyWasm, wasmImports };
