// What WebAssembly modules import. The bytes are written by hand, by the binary format of the specification.
"use strict";
const assert = require("node:assert");
const { test } = require("node:test");
const { emptyWasm, wasmImports } = require("../lib/wasm.js");

const bytes = (...sections) => Buffer.concat(["\0asm\x01\0\0\0", ...sections].map((it) => Buffer.from(it, "latin1")));
const section = (id, content) => String.fromCharCode(id, content.length) + content;
const name = (text) => String.fromCharCode(Buffer.byteLength(text)) + Buffer.from(text).toString("latin1");

test("an import of each kind, in the declarations that stand for the module", () => {
  const kinds = ["\x00\x00", "\x01\x70\x01\x01\x02", "\x02\x00\x80\x01", "\x03\x7f\x01", "\x04\x00\x00"];
  const imports = kinds.map((it, place) => name(place === 1 ? "b" : "\u00e4") + name(`n${place}`) + it);
  const module = bytes(section(0, name("x") + "rest"), section(2, "\x05" + imports.join("")), section(7, "\x00"));
  const first = 'import { "n0" as __deno_wasm_import_0__, "n2" as __deno_wasm_import_1__, "n3" as __deno_wasm_import_2__, ';
  const start = (first + '"n4" as __deno_wasm_import_3__ } from ').length;
  assert.deepStrictEqual(wasmImports(module), [
    { type: "static", kind: "import", specifier: "\u00e4", specifierRange: [[0, start], [0, start + 3]] },
    { type: "static", kind: "import", specifier: "b", specifierRange: [[1, 47], [1, 50]] },
  ]);
  assert.deepStrictEqual(wasmImports(bytes()), []);
});

test("bytes that are no WebAssembly module", () => {
  const cut = section(2, `\x02${name("a")}${name("b")}\x00\x00`);
  const rows = [Buffer.alloc(0), Buffer.from("\0asm\x02\0\0\0", "latin1"), bytes("\x02\x05\x00"), bytes(cut)];
  rows.push(bytes(section(2, "\x01\x01\xff\x00\x00\x00")), bytes(section(2, `\x01${name("a")}${name("b")}\x05`)), bytes("\x02"));
  for (const row of rows) assert.strictEqual(wasmImports(row), undefined, row.toString("hex"));
});

test("a module that has nothing, of each size", () => {
  for (const size of [8, 11, 137, 138, 139, 140, 16500, 3000000]) {
    const made = emptyWasm(size);
    assert.strictEqual(made.length, size);
    assert.ok(WebAssembly.validate(made), `${size}`);
    assert.deepStrictEqual(wasmImports(made), []);
  }
});
