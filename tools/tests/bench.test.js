// The worlds of the benches, small ones: each is a world file.
"use strict";
const assert = require("node:assert");
const { spawnSync } = require("node:child_process");
const path = require("node:path");
const { test } = require("node:test");
const { TOOLS, runTool } = require("./helper.js");

const WORLDS = path.join(TOOLS, "..", "bench", "worlds.py");

test("each world of the benches is a world file, with as many entries as its size says", () => {
  const { stdout } = spawnSync("python3", [WORLDS, "--help"], { encoding: "utf8" });
  const names = [...stdout.matchAll(/^ {4}(\w+) {2,}/gm)].map((it) => it[1]);
  assert.strictEqual(names.length, 18);
  for (const name of names) {
    const made = spawnSync("python3", [WORLDS, name, "60"], { encoding: "utf8", maxBuffer: 2 ** 24 });
    assert.strictEqual(made.status, 0, made.stderr);
    const { sources, answers } = JSON.parse(made.stdout);
    assert.ok((answers ?? Object.keys(sources)).length >= 60, name);
    assert.deepStrictEqual([name, runTool("check_world", ["-"], made.stdout)], [name, { status: 0, out: "", err: "" }]);
  }
});

test("another name or size is refused", () => {
  for (const words of [["web", "10"], ["roots"], ["roots", "many"]]) {
    assert.strictEqual(spawnSync("python3", [WORLDS, ...words]).status, 2);
  }
});
