// The script tests/hostile, over programs in C that stand in for the real ones: what it counts, and what it finds where something is lost.
"use strict";
const assert = require("node:assert");
const { spawnSync } = require("node:child_process");
const path = require("node:path");
const { test } = require("node:test");
const { TOOLS, inFolder } = require("./helper.js");

const HOSTILE = path.join(TOOLS, "..", "tests", "hostile");
/** A program that reads all, allocates once, and writes twelve bytes. LOST is the status with which it ends where a write fails. */
const PROGRAM = `
#include <stdlib.h>
#include <string.h>
#include <unistd.h>
int main(void) {
    static char room[4096];
    char *text = malloc(13);
    size_t length = 0, at = 0;
    ssize_t moved;
    if (!text) return 8;
    while ((moved = read(0, room + length, sizeof room - length)) > 0) length += moved;
    if (moved < 0) return 4;
    for (strcpy(text, "twelve bytes"); at < 12; at += moved)
        if ((moved = write(1, text + at, 12 - at)) < 0) return LOST;
    return 0;
}
`;
const withCompiler = { skip: spawnSync("cc", ["--version"]).status !== 0 && "there is no cc" };

/** Runs the script on such a program: `{ status, out, err }`. */
function hostile(lost, ...words) {
  return inFolder({ "graph_info.c": PROGRAM }, (folder) => {
    const made = spawnSync("cc", [`-DLOST=${lost}`, "graph_info.c", "-o", "graph_info"], { cwd: folder, encoding: "utf8" });
    assert.strictEqual(made.status, 0, made.stderr);
    const ran = spawnSync(HOSTILE, ["--by", folder, ...words], { encoding: "utf8" });
    return { status: ran.status, out: ran.stdout, err: ran.stderr };
  });
}

test("each call of a program fails once, and is counted", withCompiler, () => {
  const ran = hostile(5, "reads", "writes", "memory");
  assert.deepStrictEqual(ran, {
    status: 0,
    out: `hostile: reads: 40 calls failed once, 43 runs, nothing lost
hostile: writes: 6 calls failed once, 12 runs, nothing lost
hostile: memory: 6 calls failed once, 18 runs, nothing lost; graph_calls isn't built
hostile: 52 calls failed once in 73 runs: nothing was lost
`,
    err: "",
  });
});

test("a run that ends otherwise than it has to is said, with what came", withCompiler, () => {
  const ran = hostile(0, "writes");
  assert.strictEqual(ran.status, 1);
  assert.strictEqual(ran.out.split("\n").slice(0, 3).join("\n"), `graph_info: two modules: write 1
    came   status 0, 0 bytes written
    wanted status 5, 0 bytes written`);
  assert.match(ran.out, /\nhostile: 6 calls failed once in 12 runs: 6 faults\n$/);
});

test("where no program is built, nothing ran", withCompiler, () => {
  inFolder({}, (folder) => {
    const ran = spawnSync(HOSTILE, ["--by", folder], { encoding: "utf8" });
    assert.strictEqual(ran.status, 2);
    assert.match(ran.stderr, /no program is built/);
  });
});

test("the help names the parts, and no other part is one", () => {
  assert.match(spawnSync(HOSTILE, ["--help"], { encoding: "utf8" }).stdout, /\n {4}memory {6}each allocation is refused once/);
  const ran = spawnSync(HOSTILE, ["memories"], { encoding: "utf8" });
  assert.deepStrictEqual([ran.status, ran.stderr], [2, "hostile: there is no part memories; --help says more\n"]);
});
