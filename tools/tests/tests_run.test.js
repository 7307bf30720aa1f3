// The script tests/run with --upgraded, over a shell script that stands in for graph_info: which cases it takes, and what it finds.
"use strict";
const assert = require("node:assert");
const { spawnSync } = require("node:child_process");
const fs = require("node:fs");
const path = require("node:path");
const { test } = require("node:test");
const { TOOLS, inFolder } = require("./helper.js");

const RUN = path.join(TOOLS, "..", "tests", "run");
const CASES = `$ graph_info build

{"roots":["a"],"version":1}
= 0
> {"roots":["a"]

{"roots":["b"],"version":1}
= 1
> {"roots":["b"]

{}
= 3

$ graph_info walk all
? 5
{"roots":["a"],"version":1}
= 0
> {"max_loads":5,"roots":["a"]

$ answers media
a => b
c => d
`;

/** Runs the script on these cases, by a program that writes a world without its version, and upgrades it by these commands of sed. */
function upgraded(...commands) {
  const upgrade = commands.map((it) => `-e '${it}'`).join(" ");
  const program = `#!/bin/sh
if [ "$1" = upgrade ]; then exec sed ${upgrade}; fi
text=$(sed 's/,"version":.}//')
case $text in *'"max_loads":4,'*) exit 6 ;; esac
echo "$text"
case $text in *'"b"'*) exit 1 ;; esac
`;
  return inFolder({ graph_info: program, "cases.txt": CASES }, (folder) => {
    fs.chmodSync(path.join(folder, "graph_info"), 0o755);
    const ran = spawnSync(RUN, ["--by", folder, "--upgraded", path.join(folder, "cases.txt")], { encoding: "utf8" });
    const out = ran.stdout.replaceAll(/\S*\/cases\.txt/g, "cases.txt").replace(`, by ${folder}`, "");
    return { status: ran.status, out, err: ran.stderr };
  });
}

const VERSION = 's/"version":1/"version":2/';
const LAST = "left out: 1 without a world, 2 of other programs and words";

test("builds and walks on worlds are taken, with those whose budget is spent, and the others are counted", () => {
  const out = `tests: 4 cases of 1 files, on upgraded worlds: all passed; ${LAST}\n`;
  assert.deepStrictEqual(upgraded(VERSION), { status: 0, out, err: "" });
});

test("an upgraded world that does something else is named by its file and line", () => {
  const ran = upgraded(VERSION, 's/"b"/"c"/');
  assert.deepStrictEqual(ran, {
    status: 1,
    out: `cases.txt:7 upgraded: graph_info build
    came   status 0
    wanted status 1
    came   line 1: {"roots":["c"]
    wanted line 1: {"roots":["b"]
tests: 4 cases of 1 files, on upgraded worlds: 1 faults; ${LAST}
`,
    err: "",
  });
});

test("a world that isn't in version 2, and one that changes when it is upgraded again, are faults", () => {
  const old = upgraded("");
  assert.strictEqual(old.status, 1);
  assert.match(old.out, /cases\.txt:3: graph_info upgrade\n {4}came {3}status 0: .*\n\n {4}wanted status 0: a world in version 2\n/);
  assert.match(old.out, /: 4 faults; /);
  const again = upgraded(VERSION, 's/"roots":/"roots": /');
  assert.match(again.out, /cases\.txt:3 upgraded: graph_info upgrade\n {4}came {3}line 1: \{"roots": {2}\["a"\]/);
});

test("what is asked of a world is a case of its own, which graph_calls lists", () => {
  const cases = `$ graph_info build
@ "kind":"all"
@ "kind":"code"

{"roots":["a"]}
! 0 use a
! ok
= 0
> graph
`;
  const listing = `#!/bin/sh
cat >/dev/null
echo "0 use $1" | sed 's/asked/a/'
case $1 in asked) echo ok ;; esac
`;
  const files = { graph_info: "#!/bin/sh\necho graph\n", graph_calls: listing, "cases.txt": cases };
  const ran = inFolder(files, (folder) => {
    for (const name of ["graph_info", "graph_calls"]) fs.chmodSync(path.join(folder, name), 0o755);
    const all = spawnSync(RUN, ["--by", folder, path.join(folder, "cases.txt")], { encoding: "utf8" });
    fs.writeFileSync(path.join(folder, "cases.txt"), cases.replace("use a", "use b"));
    return [all, spawnSync(RUN, ["--by", folder, path.join(folder, "cases.txt")], { encoding: "utf8" })];
  });
  assert.match(ran[0].stdout, /^tests: 4 cases of 1 files, by \S*: all passed\n$/);
  assert.match(ran[1].stdout, /cases\.txt:5 with "kind":"code": graph_calls asked\n {4}came {3}line 1: 0 use a\n {4}wanted line 1: 0 use b\n/);
  assert.match(ran[1].stdout, /: 2 faults\n$/);
});
