// graph_of_project, with a program that stands in for graph_info: what it asks of it, shows, says and ends with; and tools without Node.js.
"use strict";
const assert = require("node:assert");
const { spawnSync } = require("node:child_process");
const fs = require("node:fs");
const path = require("node:path");
const { test } = require("node:test");
const { TOOLS, inFolder, isWorld, runTool, withTypeScript } = require("./helper.js");

const GRAPH = path.join(__dirname, "graphs", "small.json");
/** It keeps the world, and prints the graph of the tests with its error; with a file "status" it ends by that one and prints nothing. */
const PROGRAM = `#!/bin/sh
here=$(dirname "$0")
[ "$*" = build ] || exit 2
cat > "$here/world.json"
[ -e "$here/status" ] && exit "$(cat "$here/status")"
cat "${GRAPH}"
exit 1
`;
const FILES = { "app/a.js": 'import "./b.js";\nimport "./gone.js";\n', "app/b.js": "", program: PROGRAM };

/** Gives `use` a project, and a call of the tool on it with more words. */
function inProject(use) {
  inFolder(FILES, (folder) => {
    fs.chmodSync(path.join(folder, "program"), 0o755);
    const fixed = ["--program", path.join(folder, "program"), "--root", path.join(folder, "app")];
    const run = (...words) => runTool("graph_of_project", [...fixed, ...words, path.join(folder, "app/a.js")]);
    use({ folder, run });
  });
}

const untimed = (err) => err.replace(/\d+\.\d s\n/g, "N s\n");

test("the world goes to the program, and its graph is shown as a tree", withTypeScript, () => {
  inProject(({ folder, run }) => {
    const { status, out, err } = run();
    assert.strictEqual(status, 1);
    assert.strictEqual(out, runTool("show_graph", [GRAPH]).out);
    const world = JSON.parse(fs.readFileSync(path.join(folder, "world.json"), "utf8"));
    assert.ok(isWorld(world));
    assert.strictEqual(world.roots.length, 1);
    const lines = untimed(err).split("\n");
    assert.match(lines[0], /^graph_of_project: not found: "\.\/gone\.js" .*a\.js:2:8\): there is no such file$/);
    assert.match(lines[1], /^graph_of_project: world: 2 sources, \d+B, in N s$/);
    assert.strictEqual(lines[2], 'graph_of_project: graph: 6 modules, error: Module not found "file:///p/gone.js"., in N s');
    assert.match(lines[3], /^graph_of_project: tree: \d+B to standard output, in N s$/);
  });
});

test("each form is that of show_graph, to standard output or a file", withTypeScript, () => {
  inProject(({ folder, run }) => {
    for (const words of [["--dot"], ["--mermaid", "--by", "package"], ["--html"], ["--why", "new.js"], ["--dot", "--why", "new.js"]]) {
      assert.strictEqual(run(...words).out, runTool("show_graph", [...words, GRAPH]).out, words.join(" "));
    }
    for (const [name, form] of [["g.html", "--html"], ["g.dot", "--dot"], ["g.mmd", "--mermaid"], ["g.txt", "--tree"]]) {
      const file = path.join(folder, name);
      const { status, out, err } = run("-o", file);
      assert.deepStrictEqual([status, out], [1, ""]);
      assert.strictEqual(fs.readFileSync(file, "utf8"), runTool("show_graph", [form, GRAPH]).out);
      assert.ok(err.includes(` to ${file}, in `));
    }
  });
});

test("the options of a world are those of world_of_project", withTypeScript, () => {
  inProject(({ folder, run }) => {
    run("--skip-dynamic", "--types");
    const world = JSON.parse(fs.readFileSync(path.join(folder, "world.json"), "utf8"));
    assert.deepStrictEqual([world.skip_dynamic_deps, world.kind], [true, "all"]);
  });
});

test("where the program prints no graph nothing is shown, and the status is its own", withTypeScript, () => {
  inProject(({ folder, run }) => {
    for (const wanted of [3, 6, 70]) {
      fs.writeFileSync(path.join(folder, "status"), String(wanted));
      const { status, out, err } = run("--html");
      assert.deepStrictEqual([status, out], [wanted, ""]);
      assert.match(err, new RegExp(`graph: there is none, by status ${wanted} of program\n$`));
    }
  });
});

test("no import leads to the module", withTypeScript, () => {
  inProject(({ run }) => {
    const { status, out, err } = run("--why", "zzz");
    assert.deepStrictEqual([status, out], [2, ""]);
    assert.match(err, /no module zzz/);
  });
});

test("a fault of the caller has status 2, a message, and builds nothing", withTypeScript, () => {
  inProject(({ folder, run }) => {
    const rows = [
      [["--dot", "--html"], /don't go together/],
      [["--by", "folder"], /--by goes with/],
      [["--html", "--by", "x"], /--by takes/],
      [["-o"], /no entry is given/],
      [["--import-map", "/nope"], /there is no such file/],
    ];
    for (const [words, message] of rows) {
      const { status, out, err } = run(...words);
      assert.deepStrictEqual([status, out], [2, ""], words.join(" "));
      assert.match(err, message);
    }
    assert.ok(!fs.existsSync(path.join(folder, "world.json")));
    assert.match(run("-o", "/nope/g.html").err, /can't write \/nope\/g\.html: there is no such file/);
    assert.match(run("--program", "/nope/program").err, /--program is given twice/);
  });
});

test("without Node.js each tool says what to install", () => {
  inFolder({ "bin/x": "" }, (folder) => {
    for (const it of ["sh", "dirname", "basename", "readlink"]) {
      const found = spawnSync("sh", ["-c", `command -v ${it}`], { encoding: "utf8" }).stdout.trim();
      fs.symlinkSync(found, path.join(folder, "bin", it));
    }
    const tools = fs.readdirSync(TOOLS).filter((it) => fs.statSync(path.join(TOOLS, it)).isFile());
    const scripts = tools.filter((it) => fs.readFileSync(path.join(TOOLS, it), "utf8").includes('"use strict"'));
    assert.ok(scripts.length >= 8);
    for (const it of scripts) {
      const ran = spawnSync(path.join(TOOLS, it), [], { env: { PATH: path.join(folder, "bin") }, encoding: "utf8" });
      assert.deepStrictEqual([ran.status, ran.stdout], [2, ""], it);
      assert.strictEqual(ran.stderr, `${it}: Node.js 18 or newer is wanted: apt-get install nodejs node-typescript\n`);
    }
  });
});
