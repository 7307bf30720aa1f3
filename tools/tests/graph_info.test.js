// The scripts graph_info and graph_tools, over a toolchain that stands in for the real one: what they say, what they run, and how they prove.
"use strict";
const assert = require("node:assert");
const { spawn, spawnSync } = require("node:child_process");
const fs = require("node:fs");
const os = require("node:os");
const path = require("node:path");
const { test } = require("node:test");
const { setTimeout: sleep } = require("node:timers/promises");
const { TOOLS, inFolder } = require("./helper.js");

/** The program: it says who it is, and ends with the status that its words give. */
const programOf = (who) => `#!/bin/sh\n[ "$1" = --version ] && echo "${who} 1" && exit 0\ncase $1 in build|upgrade) exec cat ;; esac\necho "${who} $*"\nexit "$1"\n`;
/** The toolchain: "lib" wants the libraries below, and makes one where none is kept; "run" makes the program; "try" runs the sources. */
const RT = `#!/bin/sh
name=$(basename "$PWD")
case "$1" in
  try)
    echo "try" >> "$LOG"
    while [ "$1" != -- ]; do shift; done
    shift
    [ -n "$BROKEN" ] && echo "error: no type" >&2 && exit 1
    [ "$SLOW" = try ] && sleep 2.5
    [ "$SLOW" = stop ] && mktemp > /dev/null && echo $$ > "$REPOSITORY/pid" && sleep 300
    [ -n "$LONG" ] && echo "{" && printf 'checked: no-answer: %s\\nrun=no-answer proved=no\\n' "$LONG" >&2 && exit 6
    sh "$REPOSITORY/unproved" "$@"
    status=$?
    echo "checked: ended status=$status" >&2
    echo "run=ended status=$status runners=1 proved=no" >&2
    exit $status ;;
  run)
    echo "$name $*" >> "$LOG"
    echo "half a program" > "out/$name" && chmod +x "out/$name"
    [ "$SLOW" = "$name" ] && sleep 30
    cp "$REPOSITORY/proved" "out/$name"
    echo "logic=proved functions=1"
    exit 0 ;;
esac
for it in $(sed -n "s/^$name: //p" ../../crates.txt); do
  [ "$it" = url ] || [ -e "../$it/out/rlib/stamp" ] || { echo "no library $it"; exit 1; }
done
[ -e out/rlib/stamp ] && exit 0
[ -e out/incremental/part ] && echo "rt: $name begins with what a check kept in here"
mkdir -p out/incremental && touch out/incremental/part
echo "$name begins" >> "$LOG"
[ "$BROKEN" = "$name" ] && echo "error: no proof" && exit 1
[ "$KILLED" = "$name" ] && [ ! -e "$REPOSITORY/once" ] && touch "$REPOSITORY/once" && kill -9 $$
[ "$SLOW" = "$name" ] && sleep 30
# Those that are to be proved side by side wait for each other, on a machine however slow.
for it in $(seq 300); do
  case " $MEET " in *" $name "*) ;; *) break ;; esac
  for other in $MEET; do grep -q "$other begins" "$LOG" || sleep 0.1; done
done
mkdir -p out/rlib && touch out/rlib/stamp
echo "$name ends" >> "$LOG"
echo "logic=proved functions=1"
`;
const FILES = {
  "crates.txt": "low: url\nmiddle: low url\nbeside: low\nother: low\ngraph_info: middle beside low url\ngraph_tools: other middle low\n",
  "crates/low/src/lib.rt": "",
  "crates/middle/src/lib.rt": "",
  "crates/beside/src/lib.rt": "",
  "crates/other/src/lib.rt": "",
  "crates/graph_info/src/main.rt": "",
  "crates/graph_tools/src/main.rt": "",
  "docs/proof_times.txt": "low 600 10\nmiddle 1200 10\nbeside 60 10\ngraph_info 120 10\ngraph_tools 7 8\nold 5 5\n",
  ".git/HEAD": "",
  proved: programOf("proved"),
  unproved: programOf("unproved"),
  "bin/rt": RT,
  log: "",
};

/**
 * Gives `use` a repository with the scripts: `run` runs one to its end, graph_info where `script` names no other, `begin` begins graph_info, and
 * `log` has what the toolchain was asked.
 */
function inRepository(use) {
  return inFolder(FILES, (folder) => {
    for (const it of ["graph_info", "graph_tools"]) fs.copyFileSync(path.join(TOOLS, "..", it), path.join(folder, it));
    fs.mkdirSync(path.join(folder, "tools/lib"), { recursive: true });
    for (const it of ["prove.py", "proof_plan.py", "program.sh"]) fs.copyFileSync(path.join(TOOLS, "lib", it), path.join(folder, "tools/lib", it));
    fs.chmodSync(path.join(folder, "bin/rt"), 0o755);
    const log = path.join(folder, "log");
    const env = { ...process.env, LOG: log, REPOSITORY: folder, PATH: `${path.join(folder, "bin")}:${process.env.PATH}` };
    const run = (words, { more = {}, script = "graph_info", ...how } = {}) => {
      fs.writeFileSync(log, "");
      const ran = spawnSync(path.join(folder, script), words, { env: { ...env, ...more }, input: "the input", encoding: "utf8", ...how });
      return { status: ran.status, out: ran.stdout, err: ran.stderr, log: fs.readFileSync(log, "utf8") };
    };
    const begin = (words, more = {}) => spawn(path.join(folder, "graph_info"), words, { env: { ...env, ...more }, stdio: ["ignore", "ignore", "pipe"] });
    const touch = (name, seconds) => {
      const when = new Date(Date.now() + seconds * 1000);
      fs.utimesSync(path.join(folder, name), when, when);
    };
    return use({ folder, run, begin, touch, readLog: () => fs.readFileSync(log, "utf8") });
  });
}

/** What the script said, with times left out. */
function said(err) {
  return err.replace(/ in \d+ s/g, " in N s").replace(/after \d+ s/g, "after N s").replace(/about \d+ minutes?/g, "about N minutes");
}

const HEAD = "this run compiles the sources, which takes two to three minutes on a quiet machine, and is unproved\n";
const PROVES = "graph_info: ./graph_info --prove proves and builds it, which takes about N minutes on a quiet machine; a run then takes milliseconds\n";

test("where nothing is built the sources run, with the same words, input, output and status", () => {
  inRepository(({ run }) => {
    const built = run(["build"]);
    assert.deepStrictEqual([built.status, built.out, built.log], [0, "the input", "try\n"]);
    assert.strictEqual(said(built.err), `graph_info: the program isn't proved and built yet: ${HEAD}${PROVES}`);
    assert.strictEqual(run(["upgrade"]).out, "the input");
    assert.strictEqual(run(["--version"]).out, "unproved 1\n");
    for (const status of [0, 1, 2, 3, 6, 7, 8]) {
      const ran = run([String(status)]);
      assert.deepStrictEqual([ran.status, ran.out], [status, `unproved ${status}\n`]);
      assert.strictEqual(/status \d: [^;]+; .+\n$/.test(ran.err), status >= 2, ran.err);
    }
  });
});

test("the README shows what is said of the first run", () => {
  const page = fs.readFileSync(path.join(TOOLS, "..", "README.md"), "utf8");
  assert.ok(said(page).includes(`graph_info: the program isn't proved and built yet: ${HEAD}${PROVES}`));
});

test("an unproved run whose input or output fails, or is too long", () => {
  inRepository(({ folder, run }) => {
    const given = (file, flags) => fs.openSync(file, flags);
    assert.strictEqual(run(["build"], { stdio: [given(folder, "r"), "pipe", "pipe"] }).status, 4);
    assert.strictEqual(run(["1"], { stdio: [given(folder, "r"), "pipe", "pipe"] }).status, 1);
    assert.strictEqual(run(["build"], { stdio: ["pipe", given("/dev/full", "w"), "pipe"] }).status, 5);
    const long = path.join(folder, "long");
    fs.writeFileSync(long, "");
    fs.truncateSync(long, 67108865);
    const ran = run(["build"], { stdio: [given(long, "r"), "pipe", "pipe"] });
    assert.deepStrictEqual([ran.status, ran.log], [9, ""]);
  });
});

test("an unproved run that takes long says that it goes on, and nothing of it is left behind", () => {
  inRepository(({ run }) => {
    const { status, out, err } = run(["build"], { more: { SLOW: "try", PATIENCE: "1" } });
    assert.deepStrictEqual([status, out], [0, "the input"]);
    assert.match(said(err), /milliseconds\n(graph_info: still compiling or running, after 0 minutes\n)+$/);
  });
});

/** Whether a process is there and hasn't ended. */
function isRunning(id) {
  try {
    return !/\) Z/.test(fs.readFileSync(`/proc/${id}/stat`, "utf8"));
  } catch {
    return false;
  }
}

for (const signal of ["SIGINT", "SIGTERM", "SIGHUP", "SIGKILL"]) {
  test(`an unproved run that ${signal} ends says nothing any more, and the toolchain ends with it`, { timeout: 200000 }, async () => {
    await inRepository(async ({ folder, begin }) => {
      const [rooms, id] = [path.join(folder, "rooms"), path.join(folder, "pid")];
      fs.mkdirSync(rooms);
      const process = begin(["build"], { SLOW: "stop", PATIENCE: "1", TMPDIR: rooms });
      // Standard error is closed once nothing is left that could write there.
      let err = "";
      process.stderr.on("data", (more) => (err += more));
      const closed = new Promise((done) => process.stderr.on("close", done));
      const ended = new Promise((done) => process.on("exit", (_, by) => done(by)));
      while (!fs.existsSync(id) || fs.readFileSync(id, "utf8") === "") await sleep(20);
      process.kill(signal);
      assert.strictEqual(await ended, signal);
      await closed;
      assert.match(said(err), /milliseconds\n(graph_info: still compiling or running, after 0 minutes\n)*$/);
      while (isRunning(fs.readFileSync(id, "utf8").trim())) await sleep(20);
      if (signal !== "SIGKILL") assert.deepStrictEqual(fs.readdirSync(rooms), []);
    });
  });
}

test("an unproved run without an answer says why", () => {
  inRepository(({ run }) => {
    const { status, out, err } = run(["build"], { more: { LONG: "the program wrote more than 1048576 bytes to standard output" } });
    assert.deepStrictEqual([status, out], [70, ""]);
    assert.match(err, /gives no answer here: the program wrote more than 1048576 bytes to standard output; \.\/graph_info --prove builds the program/);
  });
});

test("sources that don't compile give status 70 and what the toolchain said", () => {
  inRepository(({ run }) => {
    const { status, out, err } = run(["build"], { more: { BROKEN: "low" } });
    assert.deepStrictEqual([status, out], [70, ""]);
    assert.match(err, /the unproved run failed:\nerror: no type\n$/);
  });
});

test("--prove proves what it can side by side and tells each crate; then the program runs", { skip: os.cpus().length < 2 }, () => {
  inRepository(({ run }) => {
    const { status, err, log } = run(["--prove"], { more: { MEET: "middle beside" } });
    assert.strictEqual(status, 0, err);
    const lines = said(err).split("\n");
    assert.match(lines[0], /^graph_info: proving and building the program: 4 crates on \d+ processors, about N minutes left$/);
    assert.strictEqual(lines[1], "graph_info: [1 of 4] low: proved in N s; about N minutes left");
    assert.match(lines[2], /^graph_info: \[2 of 4\] (middle|beside): proved in N s; about N minutes left$/);
    assert.match(lines[3], /^graph_info: \[3 of 4\] (middle|beside): proved in N s; about N minutes left$/);
    assert.deepStrictEqual(lines.slice(4), ["graph_info: [4 of 4] graph_info: built in N s", ""]);
    // Longest first, and both before one ends.
    assert.match(log, /^low begins\nlow ends\n(middle begins\nbeside begins|beside begins\nmiddle begins)\n/);
    assert.match(log, /graph_info run --jobs \d+ -- --version\n$/);
    assert.deepStrictEqual(run(["0"]), { status: 0, out: "proved 0\n", err: "", log: "" });
    assert.deepStrictEqual(run(["build"]), { status: 0, out: "the input", err: "", log: "" });
  });
});

test("where memory is too small for two proofs they follow each other", () => {
  inRepository(({ folder, run }) => {
    fs.writeFileSync(path.join(folder, "docs/proof_times.txt"), "low 600 10\nmiddle 1200 900000000\nbeside 60 900000000\n");
    const { status, err, log } = run(["--prove"]);
    assert.strictEqual(status, 0, err);
    assert.match(log, /^low begins\nlow ends\nmiddle begins\nmiddle ends\nbeside begins\nbeside ends\n/);
  });
});

test("a status from 2 to 9 of the program is explained, and nothing else", () => {
  inRepository(({ run }) => {
    run(["--prove"]);
    for (const status of [0, 1, 10]) assert.deepStrictEqual(run([String(status)]), { status, out: `proved ${status}\n`, err: "", log: "" });
    for (let status = 2; status <= 9; status++) {
      const ran = run([String(status)]);
      assert.strictEqual(ran.status, status);
      assert.match(ran.err, new RegExp(`^graph_info: status ${status}: [^;]+; .+\n$`));
    }
  });
});

test("where a source of its crates is newer the sources run again, and --prove proves it anew", () => {
  inRepository(({ run, touch }) => {
    run(["--prove"]);
    touch("crates/other/src/lib.rt", 5);
    assert.strictEqual(run(["0"]).out, "proved 0\n");
    touch("crates/graph_info/out/graph_info", -100);
    touch("crates/graph_info/out/built", -100);
    touch("crates/low/src/lib.rt", -50);
    const ran = run(["0"]);
    assert.strictEqual(ran.out, "unproved 0\n");
    assert.ok(ran.err.startsWith("graph_info: a source is newer than the program: this run"), ran.err);
    const again = run(["--prove"]);
    assert.match(said(again.err), /\[1 of 4\] low: proved before; about N minutes left\n/);
    assert.strictEqual(run(["0"]).out, "proved 0\n");
  });
});

test("a proof that fails ends with its last lines, and what is proved is kept", () => {
  inRepository(({ folder, run }) => {
    const { status, err } = run(["--prove"], { more: { BROKEN: "middle" } });
    assert.strictEqual(status, 70);
    assert.match(said(err), /graph_info: middle: failed after N s\n  error: no proof\n$/);
    assert.ok(fs.existsSync(path.join(folder, "crates/low/out/rlib/stamp")));
    assert.strictEqual(run(["0"]).out, "unproved 0\n");
    const again = run(["--prove"]);
    assert.match(again.err, /low: proved before/);
    assert.doesNotMatch(again.log, /low begins/);
  });
});

for (const signal of ["SIGTERM", "SIGKILL"]) {
  test(`a proof that ${signal} stops leaves nothing that runs, and goes on where it was`, async () => {
    await inRepository(async ({ folder, run, begin, readLog }) => {
      for (const slow of ["middle", "graph_info"]) {
        fs.writeFileSync(path.join(folder, "log"), "");
        const process = begin(["--prove"], { SLOW: slow });
        while (!readLog().includes(slow === "middle" ? "middle begins" : "graph_info run")) await sleep(20);
        await sleep(300);
        const ended = new Promise((done) => process.on("exit", (status) => done(status)));
        process.kill(signal);
        assert.strictEqual(await ended, signal === "SIGTERM" ? 143 : null);
        assert.strictEqual(run(["0"]).out, "unproved 0\n");
      }
      const { status, err } = run(["--prove"]);
      assert.strictEqual(status, 0, err);
      for (const name of ["low", "middle", "beside"]) assert.match(err, new RegExp(`${name}: proved before`));
      assert.strictEqual(run(["0"]).out, "proved 0\n");
    });
  });
}

test("what a stopped proof had kept is there when it goes on", async () => {
  await inRepository(async ({ folder, run, begin, readLog }) => {
    const process = begin(["--prove"], { SLOW: "low" });
    while (!readLog().includes("low begins")) await sleep(20);
    await sleep(300);
    const ended = new Promise((done) => process.on("exit", done));
    assert.match(run(["--prove"]).err, /another run proves it already/);
    process.kill("SIGINT");
    await ended;
    assert.ok(fs.existsSync(path.join(folder, "crates/low/out/incremental/part")));
    assert.strictEqual(run(["--prove", "--measure"]).status, 0);
    // It wasn't proved from nothing, so that the older figure stays.
    assert.match(fs.readFileSync(path.join(folder, "docs/proof_times.txt"), "utf8"), /^low 600 10$/m);
  });
});

test("--measure writes what each crate took, and no other words are taken", () => {
  inRepository(({ folder, run }) => {
    const { status, err } = run(["--prove", "--measure"]);
    assert.strictEqual(status, 0);
    assert.match(err, /4 of 4 crates were proved from nothing, and their figures are in docs\/proof_times\.txt\n$/);
    const rows = fs.readFileSync(path.join(folder, "docs/proof_times.txt"), "utf8").split("\n").filter((it) => /^\w/.test(it));
    // What wasn't proved keeps its line, or gets none, and what is no crate any more loses it.
    assert.deepStrictEqual(rows.map((it) => it.split(" ")[0]), ["low", "middle", "beside", "graph_info", "graph_tools"]);
    rows.forEach((it) => assert.match(it, /^\w+ \d+ \d+$/));
    assert.strictEqual(rows[4], "graph_tools 7 8");
    assert.strictEqual(run(["--prove", "--more"]).status, 2);
  });
});

test("what one program has proved the other takes, and each runs by itself", () => {
  inRepository(({ run }) => {
    const tools = (words) => run(words, { script: "graph_tools" });
    assert.strictEqual(run(["--prove"]).status, 0);
    assert.match(tools(["0"]).err, /^graph_tools: the program isn't proved and built yet: /);
    const { status, err, log } = tools(["--prove"]);
    assert.strictEqual(status, 0, err);
    for (const it of ["low", "middle"]) assert.match(err, new RegExp(`^graph_tools: \\[. of 4\\] ${it}: proved before`, "m"));
    // What is kept takes no time: of 30 minutes and more by the table nothing is left.
    assert.match(err, /^graph_tools: proving and building the program: 4 crates on \d+ processors?, about 1 minute left\n/);
    assert.match(log, /^other begins\nother ends\ngraph_tools run --jobs \d+ -- --version\n$/);
    assert.deepStrictEqual(tools(["0"]), { status: 0, out: "proved 0\n", err: "", log: "" });
  });
});

test("a proof that the system kills is tried once more, alone", () => {
  inRepository(({ run }) => {
    const { status, err } = run(["--prove"], { more: { KILLED: "middle" } });
    assert.strictEqual(status, 0, err);
    assert.match(err, /middle: was killed, most likely for want of memory; once more, alone/);
  });
});

test("without the toolchain a sentence says which one is wanted and where", () => {
  inRepository(({ run }) => {
    for (const words of [["build"], ["--prove"]]) {
      const { status, out, err } = run(words, { more: { PATH: "/usr/bin:/bin" } });
      assert.deepStrictEqual([status, out], [70, ""]);
      assert.match(err, /^graph_info: the toolchain's command rt isn't here; wanted is rattle-kit-\S+ logic [0-9a-f]{16} .*PATH/);
    }
  });
});

test("--help builds nothing and lists the tools", () => {
  inRepository(({ run }) => {
    const { status, out, log } = run(["--help"]);
    assert.deepStrictEqual([status, log], [0, ""]);
    const more = run(["--help"], { script: "graph_tools" });
    assert.deepStrictEqual([more.status, more.log], [0, ""]);
    // Those that only serve work on this repository aren't listed.
    const others = ["compare_check_world", "gate_cost", "try_edits"];
    const tools = fs.readdirSync(TOOLS).filter((it) => fs.statSync(path.join(TOOLS, it)).isFile() && !others.includes(it));
    for (const it of tools) assert.ok(`${out}${more.out}`.includes(`tools/${it} `), it);
  });
});
