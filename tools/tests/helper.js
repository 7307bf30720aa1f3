// What the tests share.
"use strict";
const { spawnSync } = require("node:child_process");
const fs = require("node:fs");
const os = require("node:os");
const path = require("node:path");
const { pathToFileURL } = require("node:url");
const { worldOfProject } = require("../lib/project.js");
const { findTypeScript } = require("../lib/typescript.js");
const { worldFaults } = require("../lib/world_file.js");

const TOOLS = path.join(__dirname, "..");
const PROJECTS = path.join(__dirname, "projects");

/** TypeScript, or nothing where there is none. */
function typeScript() {
  try {
    return findTypeScript(TOOLS);
  } catch {
    return undefined;
  }
}

const ts = typeScript();
/** For tests that need TypeScript: they are skipped where there is none. */
const withTypeScript = { skip: ts === undefined && "there is no TypeScript: apt-get install node-typescript" };

/** Runs a tool: `{ status, out, err }`. `input` is its standard input. */
function runTool(name, words, input = "") {
  const ran = spawnSync(path.join(TOOLS, name), words, { input, encoding: "utf8", maxBuffer: 2 ** 26 });
  return { status: ran.status, out: ran.stdout, err: ran.stderr };
}

/**
 * Writes files (texts or bytes) into a new temporary folder, gives its path to `use`, and removes it, where `use` answers a promise once that
 * is settled. A value `{ link }` makes a link.
 */
function inFolder(files, use) {
  const folder = fs.realpathSync(fs.mkdtempSync(path.join(os.tmpdir(), "tools-test-")));
  const remove = () => fs.rmSync(folder, { recursive: true, maxRetries: 3 });
  let answer;
  try {
    for (const [name, content] of Object.entries(files)) {
      const file = path.join(folder, name);
      fs.mkdirSync(path.dirname(file), { recursive: true });
      if (typeof content === "string" || Buffer.isBuffer(content)) fs.writeFileSync(file, content);
      else fs.symlinkSync(content.link, file);
    }
    answer = use(folder);
    if (answer instanceof Promise) return answer.finally(remove);
  } finally {
    if (!(answer instanceof Promise)) remove();
  }
  return answer;
}

/**
 * The world of entries below a root, and what is said of it: `world`, `lines`, and `sources`, `infos` and `leads` (a line for each
 * resolution), in which the root's URL is left out.
 */
function worldOf(root, entries, given = {}) {
  const made = worldOfProject(entries.map((it) => path.join(root, it)), { root, ...given });
  const base = `${pathToFileURL(root).href}/`;
  const short = (it) => it.replace(base, "");
  const named = (object) => Object.fromEntries(Object.entries(object).map(([name, it]) => [short(name), it]));
  const leads = (made.world.resolutions ?? []).map((it) => `${short(it.referrer)} ${it.kind} ${it.text} -> ${short(it.to)}`);
  const [sources, infos] = [named(made.world.sources), named(made.world.infos)];
  return { ...made, sources, infos, leads, lines: made.lines.map((it) => it.replaceAll(base, "")) };
}

/** Whether check_world takes it. */
function isWorld(world) {
  return worldFaults(Buffer.from(JSON.stringify(world))).faults.length === 0;
}

module.exports = { PROJECTS, TOOLS, inFolder, isWorld, runTool, ts, withTypeScript, worldOf };
