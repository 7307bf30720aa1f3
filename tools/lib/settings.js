// What the root's tsconfig.json (or jsconfig.json, deno.json, deno.jsonc) says that a graph depends on: the JSX runtime, `paths` and
// `baseUrl`. A member `extends` isn't followed.
"use strict";
const path = require("node:path");
const { Fault } = require("./words.js");

const NAMES = ["tsconfig.json", "jsconfig.json", "deno.json", "deno.jsonc"];
const RUNTIMES = { "react-jsx": "jsx-runtime", "react-jsxdev": "jsx-dev-runtime", precompile: "jsx-runtime" };

/** The settings of the root: `jsx`, the member of the world file, and `paths`, each of which may be absent. */
function settingsOf(ts, files) {
  const file = NAMES.map((it) => path.join(files.root, it)).find((it) => files.isFile(it));
  if (file === undefined) return {};
  const { config, error } = ts.parseConfigFileTextToJson(file, files.read(file).toString("utf8"));
  if (error !== undefined) throw new Fault(`${file} is no JSON: ${ts.flattenDiagnosticMessageText(error.messageText, "\n")}`);
  const options = config?.compilerOptions ?? {};
  return { jsx: jsxOf(options), paths: pathsOf(options, files.root) };
}

function jsxOf({ jsx, jsxImportSource }) {
  const module = RUNTIMES[jsx];
  if (module === undefined) return undefined;
  return { source: jsxImportSource ?? "react", ...(module !== "jsx-runtime" && { module }) };
}

function pathsOf({ paths, baseUrl }, root) {
  if (paths === undefined && baseUrl === undefined) return undefined;
  return new Paths(paths ?? {}, path.join(root, baseUrl ?? "."), baseUrl !== undefined);
}

class Paths {
  constructor(paths, base, hasBase) {
    this.entries = Object.entries(paths).sort(([one], [other]) => headOf(other).length - headOf(one).length);
    this.base = base;
    this.hasBase = hasBase;
  }

  /** The paths that a text may mean, the first that is there counts. */
  candidates(text) {
    const found = this.hasBase ? [path.join(this.base, text)] : [];
    for (const [pattern, targets] of this.entries) {
      const rest = restOf(pattern, text);
      if (rest === undefined || !Array.isArray(targets)) continue;
      return [...targets.map((it) => path.join(this.base, String(it).replace("*", () => rest))), ...found];
    }
    return found;
  }
}

function headOf(pattern) {
  return pattern.split("*")[0];
}

/** What the star of a pattern stands for in a text, or nothing where the pattern doesn't fit. */
function restOf(pattern, text) {
  const [head, tail] = pattern.split("*");
  if (tail === undefined) return pattern === text ? "" : undefined;
  const fits = text.length >= head.length + tail.length && text.startsWith(head) && text.endsWith(tail);
  return fits ? text.slice(head.length, text.length - tail.length) : undefined;
}

module.exports = { settingsOf };
