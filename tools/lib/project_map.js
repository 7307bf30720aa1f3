// The import map of a project, as graph_tools reads it: that of a deno.json, a package.json, or a file of its own.
"use strict";
const path = require("node:path");
const { parseJson, readBytes } = require("./json_file.js");
const { ownTarget, urlOfPath } = require("./specifiers.js");
const { Fault } = require("./words.js");

// The conditions of a package.json that count, the first one that is there.
const CONDITIONS = ["deno", "import", "default"];

function isObject(value) {
  return value !== null && typeof value === "object" && !Array.isArray(value);
}

/**
 * The import map that the file tells, as `{ base, map, notes }`: its base (`given` or the URL of the file), the map, and what was left out,
 * in words. Faults: the file can't be read, is no JSON, or has no map.
 */
function mapOfProject(file, given) {
  const json = parseJson(readBytes(file).toString("utf8"), file);
  if (!isObject(json)) throw new Fault(`${file} is no object`);
  const notes = [];
  if (path.basename(file) === "package.json") return whole(file, given, { imports: packageImports(json, notes) }, notes);
  if (json.imports === undefined && json.scopes === undefined && typeof json.importMap === "string") {
    return mapOfProject(path.join(path.dirname(file), json.importMap), given);
  }
  if (json.imports === undefined && json.scopes === undefined) throw new Fault(`${file} has neither imports nor scopes`);
  const map = {};
  if (json.imports !== undefined) map.imports = json.imports;
  if (json.scopes !== undefined) map.scopes = json.scopes;
  return whole(file, given, map, notes);
}

function whole(file, given, map, notes) {
  const base = given ?? urlOfPath(path.resolve(file));
  if (!URL.canParse(base)) throw new Fault(`${base} is no URL`);
  return { base, map, notes };
}

/** The entries of a package.json's imports that an import map can have. */
function packageImports(json, notes) {
  if (!isObject(json.imports)) throw new Fault("the package.json has no imports");
  const found = {};
  for (const [key, value] of Object.entries(json.imports)) {
    const address = isObject(value) ? CONDITIONS.map((it) => value[it]).find((it) => it !== undefined) : value;
    // A pattern may stand at the end of both alone, as in `#a/*` and `./a/*`: that is a key that ends with `/`.
    const [from, to] = [key, address].map((it) => (typeof it === "string" && it.endsWith("/*") ? it.slice(0, -1) : it));
    if (typeof to !== "string" || from.includes("*") || to.includes("*") || (from === key) !== (to === address)) {
      notes.push(`left out: ${key}, which no import map can say`);
      continue;
    }
    found[from] = to;
  }
  return found;
}

/** The URLs that a map leads to: those of its addresses. */
function addressesOf({ base, map }) {
  const parts = [map.imports ?? {}, ...Object.values(map.scopes ?? {})].filter(isObject);
  const values = parts.flatMap((it) => Object.values(it)).filter((it) => typeof it === "string");
  return values.map((it) => ownTarget(it, base)).filter((it) => it !== undefined);
}

module.exports = { addressesOf, mapOfProject };
