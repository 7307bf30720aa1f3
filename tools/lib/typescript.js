// TypeScript's parser: the one of the project where it has one, else the one that Debian's node-typescript installs.
"use strict";
const fs = require("node:fs");
const path = require("node:path");
const { Fault } = require("./words.js");

const DEBIAN = "/usr/share/nodejs/typescript";

/** The folders where TypeScript may stand, the project's first. */
function places(root) {
  const found = [];
  for (let at = root; ; at = path.dirname(at)) {
    found.push(path.join(at, "node_modules", "typescript"));
    if (at === path.dirname(at)) break;
  }
  return [...found, DEBIAN];
}

/** The TypeScript that the project in `root` has, else Debian's. `given` is a folder that goes before both. Faults: there is none. */
function findTypeScript(root, given) {
  const where = given === undefined ? places(root) : [path.resolve(given)];
  for (const place of where) {
    if (!fs.existsSync(path.join(place, "package.json"))) continue;
    const found = load(place);
    // From version 7 on the package has no parser for JavaScript on Node.js.
    if (typeof found?.createSourceFile === "function") return found;
  }
  throw new Fault("there is no TypeScript here: apt-get install node-typescript");
}

function load(place) {
  try {
    return require(place);
  } catch {
    return undefined;
  }
}

module.exports = { findTypeScript };
