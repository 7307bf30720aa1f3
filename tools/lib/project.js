// A world of a project on this machine, and what is to be said of it.
"use strict";
const path = require("node:path");
const { Files } = require("./files.js");
const { ImportMap } = require("./import_map.js");
const { parseJson, readBytes } = require("./json_file.js");
const { Notes } = require("./notes.js");
const { Resolver } = require("./resolver.js");
const { settingsOf } = require("./settings.js");
const { urlOfPath } = require("./specifiers.js");
const { findTypeScript } = require("./typescript.js");
const { Walk } = require("./walk.js");
const { Fault } = require("./words.js");

/**
 * Makes the world of what `entries` (files) reach: `{ world, lines }`, where `lines` say what isn't in the world as it is in the project.
 * `given` may have `root`, `packages`, `conditions`, `importMap`, `typescript`, and the flags `isTyped`, `isAsWritten` and `skipsDynamic`.
 * Faults: a file or folder isn't there, an entry isn't below the root, JSON can't be read, there is no TypeScript.
 */
function worldOfProject(entries, given = {}) {
  const files = new Files(path.resolve(given.root ?? "."), given.packages);
  const roots = entries.map((it) => entryOf(it, files));
  const ts = findTypeScript(files.root, given.typescript);
  const { jsx, paths } = settingsOf(ts, files);
  const resolver = new Resolver(files, given.conditions ?? ["node"], importMapOf(given.importMap), paths);
  const { isTyped = false, isAsWritten = false, skipsDynamic = false } = given;
  const walk = new Walk({ ts, files, resolver, notes: new Notes(), jsx, isTyped, isAsWritten, skipsDynamic });
  const world = walk.world(roots);
  return { world, lines: linesOf(walk) };
}

/** The text of a world. Half a surrogate pair, which no world may have, is U+FFFD in it, as in the URL of a text. */
function textOfWorld(world) {
  const text = JSON.stringify(world);
  if (!text.includes("\\ud")) return text;
  return JSON.stringify(world, (_, it) => (typeof it === "string" ? Buffer.from(it).toString() : it));
}

function entryOf(entry, files) {
  const { kind, real } = files.look(path.resolve(entry));
  if (kind === "outside") throw new Fault(`${entry} isn't below the root ${files.root}`);
  if (kind !== "file") throw new Fault(`there is no file ${entry}`);
  return urlOfPath(real);
}

function importMapOf(file) {
  if (file === undefined) return undefined;
  const json = parseJson(readBytes(file).toString("utf8"), file);
  return new ImportMap(json, urlOfPath(path.resolve(file)));
}

function linesOf({ missing, infos, notes }) {
  const lines = missing.map(({ text, referrer, place, reason }) => {
    return `not found: "${text}" (${referrer}:${place[0] + 1}:${place[1] + 1}): ${reason}`;
  });
  const errors = Object.values(infos).filter((it) => it.error !== undefined);
  // A text that leads nowhere for code and for types is said once.
  return [...new Set([...lines, ...errors.map((it) => it.error.message), ...notes.lines()])];
}

module.exports = { textOfWorld, worldOfProject };
