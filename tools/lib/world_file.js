// Why bytes are no world file.
"use strict";
const fs = require("node:fs");
const path = require("node:path");
const { JsonFault, readJson } = require("./json_text.js");
const { textOf } = require("./media.js");
const { Lines } = require("./positions.js");
const { faultsOf } = require("./schema.js");
const { ruleFaults } = require("./world_rules.js");

const SCHEMA = path.join(__dirname, "..", "..", "docs", "world_file.schema.json");
const LIMIT = 67108864;

/**
 * The faults of a world file in the order of the text, each `{ line, column, path, wanted }`, line and column from 1; none where it is
 * one. `isUnreadable` says that it isn't JSON in UTF-8: then there is one fault, without path.
 */
function worldFaults(bytes) {
  if (bytes.length > LIMIT) return { faults: [{ line: 1, column: 1, path: "", wanted: `a file of at most ${LIMIT} bytes` }] };
  const text = textOf(bytes);
  if (text === undefined) return { isUnreadable: true, faults: [{ ...placeOfBadByte(bytes), path: "", wanted: "UTF-8" }] };
  const lines = new Lines(text);
  const placed = ({ at, path, wanted }) => ({ ...placeIn(lines, at), path, wanted });
  try {
    const world = readJson(text);
    schema ??= readJson(fs.readFileSync(SCHEMA, "utf8"));
    const found = [...faultsOf(schema, world), ...ruleFaults(world)].sort((one, other) => one.at - other.at);
    return { faults: found.filter((it, place) => !isAgain(it, found[place - 1])).map(placed) };
  } catch (error) {
    if (!(error instanceof JsonFault)) throw error;
    return { isUnreadable: true, faults: [placed({ at: error.at, path: "", wanted: error.message })] };
  }
}

let schema;

/** A number that is wrong by the schema and by the rules stands twice in the list: once is enough. */
function isAgain(fault, before) {
  return before !== undefined && before.at === fault.at && before.path === fault.path;
}

function placeIn(lines, at) {
  const [line, character] = lines.place(at);
  return { line: line + 1, column: character + 1 };
}

/** The place of the first byte that isn't UTF-8. */
function placeOfBadByte(bytes) {
  let good = 0;
  let bad = bytes.length;
  while (good < bad) {
    const middle = (good + bad + 1) >> 1;
    if (isBeginning(bytes.subarray(0, middle))) good = middle;
    else bad = middle - 1;
  }
  const text = bytes.subarray(0, good).toString("utf8").replace(/\ufffd$/, "");
  return placeIn(new Lines(text), text.length);
}

/** Whether bytes are the beginning of some text in UTF-8. */
function isBeginning(bytes) {
  try {
    new TextDecoder("utf-8", { fatal: true }).decode(bytes, { stream: true });
    return true;
  } catch {
    return false;
  }
}

module.exports = { worldFaults };
