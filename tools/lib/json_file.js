// JSON files that a command is given.
"use strict";
const fs = require("node:fs");
const { Fault } = require("./words.js");

/** The bytes of a file, or of standard input where `file` is "-" or not given. Faults: it can't be read. */
function readBytes(file) {
  try {
    return fs.readFileSync(file === undefined || file === "-" ? 0 : file);
  } catch (error) {
    throw new Fault(`can't read ${file ?? "standard input"}: ${reasonOf(error)}`);
  }
}

/** The JSON value of a text. `file` names it in the fault that is thrown where the text is no JSON. */
function parseJson(text, file) {
  try {
    return JSON.parse(text.replace(/^\ufeff/, ""));
  } catch (error) {
    throw new Fault(`${file} is no JSON: ${error.message}`);
  }
}

/** What the system said, in words. */
function reasonOf(error) {
  const known = { ENOENT: "there is no such file", EISDIR: "it is a folder", EACCES: "reading it isn't allowed" };
  return known[error.code] ?? error.message;
}

module.exports = { parseJson, readBytes, reasonOf };
