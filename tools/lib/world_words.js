// The words that say how a world is made of a project.
"use strict";

const WORLD_OPTIONS = {
  "--root": "value",
  "--import-map": "value",
  "--types": "flag",
  "--conditions": "value",
  "--packages": "values",
  "--typescript": "value",
  "--skip-dynamic": "flag",
  "--as-written": "flag",
};
const WORLD_USAGE = `  --root DIR          the project's folder; the current one without it
  --import-map FILE   an import map (JSON)
  --types             the modules of types as well
  --conditions LIST   names that hold in exports and imports of a package.json, besides import or require, types and default,
                      with commas between them; node without it
  --packages DIR      a further folder of packages, such as Debian's /usr/share/nodejs; it may be given again
  --typescript DIR    the TypeScript to parse with; the project's, else Debian's, without it
  --skip-dynamic      without what only dynamic imports and calls of require reach
  --as-written        imports of JSON stay without the attribute that they don't have, and modules of other kinds are what they are:
                      the graph has the errors that Deno has
`;
/** So many bytes of a world the program takes. */
const LIMIT = 67108864;

/** What `worldOfProject` is given, by the words that were read. */
function settingsOfWords(given) {
  return {
    root: given["--root"],
    packages: given["--packages"],
    conditions: given["--conditions"]?.split(",").filter((it) => it !== ""),
    importMap: given["--import-map"],
    typescript: given["--typescript"],
    isTyped: given["--types"],
    skipsDynamic: given["--skip-dynamic"],
    isAsWritten: given["--as-written"],
  };
}

/** What is to be said of a world of so many bytes. */
function sizeLines(size) {
  return size > LIMIT ? [`the world has ${size} bytes, and the program takes ${LIMIT}`] : [];
}

module.exports = { WORLD_OPTIONS, WORLD_USAGE, settingsOfWords, sizeLines };
