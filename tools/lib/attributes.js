// Import attributes of an info, and what their `type` does to an import.
"use strict";

const ASSETS = new Set(["text", "bytes", "css"]);
/** The settings of a world without which a graph refuses imports of a type. */
const SETTINGS = new Map([
  ["bytes", "bytes"],
  ["css", "css"],
  ...["yaml", "toml", "json5", "jsonc"].map((it) => [it, "config"]),
]);

/** The value of the attribute `type`, where it is known. */
function typeOf(attributes) {
  return attributes?.known?.type?.known;
}

/** Whether an import keeps what it names at hand, and doesn't load it. */
function isAsset({ kind, importAttributes }) {
  return kind === "importSource" || ASSETS.has(typeOf(importAttributes));
}

/** The settings that these imports need, each of them true. */
function settingsFor(dependencies) {
  const names = dependencies.map((it) => SETTINGS.get(typeOf(it.importAttributes))).filter((it) => it !== undefined);
  return Object.fromEntries(names.map((it) => [it, true]));
}

module.exports = { isAsset, settingsFor, typeOf };
