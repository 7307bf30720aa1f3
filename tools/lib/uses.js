// What a module uses its texts for: where each is to lead, for code and for types, and what an import makes of what stands there.
"use strict";
const { isAsset } = require("./attributes.js");
const { isPath } = require("./specifiers.js");

const ZERO = [[0, 0], [0, 0]];

/**
 * The uses of a module's texts in the order of their first ones: `{ text, wanted, range, use, all }`. `wanted` is the text to resolve, `use`
 * has `isTypes`, `isRequire` and `isOptional`, and `all` is what all uses of the text say: see `Text`. `module` has `extension`,
 * `isDeclarations`, `isTyped` (whether types are wanted), `jsx`, which may be absent, and `textsOf`, which gives the texts of a call.
 */
function usesOf(info, module) {
  const uses = new Uses();
  for (const it of info.dependencies ?? []) addImport(uses, it, module);
  addJsx(uses, info, module);
  if (module.isTyped) addComments(uses, info);
  return [...uses.found.values()];
}

/** What all imports of one text say. */
class Text {
  constructor() {
    this.isAsset = true;
    this.isOnDemand = false;
    this.isStatic = false;
    this.imports = [];
  }

  /** Whether the graph has it as a dynamic import: only calls import it. */
  get isDynamic() {
    return this.isOnDemand && !this.isStatic;
  }
}

class Uses {
  constructor() {
    this.found = new Map();
    this.texts = new Map();
  }

  /** Adds a use of a text, by an import where one is given. A text with `prefix` before it is resolved. */
  add(text, range, use, it, prefix = "") {
    const key = `${use.isTypes ? "types" : "code"} ${text}`;
    const all = this.texts.get(text) ?? new Text();
    this.texts.set(text, all);
    const isFirst = !this.found.has(key) || this.found.get(key).use.isOptional;
    if (isFirst) this.found.set(key, { text, wanted: prefix + text, range, use, all });
    if (it === undefined || !isAsset(it)) all.isAsset = false;
    if (it !== undefined) all.imports.push(it);
    if (use.isTypes) return;
    if (it?.type === "dynamic") all.isOnDemand = true;
    else all.isStatic = true;
  }
}

function addImport(uses, it, { isDeclarations, isTyped, textsOf }) {
  const range = it.specifierRange ?? it.argumentRange;
  const isRequire = /^(require|importEquals|exportEquals)$/.test(it.kind);
  const isOfTypes = isDeclarations || /^(importType|exportType|maybeTsModuleAugmentation)$/.test(it.kind);
  // An augmentation may also declare a module that stands nowhere: then nothing is missing.
  const isOptional = it.kind === "maybeTsModuleAugmentation";
  for (const text of it.type === "static" ? [it.specifier] : textsOf(it)) {
    if (!isOfTypes) uses.add(text, range, { isRequire }, it);
    if (isTyped) uses.add(text, range, { isRequire, isTypes: true, isOptional }, it);
  }
  if (isTyped && it.typesSpecifier !== undefined) uses.add(it.typesSpecifier.text, it.typesSpecifier.range, { isTypes: true });
}

function addJsx(uses, info, { extension, isTyped, jsx }) {
  if (extension !== "jsx" && extension !== "tsx") return;
  const source = info.jsxImportSource ?? (jsx && { text: jsx.source, range: ZERO });
  if (source === undefined) return;
  const module = jsx?.module ?? "jsx-runtime";
  uses.add(`${source.text}/${module}`, source.range, {});
  if (!isTyped) return;
  const types = info.jsxImportSourceTypes ?? source;
  uses.add(`${types.text}/${module}`, types.range, { isTypes: true });
}

/** The texts that a module's comments name, which are of types. */
function addComments(uses, info) {
  const isTypes = true;
  for (const it of info.tsReferences ?? []) {
    // A path is one against the module, with or without a dot at its beginning.
    const isBare = it.type === "path" && !isPath(it.text);
    uses.add(it.text, it.range, { isTypes, isRequire: it.resolutionMode === "require" }, undefined, isBare ? "./" : "");
  }
  for (const it of info.jsdocImports ?? []) uses.add(it.text, it.range, { isTypes });
  if (info.selfTypesSpecifier !== undefined) uses.add(info.selfTypesSpecifier.text, info.selfTypesSpecifier.range, { isTypes });
}

module.exports = { usesOf };
