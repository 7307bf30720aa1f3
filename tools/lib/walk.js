// Walks from entry files over their imports and writes down a world: sources, infos, and where texts lead.
"use strict";
const { settingsFor, typeOf } = require("./attributes.js");
const { infoOf } = require("./imports.js");
const { dataExtensionOf, extensionOf, isDeclarations, kindOf, moduleOf, moduleOfBytes, readDataUrl, scriptOf } = require("./media.js");
const { ownTarget, pathOfUrl } = require("./specifiers.js");
const { Templates } = require("./templates.js");
const { usesOf } = require("./uses.js");
const { wasmImports } = require("./wasm.js");

/** The imports that load what they name, by a declaration. */
const LOADING = /^(import|importDefer|importType|importEquals|export|exportType|exportEquals)$/;

class Walk {
  /**
   * `parts` has `ts`, `files`, `resolver`, `notes`, `jsx`, which may be absent, and the flags `isTyped` (types are wanted), `isAsWritten`
   * (nothing is said otherwise than the project has it) and `skipsDynamic` (dynamic imports are left out).
   */
  constructor(parts) {
    Object.assign(this, parts);
    this.templates = new Templates(this.files);
    this.sources = {};
    this.infos = {};
    this.resolutions = [];
    this.missing = [];
    this.settings = {};
    this.asked = new Set();
    this.loaded = new Set();
    this.queue = [];
  }

  /** The world of what the roots (URLs) reach. */
  world(roots) {
    this.roots = new Set(roots);
    roots.forEach((it) => this.enter(it, false));
    while (this.queue.length > 0) this.load(this.queue.pop());
    const { sources, infos, resolutions, jsx, settings } = this;
    const world = { version: 1, roots, kind: this.isTyped ? "all" : "code", sources: sorted(sources), infos: sorted(infos) };
    if (resolutions.length > 0) world.resolutions = resolutions;
    if (jsx !== undefined) world.jsx = jsx;
    Object.assign(world, settings);
    if (this.skipsDynamic) world.skip_dynamic_deps = true;
    const tree = this.templates.tree();
    if (tree.length > 0) world.tree = tree;
    // The default is enough for 100000 questions, and each specifier is asked once or twice.
    if (this.asked.size > 40000) world.max_loads = 3 * this.asked.size;
    return world;
  }

  /** Goes on at a specifier, which is loaded, or kept at hand as an asset. */
  enter(specifier, isAsset) {
    if (this.loaded.has(specifier) || (isAsset && specifier in this.sources)) return;
    this.asked.add(specifier);
    if (!isAsset) this.loaded.add(specifier);
    const url = new URL(specifier);
    const bytes = this.source(url);
    if (bytes !== undefined && !isAsset) this.queue.push({ url, bytes });
  }

  /** Puts down what stands at a URL, and answers its bytes, or nothing where there are none to read. */
  source(url) {
    if (url.protocol === "data:") {
      this.sources[url.href] = { kind: "data" };
      return readDataUrl(url)?.bytes;
    }
    if (!this.isThere(url)) return undefined;
    const bytes = this.files.read(pathOfUrl(url));
    this.sources[url.href] = extensionOf(url) === "wasm" ? moduleOfBytes(bytes) : moduleOf(bytes);
    return bytes;
  }

  isThere(url) {
    const file = pathOfUrl(url);
    return url.protocol === "data:" || (file !== undefined && this.files.isFile(file));
  }

  /** Reads what a module imports, or puts an external module in the place of one that the graph has no kind for. */
  load({ url, bytes }) {
    const extension = this.extensionOf(url);
    const kind = kindOf(extension);
    if (kind === "script") this.script(url, extension, bytes);
    else if (kind === "wasm") this.wasm(url, bytes);
    else if (kind !== "json" && !this.isAsWritten) this.standIn(url, extension);
  }

  /** The extension that a module is read by. To Node.js a file without one is JavaScript, and to a graph so is a root of no known one. */
  extensionOf(url) {
    if (url.protocol === "data:") return dataExtensionOf(url);
    const extension = extensionOf(url);
    if (extension === "" && !this.isAsWritten) {
      this.sources[url.href].headers = { "content-type": "text/javascript" };
      return "js";
    }
    return this.roots.has(url.href) && kindOf(extension) === "unknown" ? "js" : extension;
  }

  script(url, extension, bytes) {
    const text = scriptOf(bytes);
    if (text === undefined) {
      this.notes.count("scripts that are neither in UTF-8 nor marked as UTF-16, which are errors");
      return;
    }
    const info = infoOf(this.ts, url.href, extension, text);
    if (info.error === undefined) this.imports(url, extension, info);
    if (Object.keys(info).length > 0) this.infos[url.href] = info;
  }

  wasm(url, bytes) {
    const dependencies = wasmImports(bytes);
    if (dependencies === undefined) {
      this.notes.count("WebAssembly modules that can't be read, which are errors");
      return;
    }
    if (dependencies.length > 0) this.infos[url.href] = { dependencies };
    this.imports(url, "wasm", { dependencies });
  }

  standIn(url, extension) {
    this.sources[url.href] = { kind: "external" };
    this.notes.count(`modules of no kind that a graph has (${extension === "" ? "no extension" : `.${extension}`}), which stand as external`);
  }

  imports(url, extension, info) {
    const { isTyped, jsx } = this;
    const textsOf = (it) => this.textsOf(it, url);
    const uses = usesOf(info, { extension, isDeclarations: isDeclarations(url), isTyped, jsx, textsOf });
    for (const it of uses) this.lead(url.href, it);
    // The text of an import leads where the import does.
    const isLed = uses.some(({ text, use }) => text === info.sourceMapUrl?.text && !use.isTypes);
    if (info.sourceMapUrl !== undefined && !isLed) this.sourceMap(url.href, info);
    Object.assign(this.settings, settingsFor(info.dependencies ?? []));
  }

  /** The texts that a call imports: its own, or those of its template. */
  textsOf({ argument, importAttributes }, url) {
    if (typeof argument === "string") return [argument];
    if (argument === undefined) this.notes.count("calls whose argument is no text and no template, which the graph passes over");
    if (argument === undefined) return [];
    const texts = this.templates.texts(argument, url, typeOf(importAttributes) === "json");
    if (texts.length === 0) this.notes.count("templates that stand for no file, which the graph passes over");
    return texts;
  }

  /** Finds where a text leads, notes it where the text doesn't say it, and goes on there. */
  lead(referrer, { text, wanted, range, use, all }) {
    const { to, reason } = this.resolver.resolve(wanted, referrer, use);
    if (use.isOptional && reason !== undefined) return;
    if (to !== ownTarget(text, referrer)) this.resolutions.push({ referrer, text, kind: use.isTypes ? "types" : "code", to });
    if (to !== undefined) this.asked.add(to);
    if (reason !== undefined) this.missing.push({ text, referrer, place: range[0], reason });
    else this.follow(to, all);
  }

  follow(to, { isAsset, isDynamic, imports }) {
    if (!this.isAsWritten && isJson(new URL(to))) imports.forEach((it) => this.asJson(it));
    if (!isDynamic || !this.skipsDynamic) this.enter(to, isAsset);
  }

  /** Gives a declaration that imports JSON as bundlers do the attribute without which it is an error. */
  asJson(it) {
    if (!LOADING.test(it.kind) || it.type !== "static" || it.importAttributes === "unknown") return;
    const known = it.importAttributes?.known ?? {};
    if (known.type !== undefined) return;
    it.importAttributes = { known: { ...known, type: { known: "json" } } };
    this.notes.count('imports of JSON without an attribute, which have the type "json"');
  }

  /** A source map stands at its URL against the module's (ECMA-426), and is an asset. Bundlers pass over one that isn't there. */
  sourceMap(referrer, info) {
    const { text } = info.sourceMapUrl;
    const url = URL.canParse(text, referrer) ? new URL(text, referrer) : undefined;
    const isThere = url !== undefined && this.isThere(url);
    if (!isThere) this.notes.count(`source maps that aren't there, which are ${this.isAsWritten ? "missing modules" : "left out"}`);
    if (!isThere && !this.isAsWritten) {
      delete info.sourceMapUrl;
      return;
    }
    if (url !== undefined && url.href !== ownTarget(text, referrer)) {
      this.resolutions.push({ referrer, text, kind: "code", to: url.href });
    }
    if (isThere) this.enter(url.href, true);
    else if (url !== undefined) this.asked.add(url.href);
  }
}

function isJson(url) {
  return (url.protocol === "data:" ? dataExtensionOf(url) : extensionOf(url)) === "json";
}

/** The members of an object in the order of their names, so that a world doesn't depend on the walk. */
function sorted(object) {
  return Object.fromEntries(Object.entries(object).sort(([one], [other]) => (one < other ? -1 : 1)));
}

module.exports = { Walk };
