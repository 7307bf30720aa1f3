// A world from what `deno info --json` prints: the graph that Deno built, put back as what a loader, an analyzer and a resolver answer.
"use strict";
const fs = require("node:fs");
const { settingsFor } = require("./attributes.js");
const { extensionOf, isDeclarations, moduleOfBytes, textOf } = require("./media.js");
const { ownTarget } = require("./specifiers.js");
const { Fault } = require("./words.js");
const { emptyWasm } = require("./wasm.js");

const ZERO = [[0, 0], [0, 0]];
/** The extension of each media, and the content type that tells it where a name doesn't. */
const MEDIA = {
  JavaScript: ["js", "text/javascript"],
  JSX: ["jsx", "text/jsx"],
  TypeScript: ["ts", "text/typescript"],
  TSX: ["tsx", "text/tsx"],
  Json: ["json", "application/json"],
  Wasm: ["wasm", "application/wasm"],
};

/** Whether a JSON value is of the form that Deno prints. Faults: it isn't. */
function checkInfo(info, name) {
  const isGraph = Array.isArray(info?.modules) && Array.isArray(info.roots);
  if (!isGraph) throw new Fault(`${name} isn't what deno info --json prints: it has no modules and roots`);
  if (info.version !== undefined && info.version !== 1) throw new Fault(`${name} is of version ${info.version}; 1 is known`);
}

/** Makes the world of a graph that Deno printed. */
class WorldOfInfo {
  constructor(info) {
    this.info = info;
    this.resolutions = [];
    this.withoutText = 0;
  }

  world() {
    const { info } = this;
    const world = { version: 1, roots: info.roots, kind: "all", sources: {}, infos: {} };
    for (const [from, to] of Object.entries(info.redirects ?? {})) world.sources[from] = { kind: "redirect", to };
    for (const module of info.modules) {
      const source = this.source(module);
      if (source !== undefined) world.sources[module.specifier] = source;
      const told = module.error === undefined ? this.infoOf(module) : {};
      if (Object.keys(told).length > 0) world.infos[module.specifier] = told;
      Object.assign(world, settingsFor(told.dependencies ?? []));
    }
    world.imports = (info.imports ?? []).map(({ referrer, dependencies }) => {
      for (const it of dependencies) this.resolve(referrer, it);
      return { referrer, imports: dependencies.map((it) => it.specifier) };
    });
    world.resolutions = this.resolutions;
    for (const name of ["imports", "resolutions"]) if (world[name].length === 0) delete world[name];
    return world;
  }

  source(module) {
    if (module.error !== undefined) {
      const isMissing = /^(Module|Dynamic import) not found/.test(module.error);
      return isMissing ? undefined : { kind: "error", class: "Error", message: module.error };
    }
    if (module.specifier.startsWith("data:")) return { kind: "data" };
    switch (module.kind ?? "esm") {
      case "node":
        return undefined;
      case "esm":
      case "asserted":
      case "json":
        return { kind: "module", text: this.text(module), ...headersOf(module, module.mediaType) };
      case "wasm":
        return { ...moduleOfBytes(this.wasm(module)), ...headersOf(module, "Wasm") };
      default:
        return { kind: "external" };
    }
  }

  /** The bytes of the file where Deno keeps the module, or a WebAssembly module that has nothing, of as many bytes. */
  wasm({ local, size }) {
    const bytes = readBytes(local);
    if (bytes?.length >= size) return bytes.subarray(0, size);
    this.withoutText++;
    return emptyWasm(size ?? 0);
  }

  /** The text of the file where Deno keeps the module, or as many spaces as the module has bytes. */
  text({ local, size }) {
    const text = readText(local, size);
    if (text !== undefined) return text;
    this.withoutText++;
    return " ".repeat(size ?? 0);
  }

  infoOf(module) {
    const dependencies = (module.dependencies ?? []).flatMap((it) => this.dependency(module.specifier, it));
    const info = dependencies.length > 0 ? { dependencies } : {};
    const { typesDependency: types, maybeSourceMapDependency: map } = module;
    if (types?.dependency) {
      this.resolve(module.specifier, { specifier: types.specifier, type: types.dependency });
      info.selfTypesSpecifier = { text: types.specifier, range: rangeOf(types.dependency) };
    }
    if (map?.dependency) {
      this.lead(module.specifier, map.specifier, "code", map.dependency);
      info.sourceMapUrl = { text: map.specifier, range: rangeOf(map.dependency) };
    }
    return info;
  }

  /** The imports of a text: of code where it leads to code, and of types where it leads there alone, or for both to one module. */
  dependency(referrer, it) {
    this.resolve(referrer, it);
    const { specifier: text, code, type } = it;
    const attributes = it.assertionType && { known: { type: { known: it.assertionType } } };
    const rest = attributes ? { importAttributes: attributes } : {};
    const made = [];
    if (code !== undefined) {
      const [kind, range] = [this.kindOf(it), rangeOf(code)];
      if (it.isDynamic) made.push({ type: "dynamic", kind, argument: text, argumentRange: range, ...rest });
      else made.push({ type: "static", kind, specifier: text, specifierRange: range, ...rest });
    }
    const isOfTypes = type && (code === undefined || (type.specifier !== undefined && type.specifier === code.specifier));
    if (isOfTypes) made.push({ type: "static", kind: "importType", specifier: text, specifierRange: rangeOf(type), ...rest });
    return made;
  }

  kindOf({ code, phase, isDynamic }) {
    if (phase === "source") return "importSource";
    if (code.resolutionMode !== "require") return "import";
    return isDynamic ? "require" : "importEquals";
  }

  /** Where a text leads, for code and for types. Types that Deno doesn't print lead where the code does. */
  resolve(referrer, { specifier: text, code, type }) {
    this.lead(referrer, text, "code", code);
    this.lead(referrer, text, "types", type ?? code);
  }

  lead(referrer, text, kind, resolution) {
    if (!resolution) return;
    const { specifier: to, error } = resolution;
    if (error !== undefined) this.resolutions.push({ referrer, text, kind, error: { class: "Error", message: error } });
    else if (to !== ownTarget(text, referrer)) this.resolutions.push({ referrer, text, kind, to });
  }
}

/** The header that tells a module's media, where its name doesn't. */
function headersOf({ specifier }, media) {
  const [extension, type] = MEDIA[media] ?? [];
  const url = new URL(specifier);
  const isTold = type === undefined || (extensionOf(url) === extension && !isDeclarations(url));
  return isTold ? {} : { headers: { "content-type": type } };
}

function readBytes(local) {
  try {
    return typeof local === "string" ? fs.readFileSync(local) : undefined;
  } catch {
    return undefined;
  }
}

function readText(local, size) {
  const bytes = readBytes(local);
  const plain = bytes && textOf(bytes)?.replace(/^\ufeff/, "");
  // Deno keeps a downloaded module with a line of its own after the text, which doesn't count.
  if (plain === undefined || size === undefined) return plain;
  const encoded = Buffer.from(plain);
  return encoded.length >= size ? textOf(encoded.subarray(0, size)) : undefined;
}

function rangeOf({ span }) {
  if (span === undefined) return ZERO;
  return [span.start, span.end].map((it) => [it.line, it.character]);
}

module.exports = { WorldOfInfo, checkInfo };
