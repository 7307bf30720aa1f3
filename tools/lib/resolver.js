// Where the text of an import leads in a project: to a file, by the rules of Node.js and TypeScript, or to another URL.
"use strict";
const { builtinModules } = require("node:module");
const path = require("node:path");
const { exportTarget, importTarget } = require("./package_targets.js");
const { isPath, pathOfUrl, urlOfPath } = require("./specifiers.js");

const BUILT_IN = new Set(builtinModules);
const EXTENSIONS = [".tsx", ".ts", ".jsx", ".js", ".css", ".json"];
const TYPES_EXTENSIONS = [".ts", ".tsx", ".d.ts"];
/** What TypeScript takes for a file that an import names by its output. */
const OUTPUTS = { ".js": [".ts", ".tsx"], ".jsx": [".tsx"], ".mjs": [".mts"], ".cjs": [".cts"] };
const DECLARATIONS = { ".js": ".d.ts", ".jsx": ".d.ts", ".mjs": ".d.mts", ".cjs": ".d.cts" };

class Resolver {
  /** `conditions` are names that hold besides `import` (`require` for a call of CommonJS), `types` (for types) and `default`. */
  constructor(files, conditions, importMap, paths) {
    this.files = files;
    this.conditions = conditions;
    this.importMap = importMap;
    this.paths = paths;
  }

  /**
   * Where `text` leads in the module `referrer` (a URL). `use` has `isTypes` and `isRequire`. The answer has `to`, a URL, and, where
   * nothing was found there, `reason`; it has no `to` where the text leads nowhere by itself and to no place that a module could have.
   */
  resolve(text, referrer, use) {
    const mapped = this.importMap?.lookUp(text, referrer);
    if (mapped === null) return { to: this.missing(text, referrer), reason: "the import map blocks it" };
    if (mapped !== undefined) return this.url(mapped, referrer, use);
    if (isPath(text) || text === "." || text === "..") return this.relative(text, referrer, use);
    if (text.startsWith("#")) return this.inside(text, referrer, use);
    if (BUILT_IN.has(text) || BUILT_IN.has(text.replace(/^node:/, ""))) return { to: `node:${text.replace(/^node:/, "")}` };
    if (/^[a-z][a-z0-9+.-]*:/i.test(text)) return this.url(text, referrer, use);
    return this.mapped(text, referrer, use) ?? this.bare(text, referrer, use);
  }

  relative(text, referrer, use) {
    // A module of a `data:` URL stands nowhere, so nothing is relative to it.
    if (!URL.canParse(text, referrer)) return { reason: "nothing is relative to its module" };
    return this.url(new URL(text, referrer).href, referrer, use);
  }

  /** Where `paths` and `baseUrl` of the project's tsconfig.json lead a text, in the project's own modules. */
  mapped(text, referrer, use) {
    if (this.paths === undefined || referrer.includes("/node_modules/")) return undefined;
    const found = firstOf(this.paths.candidates(text), (it) => this.file(it, use, true));
    return found && { to: urlOfPath(found) };
  }

  /** Where a URL leads: a file with the extension that it lacks, or a folder's index. */
  url(href, referrer, use) {
    if (!URL.canParse(href)) return { to: this.missing("invalid", referrer), reason: `${href} is no URL` };
    const url = new URL(href);
    if (url.protocol === "data:" || url.protocol === "node:") return { to: url.href };
    if (url.protocol !== "file:") return { to: url.href, reason: "only files are read" };
    const wanted = pathOfUrl(url);
    if (wanted === undefined) return { to: url.href, reason: "no file of this machine can stand there" };
    const found = this.file(wanted, use, isTypeScript(referrer));
    if (found !== undefined) return { to: urlOfPath(found) + url.search + url.hash };
    const isOutside = this.files.look(wanted).kind === "outside";
    return { to: url.href, reason: isOutside ? "it stands outside of the root" : "there is no such file" };
  }

  /** The file that a path without links means, or nothing. */
  file(wanted, use, fromTypeScript) {
    return this.declaration(wanted, use) ?? this.exact(wanted) ?? this.extended(wanted, use, fromTypeScript) ?? this.folder(wanted, use);
  }

  exact(wanted) {
    return this.files.isFile(wanted) ? this.files.real(wanted) : undefined;
  }

  /** With types, the declarations that stand beside a file of JavaScript. */
  declaration(wanted, use) {
    const extension = path.extname(wanted);
    const other = use.isTypes ? DECLARATIONS[extension] : undefined;
    return other && this.exact(wanted.slice(0, -extension.length) + other);
  }

  extended(wanted, use, fromTypeScript) {
    const extension = path.extname(wanted);
    const stem = wanted.slice(0, wanted.length - extension.length);
    const outputs = fromTypeScript || use.isTypes ? (OUTPUTS[extension] ?? []) : [];
    const names = [
      ...(use.isTypes ? TYPES_EXTENSIONS.map((it) => wanted + it) : []),
      ...EXTENSIONS.map((it) => wanted + it),
      ...outputs.map((it) => stem + it),
    ];
    return firstOf(names, (it) => this.exact(it));
  }

  folder(wanted, use) {
    if (!this.files.isFolder(wanted)) return undefined;
    const manifest = this.files.manifest(wanted);
    const main = manifest && this.main(wanted, manifest, use);
    return main ?? this.extended(path.join(wanted, "index"), use, false);
  }

  /** The file that `types`, `module` or `main` of a package names. */
  main(folder, manifest, use) {
    const { types, typings, module, main } = manifest;
    const names = use.isRequire ? [main, module] : [module, main];
    if (use.isTypes) names.unshift(types ?? typings);
    return firstOf(names, (it) => {
      if (typeof it !== "string") return undefined;
      const wanted = path.join(folder, it);
      const file = this.declaration(wanted, use) ?? this.exact(wanted) ?? this.extended(wanted, use, false);
      return file ?? (this.files.isFolder(wanted) ? this.extended(path.join(wanted, "index"), use, false) : undefined);
    });
  }

  /** A text such as `#util`, by the member `imports` of the nearest package.json. */
  inside(text, referrer, use) {
    const folder = path.dirname(fileOf(referrer, this.files.root));
    const scope = this.files.scope(folder);
    const manifest = scope && this.files.manifest(scope);
    const target = importTarget(manifest?.imports, text, this.conditionsOf(use));
    // A target that begins with # would lead back here.
    const isThere = typeof target === "string" && !target.startsWith("#");
    if (!isThere) return { to: this.missing(text, referrer), reason: "no package.json gives it" };
    if (!target.startsWith("./")) return this.resolve(target, urlOfPath(path.join(scope, "package.json")), use);
    return this.target(scope, target, use);
  }

  target(folder, target, use) {
    const wanted = path.join(folder, target);
    const found = this.declaration(wanted, use) ?? this.exact(wanted) ?? (use.isTypes ? this.extended(wanted, use, true) : undefined);
    if (found !== undefined) return { to: urlOfPath(found) };
    return { to: urlOfPath(wanted), reason: `its package names ${target}, which isn't there` };
  }

  /** A bare text: the package itself, then each folder of packages on the way up. */
  bare(text, referrer, use) {
    const [name, rest] = packageName(text);
    const folder = path.dirname(fileOf(referrer, this.files.root));
    const found = this.itself(name, rest, folder, use) ?? this.installed(name, rest, folder, use);
    if (found !== undefined && found.reason === undefined) return found;
    const types = use.isTypes ? this.installed(typesName(name), rest, folder, use) : undefined;
    if (types !== undefined && types.reason === undefined) return types;
    return found ?? { to: this.missing(text, referrer), reason: `there is no package ${name}` };
  }

  itself(name, rest, folder, use) {
    const scope = this.files.scope(folder);
    const manifest = scope && this.files.manifest(scope);
    if (manifest?.name !== name || manifest.exports === undefined) return undefined;
    return this.exported(scope, manifest, rest, use);
  }

  installed(name, rest, from, use) {
    for (const place of this.files.packageFolders(from)) {
      const folder = path.join(place, name);
      if (!this.files.isFolder(folder) && rest === "") {
        const file = this.extended(folder, use, false);
        if (file !== undefined) return { to: urlOfPath(file) };
      }
      if (!this.files.isFolder(folder)) continue;
      const found = this.inPackage(this.files.real(folder), rest, use);
      if (!use.isTypes || isTyped(found)) return found;
      const types = this.typesPackage(place, name, rest, use);
      return types ?? found;
    }
    return undefined;
  }

  /** The package of declarations of another package, in the same folder of packages. */
  typesPackage(place, name, rest, use) {
    const folder = path.join(place, typesName(name));
    if (!this.files.isFolder(folder)) return undefined;
    const found = this.inPackage(this.files.real(folder), rest, use);
    return found.reason === undefined ? found : undefined;
  }

  inPackage(folder, rest, use) {
    const manifest = this.files.manifest(folder) ?? {};
    if (manifest.exports !== undefined && manifest.exports !== null) return this.exported(folder, manifest, rest, use);
    const found = rest === "" ? this.folder(folder, use) : this.file(path.join(folder, rest), use, false);
    if (found !== undefined) return { to: urlOfPath(found) };
    return { to: urlOfPath(path.join(folder, rest)), reason: "its package has no such file" };
  }

  exported(folder, manifest, rest, use) {
    const target = exportTarget(manifest.exports, `.${rest}`, this.conditionsOf(use));
    if (typeof target === "string" && target.startsWith("./")) return this.target(folder, target, use);
    return { to: urlOfPath(path.join(folder, rest)), reason: `its package doesn't export .${rest}` };
  }

  conditionsOf({ isRequire, isTypes }) {
    return new Set([...this.conditions, isRequire ? "require" : "import", ...(isTypes ? ["types"] : [])]);
  }

  /** Where a package would stand that isn't there. */
  missing(text, referrer) {
    const scope = this.files.scope(path.dirname(fileOf(referrer, this.files.root))) ?? this.files.root;
    return urlOfPath(path.join(scope, "node_modules", text));
  }
}

function firstOf(names, find) {
  for (const name of names) {
    const found = find(name);
    if (found !== undefined) return found;
  }
  return undefined;
}

/** The name of a package and the rest of the text, which is empty or begins with "/". */
function packageName(text) {
  const parts = text.split("/");
  const count = text.startsWith("@") ? 2 : 1;
  const rest = parts.slice(count).join("/");
  return [parts.slice(0, count).join("/"), rest === "" ? "" : `/${rest}`];
}

/** The package with the declarations of another one. */
function typesName(name) {
  return `@types/${name.replace(/^@/, "").replace("/", "__")}`;
}

function fileOf(referrer, root) {
  return pathOfUrl(new URL(referrer)) ?? path.join(root, "module");
}

function isTypeScript(referrer) {
  return /\.[cm]?tsx?$/.test(new URL(referrer).pathname);
}

function isTyped({ to, reason }) {
  return reason === undefined && /\.[cm]?tsx?$/.test(to);
}

module.exports = { Resolver };
