// Which package a module belongs to, by a graph alone: by the folder `node_modules`, by what bare imports lead to, by the URLs of registries.
"use strict";
const { commonFolder } = require("./sizes.js");
const { isPath } = require("./specifiers.js");

const INNER = "/node_modules/";
/** Folders that don't name a project. */
const PLAIN = /^(src|lib|dist|source|build|esm|app)$/;

/** The name of the package that a bare text asks for, as "d3" or "@scope/name"; nothing for a path, a URL or `#name`. */
function nameOfText(text) {
  if (isPath(text) || text.startsWith("#") || URL.canParse(text)) return undefined;
  return /^(@[^/]+\/[^/]+|[^@/][^/]*)/.exec(text)?.[0];
}

/** The folder of the package in which a bare import ends: the first on the way to its target that has its name and isn't one of the importer. */
function folderOfImport(edge, importer) {
  const name = nameOfText(edge.text);
  if (name === undefined || !edge.to?.startsWith("file:")) return undefined;
  for (let at = edge.to.indexOf(`/${name}/`); at >= 0; at = edge.to.indexOf(`/${name}/`, at + 1)) {
    const folder = edge.to.slice(0, at + name.length + 2);
    if (!importer.startsWith(folder)) return { folder, name };
  }
  return undefined;
}

/** The package of a file below a `node_modules`: its folder and name. */
function folderInModules(specifier) {
  const at = specifier.lastIndexOf(INNER);
  if (at < 0 || !specifier.startsWith("file:")) return undefined;
  const [name] = /^(@[^/]+\/)?[^/]+/.exec(specifier.slice(at + INNER.length)) ?? [];
  return name === undefined ? undefined : { folder: `${specifier.slice(0, at + INNER.length)}${name}/`, name };
}

/** The package of a module that isn't a file: that of a registry with its version, else what the URL begins with. */
function packageOfUrl(specifier) {
  const [, scheme, rest] = /^([a-z][a-z0-9+.-]*):(.*)$/is.exec(specifier) ?? [undefined, "", specifier];
  if (scheme === "npm" || scheme === "jsr") return `${scheme}:${/^\/?((@[^/]+\/)?[^/]+)/.exec(rest)?.[1] ?? rest}`;
  if (scheme === "node") return "node: (built in)";
  if (scheme !== "https" && scheme !== "http") return scheme === "" ? specifier : `${scheme}: URLs`;
  const [host, ...parts] = rest.replace(/^\/\//, "").split(/[?#]/)[0].split("/");
  if (host === "jsr.io" && parts.length > 3) return `${parts[0]}/${parts[1]}@${parts[2]}`;
  const version = parts.slice(0, 4).findIndex((it) => /[^/]@[^/]/.test(it));
  return [host, ...parts.slice(0, version + 1)].join("/");
}

/** The name of a project without a package of its own: the last folder of those that its files share, which says something. */
function nameOfFolder(folder) {
  const parts = folder.replace(/^file:\/\//, "").split("/").filter((it) => it !== "");
  while (parts.length > 1 && PLAIN.test(parts[parts.length - 1])) parts.pop();
  return parts[parts.length - 1] ?? "files";
}

/** The packages of a graph's modules, in the order of their first ones: a map from a package's key to `{ name, modules }`, which are specifiers. */
function packagesOf(index) {
  const modules = [...index.modules.values()];
  const folders = new Map();
  for (const module of modules) {
    const found = [folderInModules(module.specifier), ...index.edges(module).map((it) => folderOfImport(it, module.specifier))];
    for (const it of found) if (it !== undefined) folders.set(it.folder, it.name);
  }
  const byLength = [...folders].sort(([one], [other]) => other.length - one.length);
  const own = [];
  const found = new Map();
  const put = (key, name, specifier) => {
    if (!found.has(key)) found.set(key, { name, modules: [] });
    found.get(key).modules.push(specifier);
  };
  for (const { specifier } of modules) {
    const folder = byLength.find(([it]) => specifier.startsWith(it));
    if (folder !== undefined) put(folder[0], folder[1], specifier);
    else if (!specifier.startsWith("file:")) put(packageOfUrl(specifier), packageOfUrl(specifier), specifier);
    else {
      own.push(specifier);
      put("", "", specifier);
    }
  }
  if (own.length > 0) found.get("").name = nameOfFolder(commonFolder(own));
  return distinct(found);
}

/** The same, where packages of one name have their folders beside it: there may be several versions. */
function distinct(found) {
  const count = new Map();
  for (const { name } of found.values()) count.set(name, (count.get(name) ?? 0) + 1);
  for (const [folder, it] of found) {
    if (count.get(it.name) > 1 && folder !== "") it.name = `${it.name} (${nameOfPlace(folder, it.name)})`;
  }
  return found;
}

/** Where a package of a `node_modules` stands: the package that has that folder. */
function nameOfPlace(folder, name) {
  const above = folder.slice(0, folder.length - name.length - 1).replace(/\/node_modules\/$/, "");
  return folderInModules(`${above}/`)?.name ?? nameOfFolder(above);
}

module.exports = { packagesOf };
