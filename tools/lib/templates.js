// The files that templates of dynamic imports stand for, by the rules of docs/WORLD_FILE.md ("Input").
"use strict";
const fs = require("node:fs");
const path = require("node:path");
const { extensionOf, isDeclarations } = require("./media.js");
const { pathOfUrl, urlOfPath } = require("./specifiers.js");

const SCRIPTS = new Set(["js", "mjs", "jsx", "ts", "mts", "tsx"]);

class Templates {
  constructor(files) {
    this.files = files;
    this.paths = new Set();
    this.folders = new Map();
  }

  /** The texts that a template stands for in the module at `url`, in ascending order. `isJson` says that it has the attribute `json`. */
  texts(parts, url, isJson) {
    const folder = startOf(parts, url);
    if (folder === undefined) return [];
    const found = this.below(folder).filter((it) => isWanted(new URL(urlOfPath(it)), isJson));
    const others = found.map(urlOfPath).filter((it) => it !== url.href);
    return others.map((it) => textBetween(url, new URL(it))).filter((it) => fits(parts, it)).sort();
  }

  /** The files that the templates so far could stand for. */
  tree() {
    return [...this.paths].sort();
  }

  /** The files below a folder that a template could stand for. Links are passed over, so that no walk goes in a circle. */
  below(folder) {
    let found = this.folders.get(folder);
    if (found !== undefined) return found;
    found = [];
    const open = [folder];
    while (open.length > 0) {
      const at = open.pop();
      for (const entry of this.entries(at)) {
        const inside = path.join(at, entry.name);
        if (entry.isDirectory() && !/^\.|^(node_modules|vendor)$/.test(entry.name)) open.push(inside);
        if (entry.isFile() && this.isCandidate(inside)) found.push(inside);
      }
    }
    this.folders.set(folder, found);
    found.forEach((it) => this.paths.add(it));
    return found;
  }

  entries(folder) {
    if (!this.files.isFolder(folder)) return [];
    try {
      return fs.readdirSync(folder, { withFileTypes: true });
    } catch {
      return [];
    }
  }

  isCandidate(file) {
    const url = new URL(urlOfPath(file));
    return (isWanted(url, false) || isWanted(url, true)) && this.files.isFile(file);
  }
}

function isWanted(url, isJson) {
  const extension = extensionOf(url);
  return isJson ? extension === "json" : SCRIPTS.has(extension) && !isDeclarations(url);
}

/** The parts that texts are compared with: not a first one that is the URL of a file. */
function comparedOf(parts) {
  return parts[0].value?.startsWith("file://") ? parts.slice(1) : parts;
}

/** The folder in which a template's files stand, or nothing where the template has another form. */
function startOf(parts, url) {
  const first = parts[0].value;
  if (url.protocol !== "file:" || first === undefined || !haveForm(comparedOf(parts))) return undefined;
  if (!first.startsWith("./") && !first.startsWith("file://")) return undefined;
  if (!URL.canParse(first, url.href)) return undefined;
  const folder = pathOfUrl(new URL(first, url.href))?.replace(/\/+$/, "");
  return folder === "" ? undefined : folder;
}

/** Whether the texts name whole folders, but for the end of the last name. */
function haveForm(parts) {
  const texts = parts.filter((it) => it.type === "string").map((it) => it.value);
  const last = parts.length > 0 && parts[parts.length - 1].type === "string" ? texts.length - 1 : -1;
  return texts.every((it, place) => {
    if (it.includes("/../")) return false;
    if (place === 0) return /^\.?\//.test(it) && it.endsWith("/");
    return place === last ? it.startsWith("/") || !it.includes("/") : it.startsWith("/") && it.endsWith("/");
  });
}

/** The text that leads from one file's URL to another's. */
function textBetween(from, to) {
  const text = path.posix.relative(path.posix.dirname(from.pathname), to.pathname);
  return text.startsWith("../") ? text : `./${text}`;
}

/** Whether a text has the texts of the template one after the other, and ends with the last part where that is one. */
function fits(parts, text) {
  let at = 0;
  for (const { value } of comparedOf(parts)) {
    if (value === undefined) continue;
    const found = text.indexOf(value, at);
    if (found < 0) return false;
    at = found + value.length;
  }
  return text.endsWith(parts[parts.length - 1].value ?? "");
}

module.exports = { Templates };
