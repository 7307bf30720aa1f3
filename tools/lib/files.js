// The files that a walk may read: those below the root, those of a `node_modules` on the way up from the root, and those of further
// folders of packages that the caller names. Nothing else is opened, and no link is followed out of them.
"use strict";
const fs = require("node:fs");
const path = require("node:path");
const { Fault } = require("./words.js");
const { parseJson, reasonOf } = require("./json_file.js");

class Files {
  /** `root` and `packages` are folders. Faults: one of them isn't there. */
  constructor(root, packages = []) {
    this.root = realFolder(root);
    this.packages = packages.map(realFolder);
    this.open = [this.root, ...this.packages];
    for (let at = path.dirname(this.root); ; at = path.dirname(at)) {
      this.open.push(path.join(at, "node_modules"));
      if (at === path.dirname(at)) break;
    }
    this.kinds = new Map();
    this.manifests = new Map();
  }

  /** Whether the path stands where a walk may read, going by its text alone. */
  isOpen(file) {
    return this.open.some((it) => file === it || file.startsWith(it.endsWith(path.sep) ? it : it + path.sep));
  }

  /** The path without links, or nothing where there is no file or folder, or where it stands outside. */
  real(file) {
    return this.look(file).real;
  }

  isFile(file) {
    return this.look(file).kind === "file";
  }

  isFolder(file) {
    return this.look(file).kind === "folder";
  }

  /** What stands at a path: `kind` is "file", "folder", "nothing" or "outside". */
  look(file) {
    let found = this.kinds.get(file);
    if (found === undefined) {
      found = this.lookAgain(file);
      this.kinds.set(file, found);
    }
    return found;
  }

  lookAgain(file) {
    if (!this.isOpen(file)) return { kind: "outside" };
    try {
      const real = fs.realpathSync(file);
      if (!this.isOpen(real)) return { kind: "outside" };
      const stat = fs.statSync(real);
      if (stat.isDirectory()) return { kind: "folder", real };
      return stat.isFile() ? { kind: "file", real } : { kind: "nothing" };
    } catch {
      return { kind: "nothing" };
    }
  }

  /** The bytes of a file. Faults: it stands outside, or can't be read. */
  read(file) {
    if (!this.isFile(file)) throw new Fault(`can't read ${file}`);
    try {
      return fs.readFileSync(file);
    } catch (error) {
      throw new Fault(`can't read ${file}: ${reasonOf(error)}`);
    }
  }

  /** The `package.json` of a folder, or nothing. Faults: it is no JSON object. */
  manifest(folder) {
    let found = this.manifests.get(folder);
    if (found === undefined) {
      const file = path.join(folder, "package.json");
      found = this.isFile(file) ? parseJson(this.read(file).toString("utf8"), file) : null;
      if (typeof found !== "object" || Array.isArray(found)) throw new Fault(`${file} is no JSON object`);
      this.manifests.set(folder, found);
    }
    return found ?? undefined;
  }

  /** The nearest folder at or above `folder` that has a `package.json`, or nothing. A `node_modules` ends the way up. */
  scope(folder) {
    for (let at = folder; this.isOpen(at) && path.basename(at) !== "node_modules"; at = path.dirname(at)) {
      if (this.manifest(at) !== undefined) return at;
      if (at === path.dirname(at)) break;
    }
    return undefined;
  }

  /** The folders of packages for a module in `folder`: each `node_modules` on the way up, and then those that the caller names. */
  packageFolders(folder) {
    const found = [];
    for (let at = folder; ; at = path.dirname(at)) {
      if (path.basename(at) !== "node_modules") found.push(path.join(at, "node_modules"));
      if (at === path.dirname(at)) break;
    }
    return [...found.filter((it) => this.isFolder(it)), ...this.packages];
  }
}

function realFolder(folder) {
  try {
    const real = fs.realpathSync(folder);
    if (fs.statSync(real).isDirectory()) return real;
  } catch (error) {
    throw new Fault(`can't read ${folder}: ${reasonOf(error)}`);
  }
  throw new Fault(`${folder} is no folder`);
}

module.exports = { Files };
