// The modules of a graph in boxes: a box a package, or a folder where there is one package, or a beginning of names where there is one folder.
"use strict";
const { commonFolder } = require("./sizes.js");
const { packagesOf } = require("./packages.js");

/** A diagram of more modules than these begins with boxes, and a box of more opens into boxes. */
const MANY = 150;
/** So many boxes at most stand beside each other, where folders can be taken together by one above. */
const BESIDE = 40;
/** A beginning of names that fewer modules have is none. */
const FEW = 4;

/** Modules by a key: a list of `{ name, modules }` in the order of the first ones. */
function grouped(specifiers, keyOf) {
  const found = new Map();
  for (const it of specifiers) {
    const key = keyOf(it);
    if (!found.has(key)) found.set(key, { name: key, modules: [] });
    found.get(key).modules.push(it);
  }
  return [...found.values()];
}

/** Modules by their folders, of so many levels that there are at most BESIDE of them. */
function byFolder(specifiers) {
  const base = commonFolder(specifiers);
  const partsOf = (it) => (it.startsWith("file:") ? it.slice(base.length).split("/").slice(0, -1) : [`${it.split(":")[0]}:`]);
  const most = Math.max(...specifiers.map((it) => partsOf(it).length));
  const at = (depth) => grouped(specifiers, (it) => partsOf(it).slice(0, depth).map((one) => `${one}/`).join("") || "./");
  let found = at(1);
  for (let depth = 2; depth <= most; depth++) {
    const next = at(depth);
    if (next.length > BESIDE) break;
    found = next;
  }
  return found;
}

/** Modules by the first word of their names, as "_base" of `_baseEach.js`; those of rare words by the alphabet. */
function byName(specifiers) {
  const nameOf = (it) => it.slice(it.lastIndexOf("/", it.length - 2) + 1);
  const word = (it) => /^[_.]*(?:[A-Z]?[a-z0-9]+|[A-Z0-9]+(?![a-z]))/.exec(nameOf(it))?.[0] ?? "";
  const words = grouped(specifiers, word);
  const found = words.filter((it) => it.name !== "" && it.modules.length >= FEW).map((it) => ({ ...it, name: `${it.name}..` }));
  const rest = words.flatMap((it) => (it.name === "" || it.modules.length < FEW ? it.modules : []));
  const sorted = rest.sort((one, other) => (nameOf(one).toLowerCase() < nameOf(other).toLowerCase() ? -1 : 1));
  const parts = Math.ceil(sorted.length / (MANY / 2));
  for (let part = 0; part < parts; part++) {
    const modules = sorted.slice((part * sorted.length) / parts, ((part + 1) * sorted.length) / parts);
    found.push({ name: `${nameOf(modules[0])} to ${nameOf(modules[modules.length - 1])}`, modules });
  }
  return found;
}

const FORMS = {
  package: (index) => [...packagesOf(index).values()],
  folder: (index) => byFolder([...index.modules.keys()]),
};

/** The boxes in which a whole graph stands: `by` is "package", "folder", "module" or nothing, for the first that says something. */
function boxesOf(index, by) {
  const count = index.modules.size;
  if (by === "module" || (by === undefined && count <= MANY)) return [];
  if (by !== undefined) return count === 0 ? [] : FORMS[by](index);
  const packages = FORMS.package(index);
  return packages.length > 1 ? packages : parted(packages[0].modules);
}

/** The boxes in which the modules of a box stand: folders, or else beginnings of names. */
function parted(specifiers) {
  const folders = byFolder(specifiers);
  return folders.length > 1 ? folders : byName(specifiers);
}

/**
 * The boxes as a tree for the page: a list of `{ name, parent, folder }`, each behind its parent (-1 for none), where `folder` is what its
 * modules share ("" for nothing), and `placeOf`, which maps a specifier to its box. A box of more than MANY modules has boxes.
 */
function boxTree(index, by) {
  const boxes = [];
  const placeOf = new Map();
  const put = ({ name, modules }, parent) => {
    const folder = modules.every((it) => it.startsWith("file:")) ? commonFolder(modules) : "";
    const place = boxes.push({ name, parent, folder }) - 1;
    const inner = modules.length > MANY ? parted(modules) : [];
    if (inner.length > 1) inner.forEach((it) => put(it, place));
    else modules.forEach((it) => placeOf.set(it, place));
  };
  for (const it of boxesOf(index, by)) put(it, -1);
  return { boxes, placeOf };
}

/**
 * The graph of boxes: `nodes` with `name`, `count`, `size`, `errors` (modules that have one, or an import that leads nowhere) and `isRoot`, and
 * `edges` with `from`, `to` (places of nodes), `kind` and `count` of the imports between two boxes.
 */
function graphOfBoxes(index, boxes) {
  const placeOf = new Map(boxes.flatMap(({ modules }, place) => modules.map((it) => [it, place])));
  const nodes = boxes.map(({ name, modules }) => ({ name, count: modules.length, size: 0, errors: 0, isRoot: false }));
  const edges = new Map();
  for (const module of index.modules.values()) {
    const from = placeOf.get(module.specifier);
    const found = index.edges(module);
    nodes[from].size += module.size ?? 0;
    if (module.error !== undefined || found.some((it) => it.to === undefined)) nodes[from].errors++;
    for (const edge of found) {
      const to = placeOf.get(edge.to);
      if (to === undefined || to === from) continue;
      const key = `${from} ${to} ${edge.kind}`;
      if (!edges.has(key)) edges.set(key, { from, to, kind: edge.kind, count: 0 });
      edges.get(key).count++;
    }
  }
  for (const it of index.roots) {
    const place = placeOf.get(index.follow(it));
    if (place !== undefined) nodes[place].isRoot = true;
  }
  return { nodes, edges: [...edges.values()] };
}

module.exports = { MANY, boxTree, boxesOf, graphOfBoxes };
