// The rules of a world file that its schema can't say: specifiers, the same key twice, base64, the keys of `data` sources, two entries of
// one specifier and purpose, the scheme of the registry, requirements of packages, how numbers are written.
"use strict";
const { isPackageRequirement } = require("./requirements.js");
const { memberPath } = require("./schema.js");

const SOURCES = ["sources", "reload", "cached"];
const KEYED = [...SOURCES, "infos", "types", "cache_info"].map((name) => [name]).concat([["locker", "remote"]]);
const NUMBER = "a whole number from 0 to 18446744073709551615, without sign, point or exponent";
const BASE64 = "standard base64 (RFC 4648) of whole bytes, the bits past the last one zero";

/** The faults of a world: `{ at, path, wanted }`. `node` is of json_text.js. Members of another form than the schema's are passed over. */
function ruleFaults(node) {
  const found = [];
  numbers(node, "", found);
  if (node.type !== "object") return found;
  for (const [path, it] of specifiersOf(node)) {
    if (it.type === "string" && !URL.canParse(it.value)) found.push({ at: it.start, path, wanted: "an absolute URL" });
  }
  registry(member(node, "registry"), found);
  requirements(member(member(node, "npm"), "packages"), found);
  KEYED.forEach((names) => keys(names.reduce(member, node), names.reduce(memberPath, ""), found));
  for (const name of SOURCES) {
    for (const [key, it] of pairsOf(member(node, name))) source(name, key, it, found);
  }
  entries(member(node, "answers"), found);
  return found;
}

function member(node, key) {
  return node?.type === "object" ? node.members.get(key)?.node : undefined;
}

function pairsOf(node) {
  return node?.type === "object" ? [...node.members] : [];
}

function itemsOf(node) {
  return node?.type === "array" ? node.items : [];
}

/** Every number is whole and written without sign, point or exponent, also where nothing reads it. */
function numbers(node, path, found) {
  const isPlain = node.type !== "number" || (/^(0|[1-9][0-9]*)$/.test(node.text) && BigInt(node.text) < 2n ** 64n);
  if (!isPlain) found.push({ at: node.start, path, wanted: NUMBER });
  itemsOf(node).forEach((it, place) => numbers(it, `${path}[${place}]`, found));
  pairsOf(node).forEach(([key, it]) => numbers(it.node, memberPath(path, key), found));
}

/** The registry is of the scheme http or https. */
function registry(node, found) {
  const isOther = node?.type === "string" && URL.canParse(node.value) && !["http:", "https:"].includes(new URL(node.value).protocol);
  if (isOther) found.push({ at: node.start, path: "registry", wanted: "an http or https URL" });
}

/** Each key of the packages of npm is a name, `@` and a requirement. */
function requirements(node, found) {
  for (const [key, { at }] of pairsOf(node)) {
    const path = memberPath("npm.packages", key);
    if (!isPackageRequirement(key)) found.push({ at, path, wanted: "a name, @ and a requirement" });
  }
}

/** The places of a world where a specifier stands as a value. */
function specifiersOf(node) {
  const found = itemsOf(member(node, "roots")).map((it, place) => [`roots[${place}]`, it]);
  const add = (path, owner, key) => {
    const it = member(owner, key);
    if (it !== undefined) found.push([memberPath(path, key), it]);
  };
  add("", node, "registry");
  for (const name of SOURCES) {
    for (const [key, it] of pairsOf(member(node, name))) {
      const path = memberPath(name, key);
      add(path, it.node, "specifier");
      add(path, it.node, "to");
    }
  }
  itemsOf(member(node, "answers")).forEach((it, place) => {
    for (const key of ["specifier", "name", "to"]) add(`answers[${place}]`, it, key);
  });
  for (const [key, it] of pairsOf(member(node, "types"))) add(memberPath("types", key), it.node, "to");
  itemsOf(member(node, "imports")).forEach((it, place) => add(`imports[${place}]`, it, "referrer"));
  itemsOf(member(node, "resolutions")).forEach((it, place) => {
    add(`resolutions[${place}]`, it, "referrer");
    add(`resolutions[${place}]`, it, "to");
  });
  return found;
}

/** Each key of an object at a path is a specifier, and no two are the same one. */
function keys(node, owner, found) {
  const seen = new Map();
  for (const [key, { at }] of pairsOf(node)) {
    const path = memberPath(owner, key);
    if (!URL.canParse(key)) {
      found.push({ at, path, wanted: "an absolute URL as the key" });
      continue;
    }
    const { href } = new URL(key);
    if (seen.has(href)) found.push({ at, path, wanted: `another specifier than ${JSON.stringify(seen.get(href))}, which is the same URL` });
    else seen.set(href, key);
  }
}

/** The base64 of a module can be read, and a source of the kind `data` stands at what it is read of. */
function source(name, key, { at, node }, found) {
  const path = memberPath(name, key);
  content(path, node, found);
  if (isElsewhere(key, node)) found.push({ at, path, wanted: "a data: URL as the key" });
}

/** The base64 of a module can be read. */
function content(path, node, found) {
  const base64 = member(node, "base64");
  if (member(node, "kind")?.value !== "module" || base64?.type !== "string" || isBase64(base64.value)) return;
  found.push({ at: base64.start, path: memberPath(path, "base64"), wanted: BASE64 });
}

/** Whether something of the kind `data` stands at another specifier than what it is read of. */
function isElsewhere(specifier, node) {
  return member(node, "kind")?.value === "data" && URL.canParse(specifier) && new URL(specifier).protocol !== "data:";
}

/** The same of entries, no two of which are of one specifier and purpose. */
function entries(node, found) {
  const seen = new Map();
  itemsOf(node).forEach((it, place) => {
    const path = `answers[${place}]`;
    const [specifier, purpose] = ["specifier", "purpose"].map((key) => member(it, key));
    content(path, it, found);
    if (isElsewhere(specifier?.value, it)) found.push({ at: specifier.start, path: `${path}.specifier`, wanted: "a data: URL" });
    if (purpose?.type !== "string" || !URL.canParse(specifier?.value)) return;
    const key = JSON.stringify([new URL(specifier.value).href, purpose.value]);
    const wanted = `another specifier or purpose than answers[${seen.get(key)}] has`;
    if (seen.has(key)) found.push({ at: it.start, path, wanted });
    else seen.set(key, place);
  });
}

/** Whether a text is the encoding of some bytes, with the two signs of its padding, one, or none. */
function isBase64(text) {
  return Buffer.from(text, "base64").toString("base64").startsWith(text);
}

module.exports = { ruleFaults };
