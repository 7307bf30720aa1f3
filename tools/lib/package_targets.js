// `exports` and `imports` of a package.json, as "Package entry points" and "Subpath imports" of Node.js' documentation have them.
"use strict";

/** The target of `./sub` in the member `exports`, or nothing where the package gives none. `conditions` are the names that hold. */
function exportTarget(exports, subpath, conditions) {
  const table = isTable(exports) ? exports : { ".": exports };
  return tableTarget(table, subpath, conditions);
}

/** The target of `#name` in the member `imports`, or nothing. */
function importTarget(imports, name, conditions) {
  return imports && typeof imports === "object" ? tableTarget(imports, name, conditions) : undefined;
}

function isTable(exports) {
  if (exports === null || typeof exports !== "object" || Array.isArray(exports)) return false;
  return Object.keys(exports).some((it) => it.startsWith("."));
}

function tableTarget(table, key, conditions) {
  if (Object.hasOwn(table, key) && !key.includes("*") && !key.endsWith("/")) return targetOf(table[key], "", conditions);
  const [pattern, rest] = bestPattern(Object.keys(table), key) ?? [];
  return pattern === undefined ? undefined : targetOf(table[pattern], rest, conditions, pattern.endsWith("/"));
}

/** The pattern with the longest text before its star that fits, and what stands for the star. A key with "/" at its end is an old form. */
function bestPattern(patterns, key) {
  let best;
  for (const pattern of patterns) {
    const star = pattern.indexOf("*");
    const head = star < 0 ? pattern : pattern.slice(0, star);
    const tail = star < 0 ? "" : pattern.slice(star + 1);
    if (star < 0 && !pattern.endsWith("/")) continue;
    const fits = key.startsWith(head) && key.endsWith(tail) && key.length > head.length + tail.length - (star < 0 ? 0 : 1);
    if (!fits || (best !== undefined && best.head.length >= head.length)) continue;
    best = { head, pattern, rest: key.slice(head.length, key.length - tail.length) };
  }
  return best && [best.pattern, best.rest];
}

/** What a target says: a text, nothing where no condition of it holds, or null where the subpath is closed. */
function targetOf(target, rest, conditions, isFolder) {
  if (typeof target === "string") return isFolder ? target + rest : target.replaceAll("*", () => rest);
  if (target === null || typeof target !== "object") return target === null ? null : undefined;
  if (Array.isArray(target)) {
    for (const it of target) {
      const found = targetOf(it, rest, conditions, isFolder);
      if (typeof found === "string") return found;
    }
    return undefined;
  }
  for (const [name, value] of Object.entries(target)) {
    if (name !== "default" && !conditions.has(name)) continue;
    const found = targetOf(value, rest, conditions, isFolder);
    if (found !== undefined) return found;
  }
  return undefined;
}

module.exports = { exportTarget, importTarget };
