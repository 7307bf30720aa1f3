// Import maps, by the HTML Standard ("Import maps"): which URL a text leads to in a module.
"use strict";
const { ownTarget } = require("./specifiers.js");
const { Fault } = require("./words.js");

class ImportMap {
  /** `json` is the map, `base` the URL that it stands at. Faults: it has no form of an import map. */
  constructor(json, base) {
    if (!isObject(json)) throw new Fault(`${base} is no import map`);
    this.imports = entries(json.imports ?? {}, base);
    const scopes = json.scopes ?? {};
    if (!isObject(scopes)) throw new Fault(`the member scopes of ${base} is no object`);
    this.scopes = Object.entries(scopes)
      .filter(([prefix]) => URL.canParse(prefix, base))
      .map(([prefix, imports]) => ({ prefix: new URL(prefix, base).href, imports: entries(imports, base) }))
      .sort((one, other) => other.prefix.length - one.prefix.length);
  }

  /** The URL that the map gives for a text, null where it blocks the text, nothing where it doesn't speak of it. */
  lookUp(text, referrer) {
    const key = ownTarget(text, referrer) ?? text;
    for (const { prefix, imports } of this.scopes) {
      if (prefix !== referrer && !(prefix.endsWith("/") && referrer.startsWith(prefix))) continue;
      const found = match(imports, key);
      if (found !== undefined) return found;
    }
    return match(this.imports, key);
  }
}

function isObject(value) {
  return value !== null && typeof value === "object" && !Array.isArray(value);
}

/** The pairs of a part of the map, the longest key first, so that the first match is the most specific one. */
function entries(imports, base) {
  if (!isObject(imports)) throw new Fault(`a part of ${base} is no object`);
  const found = Object.entries(imports).map(([key, value]) => {
    const address = typeof value === "string" ? ownTarget(value, base) : undefined;
    const isWrong = address === undefined || (key.endsWith("/") && !address.endsWith("/"));
    return [ownTarget(key, base) ?? key, isWrong ? null : address];
  });
  return found.sort(([one], [other]) => other.length - one.length);
}

function match(imports, key) {
  for (const [name, address] of imports) {
    if (name === key) return address;
    if (!name.endsWith("/") || !key.startsWith(name)) continue;
    if (address === null) return null;
    const rest = key.slice(name.length);
    const found = URL.canParse(rest, address) ? new URL(rest, address).href : "";
    // A rest with `../` must not lead out of the address.
    return found.startsWith(address) ? found : null;
  }
  return undefined;
}

module.exports = { ImportMap };
