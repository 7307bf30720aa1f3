// The rules of what a project may not import, by where its import map leads.
"use strict";

// The schemes that a file may import by, where the map leads to one of them.
const SCHEMES = ["http", "https", "jsr", "npm", "node", "data", "blob"];

/** The name of a rule, which has ASCII letters, digits, `-` and `_` alone. */
function nameOf(text) {
  return text.replace(/[^A-Za-z0-9_-]/g, "_");
}

/** The rules by the addresses of a map, and for hosts that nothing may import from. */
function policyOfMap(addresses, hosts) {
  const used = new Set(addresses.map((it) => new URL(it).protocol.slice(0, -1)));
  return [
    ...SCHEMES.filter((it) => !used.has(it)).map((it) => ({ id: `no-${it}`, fromScheme: "file", toScheme: it })),
    { id: "no-way-back", fromScheme: "https", toScheme: "http" },
    { id: "no-files", fromScheme: "https", toScheme: "file" },
    ...hosts.map((it) => ({ id: `deny-${nameOf(it)}`, toHost: it })),
  ];
}

module.exports = { policyOfMap };
