// Specifiers and texts of imports: what a text means by itself, and the path of a file's URL.
"use strict";
const { pathToFileURL } = require("node:url");

/** Whether a text is a path: it begins with `/`, `./` or `../`. */
function isPath(text) {
  return /^\.{0,2}\//.test(text);
}

/** Where a text leads by itself in a module, as docs/WORLD_FILE.md says it, or nothing. */
function ownTarget(text, referrer) {
  const base = isPath(text) ? referrer : undefined;
  return URL.canParse(text, base) ? new URL(text, base).href : undefined;
}

/**
 * The path that the URL of a file means on this machine, or nothing: another scheme, another machine, or no path of a file. Node.js' own
 * call throws where a URL has a lone percent sign, which the URL Standard allows.
 */
function pathOfUrl(url) {
  if (url.protocol !== "file:" || url.host !== "") return undefined;
  if (/%2f|%00/i.test(url.pathname)) return undefined;
  const bytes = url.pathname.replace(/%([0-9a-f]{2})/gi, (_, hex) => String.fromCharCode(parseInt(hex, 16)));
  return Buffer.from(bytes, "latin1").toString("utf8");
}

/** The URL of a path. Node.js' own call also escapes `~`, which the URL Standard leaves in a path. */
function urlOfPath(path) {
  return pathToFileURL(path).href.replaceAll("%7E", "~");
}

module.exports = { isPath, ownTarget, pathOfUrl, urlOfPath };
