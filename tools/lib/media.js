// What a file is, by the end of its name, and what bytes hold.
"use strict";

const SCRIPT = new Set(["js", "mjs", "cjs", "jsx", "ts", "mts", "cts", "tsx"]);
/** Extensions that a graph knows, and takes no module of. */
const KNOWN = new Set(["css", "jsonc", "json5", "md", "markdown", "html", "htm", "sql", "map"]);

/** The extension of a URL's path in lower case, "" without one. */
function extensionOf(url) {
  const last = url.pathname.slice(url.pathname.lastIndexOf("/") + 1).toLowerCase();
  const dot = last.lastIndexOf(".");
  return dot <= 0 ? "" : last.slice(dot + 1);
}

/** What a graph makes of a module with this extension: "script", "json", "wasm", or nothing: "other", "unknown". */
function kindOf(extension) {
  if (SCRIPT.has(extension)) return "script";
  if (extension === "json" || extension === "wasm") return extension;
  return KNOWN.has(extension) ? "other" : "unknown";
}

/** Whether the URL is that of a file of declarations. */
function isDeclarations(url) {
  return /\.d\.[cm]?ts$/i.test(url.pathname);
}

const DATA_EXTENSIONS = new Map([
  ...["application/javascript", "text/javascript", "application/ecmascript", "text/ecmascript"].map((it) => [it, "js"]),
  ...["application/x-javascript", "application/node"].map((it) => [it, "js"]),
  ...["application/typescript", "text/typescript", "application/x-typescript"].map((it) => [it, "ts"]),
  ...["video/mp2t", "video/vnd.dlna.mpeg-tts"].map((it) => [it, "ts"]),
  ["text/jsx", "jsx"],
  ["text/tsx", "tsx"],
  ["application/json", "json"],
  ["text/json", "json"],
  ["application/wasm", "wasm"],
  ["text/css", "css"],
  ["text/html", "html"],
  ["text/markdown", "md"],
  ["application/sql", "sql"],
]);

/** The extension that the content type of a `data:` URL stands for, "" where it is another one. */
function dataExtensionOf(url) {
  const type = /^data:([^,;]*)/.exec(url.href)[1].trim().toLowerCase();
  return DATA_EXTENSIONS.get(type) ?? "";
}

/** The bytes of a `data:` URL and its extension; nothing where the URL has no content. RFC 2397. */
function readDataUrl(url) {
  const match = /^data:([^,#]*),([^#]*)/s.exec(url.href);
  if (match === null) return undefined;
  const isBase64 = /;\s*base64\s*$/i.test(match[1]);
  const percent = Buffer.from(match[2].replace(/%([0-9a-f]{2})/gi, (_, hex) => String.fromCharCode(parseInt(hex, 16))), "latin1");
  const bytes = isBase64 ? Buffer.from(percent.toString("latin1"), "base64") : percent;
  return { bytes, extension: dataExtensionOf(url) };
}

/** The text of bytes in UTF-8, a byte order mark included, or nothing where they aren't UTF-8. */
function textOf(bytes) {
  return decoded("utf-8", bytes);
}

/** The text of a script: in UTF-16 where its byte order mark says so, else in UTF-8; nothing where it isn't that. */
function scriptOf(bytes) {
  if (bytes[0] === 0xff && bytes[1] === 0xfe) return decoded("utf-16le", bytes);
  if (bytes[0] === 0xfe && bytes[1] === 0xff) return decoded("utf-16be", bytes);
  return textOf(bytes);
}

function decoded(charset, bytes) {
  try {
    return new TextDecoder(charset, { fatal: true, ignoreBOM: true }).decode(bytes);
  } catch {
    return undefined;
  }
}

/** The source of a world that has these bytes: as a text where they are one in UTF-8. */
function moduleOf(bytes) {
  const text = textOf(bytes);
  return text === undefined ? moduleOfBytes(bytes) : { kind: "module", text };
}

/** The source of a world that has these bytes in base64. */
function moduleOfBytes(bytes) {
  return { kind: "module", base64: bytes.toString("base64") };
}

module.exports = { dataExtensionOf, extensionOf, isDeclarations, kindOf, moduleOf, moduleOfBytes, readDataUrl, scriptOf, textOf };
