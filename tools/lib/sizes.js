// Sizes and short names for people.
"use strict";

const UNITS = ["B", "KB", "MB", "GB"];
/** So much of a `data:` URL is shown, which can be as long as a file. */
const SHOWN = 60;

/** A size in bytes with its unit, of 1024 each: "17B", "1.25KB". */
function sizeText(bytes) {
  let unit = 0;
  let size = bytes;
  while (size >= 1024 && unit < UNITS.length - 1) {
    size /= 1024;
    unit++;
  }
  return `${Number(size.toFixed(2))}${UNITS[unit]}`;
}

/** The folder that all these specifiers of files stand in, with a slash at its end; "" where there is none. */
function commonFolder(specifiers) {
  const files = specifiers.filter((it) => it.startsWith("file:"));
  if (files.length === 0) return "";
  let common = files[0].slice(0, files[0].lastIndexOf("/") + 1);
  for (const it of files) {
    while (!it.startsWith(common)) common = common.slice(0, common.lastIndexOf("/", common.length - 2) + 1);
  }
  return common;
}

/** A specifier without the common folder. */
function shortName(specifier, folder) {
  return folder !== "" && specifier.startsWith(folder) ? specifier.slice(folder.length) : shown(specifier);
}

/** A specifier or text as it is shown: of a long `data:` URL, the beginning. */
function shown(text) {
  return text.startsWith("data:") && text.length > SHOWN ? `${text.slice(0, SHOWN)}..` : text;
}

module.exports = { commonFolder, shortName, shown, sizeText };
