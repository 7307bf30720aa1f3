// Requirements of packages of npm, as a world file names them: a name, `@` and a requirement. A requirement is one of npm's range grammar
// or a tag.
"use strict";

const NUMBER = "(0|[1-9][0-9]*)";
const PART = `(${NUMBER}|[xX*])`;
const PRE = "(0|[1-9][0-9]*|[0-9]*[a-zA-Z-][0-9a-zA-Z-]*)";
const BUILD = "[0-9a-zA-Z-]+";
const FULL = `${NUMBER}(\\.${NUMBER}){2}(-${PRE}(\\.${PRE})*)?(\\+${BUILD}(\\.${BUILD})*)?`;
const PARTIAL = `(${PART}(\\.${PART}){0,2}|${FULL})`;
const SIMPLE = `((<=|>=|[<>=^~]) *)?${PARTIAL}`;
const RANGE = `(${PARTIAL} +- +${PARTIAL}|${SIMPLE}( +${SIMPLE})*)`;
const RANGES = new RegExp(`^${RANGE}( *\\|\\| *${RANGE})*$`);
const TAG = /^[A-Za-z][A-Za-z0-9_.-]*$/;
const NAME = /^(@[^/]+\/)?[^@/]+$/;
const QUALIFIERS = /[-+][0-9A-Za-z.+-]+/g;

/** Whether a text is a package's name, the last `@`, and a requirement. */
function isPackageRequirement(text) {
  const at = text.lastIndexOf("@");
  return NAME.test(text.slice(0, Math.max(at, 0))) && isRequirement(text.slice(at + 1));
}

function isRequirement(text) {
  return TAG.test(text) || (RANGES.test(text) && isOfWords(text));
}

/** The numbers of versions have at most 64 bits; those of pre-releases and builds have no limit. */
function isOfWords(text) {
  const numbers = text.replace(QUALIFIERS, "").match(/[0-9]+/g) ?? [];
  return numbers.every((it) => BigInt(it) < 2n ** 64n);
}

module.exports = { isPackageRequirement };
