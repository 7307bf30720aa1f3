// What comments say of a module: types specifiers, references, JSX pragmas, JSDoc imports, the source map.
"use strict";

const QUOTED = `(?:"([^"]+)"|'([^']+)'|([^\\s"']\\S*))`;
const TYPES = new RegExp(`^\\s*@(?:deno|ts)-types\\s*=\\s*${QUOTED}`, "di");
const SELF_TYPES = new RegExp(`^\\s*@ts-self-types\\s*=\\s*${QUOTED}`, "di");
const REFERENCE = /^\/\s*<reference\s.*?\/>/;
const PATH = new RegExp(`\\spath\\s*=\\s*(?:"([^"]*)"|'([^']*)')`, "d");
const REFERENCE_TYPES = new RegExp(`\\stypes\\s*=\\s*(?:"([^"]*)"|'([^']*)')`, "d");
const MODE = /\sresolution-mode\s*=\s*["'](import|require)["']/;
const JSX = /^[\s*]*@jsxImportSource\s+(\S+)/dm;
const JSX_TYPES = /^[\s*]*@jsxImportSourceTypes\s+(\S+)/dm;
const SOURCE_MAP = /^[#@]\s*sourceMappingURL=(\S+)\s*$/d;
const JSDOC_IMPORT = new RegExp(`@import\\s[^@]*?\\bfrom\\s*(?:"([^"]+)"|'([^']+)')`, "dg");

/** Comments of one source: `tree` is its syntax tree, `lines` knows its places. */
class Comments {
  constructor(ts, tree, lines) {
    this.ts = ts;
    this.tree = tree;
    this.text = tree.text;
    this.lines = lines;
  }

  /** The comments before the offset `at`, each with what stands between its marks and where that begins. */
  before(at) {
    const found = this.ts.getLeadingCommentRanges(this.text, at) ?? [];
    return found.map((range) => this.comment(range));
  }

  comment({ pos, end, kind }) {
    const isBlock = kind === this.ts.SyntaxKind.MultiLineCommentTrivia;
    return { start: pos + 2, body: this.text.slice(pos + 2, isBlock ? end - 2 : end), isBlock };
  }

  /** The group of a match that is there, as a text with its range. Quotes belong to the range where there are any. */
  named(match, start) {
    const group = match.indices.findIndex((it, place) => place > 0 && it !== undefined);
    const [from, to] = match.indices[group];
    const isQuoted = /["']/.test(match[0].charAt(from - match.index - 1));
    const quotes = isQuoted ? 1 : 0;
    return { text: match[group], range: this.lines.range(start + from - quotes, start + to + quotes) };
  }

  /** The first text that `pattern` finds in these comments. */
  first(comments, pattern) {
    for (const { body, start } of comments) {
      const match = pattern.exec(body);
      if (match !== null) return this.named(match, start);
    }
    return undefined;
  }

  /** The types specifier that the comments right before the offset `at` give. */
  typesSpecifier(at) {
    return this.first(this.before(at).reverse(), TYPES);
  }

  /** The comments at the head of the file. */
  head() {
    const shebang = this.ts.getShebang?.(this.text) ?? /^#!.*/.exec(this.text)?.[0] ?? "";
    return this.before(shebang.length);
  }

  /** Members of the info that comments at the head of the file give. */
  headMembers(isJsx) {
    const head = this.head();
    const blocks = head.filter((it) => it.isBlock);
    const found = {
      tsReferences: head.filter((it) => !it.isBlock).flatMap((it) => this.reference(it)),
      selfTypesSpecifier: this.first(head, SELF_TYPES),
      jsxImportSource: isJsx ? this.first(blocks, JSX) : undefined,
      jsxImportSourceTypes: isJsx ? this.first(blocks, JSX_TYPES) : undefined,
    };
    if (found.tsReferences.length === 0) delete found.tsReferences;
    return found;
  }

  reference({ body, start }) {
    if (!REFERENCE.test(body)) return [];
    const path = PATH.exec(body);
    if (path !== null) return [{ type: "path", ...this.named(path, start) }];
    const types = REFERENCE_TYPES.exec(body);
    if (types === null) return [];
    const mode = MODE.exec(body);
    return [{ type: "types", ...this.named(types, start), ...(mode && { resolutionMode: mode[1] }) }];
  }

  /** The text of the source map, from the last comment behind the code that has one. */
  sourceMap() {
    const { ts, text } = this;
    const at = this.tree.endOfFileToken.pos;
    const last = [...(ts.getTrailingCommentRanges(text, at) ?? []), ...(ts.getLeadingCommentRanges(text, at) ?? [])];
    return this.first(last.reverse().map((it) => this.comment(it)), SOURCE_MAP);
  }

  /** The imports with the tag `@import` in the JSDoc comments at a node. */
  importTags(node) {
    return (node.jsDoc ?? []).flatMap((doc) => {
      const body = this.text.slice(doc.pos, doc.end);
      return [...body.matchAll(JSDOC_IMPORT)].map((match) => this.named(match, doc.pos));
    });
  }
}

module.exports = { Comments };
