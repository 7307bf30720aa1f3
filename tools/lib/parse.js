// One source's syntax tree. An older TypeScript doesn't know import attributes (`with {..}`) and phases (`import defer`, `import source`):
// where it finds errors, these parts are read here, blanked out, and the rest is parsed again. So every place stays what it was.
"use strict";

const SCRIPT_KINDS = { ts: "TS", mts: "TS", cts: "TS", tsx: "TSX", jsx: "JSX", js: "JS", mjs: "JS", cjs: "JS" };

/** The tree of `text`: `{ tree, attributes, phases }`, where the maps go by the offset of an import's text, or `{ error, at }`. */
function parseSource(ts, extension, text) {
  const parsed = new Parsed(ts, extension, text);
  parsed.parse();
  if (parsed.errors().length > 0 && parsed.blankPhases()) parsed.parse();
  if (parsed.errors().length > 0 && parsed.blankAttributes()) parsed.parse();
  const [error] = parsed.errors();
  if (error === undefined) return parsed;
  return { error: ts.flattenDiagnosticMessageText(error.messageText, "\n"), at: error.start };
}

class Parsed {
  constructor(ts, extension, text) {
    this.ts = ts;
    this.kind = ts.ScriptKind[SCRIPT_KINDS[extension]];
    this.text = text;
    this.attributes = new Map();
    this.phases = new Map();
  }

  parse() {
    const { ts } = this;
    this.tree = ts.createSourceFile("source", this.text, ts.ScriptTarget.Latest, true, this.kind);
  }

  errors() {
    return this.tree.parseDiagnostics;
  }

  blank(start, end) {
    const spaces = this.text.slice(start, end).replace(/[^\r\n]/g, " ");
    this.text = this.text.slice(0, start) + spaces + this.text.slice(end);
  }

  /** Blanks the word of each phase out. Answers whether there was any. */
  blankPhases() {
    const phase = /(^|[;\n\r])(\s*import\s+)(defer(?=\s*\*)|source(?=\s+(?!from\b)[\w$]+\s+from\b|\s+from\s+from\b))/g;
    const found = [...this.text.matchAll(phase)];
    for (const match of found) {
      const start = match.index + match[1].length + match[2].length;
      this.blank(start, start + match[3].length);
      const quote = /["']/.exec(this.text.slice(start));
      if (quote !== null) this.phases.set(start + quote.index, match[3]);
    }
    return found.length > 0;
  }

  /** Blanks each clause `with {..}` after an import or export out, and notes what it says. Answers whether there was any. */
  blankAttributes() {
    const { ts, tree } = this;
    let found = false;
    tree.statements.forEach((statement, place) => {
      const next = tree.statements[place + 1];
      if (!statement.moduleSpecifier || next?.kind !== ts.SyntaxKind.WithStatement) return;
      if (next.expression.kind !== ts.SyntaxKind.ObjectLiteralExpression) return;
      this.attributes.set(statement.moduleSpecifier.getStart(tree), attributesOfLiteral(ts, next.expression));
      this.blank(next.getStart(tree), next.expression.end);
      found = true;
    });
    return found;
  }
}

/** What the object literal of attributes says: `{ known: .. }`, or "unknown" where it isn't written out. */
function attributesOfLiteral(ts, literal) {
  const known = {};
  for (const member of literal.properties) {
    const name = member.name;
    const plain = name && (ts.isIdentifier(name) || ts.isStringLiteralLike(name));
    if (!ts.isPropertyAssignment(member) || !plain) return "unknown";
    const value = member.initializer;
    known[name.text] = ts.isStringLiteralLike(value) ? { known: value.text } : "unknown";
  }
  return { known };
}

module.exports = { attributesOfLiteral, parseSource };
