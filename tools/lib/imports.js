// The info of a module: what its text imports. Nothing is run; the tree of TypeScript's parser is walked once.
"use strict";
const { Comments } = require("./comments.js");
const { attributesOfLiteral, parseSource } = require("./parse.js");
const { Lines } = require("./positions.js");

const META_PHASES = { defer: "importDefer", source: "importSource" };

/**
 * The info of the module `specifier` with this text, as docs/WORLD_FILE.md has it. `extension` is that of its name ("ts", "mjs").
 * A syntax error gives an info with the member `error`.
 */
function infoOf(ts, specifier, extension, text) {
  const plain = text.replace(/^\ufeff/, "");
  const parsed = parseSource(ts, extension, plain);
  if (parsed.error !== undefined) return { error: syntaxError(specifier, plain, parsed) };
  return new Reader(ts, parsed, extension).info();
}

function syntaxError(specifier, text, { error, at }) {
  const [line, character] = new Lines(text).place(at);
  const message = `The module's source code could not be parsed: ${error} at ${specifier}:${line + 1}:${character + 1}`;
  return { class: "SyntaxError", message };
}

class Reader {
  constructor(ts, parsed, extension) {
    this.ts = ts;
    this.tree = parsed.tree;
    this.parsed = parsed;
    this.extension = extension;
    this.lines = new Lines(parsed.text);
    this.comments = new Comments(ts, parsed.tree, this.lines);
    this.dependencies = [];
    this.jsdocImports = [];
    this.isModule = /^m[jt]s$/.test(extension);
    this.calls = [];
  }

  info() {
    this.visit(this.tree);
    const isScript = !this.isModule;
    if (isScript) this.dependencies.push(...this.calls);
    this.dependencies.sort((one, other) => one.at - other.at);
    this.jsdocImports.sort((one, other) => one.range[0][0] - other.range[0][0] || one.range[0][1] - other.range[0][1]);
    const info = { ...this.comments.headMembers(/x$/.test(this.extension)) };
    info.dependencies = this.dependencies.map((it) => it.dependency);
    info.jsdocImports = this.jsdocImports;
    info.sourceMapUrl = this.comments.sourceMap();
    if (isScript) info.script = true;
    for (const name of Object.keys(info)) {
      if (info[name] === undefined || info[name].length === 0) delete info[name];
    }
    return info;
  }

  /** Looks at each node below one, in any order: a list of what is left, in the place of calls, as trees may be deep. */
  visit(root) {
    const hasDocs = /^[cm]?jsx?$/.test(this.extension);
    const open = [root];
    while (open.length > 0) {
      const node = open.pop();
      this.look(node);
      if (node.jsDoc !== undefined && hasDocs) this.lookAtDocs(node);
      this.ts.forEachChild(node, (it) => {
        open.push(it);
      });
    }
  }

  look(node) {
    const { ts } = this;
    const kinds = ts.SyntaxKind;
    switch (node.kind) {
      case kinds.ImportDeclaration:
        return this.importDeclaration(node);
      case kinds.ExportDeclaration:
        return this.exportDeclaration(node);
      case kinds.ImportEqualsDeclaration:
        return this.importEquals(node);
      case kinds.ModuleDeclaration:
        return this.moduleDeclaration(node);
      case kinds.ImportType:
        return this.importType(node);
      case kinds.CallExpression:
        return this.call(node);
      case kinds.ExportAssignment:
        this.isModule = true;
        return;
      case kinds.MetaProperty:
        if (node.keywordToken === kinds.ImportKeyword && node.name.text === "meta") this.isModule = true;
        return;
      case kinds.AwaitExpression:
      case kinds.ForOfStatement:
        if (this.isTopLevelAwait(node)) this.isModule = true;
        return;
      default:
        if (node.parent === this.tree && isExported(ts, node)) this.isModule = true;
    }
  }

  isTopLevelAwait(node) {
    const { ts } = this;
    if (ts.isForOfStatement(node) && node.awaitModifier === undefined) return false;
    for (let at = node.parent; at !== undefined; at = at.parent) {
      if (ts.isFunctionLike(at) || ts.isPropertyDeclaration(at)) return false;
    }
    return true;
  }

  /** Adds a static import. `owner` is the declaration, whose comments may name its types. */
  addStatic(kind, literal, owner, more) {
    const start = literal.getStart(this.tree);
    const dependency = { type: "static", kind, specifier: literal.text, specifierRange: this.lines.range(start, literal.end) };
    const types = owner && this.comments.typesSpecifier(owner.getFullStart());
    if (types !== undefined) dependency.typesSpecifier = types;
    for (const [name, value] of Object.entries(more ?? {})) {
      if (value !== undefined) dependency[name] = value;
    }
    this.dependencies.push({ at: start, dependency });
  }

  importDeclaration(node) {
    this.isModule = true;
    const { ts } = this;
    const literal = node.moduleSpecifier;
    if (!ts.isStringLiteralLike(literal)) return;
    const clause = node.importClause;
    const kind = clause?.isTypeOnly ? "importType" : this.phaseOf(clause, literal);
    const bindings = clause?.namedBindings;
    const isEmpty = clause === undefined || (clause.name === undefined && bindings?.elements?.length === 0);
    const sideEffect = isEmpty && kind === "import" ? true : undefined;
    this.addStatic(kind, literal, node, { importAttributes: this.attributesOf(node), sideEffect });
  }

  phaseOf(clause, literal) {
    const { ts } = this;
    const found = this.parsed.phases.get(literal.getStart(this.tree));
    if (found !== undefined) return META_PHASES[found];
    if (clause?.phaseModifier !== undefined && clause.phaseModifier === ts.SyntaxKind.DeferKeyword) return "importDefer";
    return "import";
  }

  attributesOf(node) {
    const found = this.parsed.attributes.get(node.moduleSpecifier.getStart(this.tree));
    if (found !== undefined) return found;
    return attributesOfClause(this.ts, node.attributes ?? node.assertClause);
  }

  exportDeclaration(node) {
    this.isModule = true;
    const literal = node.moduleSpecifier;
    if (literal === undefined || !this.ts.isStringLiteralLike(literal)) return;
    const kind = node.isTypeOnly ? "exportType" : "export";
    this.addStatic(kind, literal, node, { importAttributes: this.attributesOf(node) });
  }

  importEquals(node) {
    const { ts } = this;
    if (!ts.isExternalModuleReference(node.moduleReference)) return;
    this.isModule = true;
    const literal = node.moduleReference.expression;
    if (literal === undefined || !ts.isStringLiteralLike(literal)) return;
    const kind = node.isTypeOnly ? "importType" : isExported(ts, node) ? "exportEquals" : "importEquals";
    this.addStatic(kind, literal, node);
  }

  moduleDeclaration(node) {
    if (this.ts.isStringLiteral(node.name)) this.addStatic("maybeTsModuleAugmentation", node.name);
  }

  importType(node) {
    const literal = node.argument?.literal;
    if (literal === undefined || !this.ts.isStringLiteralLike(literal)) return;
    this.addStatic("importType", literal, undefined, { importAttributes: attributesOfType(this.ts, node) });
  }

  call(node) {
    const { ts } = this;
    const { expression } = node;
    if (expression.kind === ts.SyntaxKind.ImportKeyword) return this.addDynamic("import", node, this.dependencies);
    if (ts.isMetaProperty(expression) && expression.keywordToken === ts.SyntaxKind.ImportKeyword) {
      const kind = META_PHASES[expression.name.text];
      if (kind !== undefined) this.addDynamic(kind, node, this.dependencies);
      return undefined;
    }
    if (ts.isIdentifier(expression) && expression.text === "require" && node.arguments.length === 1) {
      if (!this.isBound("require", node)) this.addDynamic("require", node, this.calls);
    }
    return undefined;
  }

  /** Whether a function or variable around the node has this name: then it isn't the loader of CommonJS. */
  isBound(name, node) {
    const { ts } = this;
    for (let at = node.parent; at !== undefined; at = at.parent) {
      if (ts.isFunctionLike(at) && at.parameters.some((it) => it.name.text === name)) return true;
      const isNamed = (ts.isFunctionDeclaration(at) || ts.isFunctionExpression(at)) && at.name?.text === name;
      if (isNamed || at.statements?.some((it) => declares(ts, it, name))) return true;
    }
    return false;
  }

  addDynamic(kind, node, list) {
    const argument = node.arguments[0];
    if (argument === undefined) return;
    const start = argument.getStart(this.tree);
    const dependency = { type: "dynamic", kind };
    const value = this.argumentOf(argument);
    if (value !== undefined) dependency.argument = value;
    dependency.argumentRange = this.lines.range(start, argument.end);
    const comments = this.comments;
    const types = comments.typesSpecifier(argument.getFullStart()) ?? comments.typesSpecifier(node.getFullStart());
    if (types !== undefined) dependency.typesSpecifier = types;
    const attributes = kind === "require" ? undefined : this.attributesOfCall(node.arguments[1]);
    if (attributes !== undefined) dependency.importAttributes = attributes;
    list.push({ at: start, dependency });
  }

  /** A text, a list of a template's parts, or nothing for any other expression. */
  argumentOf(node) {
    const { ts } = this;
    if (ts.isStringLiteralLike(node)) return node.text;
    if (!ts.isTemplateExpression(node) && !isSum(ts, node)) return undefined;
    const parts = partsOf(ts, node);
    if (parts.every((it) => it.type === "expr")) return undefined;
    return parts.length === 1 ? parts[0].value : parts;
  }

  attributesOfCall(options) {
    const { ts } = this;
    if (options === undefined) return undefined;
    if (!ts.isObjectLiteralExpression(options)) return "unknown";
    const member = options.properties.find((it) => /^(with|assert)$/.test(it.name?.text ?? ""));
    if (member === undefined) return options.properties.every((it) => it.name?.text !== undefined) ? undefined : "unknown";
    const value = member.initializer;
    return value && ts.isObjectLiteralExpression(value) ? attributesOfLiteral(ts, value) : "unknown";
  }

  lookAtDocs(node) {
    const found = this.comments.importTags(node);
    node.jsDoc.forEach((doc) => this.lookAtDoc(doc, found));
    this.jsdocImports.push(...found);
  }

  lookAtDoc(node, found) {
    const { ts } = this;
    // A TypeScript that reads `@import` itself has a node with the text, which the comment's text has given already.
    const literal = ts.isImportTypeNode(node) ? node.argument?.literal : undefined;
    if (literal !== undefined && ts.isStringLiteralLike(literal)) {
      const mode = attributesOfType(ts, node)?.known["resolution-mode"]?.known;
      const range = this.lines.range(literal.getStart(this.tree), literal.end);
      found.push({ text: literal.text, range, ...(/^(import|require)$/.test(mode ?? "") && { resolutionMode: mode }) });
    }
    ts.forEachChild(node, (it) => this.lookAtDoc(it, found));
  }
}

/** What a clause of attributes says, or nothing where there is none. */
function attributesOfClause(ts, clause) {
  if (clause === undefined) return undefined;
  const known = {};
  for (const { name, value } of clause.elements) {
    known[name.text] = ts.isStringLiteralLike(value) ? { known: value.text } : "unknown";
  }
  return { known };
}

function attributesOfType(ts, node) {
  return attributesOfClause(ts, node.attributes ?? node.assertions?.assertClause);
}

function isExported(ts, node) {
  return node.modifiers?.some((it) => it.kind === ts.SyntaxKind.ExportKeyword) === true;
}

function declares(ts, statement, name) {
  if (ts.isFunctionDeclaration(statement)) return statement.name?.text === name;
  if (!ts.isVariableStatement(statement)) return false;
  return statement.declarationList.declarations.some((it) => it.name.text === name);
}

function isSum(ts, node) {
  return ts.isBinaryExpression(node) && node.operatorToken.kind === ts.SyntaxKind.PlusToken;
}

/** What a sum adds up, from the left. */
function operandsOf(ts, sum) {
  const found = [];
  let at = sum;
  for (; isSum(ts, at); at = at.left) found.push(at.right);
  return [...found, at].reverse();
}

/** The parts of a template, or of a sum of texts. Texts that stand side by side are one part. */
function partsOf(ts, node) {
  const parts = [];
  const addText = (value) => {
    const last = parts[parts.length - 1];
    if (last?.type === "string") last.value += value;
    else if (value !== "") parts.push({ type: "string", value });
  };
  const add = (it) => {
    if (ts.isParenthesizedExpression(it)) add(it.expression);
    else if (ts.isStringLiteralLike(it)) addText(it.text);
    else if (isSum(ts, it)) operandsOf(ts, it).forEach(add);
    else if (ts.isTemplateExpression(it)) {
      addText(it.head.text);
      for (const span of it.templateSpans) {
        add(span.expression);
        addText(span.literal.text);
      }
    } else parts.push({ type: "expr" });
  };
  add(node);
  return parts;
}

module.exports = { infoOf };
