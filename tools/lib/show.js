// Shows a graph in the form that a command's words ask for.
"use strict";
const { chainGraph, chainText, chainTo, specifierOf } = require("./chain.js");
const { GraphIndex } = require("./graph.js");
const { dotText, mermaidText } = require("./show_diagram.js");
const { htmlText } = require("./show_html.js");
const { treeText } = require("./show_tree.js");
const { Fault } = require("./words.js");

/** The words that say what is shown. */
const SHOW_OPTIONS = { "--tree": "flag", "--dot": "flag", "--mermaid": "flag", "--html": "flag", "--why": "value", "--by": "value" };
const NAMES = { "--tree": "tree", "--dot": "Graphviz", "--mermaid": "Mermaid", "--html": "page" };
const FORMS = {
  "--tree": (index, verdict, _, output) => treeText(index, verdict, output?.isTTY === true && !process.env.NO_COLOR),
  "--dot": (index, _, by) => dotText(index, by),
  "--mermaid": (index, _, by) => mermaidText(index, by),
  "--html": htmlText,
};

/** The form that the words ask for; nothing where they name none. */
function formOf(given) {
  return Object.keys(FORMS).find((it) => given[it]);
}

const ENDS = { ".html": "--html", ".htm": "--html", ".dot": "--dot", ".gv": "--dot", ".mmd": "--mermaid" };

/** The form that a file's name asks for; nothing where the words name one, or ask for a chain, or the name asks for none. */
function formOfFile(given, file) {
  if (formOf(given) !== undefined || given["--why"] !== undefined) return undefined;
  return ENDS[/\.[a-z]+$/.exec(file)?.[0]];
}

/** Faults: the words that were given don't go together, or --by names nothing that a box can be. */
function checkShow(given) {
  const forms = Object.keys(FORMS).filter((it) => given[it]);
  if (forms.length > 1) throw new Fault(`${forms[0]} and ${forms[1]} don't go together`);
  if (given["--by"] === undefined) return;
  if (!["package", "folder", "module"].includes(given["--by"])) throw new Fault(`--by takes package, folder or module, and not ${given["--by"]}`);
  if (forms.length === 0 || forms[0] === "--tree") throw new Fault("--by goes with --dot, --mermaid and --html");
}

/**
 * What the words ask for of a graph: `text`, `what` that is, and `status`, which is 1 where no import leads to the module of --why, when
 * `fault` says so.
 * `output` is the stream to which a tree goes, nothing where it goes to a file. Faults: no one module is the one of --why.
 */
function show({ graph, verdict }, given, output) {
  const [index, form] = [new GraphIndex(graph), formOf(given)];
  const inForm = (it, said) => FORMS[form ?? "--tree"](it, said, given["--by"], output);
  const what = form === undefined && given["--why"] !== undefined ? "chain" : NAMES[form ?? "--tree"];
  if (given["--why"] === undefined) return { status: 0, what, text: inForm(index, verdict) };
  const specifier = specifierOf(index, given["--why"]);
  const found = chainTo(index, specifier);
  if (found === undefined) return { status: 1, text: "", fault: `no import leads to ${specifier}` };
  return { status: 0, what, text: form === undefined ? chainText(found) : inForm(new GraphIndex(chainGraph(graph, found)), "") };
}

module.exports = { SHOW_OPTIONS, checkShow, formOfFile, show };
