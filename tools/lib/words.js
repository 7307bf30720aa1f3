// The words of a command: options, files, help, and how a command ends.
"use strict";

/** A fault of what the caller gave: bad words, a missing file, unreadable JSON. The command ends with status 2. */
class Fault extends Error {}

/** Reads `words`. `options` maps an option's name to "flag", "value" or "values". Faults: an unknown option, a value that isn't there. */
function readWords(words, options) {
  const found = { rest: [] };
  for (let at = 0; at < words.length; at++) {
    const word = words[at];
    if (word === "--") {
      found.rest.push(...words.slice(at + 1));
      break;
    }
    if (!word.startsWith("--") && options[word] === undefined) {
      found.rest.push(word);
      continue;
    }
    const [name, given] = splitOption(word);
    const kind = options[name];
    if (kind === undefined) throw new Fault(`unknown option ${name}`);
    if (kind === "flag") {
      if (given !== undefined) throw new Fault(`${name} takes no value`);
      found[name] = true;
      continue;
    }
    const value = given ?? words[++at];
    if (value === undefined) throw new Fault(`${name} wants a value`);
    if (kind === "values") (found[name] ??= []).push(value);
    else if (found[name] !== undefined) throw new Fault(`${name} is given twice`);
    else found[name] = value;
  }
  return found;
}

function splitOption(word) {
  const at = word.indexOf("=");
  return at < 0 ? [word, undefined] : [word.slice(0, at), word.slice(at + 1)];
}

/** Runs `main` on the words of the command line. `main` answers the exit status, or nothing for 0. A `Fault` is printed and gives 2. */
function runCommand(name, usage, main) {
  const words = process.argv.slice(2);
  // A reader that has seen enough closes the pipe, as `head` does: that is no fault.
  process.stdout.on("error", (error) => process.exit(error.code === "EPIPE" ? 0 : 2));
  if (words.includes("--help")) {
    process.stdout.write(usage);
    return;
  }
  try {
    process.exitCode = main(words) ?? 0;
  } catch (error) {
    if (!(error instanceof Fault)) throw error;
    process.stderr.write(`${name}: ${error.message}\n`);
    process.exitCode = 2;
  }
}

module.exports = { Fault, readWords, runCommand };
