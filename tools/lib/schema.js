// A validator for the part of JSON Schema (draft 2020-12) that docs/world_file.schema.json uses, over nodes of json_text.js. It knows
// where a fault stands and says in words what is wanted there.
"use strict";

const WORDS = { object: "an object", array: "a list", string: "a text", integer: "a whole number", boolean: "true or false", null: "null" };

/** The faults of a node: `{ at, path, wanted }`, in the order of the schema. `schema` is a node of the whole schema. */
function faultsOf(schema, node) {
  return new Validator(schema).check(schema, node, "");
}

/** The path of a member, as one would write it in JavaScript. */
function memberPath(path, key) {
  if (/^[A-Za-z_$][\w$]*$/.test(key)) return path === "" ? key : `${path}.${key}`;
  return `${path}[${JSON.stringify(key)}]`;
}

class Validator {
  constructor(root) {
    this.defs = root.members.get("$defs")?.node.members ?? new Map();
  }

  check(schema, node, path) {
    if (schema.type === "false") return [fault(node, path, "nothing")];
    if (schema.type === "true") return [];
    const found = [];
    for (const [keyword, { node: value }] of schema.members) {
      const check = this[`check_${keyword}`];
      // A value of another type is one fault: what its members should be is no help then.
      if (check !== undefined) found.push(...check.call(this, value, node, path, schema));
      if (keyword === "type" && found.length > 0) break;
    }
    return found;
  }

  check_$ref(value, node, path) {
    return this.check(this.defs.get(value.value.replace("#/$defs/", "")).node, node, path);
  }

  check_type(value, node, path) {
    const is = { true: "boolean", false: "boolean", number: "integer" }[node.type] ?? node.type;
    return is === value.value ? [] : [fault(node, path, WORDS[value.value])];
  }

  check_const(value, node, path) {
    return isSame(value, node) ? [] : [{ ...fault(node, path, shown(value)), isConstant: true }];
  }

  check_enum(value, node, path) {
    return value.items.some((it) => isSame(it, node)) ? [] : [fault(node, path, orList(value.items.map(shown)))];
  }

  check_not(value, node, path, schema) {
    return this.check(value, node, path).length > 0 ? [] : [fault(node, path, described(schema))];
  }

  check_pattern(value, node, path, schema) {
    const isFit = node.type !== "string" || new RegExp(value.value, "u").test(node.value);
    return isFit ? [] : [fault(node, path, described(schema))];
  }

  check_propertyNames(value, node, path) {
    if (node.type !== "object") return [];
    const names = [...node.members].map(([key, { at }]) => ({ start: at, type: "string", value: key }));
    return names.flatMap((it) => this.check(value, it, memberPath(path, it.value)));
  }

  check_minimum(value, node, path) {
    const isLess = node.type === "number" && whole(node) !== undefined && whole(node) < whole(value);
    return isLess ? [fault(node, path, `a number that is at least ${value.text}`)] : [];
  }

  check_maximum(value, node, path) {
    const isMore = node.type === "number" && whole(node) > whole(value);
    return isMore ? [fault(node, path, `a number that is at most ${value.text}`)] : [];
  }

  check_required(value, node, path) {
    if (node.type !== "object") return [];
    const missing = value.items.filter((it) => !node.members.has(it.value));
    return missing.map((it) => fault(node, path, `the member ${shown(it)}`));
  }

  check_properties(value, node, path) {
    if (node.type !== "object") return [];
    const found = [];
    for (const [key, { node: schema }] of value.members) {
      const member = node.members.get(key);
      if (member !== undefined) found.push(...this.check(schema, member.node, memberPath(path, key)));
    }
    return found;
  }

  check_additionalProperties(value, node, path, schema) {
    if (node.type !== "object") return [];
    const known = schema.members.get("properties")?.node.members ?? new Map();
    const names = orList([...known.keys()].map((it) => JSON.stringify(it)), "and");
    const found = [];
    for (const [key, { at, node: member }] of node.members) {
      if (known.has(key)) continue;
      const inside = memberPath(path, key);
      if (value.type !== "false") found.push(...this.check(value, member, inside));
      else found.push({ at, path: inside, wanted: `no member but ${names}` });
    }
    return found;
  }

  check_items(value, node, path, schema) {
    if (node.type !== "array") return [];
    const first = schema.members.get("prefixItems")?.node.items.length ?? 0;
    const rest = node.items.slice(first);
    if (value.type === "false") {
      return rest.slice(0, 1).map((it) => fault(it, `${path}[${first}]`, `the end of a list of ${first} values`));
    }
    return rest.flatMap((it, place) => this.check(value, it, `${path}[${first + place}]`));
  }

  check_prefixItems(value, node, path) {
    if (node.type !== "array") return [];
    return value.items.flatMap((it, place) => {
      const item = node.items[place];
      return item === undefined ? [] : this.check(it, item, `${path}[${place}]`);
    });
  }

  check_minItems(value, node, path) {
    const isShort = node.type === "array" && node.items.length < Number(value.text);
    return isShort ? [fault(node, path, `a list of ${value.text} values`)] : [];
  }

  check_if(value, node, path, schema) {
    const branch = this.check(value, node, path).length === 0 ? "then" : "else";
    const chosen = schema.members.get(branch)?.node;
    return chosen === undefined ? [] : this.check(chosen, node, path);
  }

  check_oneOf(value, node, path) {
    const branches = value.items.map((it) => this.check(it, node, path));
    if (branches.filter((it) => it.length === 0).length === 1) return [];
    // The branch that is meant is the one whose constant members are as they stand.
    const meant = branches.filter((it) => !it.some((one) => one.isConstant));
    const deepest = meant.filter((it) => it.every((one) => one.path !== path || one.wanted.startsWith("the member")));
    if (meant.length > 0) return deepest[0] ?? [fault(node, path, alternatives(meant, path))];
    const constants = branches.flat().filter((it) => it.isConstant);
    const [first] = constants;
    const wanted = constants.filter((it) => it.path === first.path).map((it) => it.wanted);
    return [{ ...first, wanted: orList([...new Set(wanted)]), isConstant: false }];
  }
}

function alternatives(branches, path) {
  return orList([...new Set(branches.flat().filter((it) => it.path === path).map((it) => it.wanted))]);
}

/** What a schema wants, in its own words. */
function described(schema) {
  return schema.members.get("description").node.value;
}

function fault(node, path, wanted) {
  return { at: node.start, path, wanted };
}

function isSame(value, node) {
  if (value.type !== node.type) return false;
  return value.type === "number" ? value.text === node.text : value.value === node.value;
}

function shown(value) {
  return value.type === "string" ? JSON.stringify(value.value) : (value.text ?? value.type);
}

/** A number's value where it is written as a whole one. */
function whole(node) {
  return /^-?[0-9]+$/.test(node.text) ? BigInt(node.text) : undefined;
}

function orList(words, last = "or") {
  return words.length < 2 ? (words[0] ?? "nothing") : `${words.slice(0, -1).join(", ")} ${last} ${words[words.length - 1]}`;
}

module.exports = { faultsOf, memberPath };
