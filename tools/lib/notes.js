// What a world says otherwise than the project has it, or can't say, counted.
"use strict";

class Notes {
  constructor() {
    this.counts = new Map();
  }

  count(what) {
    this.counts.set(what, (this.counts.get(what) ?? 0) + 1);
  }

  /** One line for each thing, with how often it came. */
  lines() {
    return [...this.counts].sort().map(([what, count]) => `${what}: ${count}`);
  }
}

module.exports = { Notes };
