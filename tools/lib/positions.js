// Places in a text as the world file counts them: lines and UTF-16 code units from zero. A line ends with LF, CRLF or CR, as in the
// Language Server Protocol.
"use strict";

class Lines {
  constructor(text) {
    this.starts = [0];
    for (let at = 0; at < text.length; at++) {
      const code = text.charCodeAt(at);
      if (code === 10 || (code === 13 && text.charCodeAt(at + 1) !== 10)) this.starts.push(at + 1);
    }
  }

  /** The `[line, character]` of the offset `at`. */
  place(at) {
    let low = 0;
    let high = this.starts.length - 1;
    while (low < high) {
      const middle = (low + high + 1) >> 1;
      if (this.starts[middle] <= at) low = middle;
      else high = middle - 1;
    }
    return [low, at - this.starts[low]];
  }

  /** The range from `start` to `end`. */
  range(start, end) {
    return [this.place(start), this.place(end)];
  }
}

module.exports = { Lines };
