// A screen of 24 rows and 80 columns for programs that move the cursor, with the codes that AT, PAGE and the tools
// send.

export const ROWS = 24, WIDTH = 80;
const CODE = /^\x1b\[([0-9;]*)([A-Za-z])/;
const MOVES = { A: [-1, 0], B: [1, 0], C: [0, 1], D: [0, -1] };

// Whether a text has a code that needs a screen: one that goes to a place, or clears.
export const needsScreen = (text) => /\x1b\[[0-9;]*[HfJ]/.test(text);

export class Terminal {
  constructor() {
    this.clear();
    this.row = this.column = 0;
  }

  clear() { this.lines = Array.from({ length: ROWS }, () => []); }

  // Takes a text with its codes. A code that is cut at the end is kept for the next text.
  take(text) {
    text = (this.rest || "") + text;
    this.rest = "";
    while (text) {
      const code = CODE.exec(text);
      if (code) this.obey(code[2], code[1].split(";").map(Number));
      else if (/^\x1b(\[[0-9;]*)?$/.test(text)) return void (this.rest = text);
      else if (/^\x1b./s.test(text)) this.restoreOrSave(text[1]);
      else this.put(text[0]);
      text = text.slice(code ? code[0].length : text[0] === "\x1b" ? 2 : 1);
    }
  }

  restoreOrSave(letter) {
    if (letter === "7") this.saved = [this.row, this.column];
    if (letter === "8" && this.saved) [this.row, this.column] = this.saved;
  }

  obey(letter, [first = 0, second = 0]) {
    if (letter === "H" || letter === "f") this.go((first || 1) - 1, (second || 1) - 1);
    else if (MOVES[letter])
      this.go(this.row + MOVES[letter][0] * (first || 1), this.column + MOVES[letter][1] * (first || 1));
    else if (letter === "J" && first === 2) this.clear();
    else if (letter === "J") this.clearRest();
    else if (letter === "K") this.lines[this.row].length = Math.min(this.lines[this.row].length, this.column);
  }

  clearRest() {
    this.lines[this.row].length = Math.min(this.lines[this.row].length, this.column);
    for (let row = this.row + 1; row < ROWS; row++) this.lines[row] = [];
  }

  go(row, column) {
    this.row = Math.max(0, Math.min(ROWS - 1, row));
    this.column = Math.max(0, Math.min(WIDTH - 1, column));
  }

  put(letter) {
    if (letter === "\n") this.feed();
    else if (letter === "\r") this.column = 0;
    else if (letter === "\b") this.column = Math.max(0, this.column - 1);
    else if (letter >= " ") this.write(letter);
  }

  feed() {
    this.column = 0;
    if (this.row < ROWS - 1) return void this.row++;
    this.lines.shift();
    this.lines.push([]);
  }

  write(letter) {
    if (this.column === WIDTH) this.feed();
    const line = this.lines[this.row];
    while (line.length < this.column) line.push(" ");
    line[this.column++] = letter;
  }

  // The visible rows, without empty ones at the end.
  text() { return this.lines.map((line) => line.join("").trimEnd()).join("\n").trimEnd() + "\n"; }
}
