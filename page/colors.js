// The colors of a source: comments, texts, numbers, names that are defined, and words that define.

const MAKERS = new Set(": VARIABLE CONSTANT CREATE 2VARIABLE 2CONSTANT VOCABULARY DEFER VALUE".split(" "));
const STRUCTURES = new Set(
  ("; IF ELSE THEN DO ?DO LOOP +LOOP BEGIN UNTIL WHILE REPEAT AGAIN CASE OF ENDOF ENDCASE DOES> EXIT LEAVE RECURSE " +
    "IMMEDIATE").split(" "));
const ENDS = { "(": ")", ".(": ")", '."': '"', 'ABORT"': '"', 'S"': '"', "\\": "\n" }, INTEGER = /^-?\d+\.?$/;

// The kind of a word after another one.
function kindOf(word, before) {
  const upper = word.toUpperCase();
  if (MAKERS.has(before)) return "name";
  if (MAKERS.has(upper) || STRUCTURES.has(upper)) return "maker";
  return INTEGER.test(word) ? "number" : "";
}

// A text in pieces of one kind each: [kind, text].
export function piecesOf(text) {
  const found = [], words = /\S+/g;
  let at = 0, before = "";
  for (let match; (match = words.exec(text)); ) {
    const word = match[0], end = ENDS[word.toUpperCase()], stop = end ? text.indexOf(end, words.lastIndex) : -1;
    found.push(["", text.slice(at, match.index)]);
    if (end && !MAKERS.has(before)) words.lastIndex = stop < 0 ? text.length : stop + 1;
    at = words.lastIndex;
    found.push([
      end && !MAKERS.has(before) ? (end === '"' ? "text" : "comment") : kindOf(word, before),
      text.slice(match.index, at)
    ]);
    before = word.toUpperCase();
  }
  return [...found, ["", text.slice(at)]];
}
