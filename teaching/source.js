// The source of a word, and which of its words was compiled to each place of its thread.

// What words of structures compile; others that aren't here may compile anything, or nothing.
const COMPILED = {
  IF: "?BRANCH",
  WHILE: "?BRANCH",
  UNTIL: "?BRANCH",
  OF: "?BRANCH",
  ELSE: "BRANCH",
  AGAIN: "BRANCH",
  REPEAT: "BRANCH",
  ENDOF: "BRANCH",
  DO: "(DO)",
  "?DO": "(DO)",
  LOOP: "(LOOP)",
  "+LOOP": "(+LOOP)",
  ";": "EXIT",
  '."': '(.")',
  'ABORT"': '(ABORT")',
  COMPILE: "COMPILE"
};
const LITERAL = "(LIT)", SILENT = new Set(["THEN", "BEGIN", "CASE"]), BEFORE = new Set(["?DO", "OF"]);
const LITERALS = new Set(["[']", "ASCII", "CONTROL", "LITERAL", "[CHAR]"]);
const WITH_NAME = new Set(["[']", "ASCII", "CONTROL", "[CHAR]", "[COMPILE]", "COMPILE"]);
const UP_TO_QUOTE = new Set(['."', 'ABORT"']);
const SKIPPED = { "(": ")", ".(": ")", "\\": "\n", "[": "]" };
const OPENS = new Set(["IF", "BEGIN", "DO", "?DO", "CASE", "OF"]);
const CLOSES = new Set(["THEN", "UNTIL", "AGAIN", "REPEAT", "LOOP", "+LOOP", "ENDOF", "ENDCASE"]);
const PARTS = new Set(["ELSE", "WHILE"]);

const past = (text, mark, from) => (
  text.indexOf(mark, from) < 0 ? text.length : text.indexOf(mark, from) + mark.length);

// The next word of a text: where it begins and ends.
function wordFrom(text, at) {
  const found = /\S+/.exec(text.slice(at));
  return found && { word: found[0].toUpperCase(), from: at + found.index, to: at + found.index + found[0].length };
}

// Where the last definition of a name begins in a text, and the place after the name; null if there is none.
function headOf(text, name) {
  let head = null;
  for (let at = 0, one; (one = wordFrom(text, at)); at = one.to) {
    const next = one.word === ":" && wordFrom(text, one.to);
    if (next && next.word === name.toUpperCase()) head = { from: one.from, to: next.to };
  }
  return head;
}

// A definition: its text, and its words with their places in that, without comments; null if the text does not have
// all of it.
export function definitionOf(text, name) {
  const head = headOf(text, name), words = [];
  if (!head) return null;
  for (let at = head.to, one; (one = wordFrom(text, at)); at = one.to) {
    const { word } = one;
    if (SKIPPED[word]) one.to = past(text, SKIPPED[word], one.to);
    else if (UP_TO_QUOTE.has(word)) one.to = past(text, '"', one.to);
    else if (WITH_NAME.has(word))
      Object.assign(one, { name: (wordFrom(text, one.to) || one).word, to: (wordFrom(text, one.to) || one).to });
    if (!SKIPPED[word]) words.push({ ...one, from: one.from - head.from, to: one.to - head.from });
    if (word === ";") return { text: text.slice(head.from, one.to), words };
  }
  return null;
}

// Whether a word of a source can have become a token of the thread of a word with this name.
function fits({ word, name }, token, own) {
  if (word === "RECURSE") return token.name === own;
  if (word === "[COMPILE]") return token.name.toUpperCase() === name;
  if (LITERALS.has(word)) return token.name === LITERAL;
  if (COMPILED[word]) return token.name === COMPILED[word];
  return token.name.toUpperCase() === word || (token.name === LITERAL && /^[-\d]/.test(word)) ||
    (token.name === LITERAL && /^[0-9A-F]+$/.test(word));
}

// The longest sequence of words and tokens that fit each other, both in order: of each word the number of its token.
function matched(words, thread, own) {
  const longest = Array.from({ length: words.length + 1 }, () => new Uint16Array(thread.length + 1));
  for (let i = words.length - 1; i >= 0; i--)
    for (let j = thread.length - 1; j >= 0; j--)
      longest[i][j] = fits(words[i], thread[j], own)
        ? longest[i + 1][j + 1] + 1
        : Math.max(longest[i + 1][j], longest[i][j + 1]);
  const found = new Map();
  for (let i = 0, j = 0; i < words.length && j < thread.length; ) {
    if (fits(words[i], thread[j], own)) found.set(i++, j++);
    else if (longest[i + 1][j] >= longest[i][j + 1]) i++;
    else j++;
  }
  return found;
}

// For each address of a thread the number of the source's word that was compiled to it. Tokens that no word fits
// belong to a word that compiles several. Null if a word that compiles itself is not in the thread: then the source
// has changed since.
export function placesIn({ words }, thread, own, isPlain) {
  const found = matched(words, thread, own), tokens = new Map([...found].map(([word, token]) => [token, word]));
  const places = new Map();
  if (words.some(({ word }, at) => !found.has(at) && isPlain(word))) return null;
  for (let at = 0, last = 0; at < thread.length; at++) {
    last = tokens.get(at) ?? last;
    places.set(
      thread[at].at,
      tokens.has(at) ? last : ownerOf(words, found, last, nextOf(tokens, at, thread.length, words.length)));
  }
  return places;
}

// The word of the next token that fits one, or the number of words.
function nextOf(tokens, at, end, none) {
  for (; at < end; at++) if (tokens.has(at)) return tokens.get(at);
  return none;
}

// The word that compiled a token between those of two words: one between these, or a word that compiles more before or
// after its own.
function ownerOf(words, found, last, next) {
  for (let at = last; at < next; at++) if (!found.has(at) && !SILENT.has(words[at].word)) return at;
  return next < words.length && BEFORE.has(words[next].word) ? next : last;
}

// The words of the structures around a word of the source, such as the DO and the LOOP of its loop.
export function around(words, place) {
  const open = [], found = new Set();
  for (const [at, { word }] of words.entries()) {
    if (OPENS.has(word)) open.push([at]);
    else if (PARTS.has(word) && open.length) open[open.length - 1].push(at);
    if (!CLOSES.has(word) || !open.length) continue;
    const parts = [...open.pop(), at];
    if (parts[0] <= place && place <= at) for (const part of parts) found.add(part);
  }
  return found;
}
