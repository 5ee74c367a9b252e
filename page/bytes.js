// Conversions between bytes and texts.

// Bytes are read as UTF-8 if that is possible, otherwise as a character for each byte, as on old disks.
const STRICT = new TextDecoder("utf-8", { fatal: true });
export function strictly(bytes) {
  try {
    return STRICT.decode(bytes);
  } catch {
    return null;
  }
}

export const decode = (bytes) => strictly(bytes) ?? Array.from(bytes, (byte) => String.fromCharCode(byte)).join("");

export const encode = (text) => new TextEncoder().encode(text);

export const isSame = (one, other) => one.length === other.length && one.every((byte, at) => byte === other[at]);

export function toBase64(bytes) {
  let text = "";
  for (let at = 0; at < bytes.length; at += 8192) text += String.fromCharCode(...bytes.subarray(at, at + 8192));
  return btoa(text);
}

export const fromBase64 = (text) => Uint8Array.from(atob(text), (letter) => letter.charCodeAt(0));

// What a line shows, without the Forth's ok and how many cells are on the stack.
export const withoutOk = (text) => text.trimEnd().replace(/\s*ok(?: \d+)?$/, "");

export const signed = (cell) => (cell > 32767 ? cell - 65536 : cell);

export const hexadecimal = (cell) => cell.toString(16).toUpperCase().padStart(4, "0");

export const escapeHtml = (text) => text.replace(/&/g, "&amp;").replace(/</g, "&lt;").replace(/"/g, "&quot;");

// An element with a text and attributes.
export function element(name, text, attributes = {}) {
  const made = document.createElement(name);
  if (text !== undefined) made.textContent = text;
  for (const [attribute, value] of Object.entries(attributes)) made.setAttribute(attribute, value);
  return made;
}
