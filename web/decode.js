// Texts of bytes, by the rule of docs/PROGRAM.md that the program has too: UTF-16 with a mark, else each line UTF-8 or Latin-1.

const [LF, CR] = [0x0a, 0x0d];
const UTF8 = new TextDecoder("utf-8", { fatal: true, ignoreBOM: true });

// The lines of a text. CR LF, LF and CR end one, and nothing else does.
export function* decoded(bytes) {
  const [a, b, c] = bytes;
  if ((a === 0xff && b === 0xfe) || (a === 0xfe && b === 0xff)) {
    const words = new TextDecoder(a === 0xff ? "utf-16le" : "utf-16be").decode(bytes);
    yield* words.split(/\r\n|\n|\r/);
    return;
  }
  const from = a === 0xef && b === 0xbb && c === 0xbf ? 3 : 0;
  let start = from;
  for (let i = from; i <= bytes.length; i++) {
    if (i < bytes.length && bytes[i] !== LF && bytes[i] !== CR) continue;
    yield line(bytes.subarray(start, i));
    if (bytes[i] === CR && bytes[i + 1] === LF) i++;
    start = i + 1;
  }
}

function line(bytes) {
  try {
    return UTF8.decode(bytes);
  } catch {
    return Array.from(bytes, (byte) => String.fromCharCode(byte)).join("");
  }
}

// Whether the first line that is not white begins as a text does: with a digit or a `#`, and without a zero character. Null if none is.
export function isText(bytes) {
  for (const words of decoded(bytes)) if (/[^ \t\f]/.test(words)) return /^[ \t\f]*[0-9#][^\0]*$/.test(words);
  return null;
}

// Control characters, and those that change the direction of a text.
const OBEYED = /[\p{Cc}\u202a-\u202e\u2066-\u2069\u2028\u2029]|\\(?=u\{)/gu;

// A name as it is written in a file, and as it was before that.
export const escaped = (name) => name.replace(OBEYED, (found) => `\\u{${found.codePointAt(0).toString(16)}}`);
export const unescaped = (name) =>
  name.replace(/\\u\{([0-9a-fA-F]{1,6})\}/g, (found, digits) => {
    const code = parseInt(digits, 16);
    return code > 0x10ffff || (code >= 0xd800 && code <= 0xdfff) ? found : String.fromCodePoint(code);
  });
