// Bytes as text, and places in them as lines and columns.

// A draw, the results, and these as a person reads them.
export const DRAW = "1/2-1/2";
export const RESULT_VALUES = ["1-0", "0-1", DRAW, "*"];
export const RESULTS = "1-0, 0-1, " + DRAW + " or *";

const LF = 10;
const CR = 13;
const UTF8 = new TextDecoder("utf-8", { fatal: true, ignoreBOM: true });

// A text is shown as UTF-8 where it is that, else as Latin-1. Its bytes are never changed.
export function decoded(bytes) {
  try {
    return UTF8.decode(bytes);
  } catch (error) {
    return latin1(bytes);
  }
}

// The same line by line, since files of several sources mix both.
export function decodedLines(bytes) {
  try {
    return UTF8.decode(bytes);
  } catch (error) {
    const lines = [];
    for (let at = 0; at < bytes.length;) {
      const end = bytes.indexOf(LF, at) + 1 || bytes.length;
      lines.push(decoded(bytes.subarray(at, end)));
      at = end;
    }
    return lines.join("");
  }
}

// Whether a text has characters of one byte in UTF-8 alone.
export function isAscii(text) {
  return !/[^\0-\x7f]/.test(text);
}

// One character for each byte. TextDecoder would read bytes from 128 to 159 as Windows-1252.
export function latin1(bytes) {
  const step = 8192;
  let text = "";
  for (let at = 0; at < bytes.length; at += step) {
    text += String.fromCharCode.apply(null, bytes.subarray(at, at + step));
  }
  return text;
}

export function latin1Bytes(text) {
  return Uint8Array.from(text, (it) => it.charCodeAt(0));
}

export function encoded(text) {
  return new TextEncoder().encode(text);
}

// Control characters as signs, so that a line is one line and shows each of its bytes.
export function printable(text) {
  return text.replace(/[\u0000-\u0008\u000a-\u001f\u007f]/g, (character) =>
    character === "\u007f" ? "\u2421" : String.fromCharCode(0x2400 + character.charCodeAt(0)));
}

// How many lines end between two places: by LF, by CR, or by both together.
export function lineEnds(bytes, begin, end) {
  let count = 0;
  for (let at = begin; at < end; at++) {
    const byte = bytes[at];
    if (byte === LF || byte === CR && !(at + 1 < end && bytes[at + 1] === LF)) {
      count++;
    }
  }
  return count;
}

// Where the line of a place begins. The bytes of a line end belong to their line.
export function lineBegin(bytes, place) {
  let at = place;
  if (at > 0 && bytes[at] === LF && bytes[at - 1] === CR) {
    at--;
  }
  while (at > 0 && bytes[at - 1] !== LF && bytes[at - 1] !== CR) {
    at--;
  }
  return at;
}

export function lineEnd(bytes, place) {
  let at = place;
  while (at < bytes.length && bytes[at] !== LF && bytes[at] !== CR) {
    at++;
  }
  return at;
}

export function startsWithByteOrderMark(bytes, at) {
  return bytes[at] === 0xef && bytes[at + 1] === 0xbb && bytes[at + 2] === 0xbf;
}

// How much of a line is decoded before and behind a place.
const NEAR = 4096;

// The line of a place as text before it and from it on, and the column, from 1, in characters.
export function lineAround(bytes, place, width) {
  let begin = lineBegin(bytes, place);
  if (begin === 0 && startsWithByteOrderMark(bytes, 0) && place >= 3) {
    begin = 3;
  }
  let first = Math.max(begin, place - NEAR);
  while (first > begin && first < place && isContinuation(bytes[first])) {
    first++;
  }
  const end = Math.min(lineEnd(bytes, place), place + NEAR);
  const near = bytes.subarray(first, end);
  const isUtf8 = !isAscii(latin1(near)) && decoded(near) !== latin1(near);
  const read = (from, to) => Array.from((isUtf8 ? decoded : latin1)(bytes.subarray(from, to)));
  return {
    column: charactersBetween(bytes, begin, place, isUtf8) + 1,
    ...cutLine(read(first, place), read(place, end), width),
  };
}

function isContinuation(byte) {
  return (byte & 0xc0) === 0x80;
}

function charactersBetween(bytes, begin, end, isUtf8) {
  let count = end - begin;
  for (let at = begin; isUtf8 && at < end; at++) {
    count -= isContinuation(bytes[at]) ? 1 : 0;
  }
  return count;
}

// Cuts a long line around the place between its two parts.
function cutLine(left, right, width) {
  const keep = Math.max(Math.floor(width / 2), width - right.length);
  const before = left.length > keep ? "…" + left.slice(-keep).join("") : left.join("");
  const room = Math.max(width - Array.from(before).length, 20);
  const after = right.length > room ? right.slice(0, room).join("") + "…" : right.join("");
  return { before: printable(before), after: printable(after) };
}

// The symbol that begins at a place, as the reader of PGN has symbols.
export function symbolAt(bytes, place) {
  const found = /^[A-Za-z0-9_+#=:\/-]+/.exec(latin1(bytes.subarray(place, place + 256)));
  return found ? found[0] : "";
}
