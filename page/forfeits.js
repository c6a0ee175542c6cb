// Games that were forfeited: how programs write that in place of a result, and in a Termination.
// The patterns and the words are those of gillspoon: python/gillspoon/_findings.py, _warnings.py.

const RESULT = new RegExp(
  '^"[\\t-\\r ]*(?:[+-][\\t-\\r ]*[:/]?[\\t-\\r ]*[+-]|0[\\t-\\r ]*[-:/][\\t-\\r ]*0' +
  "|[01][\\t-\\r ]*F?[\\t-\\r ]*[-:][\\t-\\r ]*[01][\\t-\\r ]*F" +
  "|[01][\\t-\\r ]*F[\\t-\\r ]*[-:][\\t-\\r ]*[01]" +
  '|[^"\\r\\n]*(?:FORFEIT|DEFAULT|WALKOVER)[^"\\r\\n]*)[\\t-\\r ]*"', "i");
const TERMINATION_LINE = '[Termination "';
// A line of an export text whose Termination is no word of the standard.
const TERMINATION = new RegExp(
  '^\\[Termination "(?!(?:time forfeit' +
  "|(?:(?!forfeit|default|walk-?over|no[ -]?show)(?:\\\\.|[^\"\\\\\\n]))*)\"\\]).*", "gim");
// What is said of a bad Result.
const OF_FORFEIT = "of a forfeit PGN 8.1.1.7 has the result alone, * if there is no winner; a " +
  "Termination tag says why";
// What is said of a Termination.
export const TERMINATION_NOTE =
  "Termination is not time forfeit, or another word of the standard (PGN 9.8.1)";

// The note on a bad Result, given as text from its quote on: what is said of a forfeit, or nothing.
export function noteOnResult(text) {
  return RESULT.test(text) ? OF_FORFEIT : "";
}

// The places of lines in an export text whose Termination names a forfeit in other words.
export function terminationsIn(bytes) {
  // one character for each byte
  const text = new TextDecoder("latin1").decode(bytes);
  // most texts have no such tag, which is soon known
  return !text.includes(TERMINATION_LINE) ? [] : Array.from(text.matchAll(TERMINATION))
    .filter(([line]) => line.startsWith(TERMINATION_LINE)).map((it) => it.index);
}
