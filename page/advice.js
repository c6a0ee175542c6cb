// What a person would try next, by the fault and by what is at its place.
//
// README.md has the same table. docs/TOOLS.md names what gillspoon lint --fix mends, and which of it
// the button of the page does.
import { DRAW, RESULTS } from "./text.js";

// A button that a fault may have.
export const MARKERS_TOO = "Write missing results, and mend what is clear";

const BUTTON = " The button “Mend what is clear” does it.";
const UNSAFE = " gillspoon lint --fix --unsafe-fixes does it.";
const WRITE_MARKER = "It has to end with " + RESULTS + ". The button “" + MARKERS_TOO +
  "” writes what the Result tag says, or * without one.";
const WRITE_DRAW = "Write a draw as " + DRAW + "." + BUTTON;
const NUMBER_APART = "Put a period or a blank between the number and the move. The button “Mend " +
  "what is clear” does it if the number is that of the move. Else it may be a letter, as in 8c4 " +
  "for Bc4.";

// `offer` names a button: "fromMarker" takes missing results from the markers, "results" writes
// missing markers, "full" converts in full.
const ADVICE = [
  [(it) => it.number === 1 && it.near.startsWith("--") || it.number === 33 && it.symbol === "Z0" ||
      it.number === 33 && it.symbol.startsWith("--"),
    "This is a null move, which is no move of chess. Put its variation into braces, as a comment." +
      UNSAFE],
  [(it) => it.number === 33 && /^[KQRBN]?[a-h][1-8]-[a-h][1-8]/.test(it.symbol),
    "Take out the hyphen: e2e4 and Ng1f3 are read, e2-e4 and Ng1-f3 are not." + BUTTON],
  [(it) => it.number === 33 && /^[0-9]+[a-hKQRBNO]/.test(it.symbol), NUMBER_APART],
  [(it) => it.number === 33 && it.symbol === "1/2", WRITE_DRAW],
  [(it) => it.number === 33 && /^[SDTLCAF][a-h]?[1-8]?x?[a-h][1-8]/.test(it.symbol),
    "Pieces have English letters here: K, Q, R, B, N. gillspoon lint --fix --language de changes German " +
    "letters to these, and it knows five other languages."],
  [(it) => it.number === 34 && /^([a-h][1-8]){2}/.test(it.symbol),
    "A move without a piece’s letter is a pawn’s: write Ng1f3, not g1f3." + BUTTON],
  [(it) => it.number === 34 && /^1[a-h][1-8]/.test(it.symbol), NUMBER_APART],
  [(it) => it.number === 41 && !it.hasResult,
    "The game has no Result tag, which counts as *. A missing Result can take the result at the " +
    "end of its game instead. The button “Mend what is clear” writes the tag, if it is clear where " +
    "the game begins and ends.",
    "fromMarker"],
  [(it) => it.number === 41, "Correct the Result tag or the result at the end of the game."],
  [(it) => it.number === 32 && !it.hasMovetext,
    "A comment is between two tags. Move it below the tags." + UNSAFE],
  [(it) => it.number === 32,
    "The game before has no result at its end. " + WRITE_MARKER, "results"],
  [(it) => it.number === 42, "The last game has no result at its end. " + WRITE_MARKER, "results"],
  [(it) => it.number === 28,
    "Write \\\" for a quote inside a value: \"The \\\"Open\\\"\". The button “Mend what is clear” " +
    "does it if the quotes come in pairs."],
  [(it) => it.number === 11, "A value ends with a quote on the line where it begins."],
  [(it) => it.number === 1 && it.place === 0 && /^(\u00ff\u00fe|\u00fe\u00ff)/.test(it.near),
    "The file is UTF-16. Save it as UTF-8."],
  [(it) => it.number === 1 && it.near.startsWith("\u00ef\u00bb\u00bf"),
    "A byte order mark is inside the file, where files were joined. Take it out." + BUTTON],
  [(it) => it.number === 1 && /^(\u00c2?\u00bd)/.test(it.near), WRITE_DRAW],
  [(it) => it.number === 2 && it.near.startsWith("\u001a"),
    "Take out byte 26, which programs for DOS write at the end of a file." + BUTTON],
  [(it) => it.number === 2 && /^[\t\v\f]/.test(it.near),
    "Replace the tab in a value by a blank." + BUTTON],
  [(it) => it.number === 2, "Replace the control byte by a blank." + UNSAFE],
  [(it) => it.number === 6,
    "A word of a comment has at most 79 bytes. Put a blank into a long address, and split a " +
    "long drawing command into several, as the button “Mend what is clear” does. " +
    "gillspoon lint --fix --unsafe-fixes cuts other words."],
  [(it) => it.number === 12,
    "A comment is never closed by }. By the braces it begins on line LINE." + UNSAFE],
  [(it) => it.number === 26, "Put the FEN into the field below, which says what is wrong with it. The button “Mend what " +
    "is clear” mends blanks, castling letters in another order, and missing counters if " +
    "the moves have numbers."],
  [(it) => it.number === 22,
    "A game has each tag only once: take out the second one. The button “Mend what is clear” does " +
    "it if both values are equal, and the tags cannot be those of two games."],
  [(it) => it.number === 25 && it.note,
    "Write 1-0, 0-1 or * alone, and put the reason into a Termination tag."],
  [(it) => it.number === 25,
    "A Result is one of " + RESULTS + ". The button “Mend what is clear” writes it if the " +
    "value is empty, a question mark, or another spelling of a result."],
  [(it) => it.number === 30, "Add the FEN tag, or take out the SetUp tag. " +
    "gillspoon lint --fix --unsafe-fixes takes it out."],
  [(it) => it.number === 31, "The reduced format has no place for a position.", "full"],
  [(it) => it.number === 38, "Put the deepest variations into braces, as comments."],
];

export function adviceFor(fault) {
  for (const [applies, text, offer] of ADVICE) {
    if (applies(fault)) {
      return { text: text.replace("LINE", fault.openedLine), offer };
    }
  }
  return null;
}
