// The names of squares, and the SAN of each move that a text may mean.
import { OK } from "./module.js";
import { encoded } from "./text.js";

// The SAN of each legal move of an explanation: the origin is put behind the piece's letter.
export function spellings(module, position, explanation, symbol) {
  const found = [];
  if (explanation.status !== OK || explanation.form !== 1) {
    return found;
  }
  const promotion = /=?[QRBN](?=[+#]*$)/.exec(symbol.slice(1));
  const letter = explanation.piece === "P" ? "" : explanation.piece;
  explanation.origins.forEach((kind, origin) => {
    if (kind === 2) {
      const text = letter + squareName(origin) + squareName(explanation.target) +
        (promotion ? promotion[0] : "");
      const move = module.san(position, encoded(text));
      if (move.status === OK) {
        found.push(move.san);
      }
    }
  });
  return found;
}

// The name of a square: 8 times its rank and its file, both from 0.
export function squareName(square) {
  return "abcdefgh"[square % 8] + (Math.floor(square / 8) + 1);
}
