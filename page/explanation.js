// Why a move was refused, in sentences, from what the library's explanation says.
import { squareName } from "./spellings.js";
import { nameOfPiece, piecesOf, sideOf } from "./board.js";

const LEGAL = 2;
const IN_CHECK = 1;

// The classes of the squares that the board marks: the target, and where a step begins.
export function marksOf(explanation) {
  const marks = {};
  if (explanation.status !== 0) {
    return marks;
  }
  marks[explanation.target] = "target";
  explanation.origins.forEach((kind, square) => {
    if (kind) {
      marks[square] = kind === LEGAL ? "legal" : "pinned";
    }
  });
  return marks;
}

function squaresWith(explanation, wanted) {
  const found = [];
  explanation.origins.forEach((kind, square) => {
    if (kind === wanted) {
      found.push(squareName(square));
    }
  });
  return found;
}

function listed(words, last) {
  return words.length < 2 ? words.join("")
    : words.slice(0, -1).join(", ") + " " + last + " " + words[words.length - 1];
}

// The sentences about a refused move. `spellings` has the SAN of each legal move that it may mean.
export function explained(fault) {
  const { explanation, spellings, fen, symbol } = fault;
  if (explanation.status !== 0) {
    return [];
  }
  const side = sideOf(fen);
  if (explanation.form !== 1) {
    return [castlingExplained(explanation, side)];
  }
  const piece = side + "’s " + nameOfPiece(explanation.piece);
  const target = squareName(explanation.target);
  const legal = squaresWith(explanation, LEGAL);
  const inCheck = squaresWith(explanation, IN_CHECK);
  if (isPromotionMissing(explanation, symbol)) {
    return ["A pawn that reaches the last rank needs a piece: write " +
      symbol.replace(/[+#]+$/, "") + "=Q."];
  }
  if (isPromotionTooSoon(explanation, symbol)) {
    return ["No pawn is promoted on " + target + ", but on the last rank alone."];
  }
  if (legal.length > 1) {
    return [
      piece + "s on " + listed(legal, "and") + " can " + (legal.length > 2 ? "all" : "both") +
      " go to " + target + ". Write " + listed(spellings, "or") + ".",
    ];
  }
  if (legal.length === 1) {
    return [piece + " on " + legal[0] + " can go to " + target + "."];
  }
  if (inCheck.length) {
    return [
      piece + " on " + listed(inCheck, "or") + " could go to " + target +
      ", but then the king would be in check.",
    ];
  }
  return [
    "No " + nameOfPiece(explanation.piece) + " of " + side + " can go to " + target +
    (isHinted(symbol, explanation.piece) ? " from where “" + symbol + "” says." : "."),
  ];
}

// Which rule the fields of a FEN break together that are good each by itself.
export function whyNoPosition(fen) {
  const pieces = piecesOf(fen);
  const side = sideOf(fen);
  const [, , , target] = fen.split(" ");
  for (const [name, king] of [["White", "K"], ["Black", "k"]]) {
    const kings = pieces.filter((it) => it === king).length;
    if (kings !== 1) {
      return name + " has " + (kings ? kings + " kings" : "no king");
    }
  }
  const pawn = pieces.findIndex((it, square) => /[Pp]/.test(it) && (square < 8 || square >= 56));
  if (pawn >= 0) {
    return "a pawn is on " + squareName(pawn) + ", and none can be on the first or last rank";
  }
  const rank = side === "White" ? "6" : "3";
  if (target !== "-" && target[1] !== rank) {
    return "with " + side + " to move the en passant target is on rank " + rank + ", and not " +
      target;
  }
  return (side === "White" ? "Black" : "White") + " has moved, and is in check";
}

function isPromotionMissing(explanation, symbol) {
  return isOnLastRank(explanation) && !/[QRBN]/.test(symbol);
}

function isPromotionTooSoon(explanation, symbol) {
  return explanation.piece === "P" && !isOnLastRank(explanation) && /[QRBN]/.test(symbol);
}

// Whether it is a pawn's move to the rank on which it is promoted.
function isOnLastRank(explanation) {
  return explanation.piece === "P" && /[18]/.test(squareName(explanation.target)[1]);
}

function castlingExplained(explanation, side) {
  const wing = explanation.form === 2 ? "king’s side" : "queen’s side";
  return squaresWith(explanation, IN_CHECK).length
    ? "After castling on the " + wing + " " + side + "’s king would be in check."
    : side + " cannot castle on the " + wing + " here: the right is lost, a square between king " +
      "and rook is not empty, or the king is on an attacked square or crosses one.";
}

// Whether a text says more of the origin than the piece: a file, a rank or both.
function isHinted(symbol, piece) {
  const text = symbol.replace(/[+#]*$/, "").replace(/=?[QRBN]$/, "").replace("x", "");
  return text.length > (piece === "P" ? 2 : 3) || piece === "P" && /^[a-h]x/.test(symbol);
}
