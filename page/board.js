// A board drawn as SVG, with pieces of our own, and its words for those who do not see it.

// The outline of each piece on a square of 40 by 40.
const OUTLINES = {
  p: "M20 8a5 5 0 0 1 3.3 8.8c2.6 1.9 3.4 5 2 7.9 3 1.7 4.7 4.8 5.2 9.3h-21" +
    "c.5-4.5 2.2-7.6 5.2-9.3-1.4-2.9-.6-6 2-7.9A5 5 0 0 1 20 8z",
  r: "M10 8h4.5v3.5h3.5V8h4v3.5h3.5V8H30v8l-3 3v8.5l3.5 2.5v4h-21v-4l3.5-2.5V19l-3-3z",
  n: "M12 34c-.5-7 5.5-9 6.5-14.5-3 .5-4.5 4-8 4.5l-2.5-3.5c1.5-2.5 4-6 5-9l.5-5 4 3" +
    "C28 9.5 31.5 19 30.5 34z",
  b: "M20 4.5a2.6 2.6 0 0 1 1.7 4.5c4.5 2.8 7 6.8 6.3 11-.4 2.2-1.6 3.8-3.2 4.8" +
    "l1.2 4.7h4.5V34h-21v-4.5H14l1.2-4.7c-1.6-1-2.8-2.6-3.2-4.8-.7-4.2 1.8-8.2 6.3-11" +
    "A2.6 2.6 0 0 1 20 4.5z",
  q: "M8 13l4.5 8.5L14 10l4.2 10.5L20 8l1.8 12.5L26 10l1.5 11.5L32 13l-3 14.5 1.5 2.5v4h-21" +
    "v-4l1.5-2.5z",
  k: "M18.6 4h2.8v2.8h2.8v2.8h-2.8v3.6c3.5-3.4 10.6-1.8 10.6 4.6 0 4.2-3.5 6-4.5 9.7" +
    "l1.5 2.5v4H11v-4l1.5-2.5C11.5 23.8 8 22 8 17.8c0-6.4 7.1-8 10.6-4.6V9.6h-2.8V6.8h2.8z",
};
// What is drawn on the outline.
const DETAILS = {
  p: "", r: "M13 19h14M13 27.5h14", n: "M17 14.2h.1", b: "M20 13v7M16.8 16.3h6.4M14.5 29.5h11",
  q: "M11.5 27.5h17", k: "M12.5 27.5h15M20 13.2V27",
};
export const INITIAL_FEN = "rnbqkbnr/pppppppp/8/8/8/8/PPPPPPPP/RNBQKBNR w KQkq - 0 1";
const NAMES = { K: "king", Q: "queen", R: "rook", B: "bishop", N: "knight", P: "pawn" };
const ORDER = "KQRBNP";
const SIZE = 40;
const SVG = "http://www.w3.org/2000/svg";

// The pieces of a FEN, which a call of the module has accepted: by square, a letter or "".
export function piecesOf(fen) {
  const squares = new Array(64).fill("");
  fen.split(" ")[0].split("/").forEach((rank, fromTop) => {
    let file = 0;
    for (const letter of rank) {
      if (/[1-8]/.test(letter)) {
        file += Number(letter);
      } else {
        squares[8 * (7 - fromTop) + file++] = letter;
      }
    }
  });
  return squares;
}

export function sideOf(fen) {
  return fen.split(" ")[1] === "b" ? "Black" : "White";
}

export function nameOfPiece(letter) {
  return NAMES[letter.toUpperCase()];
}

// The position in words: the pieces of each side, the greatest first.
export function positionInWords(fen) {
  const squares = piecesOf(fen);
  const sides = [["White", (it) => it], ["Black", (it) => it.toLowerCase()]].map(([side, as]) => {
    const parts = [];
    for (const letter of ORDER) {
      const places = [];
      squares.forEach((it, square) => {
        if (it === as(letter)) {
          places.push("abcdefgh"[square % 8] + (Math.floor(square / 8) + 1));
        }
      });
      if (places.length) {
        parts.push(NAMES[letter] + (places.length > 1 ? "s " : " ") + places.join(", "));
      }
    }
    return side + ": " + parts.join("; ") + ".";
  });
  return sides.join(" ") + " " + sideOf(fen) + " to move.";
}

// Draws the position of a FEN. `marks` has the classes of squares that are marked.
export function drawBoard(fen, marks) {
  const pieces = piecesOf(fen);
  const board = element("svg", {
    viewBox: "-14 0 334 334", class: "board", role: "img", "aria-label": positionInWords(fen),
  });
  pieces.forEach((piece, square) => {
    const x = SIZE * (square % 8);
    const y = SIZE * (7 - Math.floor(square / 8));
    const shade = (square + Math.floor(square / 8)) % 2 ? "light" : "dark";
    board.append(element("rect", { x, y, width: SIZE, height: SIZE, class: shade }));
    if (marks && marks[square]) {
      // a mark has an edge of its own, so that it is seen on squares of both shades
      board.append(...["edge", "mark " + marks[square]].map((name) => element("rect", {
        x: x + 4, y: y + 4, width: SIZE - 8, height: SIZE - 8, class: name,
      })));
    }
    if (piece) {
      board.append(drawPiece(piece, x, y));
    }
  });
  for (let index = 0; index < 8; index++) {
    board.append(label("abcdefgh"[index], SIZE * index + SIZE / 2, 331));
    board.append(label(String(index + 1), -7, SIZE * (7 - index) + SIZE / 2 + 4));
  }
  return board;
}

function drawPiece(piece, x, y) {
  const kind = piece.toLowerCase();
  const group = element("g", {
    transform: "translate(" + x + " " + y + ")", class: kind === piece ? "black" : "white",
  });
  group.append(element("path", { d: OUTLINES[kind] }), element("path", { d: DETAILS[kind] }));
  return group;
}

function label(text, x, y) {
  const drawn = element("text", { x, y, "text-anchor": "middle", "aria-hidden": "true" });
  drawn.textContent = text;
  return drawn;
}

function element(name, attributes) {
  const made = document.createElementNS(SVG, name);
  for (const key of Object.keys(attributes)) {
    made.setAttribute(key, attributes[key]);
  }
  return made;
}
