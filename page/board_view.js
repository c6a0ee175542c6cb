// A board with the sentences about it.
import { drawBoard, positionInWords } from "./board.js";
import { marksOf } from "./explanation.js";
import { paragraph } from "./elements.js";

const LEGEND = {
  target: "dotted: where the move goes",
  legal: "solid: from here the move is legal",
  pinned: "dashed: from here the piece could go there, but the king would be in check",
};

// The board of a FEN, the words for it, and what its marks mean.
export function boardView(fen, explanation) {
  const view = document.createElement("div");
  const marks = explanation ? marksOf(explanation) : {};
  const kinds = new Set(Object.values(marks));
  view.append(drawBoard(fen, marks));
  const legend = Object.keys(LEGEND).filter((kind) => kinds.has(kind)).map((kind) => LEGEND[kind]);
  if (legend.length) {
    view.append(paragraph("Marked squares: " + legend.join("; ") + ".", "small"));
  }
  const words = document.createElement("details");
  const summary = document.createElement("summary");
  summary.textContent = "The position in words";
  words.append(summary, paragraph(positionInWords(fen)), paragraph("FEN: " + fen));
  view.append(words);
  return view;
}
