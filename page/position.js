// The fields for a FEN and a move on it.
import { OK, SAN, UCI } from "./module.js";
import { encoded } from "./text.js";
import { spellings } from "./spellings.js";
import { boardView } from "./board_view.js";
import { byId } from "./elements.js";
import { explained, whyNoPosition } from "./explanation.js";
import { INITIAL_FEN } from "./board.js";

const FIELDS = [
  "", "field 1, the pieces", "field 2, the side to move", "field 3, the castling rights",
  "field 4, the en passant target", "field 5, the halfmove clock", "field 6, the move number",
];
const REASONS = {
  33: "is not a move", 34: "is not legal", 35: "is ambiguous",
  36: "is not read: no FEN has a move number above 99,999",
};
// Longer texts are no FEN, and no move.
const LONGEST = 4096;

export class PositionFields {
  constructor(module) {
    this.module = module;
    byId("fen").addEventListener("input", () => this.showPosition());
    byId("move").addEventListener("input", () => this.showMove());
    byId("play").addEventListener("click", () => this.play());
    byId("move").addEventListener("keydown", (event) => {
      if (event.key === "Enter") {
        this.play();
      }
    });
    byId("fen").value = INITIAL_FEN;
    this.showPosition();
  }

  showPosition() {
    const given = byId("fen").value.trim().slice(0, LONGEST);
    const read = this.module.normalizeFen(encoded(given));
    this.fen = read.status === OK ? read.fen : "";
    byId("fen-answer").textContent = given === "" ? ""
      : !this.fen ? "This FEN is no position: " + (FIELDS[read.field] ||
        "each field is right by itself, but " + whyNoPosition(given)) + "."
      : this.fen === given ? "This is the canonical FEN." : "Canonical: " + this.fen;
    this.showMove();
  }

  showMove() {
    const text = byId("move").value.trim().slice(0, LONGEST);
    this.after = "";
    byId("move-answer").textContent = "";
    const boards = [];
    if (this.fen && text) {
      const move = this.moveOf(text);
      if (move.status === OK) {
        this.after = move.fen;
        byId("move-answer").textContent = move.san + ", and then " + move.fen;
        boards.push(boardView(move.fen));
      } else {
        boards.push(this.refused(text, move.fault));
      }
    } else if (this.fen) {
      boards.push(boardView(this.fen));
    }
    byId("play").disabled = !this.after;
    byId("position").replaceChildren(...boards);
  }

  // The move that a text names in SAN, or else in the notation of engines.
  moveOf(text) {
    const [asSan, asUci] = [SAN, UCI].map(
      (notation) => this.module.san(encoded(this.fen), encoded(text), notation));
    return asSan.status !== OK && asUci.status === OK ? asUci : asSan;
  }

  // The board in which a move was refused, and why.
  refused(text, number) {
    const position = encoded(this.fen);
    const explanation = this.module.explain(position, encoded(text));
    const fault = {
      fen: this.fen, symbol: text, explanation,
      spellings: spellings(this.module, position, explanation, text),
    };
    byId("move-answer").textContent =
      ["“" + text + "” " + REASONS[number] + ".", ...explained(fault)].join(" ");
    return boardView(this.fen, explanation);
  }

  // Goes on from the position after the move.
  play() {
    if (this.after) {
      byId("fen").value = this.after;
      byId("move").value = "";
      this.showPosition();
      byId("move").focus();
    }
  }
}
