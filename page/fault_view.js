// A fault: its message, its line with a caret, its game, the board, and what to try next.
import { boardView } from "./board_view.js";
import { buttonLine, paragraph } from "./elements.js";
import { explained } from "./explanation.js";
import { MARKERS_TOO, adviceFor } from "./advice.js";
import { printable } from "./text.js";

function placeOf(fault) {
  return fault.file + ": line " + fault.line + ", column " + fault.column +
    " (byte " + fault.place + (fault.isAtEnd ? ", the end of the text)" : ")");
}

// `offer` is called with the option that a button of the advice names.
export function faultView(fault, offer) {
  const view = document.createElement("div");
  view.append(
    paragraph(capitalized(fault.reason), "problem"),
    paragraph(placeOf(fault) + ": " + fault.reason), lineView(fault), paragraph(gameOf(fault)));
  if (fault.note) {
    view.append(paragraph(capitalized(fault.note) + "."));
  }
  if (fault.fen) {
    explained(fault).forEach((sentence) => view.append(paragraph(sentence)));
    view.append(boardView(fault.fen, fault.explanation));
  }
  const advice = adviceFor(fault);
  if (advice) {
    view.append(paragraph("Try this: " + advice.text));
    if (advice.offer) {
      view.append(buttonLine(OFFERS[advice.offer], () => offer(advice.offer)));
    }
  }
  return view;
}

function lineView(fault) {
  const line = document.createElement("pre");
  const mark = document.createElement("mark");
  const length = Math.max(fault.symbol.length, 1);
  mark.textContent = fault.after.slice(0, length);
  const blanks = fault.before.replace(/[^\t]/gu, " ");
  line.append(fault.before, mark, fault.after.slice(length) + "\n" + blanks + "^");
  line.tabIndex = 0;
  line.setAttribute("role", "region");
  line.setAttribute("aria-label", "The line of the fault, with a caret under its place");
  return line;
}

function capitalized(text) {
  return text[0].toUpperCase() + text.slice(1);
}

function gameOf(fault) {
  const names = ["White", "Black", "Event"].map((it) => it + " “" + (fault.tags[it] || "?") + "”");
  return "Game " + fault.game + ": " + names.join(", ");
}

// The number of a game and its players, as far as they are known.
export function gameAndPlayers({ game, tags }) {
  const names = ["White", "Black"].map((it) => printable(tags[it] || "?"));
  return "Game " + game +
    (names.some((it) => it !== "?") ? ", “" + names.join("” against “") + "”" : "");
}

const OFFERS = {
  fromMarker: "Take missing results from the end of the games, and convert again",
  full: "Convert again in full",
  results: MARKERS_TOO,
};
