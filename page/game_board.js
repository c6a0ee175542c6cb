// A game on a board: buttons and keys go through its main line and its variations.
import { INITIAL_FEN, drawBoard } from "./board.js";
import { button, byId, goByKeys, item, oneTabStop, paragraph } from "./elements.js";
import {
  beginOfVariation, commentsAt, firstOf, mainLine, moveText, replacedMove,
} from "./lines_of_play.js";
import { latin1, latin1Bytes } from "./text.js";

// The keys that do the same as the buttons.
const BUTTONS = {
  "to-start": "Home", "back": "ArrowLeft", "forward": "ArrowRight", "to-end": "End",
  "leave": "ArrowUp",
};
// The tags on which the moves of a game and its result depend.
const NEEDED_TAGS = ["SetUp", "FEN", "Result"];

function squareAt(name) {
  return "abcdefgh".indexOf(name[0]) + 8 * (Number(name[1]) - 1);
}

export class GameBoard {
  constructor(module) {
    this.module = module;
    for (const id of Object.keys(BUTTONS)) {
      byId(id).addEventListener("click", () => this.go(BUTTONS[id]));
    }
    goByKeys(byId("variations"));
    byId("game").addEventListener("keydown", (event) => {
      if (this.isForBoard(event) && this.go(event.key)) {
        event.preventDefault();
      }
    });
  }

  // Whether a key is for the board: other keys go through the list of variations, and the same ones
  // scroll the texts.
  isForBoard({ target, key, ctrlKey, altKey, metaKey, shiftKey }) {
    const isInList = byId("variations").contains(target);
    return !ctrlKey && !altKey && !metaKey && !shiftKey &&
      target !== byId("game-text") && target !== byId("line-words") &&
      (!isInList || ["ArrowLeft", "ArrowRight"].includes(key));
  }

  // Shows the position from which a game begins, given as its export text. Other tags are left out,
  // since an export may have more of them than are read.
  open(bytes) {
    const tags = this.module.tags(bytes).map((pair) => pair.map(latin1))
      .filter(([name]) => NEEDED_TAGS.includes(name));
    const text = latin1(bytes);
    const section = tags.map(([name, value]) => "[" + name + " \"" + value + "\"]\n").join("");
    const items = this.module.items(latin1Bytes(section + text.slice(text.indexOf("\n\n"))));
    const fen = tags.find(([name]) => name === "FEN");
    this.main = mainLine(items, fen ? fen[1] : INITIAL_FEN);
    this.show(this.main, 0);
  }

  // Goes where a key leads to. False if it leads to nothing.
  go(key) {
    const { line, at } = this;
    const last = line.plies.length - 1;
    const [variation] = line.plies[at].variations;
    const to = {
      Home: [this.main, 0],
      ArrowLeft: at > firstOf(line) ? [line, at - 1] : this.begin(),
      ArrowRight: [line, Math.min(at + 1, last)],
      End: [line, last],
      ArrowDown: variation && [variation, firstOf(variation)],
      ArrowUp: line.from && this.begin(),
    }[key];
    if (to) {
      this.show(...to);
    }
    return Boolean(to);
  }

  // The position from which the current line begins, in the line that has it as a variation.
  begin() {
    const { from } = this.line;
    return from ? [from.line, from.at] : [this.line, 0];
  }

  show(line, at) {
    Object.assign(this, { line, at });
    const { fen, uci, variations } = line.plies[at];
    const marks = {};
    if (uci) {
      marks[squareAt(uci)] = marks[squareAt(uci.slice(2))] = "moved";
    }
    byId("line-board").replaceChildren(drawBoard(fen, marks));
    byId("line-at").textContent = this.said();
    byId("line-comments").replaceChildren(...commentsAt(line, at).map((it) => paragraph(it)));
    byId("leave").disabled = !line.from;
    const hadFocus = byId("variations").contains(document.activeElement);
    this.showVariations(variations);
    if (hadFocus || document.activeElement.disabled) {
      byId("game-title").focus({ preventScroll: true });
    }
    byId("line-words").scrollTop = 0;
  }

  showVariations(variations) {
    byId("variations-title").hidden = byId("variations").hidden = !variations.length;
    byId("variations-title").textContent =
      variations.length ? "Variations, in place of " + replacedMove(variations[0]) + ":" : "";
    byId("variations").replaceChildren(...variations.map((it) => item(
      button(beginOfVariation(it), () => this.show(it, firstOf(it))))));
    oneTabStop(byId("variations"));
  }

  // Which position is shown.
  said() {
    const { line, at } = this;
    const last = line.plies.length - 1;
    const place = "ply " + at + " of " + last;
    if (line.from) {
      const instead = ", in place of " + replacedMove(line);
      return at ? "After " + moveText(line.plies[at]) + " (" + place + " of a variation" + instead + ")"
        : "A variation without a move" + instead;
    }
    return (at ? "After " + moveText(line.plies[at]) : "The position before the first move") +
      " (" + place + ")" + (at === last ? ". Result: " + line.result : "");
  }
}
