// The text field for games: the text that was converted of it, and the fault in it.
import { byId } from "./elements.js";
import { encoded } from "./text.js";

// The name that its text has among files.
const NAME = "pasted games";

export class PastedGames {
  // `convert` is called to convert the text, with whether the keys for it were pressed.
  constructor(convert) {
    this.field = byId("paste");
    // the text that was converted, or null: its faults are selected while the field has it
    this.converted = null;
    byId("convert-paste").addEventListener("click", () => convert(false));
    this.field.addEventListener("keydown", (event) => {
      if (event.key === "Enter" && (event.ctrlKey || event.metaKey)) {
        event.preventDefault();
        convert(true);
      }
    });
    this.field.addEventListener("input", () => this.say(""));
  }

  // The text as a file to convert.
  file() {
    return new File([this.field.value], NAME);
  }

  // Notes that the text is being converted; or, with null, that files are.
  begin(text) {
    this.converted = text;
    this.say("");
  }

  has(fault) {
    return this.converted === this.field.value && fault.file === NAME;
  }

  // Selects the symbol at a fault, or the character, and says what is wrong with it.
  select(fault) {
    const text = this.converted;
    const before = encoded(text).subarray(0, fault.place);
    const begin = new TextDecoder("utf-8", { ignoreBOM: true }).decode(before).length;
    const length = fault.symbol.length || String.fromCodePoint(text.codePointAt(begin) || 0).length;
    this.field.setSelectionRange(begin, Math.min(begin + length, text.length));
    this.say("Line " + fault.line + ", column " + fault.column + ": " + fault.reason + ".");
  }

  // Goes to what is selected: in the field its line is in the middle.
  show() {
    this.field.focus({ preventScroll: true });
    this.field.scrollIntoView({ block: "nearest" });
    this.field.scrollTop = this.bottomOfSelection() - this.field.clientHeight / 2;
  }

  // How far the line of the selection is below the text's top, in pixels: a copy of the field that
  // ends there has this height.
  bottomOfSelection() {
    const copy = this.field.cloneNode();
    copy.removeAttribute("id");
    copy.value = this.field.value.slice(0, this.field.selectionStart);
    Object.assign(copy.style, {
      position: "absolute", visibility: "hidden", height: "0", width: this.field.offsetWidth + "px",
    });
    this.field.after(copy);
    const height = copy.scrollHeight;
    copy.remove();
    return height;
  }

  say(text) {
    byId("paste-fault").textContent = text;
  }
}
