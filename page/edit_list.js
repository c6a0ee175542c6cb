// The list of edits that mend the bad games, before they are applied.
import { byId, counted, item } from "./elements.js";
import { whyItFailed } from "./failures.js";
import { decoded, printable } from "./text.js";

// So many edits are listed; all are applied.
const MOST_EDITS = 500;

export class EditList {
  begin() {
    this.edits = [];
    byId("mending").hidden = false;
    byId("apply").hidden = true;
    byId("edits").replaceChildren();
    byId("mending-text").textContent = "Looking for edits.";
    byId("mending").dataset.state = "looking";
  }

  // ---- What the worker reports

  progress({ file, bad }) {
    byId("mending-text").textContent =
      "Looking for edits in " + file + ": " + counted(bad, "bad game") + " so far.";
  }

  mended({ edits, mended, left }) {
    this.edits = edits;
    byId("apply").hidden = !edits.length;
    byId("edits").replaceChildren(...edits.slice(0, MOST_EDITS).map(editItem));
    byId("mending-text").textContent = [
      edits.length ? counted(edits.length, "edit") + " in " + counted(mended, "game") + "."
        : "No fix of this page applies.",
      edits.length > MOST_EDITS ? "The first " + MOST_EDITS + " are listed; all are applied." : "",
      !left ? "All games are then valid."
        : counted(left, "game") + (left === 1 ? " stays bad." : " stay bad.") +
          " gillspoon lint --fix has more fixes.",
    ].join(" ").replace(/ {2}/g, " ");
    byId("mending").dataset.state = "listed";
    byId("mending-title").focus();
  }

  failed(failure) {
    byId("mending-text").textContent = "The edits were not found. " + whyItFailed(failure);
    byId("mending").dataset.state = "failed";
  }

  // A file with its edits.
  applied(file, index) {
    const parts = [];
    let at = 0;
    for (const edit of this.edits.filter((it) => it.index === index)) {
      parts.push(file.slice(at, edit.offset), edit.text);
      at = edit.offset + edit.old.length;
    }
    return parts.length ? new File([...parts, file.slice(at)], file.name) : file;
  }
}

function editItem({ file, line, column, name, old, text }) {
  return item(file + ": line " + line + ", column " + column + ", " + name + ": " + shown(old) +
    " → " + shown(text));
}

// A text in a line: without the line ends around it, if it has more.
function shown(bytes) {
  const text = decoded(bytes);
  const line = text.replace(/^[\r\n]+|[\r\n]+$/g, "").replace(/[\r\n]+/g, " ");
  return text ? "“" + printable(line || text) + "”" : "nothing";
}
