// The faults of a conversion: one of them in full, and the list of all.
import { button, buttonLine, byId, counted, item, oneTabStop } from "./elements.js";
import { faultView, gameAndPlayers } from "./fault_view.js";

export class FaultList {
  // `pasted` has the games of the text field. `take` is called with what the advice offers.
  constructor(pasted, take) {
    this.pasted = pasted;
    this.take = take;
    this.begin();
  }

  begin() {
    this.faults = [];
  }

  add(fault) {
    this.faults.push(fault);
  }

  // Shows the last fault, and the list if there are several. `all` is their number, of which the
  // first ones were reported.
  show(all, isRefused) {
    byId("faults").hidden = !this.faults.length;
    byId("go-on").hidden = byId("guess").hidden = !isRefused;
    byId("all-faults").hidden = all < 2;
    if (this.faults.length) {
      this.open(this.faults.length - 1);
    }
    byId("all-faults-text").textContent = all <= this.faults.length ? counted(all, "fault") + "."
      : "The first " + this.faults.length + " of " + counted(all, "fault") +
        " are listed. The download has all.";
    byId("other-faults").replaceChildren(
      ...this.faults.map((fault, index) => item(button(inTheList(fault), () => {
        this.open(index);
        byId("faults-title").focus();
      }))));
    oneTabStop(byId("other-faults"));
  }

  open(index) {
    const fault = this.faults[index];
    byId("faults-title").textContent =
      this.faults.length < 2 ? "Fault" : "Fault " + (index + 1) + " of " + this.faults.length;
    byId("fault").replaceChildren(faultView(fault, this.take));
    if (this.pasted.has(fault)) {
      this.pasted.select(fault);
      byId("fault").append(buttonLine("Show it in the text field", () => this.pasted.show()));
    }
  }
}

function inTheList(fault) {
  return gameAndPlayers(fault) + ": " + fault.file + ", line " + fault.line + ", column " +
    fault.column + ": " + fault.reason;
}
