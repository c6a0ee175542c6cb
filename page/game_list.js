// The list of games: some rows a time, of which one opens.
import { button, byId, oneTabStop } from "./elements.js";

const ROWS = 50;
const COLUMNS = ["number", "White", "Black", "Result", "plies"];

export class GameList {
  // `ask` sends a message to the worker.
  constructor(ask) {
    this.ask = ask;
    byId("previous").addEventListener("click", () => this.turn(-ROWS));
    byId("next").addEventListener("click", () => this.turn(ROWS));
  }

  // `hasFiles`: the games are those of several files, which the list names.
  begin(games, hasFiles) {
    this.games = games;
    this.hasFiles = hasFiles;
    this.first = 0;
    byId("game").hidden = true;
    this.turn(0);
  }

  turn(step) {
    this.first += step;
    byId("pages").hidden = this.games <= ROWS;
    byId("previous").disabled = this.first === 0;
    byId("next").disabled = this.first + ROWS >= this.games;
    if (step && document.activeElement.disabled) {
      byId("list-title").focus();
    }
    this.ask({ kind: "rows", first: this.first, count: ROWS });
  }

  show({ first, rows }) {
    const [begin, end, all] = [first + 1, first + rows.length, this.games].map(
      (it) => it.toLocaleString("en"));
    byId("shown").textContent = "Rows " + begin + " to " + end + " of " + all;
    byId("list").replaceChildren(...rows.flatMap((row, at) => {
      const isFirst = !at || rows[at - 1].fileIndex !== row.fileIndex;
      return this.hasFiles && isFirst ? [fileRow(row.file), this.row(row)] : [this.row(row)];
    }));
    oneTabStop(byId("list"));
  }

  row(row) {
    const made = document.createElement("tr");
    for (const column of COLUMNS) {
      const cell = document.createElement("td");
      if (column === "number") {
        const opener = button(row.number, () => this.ask({ kind: "game", index: row.index }));
        opener.setAttribute("aria-label", "Show game " + row.number);
        cell.append(opener);
      } else {
        cell.textContent = row[column];
      }
      made.append(cell);
    }
    return made;
  }

  open({ number, file }, text) {
    byId("game").hidden = false;
    byId("game-title").textContent = "Game " + number + (this.hasFiles ? " of " + file : "");
    byId("game-text").textContent = text;
    byId("game-title").focus();
  }
}

// The row above the games of a file.
function fileRow(name) {
  const made = document.createElement("tr");
  const cell = document.createElement("th");
  cell.colSpan = COLUMNS.length;
  cell.scope = "rowgroup";
  cell.textContent = name;
  made.append(cell);
  return made;
}
