// What is said of valid games: of a Termination tag that names a forfeit in other words than the
// standard's, as gillspoon lint says it.
import { TERMINATION_NOTE } from "./forfeits.js";
import { button, byId, counted, item, oneTabStop } from "./elements.js";
import { gameAndPlayers } from "./fault_view.js";

// Shows the notes on games: all of their number, and the first ones with their tags, and with their
// files if there are several. `open` is called with the index of a game.
export function showNotes(all, games, hasFiles, open) {
  byId("notes").hidden = !all;
  byId("notes-text").textContent = "In " + counted(all, "game") + " the " + TERMINATION_NOTE + "." +
    (all > games.length ? " The first " + games.length + " are listed." : "");
  byId("notes-list").replaceChildren(...games.map((game) => item(
    button(gameAndPlayers({ game: game.number, tags: game }) +
      (hasFiles ? ": " + game.file : ""), () => open(game.index)),
    " “" + game.Termination + "”")));
  oneTabStop(byId("notes-list"));
}
