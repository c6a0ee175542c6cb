// A game as lines of play: the main line, and the variations that begin in lines.

// The usual signs of NAGs (PGN 8.2.3.8 and 10). A NAG without a sign is shown by its number.
const SIGNS = {
  1: "!", 2: "?", 3: "!!", 4: "??", 5: "!?", 6: "?!", 7: "□", 10: "=", 13: "∞", 14: "+/=",
  15: "=/+", 16: "±", 17: "∓", 18: "+−", 19: "−+", 146: "N",
};
// The suffixes, which are set at the move without a blank (PGN 8.2.3.8).
const LAST_SUFFIX = 6;
// So many plies of a variation are shown where it begins.
const MOST_PLIES = 12;

// The main line of a game that begins from the position of a FEN, by the items that the module
// gives. A line has its plies, and where it begins in another one: at the position after the ply
// with that number. Its ply 0 is the position before its first move.
export function mainLine(items, fen) {
  let line = newLine(fen, null);
  for (const [kind, ...fields] of items) {
    const ply = line.plies[line.plies.length - 1];
    if (kind === "M") {
      const [number, san, uci, after] = fields;
      line.plies.push({ ...newPly(after), number, san, uci });
    } else if (kind === "G") {
      ply.glyphs.push(Number(fields[0]));
    } else if (kind === "C") {
      ply.comments.push(fields.join(" "));
    } else if (kind === "(") {
      line = variationOf(line);
    } else if (kind === ")") {
      line = line.from.line;
    } else {
      line.result = fields[0];
    }
  }
  return line;
}

function newPly(fen) {
  return { fen, glyphs: [], comments: [], variations: [] };
}

function newLine(fen, from) {
  return { plies: [newPly(fen)], from };
}

// A variation, which replaces the last move of a line.
function variationOf(line) {
  const at = line.plies.length - 2;
  const { fen, variations } = line.plies[at];
  variations.push(newLine(fen, { line, at }));
  return variations[variations.length - 1];
}

// The place of the first ply that is shown of a line: in a variation that of its first move.
export function firstOf(line) {
  return line.from ? Math.min(1, line.plies.length - 1) : 0;
}

// The comments that belong to a place of a line, with those before the first move of a variation.
export function commentsAt(line, at) {
  const plies = at === firstOf(line) ? line.plies.slice(0, at + 1) : [line.plies[at]];
  return plies.flatMap((it) => it.comments).filter((it) => it);
}

function signsOf({ glyphs }) {
  return glyphs.map((it) => (it > LAST_SUFFIX || !it ? " " : "") + (SIGNS[it] || "$" + it)).join("");
}

// A move with its number and its NAGs.
export function moveText(ply) {
  return ply.number + " " + ply.san + signsOf(ply);
}

// The move that a variation replaces, with its number.
export function replacedMove({ from: { line, at } }) {
  const { number, san } = line.plies[at + 1];
  return number + " " + san;
}

// The first moves of a variation.
export function beginOfVariation({ plies }) {
  const shown = plies.slice(1, MOST_PLIES + 1).map((ply, at) =>
    at && ply.number.endsWith("...") ? ply.san + signsOf(ply) : moveText(ply));
  return shown.length ? shown.join(" ") + (plies.length > MOST_PLIES + 1 ? " …" : "")
    : "no move" + signsOf(plies[0]);
}
