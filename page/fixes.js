// The fixes of gillspoon lint that have their patterns in fixes.json, which gillspoon lint reads too:
// each proposes one edit for a fault, or none. Text is a string here, with a character for each byte.
import { OK } from "./module.js";
import { RESULT_VALUES, encoded } from "./text.js";
import { piecesOf } from "./board.js";

// The reasons at which the spelling of a move can be at fault.
const REASONS_OF_MOVES = [1, 33, 34, 37, 39];
// How much text behind a move is looked at, and before a fault.
const BEHIND_MOVE = 160;
const BEFORE_FAULT = 512;
const NUMBER = /^[0-9]+\. $/;
// The fix that writes a missing termination marker.
export const NO_MARKER = "no marker";
// How many marks a drawing command gets.
const MARKS = 12;
// No FEN is longer.
const LONGEST_FEN = 96;
// What may be a piece's letter in small, of which a b may be a pawn too.
const LETTER_IN_SMALL = /[kqrnb]/y;
// What Python's expressions on bytes have and JavaScript's have in another way.
const OTHER_SIGNS = { "\\A": "^", "\\Z": "$", "\\s": "[\\t-\\r ]" };

// An edit: the text from `start` up to `stop` becomes `text`.
export function edited(text, edit) {
  return text.slice(0, edit.start) + edit.text + text.slice(edit.stop);
}

export class Fixes {
  // `data` is what fixes.json has. Safe fixes are taken, and of the others those with the names.
  constructor(data, module, others = []) {
    this.macros = data.macros;
    this.module = module;
    const steps = (row, flags) =>
      row.steps.map(([pattern, text]) => [this.pattern(pattern, flags), text]);
    // a spelling that one token can have several times is tried as often
    this.moves = data.moves.filter((row) => row.safe !== false).map(
      (row) => ({ ...row, steps: steps(row, "") })).flatMap(
      (row) => Array(row.times || 1).fill(row));
    this.otherReadings = data["other readings"].map(
      ({ letter, piece }) => ({ letter: this.pattern("\\A(?:" + letter + ")\\Z", ""), piece }));
    this.texts = data.texts.filter((row) => row.safe).map(
      (row) => ({ ...row, steps: steps(row, "g") }));
    this.functions = data.functions.map((row) => ({
      ...row, pattern: this.pattern(row.pattern, FLAGS[row.name] ?? "g"),
      propose: FUNCTIONS[row.name],
    })).concat(OTHERS.filter((it) => others.includes(it.name)));
    const part = (name, flags) => this.pattern(data.parts[name], flags);
    this.space = part("space", "y");
    this.rest = part("rest", "y");
    this.restWithSigns = part("rest with signs", "y");
    this.endOfMovetext = part("end of movetext", "y");
    this.signsAlone = part("signs alone", "y");
    this.pair = part("pair", "y");
    this.emptyLine = part("empty line", "");
    this.tagLine = part("tag line", "");
    this.likeResult = part("like a result", "");
    this.quote = part("quote", "g");
    this.movetext = part("movetext", "g");
    this.word = part("word", "g");
    this.firstNumber = part("first number", "y");
    this.lettersOfALanguage = part("letters of a language", "");
    this.oneMove = part("one move", "");
    this.moveOfAPiece = part("move of a piece", "");
    this.moveWithItsOrigin = part("move with its origin", "");
    this.numberBefore = part("number before", "");
    this.endOfAPair = part("end of a pair of moves", "y");
    this.move = this.pattern("\\AMOVE[+#]*(?![A-Za-z0-9_=:/-])", "");
    this.onlyMove = this.pattern("\\AMOVE[+#]*\\Z", "");
    this.wordBefore = this.pattern(
      "(?:MOVE[+#]*|(?<![0-9])[0-9O]{1,5})[!?]*\\s*\\(?[ \\t]*\\Z", "");
    this.moveBefore = this.pattern("(?:MOVE[+#]*[!?]*|\\$[0-9]+|\\})\\s*\\Z", "");
  }

  // The expression for one of the data, in which words in capitals stand for others.
  pattern(text, flags) {
    const names = new RegExp(Object.keys(this.macros).join("|"), "g");
    const whole = text.replace(names, (name) => this.macros[name]);
    return new RegExp(whole.replace(/\\.|\[(?:\\.|[^\]\\])*\]/g, (found) =>
      found[0] === "[" ? found.replace(/\\s/g, "\\t-\\r ") : OTHER_SIGNS[found] || found), flags);
  }

  // The edits that may mend a fault, as gillspoon lint orders them, each with the names of its fixes.
  *proposals(here, withSmallLetters) {
    if (REASONS_OF_MOVES.includes(here.fault)) {
      const edit = this.respelled(here, withSmallLetters);
      if (edit) {
        yield edit;
      }
    }
    for (const fix of this.texts) {
      const edit = fix.reasons.includes(here.fault) ? this.replaced(here, fix) : null;
      if (edit) {
        yield edit;
      }
    }
    for (const { name, reasons, pattern, propose } of this.functions) {
      const edit = reasons.includes(here.fault) ? propose(this, here, pattern) : null;
      if (edit) {
        yield { ...edit, name };
      }
    }
  }

  // ---- Texts that are no moves

  replaced(here, fix) {
    for (const [pattern, text] of fix.steps) {
      const match = matchAtPlace(here, pattern);
      const made = match && expanded(match, text);
      if (match && made !== match[0] && this.isThere(fix.needs, here, match)) {
        const stop = match.index + match[0].length;
        return { start: match.index, stop, text: made, name: fix.name };
      }
    }
    return null;
  }

  isThere(needs, here, match) {
    const stop = match.index + match[0].length;
    if (needs === "move") {
      return this.isBehindMove(here, match);
    }
    if (needs === "end") {
      return this.isRest(here.text, stop);
    }
    return needs !== "last" || here.around.isLast;
  }

  // Whether white space, comments and escape lines go from a place to the end of a text.
  isRest(text, from) {
    return matchAt(this.rest, text, from) !== null;
  }

  // The tag pairs that a game begins with: their names, values and places.
  head(here) {
    const pairs = [];
    for (let end = here.begin; ;) {
      const pair = matchAt(this.pair, here.text, endOf(matchAt(this.space, here.text, end)));
      if (!pair) {
        return pairs;
      }
      end = endOf(pair);
      // a value is the first quote behind a name and white space
      const value = end - pair[0].length + pair[0].indexOf("\"" + pair[2]) + 1;
      pairs.push({ name: pair[1], value: pair[2], valueAt: value, start: pair.index, end });
    }
  }

  // Where the tag pairs end that a game begins with.
  endOfHead(here) {
    const pairs = this.head(here);
    return pairs.length ? pairs[pairs.length - 1].end : here.begin;
  }

  // Whether a text has more than tag pairs, comments and white space.
  hasMovetext(text) {
    return !this.isRest(text, this.endOfHead({ text, begin: 0 }));
  }

  // Whether movetext begins with the number 1, or without a number behind an empty line.
  beginsGame(text, place, isApart) {
    const number = matchAt(this.firstNumber, text, place);
    return number ? Number(number[1]) === 1
      : isApart || this.emptyLine.test(matchAt(this.space, text, place)[0]);
  }

  // Whether the text before a fault is signs alone, such as ! or $10.
  hasSignsAlone(here) {
    return matchAt(this.signsAlone, here.text.slice(0, here.place), here.begin) !== null;
  }

  // The marker that a text ends with, or an empty text.
  lastMarker(text) {
    let last = null;
    for (const match of text.matchAll(this.movetext)) {
      last = match[4] ? match : last;
    }
    return last && this.isRest(text, endOf(last)) ? last[4] : "";
  }

  // Whether a move, a glyph or a comment is just before a text.
  isBehindMove(here, match) {
    const begin = Math.max(here.begin, match.index - BEHIND_MOVE);
    return this.moveBefore.test(here.text.slice(begin, match.index));
  }

  // ---- Moves

  // The edit that makes a legal move of the text at the fault, or at the word before it.
  respelled(here, withSmallLetters) {
    const begin = Math.max(here.begin, here.place - BEHIND_MOVE);
    const before = this.wordBefore.exec(here.text.slice(begin, here.place));
    for (const start of before ? [here.place, begin + before.index] : [here.place]) {
      const isTried = withSmallLetters || !matchAt(LETTER_IN_SMALL, here.text, start);
      const fen = isTried ? here.position(start) : "";
      const edit = fen ? this.respelledAt(here, start, fen) : null;
      if (edit && edit.stop > here.place) {
        return edit;
      }
    }
    return null;
  }

  // Applies all spellings in turn: one token can have several. The move has to be legal.
  respelledAt(here, start, fen) {
    let lead = "";
    let rest = here.text.slice(start, start + BEHIND_MOVE);
    const used = [];
    const size = rest.length;
    let kept = size;
    for (const spelling of this.moves) {
      const found = this.step(spelling, rest, fen, { here, start, end: start + size });
      if (found) {
        kept = Math.min(kept, found.tail.length);
        const isNumber = NUMBER.test(found.made);
        lead = isNumber ? found.made : lead;
        rest = isNumber ? found.tail : found.made + found.tail;
        used.push(spelling.name);
      }
    }
    const move = this.move.exec(rest);
    if (!used.length || !move || !this.played(fen, move[0])) {
      return null;
    }
    kept = Math.min(kept, rest.length - move[0].length);
    return {
      start, stop: start + size - kept, text: lead + rest.slice(0, rest.length - kept),
      name: used.join(", "),
    };
  }

  // What a spelling makes of the begin of a text, and the rest behind it. That ends at the `end` of
  // the place.
  step(spelling, text, fen, place) {
    for (const [pattern, written] of spelling.steps) {
      const match = pattern.exec(text);
      if (match) {
        const letter = spelling.needs === "piece" ? letterOn(fen, match[1]) : "";
        const made = expanded(match, written) + letter;
        const tail = text.slice(match[0].length);
        const token = { ...place, match, stop: place.end - tail.length };
        if (made !== match[0] && this.holds(spelling.needs, made + tail, fen, token)) {
          return { made, tail };
        }
      }
    }
    return null;
  }

  // Whether a text is what its spelling says: the number that is due, or a move of some kind.
  holds(needs, text, fen, token) {
    if (!needs || needs === "piece") {
      return true;
    }
    if (needs === "due") {
      return this.isDue(Number(token.match[1]), fen, token);
    }
    if (needs === "look-alike") {
      return !this.isOtherLetter(text, fen, token);
    }
    const move = this.move.exec(text);
    const san = move ? this.played(fen, move[0]) : "";
    if (san === "" || needs === "castling") {
      return san !== "" && !this.mayBeResult(token);
    }
    const isMate = san.endsWith("#");
    const isCheck = isMate || san.endsWith("+");
    return {
      "check": isCheck, "mate": isMate, "quiet": !isCheck,
      "en passant": /^[a-h]/.test(san) && san.slice(1, 4) === "x" + fen.split(" ")[3],
    }[needs];
  }

  // Whether a letter may be that of another piece in its language: a Russian knight, a Greek queen.
  // It is one if the move is legal with it, or if its language is that of other moves.
  isOtherLetter(text, fen, { here, match: [whole, before] }) {
    const found = this.otherReadings.find(({ letter }) => letter.test(whole.slice(before.length)));
    if (!found) {
      return false;
    }
    const [token] = text.match(/[^\t-\r ]+/);
    const other = before + found.piece + token.slice(before.length + 1);
    return this.played(fen, other.replace(/[^KQRBNa-h1-8]/g, "")) !== "" ||
      this.lettersOfALanguage.test(here.text.slice(here.begin));
  }

  // Whether castling is written with zeros as the last word of a section: `0 - 0`.
  mayBeResult({ here, match, stop }) {
    return !/[A-Za-z]/.test(match[0]) && matchAt(this.restWithSigns, here.text, stop) !== null;
  }

  // Whether a move number joined to a move is due: it is that of the position, with White to move.
  // No number may be just before it. The last number before it has to be that of its move.
  isDue(number, fen, { here, start }) {
    const words = this.words(here.text.slice(0, start), this.endOfHead(here));
    const last = [...words].reverse().find((it) => /^[0-9]+$/.test(it.text));
    if (words.length && (!last || last === words[words.length - 1])) {
      return false;
    }
    const [, side, , , , due] = fen.split(" ");
    const isNext = side === "w" && number === Number(due);
    return isNext && (!last || number <= Number(last.text) + 1 &&
      here.position(last.index).split(" ")[5] === last.text.replace(/^0+/, ""));
  }

  // Whether a move of a game up to `end` begins with b, and is legal as a bishop's move too.
  hasDoubtfulPawn(here, end) {
    return this.words(here.text.slice(0, end), here.begin).some(({ text, index }) => {
      const fen = text[0] === "b" && this.onlyMove.test(text) ? here.position(index) : "";
      return fen && this.played(fen, text) && this.played(fen, "B" + text.slice(1));
    });
  }

  // The words of a text from a place on, with their places: no strings, comments or glyphs.
  words(text, from) {
    this.word.lastIndex = from;
    return [...text.matchAll(this.word)].filter((it) => it[3]).map(
      (it) => ({ text: it[3], index: it.index }));
  }

  // Whether a word from the fault up to a place is behind the number of the position, for White.
  // Behind it the next number comes, or a marker, or the end of its variation. No move before it is
  // written with its origin, as `e2e4`.
  isBetweenNumbers(here, end, fen) {
    const [, side, , , , due] = fen.split(" ");
    const begin = Math.max(here.begin, here.place - BEHIND_MOVE);
    const before = this.numberBefore.exec(here.text.slice(begin, here.place));
    const behind = matchAt(this.endOfAPair, here.text, end);
    return before !== null && behind !== null && side === "w" && Number(before[1]) === Number(due) &&
      (!behind[1] || Number(behind[1]) === Number(due) + 1) &&
      !this.words(here.text.slice(0, here.place), this.endOfHead(here)).some(
        (it) => this.moveWithItsOrigin.test(it.text));
  }

  // Whether two texts are moves that are legal in turn.
  areMoves(fen, first, second) {
    if (!this.oneMove.test(first) || !this.oneMove.test(second)) {
      return false;
    }
    const found = this.module.san(encoded(fen), encoded(first));
    return found.status === OK && this.played(found.fen, second) !== "";
  }

  // The SAN of a legal move, or an empty text.
  played(fen, move) {
    if (move.length > BEHIND_MOVE) {
      return "";
    }
    const found = this.module.san(encoded(fen), encoded(move));
    return found.status === OK ? found.san : "";
  }
}

// Patterns that are looked for at one place alone.
const FLAGS = {
  "Result tag from the marker": "", "missing Result tag": "y", "pair given twice": "y",
  "spelling of a FEN": "y", "joined moves": "y",
};

// The edits of the fixes that have more than a pattern: of a fault, or none.
const FUNCTIONS = {
  "novelty"(fixes, here, pattern) {
    const match = matchAtPlace(here, pattern);
    const fen = match && fixes.isBehindMove(here, match) ? here.position(match.index) : "";
    const isMove = fen && fixes.played(fen, "N" + (match[1] || ""));
    return fen && !isMove
      ? { start: match.index, stop: match.index + 1, text: "$146" } : null;
  },

  // Writes the marker of the game in place of a value that says nothing.
  "Result tag from the marker"(fixes, here, pattern) {
    const pair = fixes.head(here).find((it) => it.name === "Result");
    const marker = pair && pattern.test(pair.value) ? fixes.lastMarker(here.text) : "";
    return marker
      ? { start: pair.valueAt, stop: pair.valueAt + pair.value.length, text: marker } : null;
  },

  // Adds a Result tag with the marker, to a game that has moves or tags. No tag may have a value
  // like a result: its name may be a damaged one.
  "missing Result tag"(fixes, here, pattern) {
    const pairs = fixes.head(here);
    const marker = matchAt(pattern, here.text, here.place);
    const isEmpty = fixes.isRest(here.text.slice(0, here.place), here.begin);
    const hasResult = pairs.some(
      ({ name, value }) => name === "Result" || fixes.likeResult.test(value));
    if (!marker || isEmpty || hasResult || !isWhole(fixes, here, pairs, endOf(marker))) {
      return null;
    }
    const tag = "[Result \"" + marker[0] + "\"]";
    if (!pairs.length) {
      const start = endOf(matchAt(fixes.space, here.text, here.begin));
      return { start, stop: start, text: tag + "\n\n" };
    }
    const { end } = pairs[pairs.length - 1];
    const lineEnd = here.text.startsWith("\r\n", end) ? "\r\n" : "\n";
    return { start: end, stop: end, text: lineEnd + tag };
  },

  // Escapes the quotes of a value, on a line that is one tag pair: they come in pairs.
  "quotes in a value"(fixes, here, pattern) {
    const match = matchAtPlace(here, pattern);
    const quotes = match ? [...match[2].matchAll(fixes.quote)].filter((it) => !it[1]) : [];
    if (!match || quotes.length % 2) {
      return null;
    }
    const start = match.index + match[1].length;
    const text = match[2].replace(fixes.quote, (_, escaped) => escaped || "\\\"");
    return { start, stop: start + match[2].length, text };
  },

  // Takes out a pair that the game has already, and its line too if nothing else is on it.
  "pair given twice"(fixes, here, pattern) {
    const pairs = fixes.head(here);
    const pair = pairs.find((it) => it.start <= here.place && here.place < it.end);
    if (!pair || pairs.find((it) => it.name === pair.name).value !== pair.value ||
        !isOfOneGame(fixes, here, pairs, pair)) {
      return null;
    }
    const line = beginsLine(here.text, pair.start) ? matchAt(pattern, here.text, pair.end) : null;
    return { start: pair.start, stop: line ? endOf(line) : pair.end, text: "" };
  },

  // Writes a FEN with the blanks and the castling letters that it has to have.
  "spelling of a FEN"(fixes, here, pattern) {
    const value = matchAt(pattern, here.text, here.place);
    const fields = value ? value[1].split(/[\t-\r ]+/).filter((it) => it) : [];
    if (fields.length !== 4 && fields.length !== 6) {
      return null;
    }
    if (/^[KQkq]+$/.test(fields[2])) {
      fields[2] = [...fields[2]].sort((a, b) => "KQkq".indexOf(a) - "KQkq".indexOf(b)).join("");
    }
    if (fields.length === 4) {
      const number = matchAt(fixes.firstNumber, here.text, fixes.endOfHead(here));
      if (!number || Boolean(number[2]) !== (fields[1] === "b")) {
        return null;
      }
      fields.push("0", number[1]);
    }
    const text = fields.join(" ");
    const isPosition = text.length <= LONGEST_FEN &&
      fixes.module.normalizeFen(encoded(text)).status === OK;
    return isPosition
      ? { start: value.index + 1, stop: value.index + 1 + value[1].length, text } : null;
  },

  // Parts two moves that are legal in turn, in one way, if they are no move of a piece.
  "joined moves"(fixes, here, pattern) {
    const match = matchAt(pattern, here.text, here.place);
    const fen = match && !fixes.moveOfAPiece.test(match[0]) ? here.position(here.place) : "";
    if (!fen || !fixes.isBetweenNumbers(here, endOf(match), fen)) {
      return null;
    }
    const [word] = match;
    const found = [...word].map((_, at) => [word.slice(0, at), word.slice(at)]).filter(
      (it) => fixes.areMoves(fen, ...it));
    return found.length === 1
      ? { start: match.index, stop: endOf(match), text: found[0].join(" ") } : null;
  },

  "long drawing command"(fixes, here, pattern) {
    const match = matchAtPlace(here, pattern);
    const marks = match ? match[2].split(",") : [];
    const commands = [];
    for (let at = 0; at < marks.length; at += MARKS) {
      commands.push("[%" + match[1] + " " + marks.slice(at, at + MARKS).join(",") + "]");
    }
    return match
      ? { start: match.index, stop: endOf(match), text: commands.join(" ") } : null;
  },
};

// Fixes that are not safe, since they choose what no text says. gillspoon lint has more.
const OTHERS = [
  // Adds the value of the Result tag, or *, behind the last word of a game.
  { name: NO_MARKER, reasons: [32, 42], propose(fixes, here) {
    if (fixes.hasSignsAlone(here)) {
      return null;
    }
    const pair = fixes.head(here).find((it) => it.name === "Result");
    const end = here.text.replace(/[\t-\r ]+$/, "").length;
    const isInComment = /;[^\r\n}]*$/.test(here.text.slice(0, end));
    const marker = pair && RESULT_VALUES.includes(pair.value) ? pair.value : "*";
    return { start: end, stop: end, text: (isInComment ? "\n" : " ") + marker };
  } },
];

// Whether a game is whole whose marker ends at a place. Movetext behind the marker has to begin
// another game, and so has movetext without tags.
function isWhole(fixes, { text, begin, around }, pairs, place) {
  return (pairs.length || fixes.beginsGame(text, begin, around.isFirst || around.isApart)) &&
    (matchAt(fixes.endOfMovetext, text, place) || fixes.beginsGame(text, place, false));
}

// Whether the name of a pair alone is repeated in a tag section. Several such names may be those of
// two games that were joined, and so may an Event, the first name, what is behind an empty line,
// and a Result that is the last pair, if it begins no line.
function isOfOneGame(fixes, here, pairs, { name, start }) {
  const names = pairs.map((it) => it.name);
  const repeated = names.filter((it, index) => names.indexOf(it) < index);
  const isLastResult = name === "Result" && name === names[names.length - 1];
  return repeated.length > 0 && repeated.every((it) => it === name) &&
    name !== "Event" && name !== names[0] && (!isLastResult || beginsLine(here.text, start)) &&
    !fixes.emptyLine.test(here.text.slice(pairs[0].start, start)) &&
    !fixes.tagLine.test(here.text.slice(fixes.endOfHead(here)));
}

function beginsLine(text, place) {
  return !place || /[\r\n]/.test(text[place - 1]);
}

// The match of a sticky pattern at a place, or null.
function matchAt(pattern, text, place) {
  pattern.lastIndex = place;
  return pattern.exec(text);
}

function endOf(match) {
  return match.index + match[0].length;
}

// A text in which \1 means what a group has matched.
function expanded(match, text) {
  return text.replace(/\\([0-9])/g, (_, group) => match[group] || "");
}

// The match that has the place of the fault in it.
function matchAtPlace(here, pattern) {
  const line = here.text.lastIndexOf("\n", here.place - 1) + 1;
  pattern.lastIndex = Math.max(here.place && line, here.begin, here.place - BEFORE_FAULT);
  for (let match; (match = pattern.exec(here.text));) {
    if (match.index + match[0].length > here.place) {
      return match.index <= here.place ? match : null;
    }
    pattern.lastIndex += match[0] ? 0 : 1;
  }
  return null;
}

// The letter of the piece on a square; a pawn has none.
function letterOn(fen, square) {
  const at = "abcdefgh".indexOf(square[0]) + 8 * (Number(square[1]) - 1);
  const piece = piecesOf(fen)[at].toUpperCase();
  return piece === "P" ? "" : piece;
}
