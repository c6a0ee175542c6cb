// Finds the edits that mend bad games, as gillspoon lint --fix does: an edit is kept if the library
// then reads the game to its end, or if fewer bytes are behind its first fault than before.
import { FULL, MISSING_RESULTS, MODES, NO_GAME, OK } from "./module.js";
import { DRAW, latin1, lineAround, startsWithByteOrderMark } from "./text.js";
import { edited } from "./fixes.js";
import { endOfBadGame } from "./next_section.js";

const NOT_LEGAL = 34;
const RESULT_DIFFERS = 41;
const NEVER_CLOSED = 12;
// The fix of which no edit is kept in a game with a b in doubt.
const SMALL_LETTER = "small letter";
// A move that no position allows: its fault has the position.
const NO_MOVE = " Ka1a1 ";
// How much of the text before and behind a bad game is looked at.
const TEXT_AROUND = 1 << 12;
const BYTE_ORDER_MARK_SIZE = 3;
// The most variations that can be open, and one more.
const MOST_OPEN = 33;
const MARKERS = [" *", " 1-0", " 0-1", " " + DRAW];
const COLUMN_WIDTH = 76;

// One byte for each character of a text.
export function bytesOf(text) {
  const bytes = new Uint8Array(text.length);
  for (let at = 0; at < bytes.length; at++) {
    bytes[at] = text.charCodeAt(at);
  }
  return bytes;
}

// Reads games of short texts, by a module of its own.
class TextReader {
  constructor(module) {
    this.module = module;
    this.capacity = 1 << 16;
  }

  // What the library answers for the game from a place on.
  read(text, from, missingResult) {
    const { module } = this;
    const at = module.free;
    const options = { mode: MODES.full, missingResult };
    for (;; this.capacity *= 2) {
      module.reserve(at + text.length + this.capacity);
      module.bytes.set(bytesOf(text), at);
      const status = module.nextGame(
        at, text.length, from, options, at + text.length, this.capacity);
      if (status !== FULL) {
        const read = (name) => module.field("pgn_game", name);
        const buffer = at + text.length;
        return {
          status, fault: read("fault"), place: read("place"), end: read("end"),
          fen: module.textField("pgn_game", "fen"),
          export: () => latin1(module.bytes.subarray(buffer, buffer + read("written"))),
        };
      }
    }
  }

  // Where a bad game ends that a text begins with, or null: with the text.
  endOfBadGame(text, fault) {
    const { module } = this;
    module.reserve(module.free + text.length);
    module.bytes.set(bytesOf(text), module.free);
    return endOfBadGame(module, module.free, text.length, 0, fault);
  }
}

// A fault, the text in which it is, and what is around that.
class Here {
  constructor(text, begin, found, reader, around) {
    Object.assign(this, { text, begin, reader, around, fault: found.fault, place: found.place });
    this.fens = found.fen ? { [found.place]: found.fen } : {};
  }

  // The FEN at a place where a move may be, or an empty text.
  position(at) {
    if (!(at in this.fens)) {
      const before = this.text.slice(this.begin, at) + NO_MOVE;
      const found = this.reader.read(before, 0, MISSING_RESULTS.fromMarker);
      const place = before.length - NO_MOVE.length + 1;
      this.fens[at] = found.fault === NOT_LEGAL && found.place === place ? found.fen : "";
    }
    return this.fens[at];
  }
}

// Mends the text of a bad game up to its end, which is a guess.
//
// `around`: whether it is the first game of its file (isFirst) or the last (isLast), and whether an
// empty line is before it (isApart).
class Mending {
  constructor(text, fixes, reader, missingResult, around) {
    Object.assign(this, { text, fixes, reader, missingResult, around });
    this.begin = 0;
    this.isSound = false;
    // the edits that were kept, in order, with the places of the text before all edits
    this.edits = [];
  }

  // Mends game by game, until the text is sound or no fix applies.
  run() {
    for (;;) {
      const found = this.mendGame();
      if (found.status === OK) {
        this.begin = found.end;
        this.around = { ...this.around, isFirst: false, isApart: false };
      } else {
        this.isSound = found.status === NO_GAME;
        this.fault = found.fault;
        this.place = found.place;
        return;
      }
    }
  }

  // Mends a game, and gives the answer for it: without small letters, if a b is in doubt.
  mendGame() {
    const { text, edits } = this;
    this.used = [];
    this.withSmallLetters = true;
    const found = this.mendFaults();
    const end = found.status === OK ? found.end : found.place;
    if (!this.used.includes(SMALL_LETTER) || !this.fixes.hasDoubtfulPawn(this.here(found), end)) {
      return found;
    }
    Object.assign(this, { text, edits, withSmallLetters: false });
    return this.mendFaults();
  }

  // Mends the faults of a game in turn, until it has none, or one that no fix mends.
  mendFaults() {
    for (;;) {
      const found = this.reader.read(this.text, this.begin, this.missingResult);
      if (found.status === OK || found.status === NO_GAME || !this.mendFault(found)) {
        return found;
      }
    }
  }

  here(found) {
    return new Here(this.text, this.begin, found, this.reader, this.around);
  }

  // Tries the fixes at a fault: whether one was kept.
  mendFault(found) {
    const here = this.here(found);
    // a missing Result is reported last, when all else is sound
    const missing =
      found.fault === RESULT_DIFFERS ? this.missingResult : MISSING_RESULTS.fromMarker;
    for (const edit of this.fixes.proposals(here, this.withSmallLetters)) {
      if (this.isBetter(here, edit, missing)) {
        this.keep(edit);
        this.used.push(...edit.name.split(", "));
        return true;
      }
    }
    return false;
  }

  // Whether an edit is kept: the library reads on, and the moves before it are the same.
  isBetter(here, edit, missing) {
    const text = edited(here.text, edit);
    const old = here.text.slice(edit.start, edit.stop);
    const found = this.reader.read(text, here.begin, missing);
    const isSound = found.status === OK || found.status === NO_GAME;
    const isBehind = found.place >= edit.start + edit.text.length &&
      text.length - found.place < here.text.length - here.place;
    // what follows an open comment is not read at all
    return (isSound || isBehind) && openBraces(old) === openBraces(edit.text) &&
      this.hasSameMoves(here, edit, text);
  }

  // Whether the moves before the fault are the same after an edit before it.
  hasSameMoves(here, edit, text) {
    if (edit.stop > here.place || edit.start >= here.place) {
      return true;
    }
    const before = this.moves(here.text.slice(here.begin, here.place));
    return before === null ||
      before === this.moves(text.slice(here.begin, here.place + growth(edit)));
  }

  // The movetext of a text that may break off, without its glyphs, and its last position, or null.
  moves(text) {
    for (let closed = 0; closed < MOST_OPEN; closed++) {
      for (const marker of MARKERS) {
        const found = this.reader.read(
          text + " " + ")".repeat(closed) + marker, 0, MISSING_RESULTS.fromMarker);
        if (found.status === OK) {
          const exported = found.export();
          const words = exported.slice(exported.indexOf("\n\n")).match(/[^\t-\r ]+/g);
          const moves = words.slice(0, -1).filter((it) => !it.startsWith("$"));
          return [...moves, found.fen].join(" ");
        }
        if (found.fault !== RESULT_DIFFERS) {
          break;
        }
      }
    }
    return null;
  }

  // Takes an edit of the present text. Those that it touches become one with it.
  keep(edit) {
    const before = [];
    const touched = [];
    const behind = [];
    let [low, high, shift, inside] = [edit.start, edit.stop, 0, 0];
    for (const it of this.edits) {
      const begin = it.start + shift + inside;
      const end = begin + it.text.length;
      if (end < edit.start) {
        before.push(it);
        shift += growth(it);
      } else if (begin > edit.stop) {
        behind.push(it);
      } else {
        touched.push(it);
        [low, high] = [Math.min(low, begin), Math.max(high, end)];
        inside += growth(it);
      }
    }
    const names = [...touched, edit].flatMap((it) => it.name.split(", "));
    this.edits = [...before, {
      start: low - shift, stop: high - shift - inside, name: [...new Set(names)].join(", "),
      text: this.text.slice(low, edit.start) + edit.text + this.text.slice(edit.stop, high),
    }, ...behind];
    this.text = edited(this.text, edit);
  }

  // Whether what is still bad ends where the section does, and takes no game behind it.
  endsAsBefore(following) {
    if (!following.length) {
      return true;
    }
    const rest = this.text.slice(this.begin);
    return this.fault !== NEVER_CLOSED && this.reader.endOfBadGame(
      rest + latin1(following), this.place - this.begin) === rest.length;
  }
}

function growth(edit) {
  return edit.text.length - (edit.stop - edit.start);
}

function isNoSpace(byte) {
  return !/[\t-\r ]/.test(String.fromCharCode(byte));
}

// How many braces a text opens and does not close.
function openBraces(text) {
  return text.split("{").length - text.split("}").length;
}

// Mends the bad games of a conversion, in their order.
export class Mender {
  // `module` is another one than that of the conversion, and `fixes` are those to try.
  constructor(module, fixes, missingResult) {
    this.reader = new TextReader(module);
    this.fixes = fixes;
    this.missingResult = missingResult;
    this.edits = [];
    // how many games have edits, and how many are still bad after them
    this.mended = this.left = 0;
  }

  // Finds the edits of the bad game that a conversion is at, in a file with this index.
  mend(conversion, index, place) {
    const bytes = conversion.fileBytes();
    const isMark = startsWithByteOrderMark(bytes, place);
    const found = endOfBadGame(
      conversion.module, conversion.text, conversion.length, conversion.from, place);
    const end = found === null ? bytes.length : found;
    const stop = isMark ? Math.max(end, place + BYTE_ORDER_MARK_SIZE) : end;
    const first = conversion.from + bytes.subarray(conversion.from).findIndex(isNoSpace);
    // a byte order mark and a % mean something else at the start of a text
    const begin = first && first - 1;
    const given = latin1(bytes.subarray(begin, stop));
    // no pattern takes it for the blank of a line
    const text = first ? given.replace(/^[^\t-\r ]/, "\v") : given;
    const mending = new Mending(
      text, this.fixes, this.reader, this.missingResult, this.around(bytes, first, end));
    mending.run();
    const isKept =
      mending.isSound || mending.endsAsBefore(bytes.subarray(end, end + TEXT_AROUND));
    for (const edit of isKept ? mending.edits : []) {
      const offset = begin + edit.start;
      this.edits.push({
        index, offset, file: conversion.name, line: conversion.lineOf(offset),
        column: lineAround(bytes, offset, COLUMN_WIDTH).column, name: edit.name,
        old: bytes.slice(offset, begin + edit.stop), text: bytesOf(edit.text),
      });
    }
    this.mended += isKept && mending.edits.length ? 1 : 0;
    this.left += mending.isSound ? 0 : 1;
  }

  // What is around a bad game that begins and ends at these places.
  around(bytes, begin, end) {
    const before = latin1(bytes.subarray(Math.max(begin - TEXT_AROUND, 0), begin));
    const space = /[\t-\r ]*$/.exec(before)[0];
    return {
      isFirst: space.length === begin, isLast: end === bytes.length,
      isApart: this.fixes.emptyLine.test(space),
    };
  }
}
