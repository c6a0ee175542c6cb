// The conversion of files, a game a call, and what it keeps: the export text, and where each game
// is in it. It runs in a worker.
import { FAULT, FULL, MORE, NO_GAME, OK } from "./module.js";
import {
  decoded, encoded, isAscii, latin1, latin1Bytes, lineAround, lineBegin, lineEnds,
  startsWithByteOrderMark, symbolAt,
} from "./text.js";
import { endOfBadGame } from "./next_section.js";
import { spellings } from "./spellings.js";
import { noteOnResult, terminationsIn } from "./forfeits.js";

// The room for export text in the module's memory, from where it is moved into a chunk of its own.
const ROOM = 1 << 22;
// How much of the game at fault is read for its tag pairs: a little first, and more at most.
const TAGS_SIZE = 1 << 16;
const SHORT_TAGS_SIZE = 1 << 10;
// A line with a tag pair, and one that begins with a move number.
const TAG_LINE =
  /^[ \t]*\[[ \t]*(White|Black|Event|Result)[ \t]+"((?:[^"\\\r\n]|\\["\\]?)*)/gm;
const NUMBERED_LINE = /^[ \t]*[0-9]+[ \t]*\./m;
// So much of a tag's value is looked at.
const VALUE_SIZE = 1 << 10;
const LINE_WIDTH = 76;
const UNCLOSED_COMMENT = 12;
const BAD_RESULT = 25;
const TAG_IN_MOVETEXT = 32;
const OPENING_BRACE = 123;
const CLOSING_BRACE = 125;

// The index of the last of some places, in order, that is not behind a place.
function lastUpTo(places, place) {
  let low = 0;
  let high = places.length;
  while (high - low > 1) {
    const middle = (low + high) >> 1;
    if (places[middle] <= place) {
      low = middle;
    } else {
      high = middle;
    }
  }
  return low;
}

// Whether a text is white space and one byte order mark at most, as joined files have it between
// them: that is no game.
function isMarkAlone(bytes) {
  const first = bytes.findIndex((it) => it !== 32 && (it < 9 || it > 13));
  return first < 0 || startsWithByteOrderMark(bytes, first) && first + 3 === bytes.length;
}

export class Conversion {
  constructor(module, options, fixes) {
    this.module = module;
    this.options = options;
    // what reads the tags of a bad game
    this.fixes = fixes;
    this.chunks = [];
    this.chunkStarts = [];
    // how much of the export text is in the chunks, and how much is still in the module's memory
    this.moved = 0;
    this.used = 0;
    // of each game: where its export text begins, its number in its file, and its plies
    this.starts = [];
    this.numbers = [];
    this.plies = [];
    // of each file: its name, and the index of its first game
    this.fileNames = [];
    this.fileStarts = [];
    // the names of the files that have neither a game nor a bad one
    this.withoutGames = [];
    this.allPlies = 0;
    this.bad = [];
    // the games whose Termination names a forfeit in other words than the standard's
    this.forfeits = [];
  }

  get games() {
    return this.starts.length;
  }

  get exportLength() {
    return this.moved + this.used;
  }

  // Gets the room for a file of this length, whose bytes `fill` may then put into the memory.
  beginFile(name, length) {
    this.move();
    this.name = name;
    this.fileNames.push(name);
    this.fileStarts.push(this.games);
    this.length = length;
    this.text = this.module.free;
    this.buffer = this.text + length;
    this.capacity = ROOM;
    this.used = 0;
    this.from = 0;
    // how many bytes are there, and how many there have to be before the next call
    this.known = this.wanted = 0;
    this.inFile = 0;
    this.lineAt = { place: 0, ends: 0 };
    this.module.reserve(this.buffer + this.capacity);
  }

  fill(at, bytes) {
    this.module.bytes.set(bytes, this.text + at);
    this.known = at + bytes.length;
  }

  // The bytes of the file. They are another array after the memory has grown.
  fileBytes() {
    return this.module.bytes.subarray(this.text, this.text + this.length);
  }

  // Converts games until a time: "more" are to come, the file is at its "end", there is a "fault",
  // or it has to "wait" for more bytes of the file.
  convertUntil(time) {
    while (this.known >= this.wanted) {
      const status = this.module.nextGame(
        this.text, this.known, this.from, this.options,
        this.buffer + this.used, this.capacity - this.used);
      if (this.needsMore(status)) {
        // twice as much of the game, so that a long one is not read many times
        this.wanted = Math.min(this.length, 2 * this.known - this.from + 1);
      } else if (status === OK) {
        this.takeGame();
      } else if (status === FULL) {
        this.makeRoom();
      } else if (status === NO_GAME) {
        this.endFile();
        return "end";
      } else if (status === FAULT || status === MORE) {
        return "fault";
      } else {
        throw new Error("the module answers " + status);
      }
      if (performance.now() > time) {
        return "more";
      }
    }
    return "wait";
  }

  endFile() {
    this.from = this.length;
    this.move();
    if (!this.inFile) {
      this.withoutGames.push(this.name);
    }
  }

  // Whether more bytes of the file could change the answer.
  needsMore(status) {
    return this.known < this.length && (status === NO_GAME || status === MORE ||
      status === OK && this.module.field("pgn_game", "end") === this.known);
  }

  takeGame() {
    const read = (name) => this.module.field("pgn_game", name);
    this.starts.push(this.exportLength);
    this.used += read("written");
    this.plies.push(read("plies"));
    this.allPlies += read("plies");
    this.from = read("end");
    this.numbers.push(++this.inFile);
  }

  makeRoom() {
    if (this.used === 0) {
      this.capacity *= 2;
      this.module.reserve(this.buffer + this.capacity);
    }
    this.move();
  }

  // Moves the export text from the module's memory into a chunk.
  move() {
    if (this.used) {
      const chunk = this.module.bytes.slice(this.buffer, this.buffer + this.used);
      this.noteForfeits(chunk, this.moved);
      this.chunkStarts.push(this.moved);
      this.chunks.push(chunk);
      this.moved += this.used;
    }
    this.used = 0;
  }

  // Notes the games of a chunk of the export text that tell of a forfeit in other words. A chunk
  // has whole games.
  noteForfeits(chunk, begin) {
    for (const at of terminationsIn(chunk)) {
      const index = lastUpTo(this.starts, begin + at);
      const start = this.starts[index] - begin;
      // an empty line ends the tags
      if (!latin1(chunk.subarray(start, at)).includes("\n\n")) {
        this.forfeits.push(index);
      }
    }
  }

  // What the list of faults has of the fault that the last call has answered.
  fault() {
    const { module } = this;
    const bytes = this.fileBytes();
    const number = module.field("pgn_game", "fault");
    const place = module.field("pgn_game", "place");
    const message = module.textField("pgn_game", "message");
    const fen = module.textField("pgn_game", "fen");
    const reason = message.slice(module.field("pgn_game", "reason_at"));
    const end = this.endOfBadGame(place);
    const tags = this.tagsOfGame(bytes, end);
    return {
      file: this.name, number, place, end, reason, fen, line: this.lineOf(place),
      game: this.inFile + 1, tags,
      note: number === BAD_RESULT
        ? noteOnResult(latin1(bytes.subarray(place, place + VALUE_SIZE))) : "",
      ...lineAround(bytes, place, LINE_WIDTH),
    };
  }

  // The same with all that the page shows of a fault.
  withDetails(fault) {
    const { number, place, fen, tags } = fault;
    const bytes = this.fileBytes();
    const symbol = symbolAt(bytes, place);
    return {
      ...fault, symbol, hasResult: "Result" in tags, isAtEnd: place === this.length,
      near: latin1(bytes.subarray(place, place + 4)),
      openedLine: number === UNCLOSED_COMMENT ? this.lineOf(this.openBrace(bytes)) : 0,
      hasMovetext: number === TAG_IN_MOVETEXT &&
        this.fixes.hasMovetext(latin1(bytes.subarray(this.from, place))),
      ...(fen ? this.explanation(fen, symbol) : {}),
    };
  }

  // The brace that opens the comment which the text ends in, by guess: the first one behind the
  // last closing brace.
  openBrace(bytes) {
    let open = bytes.length;
    for (let at = bytes.length - 1; at >= this.from && bytes[at] !== CLOSING_BRACE; at--) {
      open = bytes[at] === OPENING_BRACE ? at : open;
    }
    return open;
  }

  // What the refused text means in its position, and the SAN of each move that it may mean.
  explanation(fen, symbol) {
    const position = encoded(fen);
    const explanation = this.module.explain(position, encoded(symbol));
    return { explanation, spellings: spellings(this.module, position, explanation, symbol) };
  }

  lineOf(place) {
    const bytes = this.fileBytes();
    const begin = lineBegin(bytes, place);
    const from = this.lineAt.place <= begin ? this.lineAt : { place: 0, ends: 0 };
    this.lineAt = { place: begin, ends: from.ends + lineEnds(bytes, from.place, begin) };
    return this.lineAt.ends + 1;
  }

  // Where the bad game ends that has its fault at a place.
  endOfBadGame(place) {
    const end = endOfBadGame(this.module, this.text, this.length, this.from, place);
    return end === null ? this.length : end;
  }

  // What a bad game up to `end` has before its moves have numbers.
  headOfGame(bytes, end) {
    for (let size = SHORT_TAGS_SIZE; ; size *= 8) {
      const stop = Math.min(end, this.from + size);
      const text = latin1(bytes.subarray(this.from, stop));
      const movetext = text.search(NUMBERED_LINE);
      if (movetext >= 0) {
        return text.slice(0, movetext);
      }
      if (stop === end || size >= TAGS_SIZE) {
        return text;
      }
    }
  }

  // White, Black, Event and Result of the bad game up to `end`, as far as its lines have them.
  tagsOfGame(bytes, end) {
    const tags = {};
    for (const found of this.headOfGame(bytes, end).matchAll(TAG_LINE)) {
      const value = found[2].replace(/\\(["\\])/g, "$1");
      if (!(found[1] in tags)) {
        tags[found[1]] = isAscii(value) ? value : decoded(latin1Bytes(value));
      }
    }
    return tags;
  }

  // Sets aside the bad game up to `end`, and goes on behind it.
  goOn(end) {
    const bytes = this.fileBytes();
    const part = bytes.slice(this.from, end);
    this.from = startsWithByteOrderMark(bytes, end) ? end + 3 : end;
    if (!isMarkAlone(part)) {
      this.bad.push(part);
      this.inFile++;
    }
  }

  // The bytes of the export text between two places.
  exported(begin, end) {
    this.move();
    const text = new Uint8Array(end - begin);
    let at = 0;
    for (let index = lastUpTo(this.chunkStarts, begin); at < text.length; index++) {
      const chunk = this.chunks[index];
      const from = begin + at - this.chunkStarts[index];
      const part = chunk.subarray(from, Math.min(chunk.length, end - this.chunkStarts[index]));
      text.set(part, at);
      at += part.length;
    }
    return text;
  }

  // The first games of the export text, of at most so many bytes, but one game at least.
  head(most) {
    if (this.exportLength <= most || this.games < 2) {
      return this.exported(0, this.exportLength);
    }
    let end = this.starts[1];
    for (let index = 2; index < this.games && this.starts[index] <= most; index++) {
      end = this.starts[index];
    }
    return this.exported(0, end);
  }

  game(index) {
    const end = index + 1 < this.games ? this.starts[index + 1] : this.exportLength;
    return this.exported(this.starts[index], end);
  }

  // File, number, plies and tags of some games.
  rows(first, count) {
    const rows = [];
    for (let index = first; index < Math.min(first + count, this.games); index++) {
      rows.push(this.row(index));
    }
    return rows;
  }

  // File, number, plies and tags of a game.
  row(index) {
    const row = {};
    for (const [name, value] of this.module.tags(this.game(index))) {
      row[latin1(name)] = decoded(value).replace(/\\(["\\])/g, "$1");
    }
    // a tag may have one of these names
    const fileIndex = lastUpTo(this.fileStarts, index);
    return Object.assign(row, {
      index, fileIndex, file: this.fileNames[fileIndex], number: this.numbers[index],
      plies: this.plies[index],
    });
  }
}
