// The proved module as functions on bytes: crates/pgn_c/pgn.h says what each call does.
//
// The memory has addresses below 2^32. There are two kinds of module:
//
// - The proved one was built for 64-bit memory and then lowered to 32 bits. Its calls still take
//   64-bit integers, which are BigInt here, and a size_t has eight bytes.
// - Cargo builds for 32-bit memory. The calls of its module take numbers, and a size_t has four.

import { decodedLines, latin1 } from "./text.js";

// The structs of pgn.h.
export const STRUCTS = {
  pgn_text: [["status", "uint32_t"], ["field", "uint32_t"], ["length", "size_t"]],
  pgn_move: [
    ["status", "uint32_t"], ["fault", "uint32_t"], ["field", "uint32_t"],
    ["san", "uint8_t", 8], ["uci", "uint8_t", 8], ["fen", "uint8_t", 96],
  ],
  pgn_game: [
    ["status", "uint32_t"], ["fault", "uint32_t"], ["place", "uint64_t"], ["written", "size_t"],
    ["end", "size_t"], ["marker_at", "size_t"], ["plies", "uint64_t"], ["reason_at", "size_t"],
    ["marker", "uint32_t"], ["message", "uint8_t", 104], ["fen", "uint8_t", 96],
  ],
  pgn_item_lines: [
    ["status", "uint32_t"], ["fault", "uint32_t"], ["place", "uint64_t"], ["written", "size_t"],
    ["next_item", "uint64_t"], ["end", "size_t"], ["reason_at", "size_t"],
    ["message", "uint8_t", 104],
  ],
  pgn_tag: [
    ["status", "uint32_t"], ["name_at", "size_t"], ["name_length", "size_t"],
    ["value_at", "size_t"], ["value_length", "size_t"], ["next", "size_t"],
  ],
  pgn_bad_game: [
    ["begin", "size_t"], ["fault", "size_t"], ["at", "size_t"], ["comment_at", "size_t"],
    ["escapes_at", "size_t"], ["ends", "uint32_t"], ["has_tags", "uint32_t"],
    ["has_movetext", "uint32_t"], ["is_behind_text", "uint32_t"], ["has_comment", "uint32_t"],
    ["has_escapes", "uint32_t"],
  ],
  pgn_section: [["status", "uint32_t"], ["place", "size_t"]],
  pgn_explanation: [
    ["status", "uint32_t"], ["fault", "uint32_t"], ["field", "uint32_t"], ["form", "uint32_t"],
    ["piece", "uint32_t"], ["target", "uint32_t"], ["origins", "uint8_t", 64],
  ],
};

// What the `status` of a result says.
export const OK = 0;
export const FAULT = 1;
export const FULL = 2;
export const NO_GAME = 4;
export const MORE = 5;

// The two modes, and what a missing Result counts as: options of nextGame.
export const MODES = { full: 0, reduced: 1 };
export const MISSING_RESULTS = { unknown: 0, fromMarker: 1 };

// The notations of moves: as a PGN has them, and as engines have them.
export const SAN = 0;
export const UCI = 1;

const SIZES = { uint8_t: 1, uint32_t: 4, uint64_t: 8 };
// The results of calls are written at the begin of the free memory. None is longer.
const RESULT_SIZE = 512;
// Behind them is room for short texts: a FEN and a move, or the tag section of an export text.
const SHORT_TEXTS_SIZE = 65536;
// A pgn_bad_game is put there too.
const BAD_GAME_SIZE = 64;
const PAGE_SIZE = 65536;
// What pgn_items writes of a move: its SAN, its UCI and the FEN after it.
const ITEM_FIELDS = 1 + 2 + 4;
// The room for its first lines. Each further call has twice as much.
const ITEMS_SIZE = 65536;
// No address of 32 bits is larger. Where a size_t has 32 bits, Rust allows half of it to a text.
const MOST_PAGES = { wide: 65536, narrow: 32768 };

export class OutOfMemory extends Error {}

// Where each field of a struct is, as a C compiler puts it for a size_t of so many bytes.
function layoutOf(fields, sizeOfSize) {
  const layout = {};
  let end = 0;
  for (const [name, type, count] of fields) {
    const size = SIZES[type] || sizeOfSize;
    const at = Math.ceil(end / size) * size;
    layout[name] = { at, size, count };
    end = at + size * (count || 1);
  }
  return layout;
}

export async function loadModule(bytes) {
  const made = await WebAssembly.instantiate(bytes, {});
  return new Module(made.instance.exports);
}

export class Module {
  constructor(exported) {
    this.calls = exported;
    this.memory = exported.memory;
    // the address is of the type that the calls take
    this.isWide = typeof exported.__heap_base.value === "bigint";
    this.layouts = {};
    for (const name of Object.keys(STRUCTS)) {
      this.layouts[name] = layoutOf(STRUCTS[name], this.isWide ? 8 : 4);
    }
    this.result = Math.ceil(Number(exported.__heap_base.value) / 8) * 8;
    this.shortTexts = this.result + RESULT_SIZE;
    // From here on the caller may put what it wants.
    this.free = this.shortTexts + SHORT_TEXTS_SIZE;
    this.reserve(this.free);
  }

  // Sees to it that the addresses below `end` exist.
  reserve(end) {
    const pages = Math.ceil(end / PAGE_SIZE);
    const has = this.memory.buffer.byteLength / PAGE_SIZE;
    if (pages > has) {
      if (pages > (this.isWide ? MOST_PAGES.wide : MOST_PAGES.narrow)) {
        throw new OutOfMemory();
      }
      try {
        this.memory.grow(pages - has);
      } catch (error) {
        throw new OutOfMemory();
      }
    }
    // A memory that has grown is another buffer.
    if (!this.bytes || this.bytes.buffer !== this.memory.buffer) {
      this.bytes = new Uint8Array(this.memory.buffer);
      this.view = new DataView(this.memory.buffer);
    }
  }

  // Puts short texts side by side into their room, and answers where each is.
  put(...texts) {
    let at = this.shortTexts;
    return texts.map((text) => {
      if (at + text.length >= this.free) {
        throw new Error("a text is too long");
      }
      this.bytes.set(text, at);
      at += text.length;
      return at - text.length;
    });
  }

  // Calls a function of pgn.h, which writes its result. A number in an array is one of uint32_t, a
  // BigInt one of uint64_t, and all others are addresses and lengths.
  call(name, ...values) {
    const sized = (value) => this.isWide ? BigInt(value) : value;
    this.calls[name](
      sized(this.result), ...values.map((it) => Array.isArray(it) ? it[0] : sized(it)));
  }

  // A field of the result of the last call: a number, or bytes.
  field(struct, name) {
    const { at, size, count } = this.layouts[struct][name];
    const place = this.result + at;
    if (count) {
      return this.bytes.slice(place, place + count);
    }
    return size === 4
      ? this.view.getUint32(place, true)
      : Number(this.view.getBigUint64(place, true));
  }

  // A field that is a text, which a zero ends.
  textField(struct, name) {
    const bytes = this.field(struct, name);
    const end = bytes.indexOf(0);
    return latin1(bytes.subarray(0, end < 0 ? bytes.length : end));
  }

  normalizeFen(fen) {
    const room = 96;
    const [at, buffer] = this.put(fen, new Uint8Array(room));
    this.call("pgn_fen_normalize", at, fen.length, buffer, room);
    const length = this.field("pgn_text", "length");
    return {
      status: this.field("pgn_text", "status"),
      field: this.field("pgn_text", "field"),
      fen: latin1(this.bytes.subarray(buffer, buffer + length)),
    };
  }

  // The move that a text names in a notation.
  san(fen, text, notation = SAN) {
    const [fenAt, textAt] = this.put(fen, text);
    this.call("pgn_san", fenAt, fen.length, textAt, text.length, [notation]);
    return {
      status: this.field("pgn_move", "status"),
      fault: this.field("pgn_move", "fault"),
      field: this.field("pgn_move", "field"),
      san: this.textField("pgn_move", "san"),
      fen: this.textField("pgn_move", "fen"),
    };
  }

  // The items of a game's text in order, as the fields of their lines.
  items(game) {
    const buffer = this.free + game.length;
    const read = (name) => this.field("pgn_item_lines", name);
    let items = [];
    for (let first = 0, room = ITEMS_SIZE; ; room *= 2) {
      this.reserve(buffer + room);
      this.bytes.set(game, this.free);
      this.call(
        "pgn_items", this.free, game.length, 0, BigInt(first), [ITEM_FIELDS], buffer, room);
      const written = this.bytes.subarray(buffer, buffer + read("written"));
      const lines = decodedLines(written).split("\n").slice(0, -1);
      items = items.concat(lines.map((it) => it.split("\t")));
      first = read("next_item");
      if (read("status") !== FULL) {
        return items;
      }
    }
  }

  explain(fen, text) {
    const [fenAt, textAt] = this.put(fen, text);
    this.call("pgn_explain", fenAt, fen.length, textAt, text.length);
    const read = (name) => this.field("pgn_explanation", name);
    return {
      status: read("status"), fault: read("fault"), form: read("form"),
      piece: String.fromCharCode(read("piece")), target: read("target"), origins: read("origins"),
    };
  }

  // The tag pairs of a game's export text: names and values as bytes, the values with their
  // backslashes.
  tags(game) {
    const text = game.subarray(0, SHORT_TEXTS_SIZE - 1);
    const pairs = [];
    const read = (name) => this.field("pgn_tag", name);
    const [address] = this.put(text);
    for (let at = 0; ; at = read("next")) {
      this.call("pgn_tag_at", address, text.length, at);
      if (read("status") !== OK) {
        return pairs;
      }
      const part = (from, length) => text.subarray(read(from), read(from) + read(length));
      pairs.push([part("name_at", "name_length"), part("value_at", "value_length")]);
    }
  }

  // Where reading goes on behind the bad game that begins at a place of a text in the memory, or
  // null: not in this text.
  nextSection(text, length, begin, fault) {
    const [game] = this.put(new Uint8Array(BAD_GAME_SIZE));
    for (const [name, place] of [["begin", begin], ["fault", fault], ["at", begin]]) {
      // addresses are below 2^32, and the other half of a longer field is 0
      this.view.setUint32(game + this.layouts.pgn_bad_game[name].at, place, true);
    }
    this.call("pgn_next_section", game, text + begin, length - begin, [1]);
    const isFound = this.field("pgn_section", "status") === OK;
    return isFound ? this.field("pgn_section", "place") : null;
  }

  // Converts the next game of a text in the memory. Each place counts from the text's first byte.
  nextGame(text, length, from, options, buffer, capacity) {
    this.call(
      "pgn_next_game", text, length, from, [options.mode], [options.missingResult], buffer,
      capacity);
    return this.field("pgn_game", "status");
  }
}
