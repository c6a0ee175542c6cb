// The worker: goes through the games of the files, and answers what the page asks about them.
//
// It works for short times and looks for messages between them. So the page can stop it, and shows
// how far it is.
import { OutOfMemory, loadModule } from "./module.js";
import { Conversion } from "./conversion.js";
import { Fixes } from "./fixes.js";
import { Mender } from "./mending.js";
import { printable } from "./text.js";

const WORK_MILLISECONDS = 50;
// So much of a file is read at a time.
const PART = 1 << 22;
// So many faults are reported in full; of more the page shows the number alone.
const MOST_FAULTS = 500;
// Of so many games the notes are reported.
const MOST_NOTES = 100;

let conversion = null;
// takes the bad games, in a worker that looks for edits alone
let mender = null;
let files = [];
let fileIndex = 0;
let isStopped = false;
let goesOnByItself = false;
// a line for each fault, as gillspoon lint has it
let faultLines = [];
let workTime = 0;
// the part of the file that is being read, and the reading of the whole
let part = null;
let wholeFile = null;
// takes the page's answer with that part
let takePart = null;

// Lets messages come in. A channel has no least delay, as setTimeout has.
const channel = new MessageChannel();
function otherTasks() {
  return new Promise((resolve) => {
    channel.port1.onmessage = resolve;
    channel.port2.postMessage(null);
  });
}

function report(kind, more) {
  postMessage({
    kind, games: conversion ? conversion.games : 0, plies: conversion ? conversion.allPlies : 0,
    bad: conversion ? conversion.bad.length : 0, ...more,
  });
}

const ANSWERS = {
  async begin(message) {
    files = message.files;
    const begin = performance.now();
    const data = JSON.parse(message.fixes);
    const module = await loadModule(message.module);
    conversion = new Conversion(module, message.options, new Fixes(data, module));
    if (message.mends) {
      const other = await loadModule(message.module);
      mender = new Mender(
        other, new Fixes(data, other, message.mends.others), message.options.missingResult);
    }
    await nextFile(begin);
  },

  part(message) {
    takePart(message);
  },

  stop() {
    isStopped = true;
  },

  async goOn(message) {
    isStopped = false;
    goesOnByItself = message.every;
    const begin = performance.now();
    conversion.goOn(conversion.lastFault.end);
    await convert(begin);
  },

  rows(message) {
    report("rows", { first: message.first, rows: conversion.rows(message.first, message.count) });
  },

  game(message) {
    report("game", { row: conversion.row(message.index), bytes: conversion.game(message.index) });
  },

  head(message) {
    report("head", { bytes: conversion.head(message.most) });
  },

  exported() {
    conversion.move();
    report("exported", { blob: new Blob(conversion.chunks, { type: "application/x-chess-pgn" }) });
  },

  faultList() {
    report("faultList", { blob: new Blob(faultLines, { type: "text/plain" }) });
  },

  badGames() {
    report("badGames", { blob: new Blob(conversion.bad, { type: "application/x-chess-pgn" }) });
  },
};

onmessage = async (event) => {
  try {
    await ANSWERS[event.data.kind](event.data);
  } catch (error) {
    const isMemory = error instanceof OutOfMemory || error instanceof RangeError;
    report("failed", {
      reason: isMemory ? "memory" : error.reason || "other",
      file: conversion && conversion.name, text: String(error && error.message || error),
    });
  }
};

async function nextFile(begin) {
  const file = files.shift();
  if (!file) {
    end("done", begin);
    return;
  }
  fileIndex = file.index;
  conversion.beginFile(file.name, file.size);
  wholeFile = readFile(file);
  // a part that cannot be read is met where the conversion waits for it
  wholeFile.catch(() => {});
  await convert(begin);
}

// Reads a file into the module's memory, while its games are converted.
async function readFile(file) {
  for (let at = 0; at < file.size && !isStopped; at += PART) {
    part = readPart(file.index, at, at + PART);
    conversion.fill(at, new Uint8Array(await part));
  }
}

// Lets the page read a part of a file. A file that has changed since it was chosen cannot be read.
function readPart(index, begin, end) {
  return new Promise((resolve, reject) => {
    takePart = ({ bytes, reason }) =>
      bytes ? resolve(bytes) : reject(Object.assign(new Error(), { reason }));
    postMessage({ kind: "read", index, begin, end });
  });
}

async function convert(begin) {
  for (let until = 0; ;) {
    if (performance.now() >= until) {
      report("progress", {
        file: conversion.name, done: conversion.from, length: conversion.length,
      });
      await otherTasks();
      until = performance.now() + WORK_MILLISECONDS;
    }
    const state = isStopped ? "stopped" : conversion.convertUntil(until);
    if (state === "end") {
      await nextFile(begin);
      return;
    }
    if (state === "stopped" || state === "fault" && !await goesOnAfterFault()) {
      end(isStopped ? "stopped" : "refused", begin);
      return;
    }
    if (state === "wait") {
      await part;
    }
  }
}

// Takes the fault when its whole file is read. True if the conversion goes on by itself.
async function goesOnAfterFault() {
  await wholeFile;
  return !isStopped && takeFault();
}

function takeFault() {
  if (mender) {
    const place = conversion.module.field("pgn_game", "place");
    const end = conversion.endOfBadGame(place);
    mender.mend(conversion, fileIndex, place);
    conversion.goOn(end);
    return true;
  }
  conversion.lastFault = conversion.fault();
  faultLines.push(lineOfFault(conversion.lastFault));
  if (faultLines.length <= MOST_FAULTS) {
    report("fault", { fault: conversion.withDetails(conversion.lastFault) });
  }
  if (goesOnByItself) {
    conversion.goOn(conversion.lastFault.end);
  }
  return goesOnByItself;
}

// The line of a fault, as gillspoon lint writes it.
function lineOfFault({ file, line, column, reason, note, game, tags }) {
  const names = ["White", "Black"].map((it) => tags[it] === undefined ? "?" : tags[it]);
  return printable(file + ":" + line + ":" + column + ": " + reason + (note ? ": " + note : "") +
    " (game " + game + ", " + names.join(" – ") + ")") + "\n";
}

function end(kind, begin) {
  conversion.move();
  workTime += performance.now() - begin;
  if (mender) {
    const { edits, mended, left } = mender;
    report("mended", { edits, mended, left });
    return;
  }
  report(kind, {
    exportLength: conversion.exportLength, milliseconds: workTime,
    place: conversion.from, file: conversion.name, waiting: files.length,
    faults: faultLines.length, noted: conversion.forfeits.length,
    notes: conversion.forfeits.slice(0, MOST_NOTES).map((index) => conversion.row(index)),
    withoutGames: conversion.withoutGames,
  });
  isStopped = false;
}
