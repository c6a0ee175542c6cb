// The page: takes files or pasted games, lets a worker convert them, and shows what it answers.
import { MISSING_RESULTS, MODES, loadModule } from "./module.js";
import { decodedLines } from "./text.js";
import { kindOf } from "./kinds.js";
import { TooLarge, canUnpack, unpacked } from "./unpack.js";
import { reasonOfRead, whyItFailed } from "./failures.js";
import { PastedGames } from "./pasted.js";
import { FaultList } from "./fault_list.js";
import { PositionFields } from "./position.js";
import { GameList } from "./game_list.js";
import { EditList } from "./edit_list.js";
import { showNotes } from "./notes.js";
import { NO_MARKER } from "./fixes.js";
import { GameBoard } from "./game_board.js";
import { byId, counted, goByKeys, item } from "./elements.js";

// So much of an export is shown as text; all of it can be downloaded.
const MOST_SHOWN = 100000;
const MEGABYTE = 1e6;
// So many files are named.
const MOST_NAMES = 5;

function plies(count) {
  return count.toLocaleString("en") + (count === 1 ? " ply" : " plies");
}

function megabytes(bytes) {
  return (bytes / MEGABYTE).toFixed(1) + " MB";
}

function bytesOfBlock(id) {
  return Uint8Array.from(atob(byId(id).textContent), (it) => it.charCodeAt(0));
}

class Page {
  constructor(moduleBytes, module) {
    this.moduleBytes = moduleBytes;
    this.gameBoard = new GameBoard(module);
    const script = new Blob([byId("worker").textContent], { type: "text/javascript" });
    this.workerAddress = URL.createObjectURL(script);
    this.worker = null;
    this.mender = null;
    // the files whose first bytes were read, and what was made of them
    this.wereRead = new WeakSet();
    this.list = new GameList((message) => this.worker.postMessage(message));
    this.edits = new EditList();
    this.pasted = new PastedGames((isByKey) => this.beginPasted(isByKey));
    this.faults = new FaultList(this.pasted, (offer) => this.take(offer));
    this.listen();
  }

  listen() {
    byId("open").addEventListener("click", () => byId("files").click());
    byId("files").addEventListener("change", (event) => {
      this.choose(Array.from(event.target.files));
      // the browser says nothing of the same file that is chosen again, unless the field is empty
      event.target.value = "";
    });
    byId("stop").addEventListener("click", () => this.stop());
    byId("go-on-once").addEventListener("click", () => this.goOn(false));
    byId("go-on-always").addEventListener("click", () => this.goOn(true));
    byId("mend").addEventListener("click", () => this.mend([]));
    byId("apply").addEventListener("click", () => this.applyEdits());
    byId("download").addEventListener("click", () => this.ask("exported", "download"));
    byId("copy").addEventListener("click", () => this.ask("exported", "copy"));
    byId("download-bad").addEventListener("click", () => this.ask("badGames", "download"));
    byId("download-faults").addEventListener("click", () => this.ask("faultList", "download"));
    for (const id of ["mode", "missing"]) {
      byId(id).addEventListener("change", () => this.again(false));
    }
    for (const id of ["other-faults", "notes-list", "list"]) {
      goByKeys(byId(id));
    }
    this.listenToDrops();
  }

  listenToDrops() {
    const mark = (isOver) => byId("drop").classList.toggle("over", isOver);
    // text that is dragged goes where the browser puts it
    const hasFiles = (event) => Array.from(event.dataTransfer.types).includes("Files");
    document.addEventListener("dragover", (event) => {
      if (hasFiles(event)) {
        event.preventDefault();
        mark(true);
      }
    });
    document.addEventListener("dragleave", () => mark(false));
    document.addEventListener("drop", (event) => {
      mark(false);
      if (hasFiles(event)) {
        event.preventDefault();
        this.choose(Array.from(event.dataTransfer.files));
      }
    });
  }

  beginPasted(isByKey) {
    this.begin({ files: [this.pasted.file()], pasted: byId("paste").value, staysInField: isByKey });
  }

  // Converts the files that a person has chosen, but for those that are no text of games.
  async choose(files) {
    if (!files.length) {
      return;
    }
    this.endWorkers();
    this.chosen = files;
    const looked = await Promise.all(files.map((it) => this.look(it, files)));
    // other files may have been chosen, or games pasted, while these were looked at
    if (this.chosen === files) {
      this.begin({
        files: looked.filter((it) => typeof it !== "string"),
        leftOut: looked.filter((it) => typeof it === "string"),
      });
    }
  }

  // A chosen file, or what comes out if it is compressed with gzip. Or sentences about it, if it is
  // no text of games.
  async look(file, files) {
    let kind;
    try {
      kind = await kindOf(file);
    } catch (error) {
      // the conversion meets it too, and says so
      return file;
    }
    this.wereRead.add(file);
    return kind.isGzip && canUnpack() ? this.unpack(file, files) : kind.sentences || file;
  }

  async unpack(file, files) {
    if (this.chosen === files) {
      this.showWork(true);
    }
    try {
      return await unpacked(file, (size) => {
        if (this.chosen !== files) {
          throw new Error("other files were chosen");
        }
        byId("work-text").textContent =
          "Unpacking " + file.name + ": " + megabytes(size) + " so far.";
      });
    } catch (error) {
      const reason = error instanceof TooLarge ? "memory" : error instanceof TypeError ? "packed"
        : reasonOfRead(error.name, true);
      return whyItFailed({ reason, file: file.name });
    }
  }

  stop() {
    if (this.chosen) {
      // they are being unpacked
      this.chosen = null;
      this.failed({ reason: "none" });
    } else {
      this.worker.postMessage({ kind: "stop" });
    }
  }

  // Converts the same files with other options.
  again(movesFocus) {
    if (this.job) {
      this.begin({ ...this.job, staysInField: false }, movesFocus);
    }
  }

  // Begins a job: `files`, in which so many edits were `applied`, sentences about those that were
  // `leftOut`, and the text if it was `pasted`.
  begin(job, movesFocus = true) {
    this.job = { applied: 0, leftOut: [], pasted: null, ...job };
    this.files = this.job.files;
    this.chosen = null;
    this.faults.begin();
    this.pasted.begin(this.job.pasted);
    this.endWorkers();
    this.showWork(movesFocus);
    this.showChosen();
    if (this.files.length) {
      this.worker = this.startWorker(this, {});
    } else {
      this.failed({ reason: "none" });
    }
  }

  endWorkers() {
    for (const worker of [this.worker, this.mender]) {
      if (worker) {
        worker.terminate();
      }
    }
    this.mender = null;
  }

  showChosen() {
    const names = this.files.slice(0, MOST_NAMES).map((it) => it.name);
    const more = this.files.length - names.length;
    byId("chosen").hidden = !names.length || this.job.pasted !== null;
    byId("chosen").textContent =
      "Chosen: " + names.join(", ") + (more ? " and " + counted(more, "more file") : "") + ".";
    this.showLeftOut(this.job.leftOut);
  }

  showLeftOut(sentences) {
    byId("left-out").hidden = !sentences.length;
    byId("left-out").replaceChildren(...sentences.map((it) => item(it)));
  }

  // Lets a worker go through the files. `hearer` has a function for each kind of its messages.
  startWorker(hearer, more) {
    const worker = new Worker(this.workerAddress);
    worker.onmessage = ({ data }) =>
      data.kind === "read" ? this.read(data, worker) : hearer[data.kind](data);
    worker.onerror = () => hearer.failed({ reason: "other", text: "the worker has stopped" });
    worker.postMessage({
      kind: "begin", module: this.moduleBytes,
      files: this.files.map(({ name, size }, index) => ({ index, name, size })),
      options: {
        mode: MODES[byId("mode").value], missingResult: MISSING_RESULTS[byId("missing").value],
      },
      fixes: byId("fixes").textContent,
      ...more,
    });
    return worker;
  }

  // Lets another worker look for the edits that mend the bad games of all files, by the safe fixes
  // and others of these names.
  mend(others) {
    if (this.mender) {
      this.mender.terminate();
    }
    this.edits.begin();
    this.mender = this.startWorker(this.edits, { mends: { others } });
  }

  // Puts the edits into the files, and converts them again.
  async applyEdits() {
    const { edits } = this.edits;
    const files = this.files.map((file, index) => this.edits.applied(file, index));
    files.forEach((it) => this.wereRead.add(it));
    const job = { ...this.job, files, applied: edits.length, staysInField: false };
    if (job.pasted !== null) {
      byId("paste").value = await files[0].text();
      Object.assign(job, { files: [this.pasted.file()], pasted: byId("paste").value });
    }
    this.begin(job);
  }

  goOn(every) {
    this.showWork(true);
    this.worker.postMessage({ kind: "goOn", every });
  }

  ask(kind, purpose) {
    this.purpose = purpose;
    this.worker.postMessage({ kind });
  }

  // `movesFocus`: the focus goes to the heading of what the work results in. A field of an option
  // keeps it, since the arrow keys change that.
  showWork(movesFocus) {
    byId("work").hidden = byId("stop").hidden = byId("work-bar").hidden = false;
    byId("work-bar").value = 0;
    byId("work-text").textContent = "Starting.";
    this.movesFocus = movesFocus;
    if (["result", "faults"].some((id) => byId(id).contains(document.activeElement))) {
      byId("work-title").focus();
    }
    this.focusAtBegin = document.activeElement;
    byId("result").hidden = byId("faults").hidden = byId("game").hidden = true;
    byId("mending").hidden = true;
  }

  // Moves the focus to a heading, unless the person has moved it since the work began.
  focusOn(id) {
    const at = document.activeElement;
    const isWhereItWas = at === document.body || at === this.focusAtBegin;
    if (this.movesFocus && (isWhereItWas || byId("work").contains(at))) {
      byId(id).focus();
    }
  }

  // ---- What the worker reports

  // Reads a part of a file for the worker. Not every browser lets the worker of a page that is on a
  // disk read the files of that page.
  async read({ index, begin, end }, worker) {
    const file = this.files[index];
    try {
      const bytes = await file.slice(begin, end).arrayBuffer();
      worker.postMessage({ kind: "part", bytes }, [bytes]);
    } catch (error) {
      const reason = reasonOfRead(error.name, this.wereRead.has(file));
      worker.postMessage({ kind: "part", reason });
    }
  }

  progress({ file, done, length, games, bad }) {
    byId("work-bar").value = length ? done / length : 1;
    byId("work-text").textContent =
      "Converting " + file + ": " + megabytes(done) + " of " + megabytes(length) + ", " + counted(games, "game") + (bad ? ", " + bad + " bad" : "") + ".";
  }

  fault({ fault }) {
    this.faults.add(fault);
  }

  done(state) {
    this.showEnd(state, "Done");
    this.focusOn("result-title");
  }

  stopped(state) {
    const place = state.place.toLocaleString("en");
    this.showEnd(state, "Stopped at byte " + place + " of " + state.file);
    this.focusOn("result-title");
  }

  refused(state) {
    this.showEnd(state, "Stopped at a fault");
    if (this.job.staysInField && document.activeElement === byId("paste")) {
      this.pasted.show();
    } else {
      this.focusOn("faults-title");
    }
  }

  showEnd(state, what) {
    this.state = state;
    byId("stop").hidden = byId("work-bar").hidden = true;
    byId("work-text").textContent = what + ", after " +
      (state.milliseconds / 1000).toFixed(1) + " s" +
      (state.waiting ? "; " + counted(state.waiting, "file") + " not read yet." : ".") +
      (this.job.applied ? " " + counted(this.job.applied, "edit") + " applied." : "");
    byId("result").hidden = false;
    byId("counts").textContent = counted(state.games, "game") + ", " + plies(state.plies) +
      (state.bad ? "; " + counted(state.bad, "bad game") + " set aside" : "") + ".";
    byId("download").disabled = byId("copy").disabled = !state.exportLength;
    byId("download-bad").hidden = !state.bad;
    byId("copied").textContent = "";
    byId("work").dataset.state = state.kind;
    this.showLeftOut([...this.job.leftOut, ...state.withoutGames.map(
      (name) => (this.job.pasted === null ? name : "The text") + " has no game.")]);
    this.faults.show(state.faults, state.kind === "refused");
    const hasFiles = this.files.length > 1;
    showNotes(state.noted, state.notes, hasFiles, (index) =>
      this.list.ask({ kind: "game", index }));
    this.list.begin(state.games, hasFiles);
    this.worker.postMessage({ kind: "head", most: MOST_SHOWN });
  }

  // Takes what the advice offers: looks for edits, or converts again with an option.
  take(offer) {
    if (offer === "results") {
      this.mend([NO_MARKER]);
      return;
    }
    byId(offer === "full" ? "mode" : "missing").value = offer;
    this.again(true);
  }

  head({ bytes }) {
    const rest = this.state.exportLength - bytes.length;
    byId("export").textContent = decodedLines(bytes);
    byId("export-note").textContent = rest
      ? "The first " + megabytes(bytes.length) + " of " + megabytes(this.state.exportLength) +
        ". The download has all."
      : this.state.exportLength ? "" : "No game was converted.";
    byId("work").dataset.shown = this.state.kind;
  }

  rows(answer) {
    this.list.show(answer);
  }

  game({ row, bytes }) {
    this.list.open(row, decodedLines(bytes));
    this.gameBoard.open(bytes);
  }

  async exported({ blob }) {
    if (this.purpose === "download") {
      this.download(blob, this.outputName("export"));
      return;
    }
    try {
      const text = decodedLines(new Uint8Array(await blob.arrayBuffer()));
      await navigator.clipboard.writeText(text);
      byId("copied").textContent = "Copied as text. The download has the exact bytes.";
    } catch (error) {
      byId("copied").textContent = "The browser does not let the page copy. Use the download.";
    }
  }

  badGames({ blob }) {
    this.download(blob, this.outputName("bad"));
  }

  faultList({ blob }) {
    this.download(blob, this.outputName("faults", "txt"));
  }

  outputName(what, kind = "pgn") {
    const name = this.files.length === 1
      ? this.files[0].name.replace(/(\.[^.]*)?\.gz$|\.[^.]*$/, "") : "games";
    return name.replace(/[^\w-]+/g, "-") + "." + what + "." + kind;
  }

  download(blob, name) {
    const link = document.createElement("a");
    link.href = URL.createObjectURL(blob);
    link.download = name;
    link.click();
    setTimeout(() => URL.revokeObjectURL(link.href), 60000);
  }

  failed(failure) {
    byId("stop").hidden = byId("work-bar").hidden = true;
    byId("work").dataset.state = byId("work").dataset.shown = "failed";
    byId("work-text").textContent = whyItFailed(failure);
    this.focusOn("work-title");
  }
}

async function start() {
  if (!window.canRun) {
    return;
  }
  let module = null;
  const bytes = bytesOfBlock("module");
  try {
    module = await loadModule(bytes);
    // a browser may have both and not pass the one to the other
    module.normalizeFen(new Uint8Array(0));
  } catch (error) {
    window.cannotRun("its WebAssembly does not take this module (" + error.message + ").");
    return;
  }
  new PositionFields(module);
  new Page(bytes, module);
  document.documentElement.dataset.state = "ready";
}

start();
