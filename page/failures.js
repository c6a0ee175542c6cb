// Why a conversion has failed, in sentences.

const SENTENCES = {
  memory: " does not fit into the memory that the browser gives to a page. Convert it in parts, " +
    "or with the program pgn_tool, which takes under 3 MiB for any size.",
  read: " cannot be read.",
  changed: " has changed since you chose it. Choose it again.",
  gone: " is no longer where it was when you chose it. Choose it again.",
  packed: " cannot be unpacked here: it is damaged, or more data follows its end. Unpack it, by " +
    "gzip -d, and choose the file that comes out.",
};

// The reason of a read that failed, by the error's name. What was read before, and is refused now,
// is not what the person chose.
export function reasonOfRead(name, wasRead) {
  return name === "NotFoundError" ? "gone" : wasRead ? "changed" : "read";
}

export function whyItFailed({ reason, file, text }) {
  if (reason === "none") {
    return "Nothing was converted.";
  }
  return reason in SENTENCES
    ? file + SENTENCES[reason] : "The conversion has failed: " + text + ".";
}
