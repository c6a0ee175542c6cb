// Files that are no text of games, by their first bytes, and what to do with each.

const GZIP = "\u001f\u008b";
const PASTE = ", or paste the games as text.";
const UNPACK = "Unpack it and choose the PGN files in it";

function compressed(program, command) {
  return "is compressed with " + program + ". Unpack it, by " + command + ", and choose the file " +
    "that comes out. The command gillspoon fmt reads it as it is.";
}

// The first bytes of a file, one character for each, and what is said of it.
const KINDS = [
  [GZIP, compressed("gzip", "gzip -d")],
  ["BZh", compressed("bzip2", "bzip2 -d")],
  ["\u00fd7zXZ\u0000", compressed("xz", "xz -d")],
  ["\u0028\u00b5\u002f\u00fd", compressed("zstd", "zstd -d")],
  ["PK\u0003\u0004", "is a zip archive or an office document. " + UNPACK + PASTE],
  ["PK\u0005\u0006", "is an empty zip archive."],
  ["7z\u00bc\u00af\u0027\u001c", "is a 7z archive. " + UNPACK + "."],
  ["Rar!\u001a\u0007", "is a RAR archive. " + UNPACK + "."],
  ["%PDF-", "is a PDF, which has no PGN text. Choose a PGN file" + PASTE],
];
const LONGEST_MARK = 6;

// What a file is by its first bytes: whether it is compressed with gzip, and the sentences about it
// if it is no text of games, or an empty text.
export async function kindOf(file) {
  const first = new Uint8Array(await file.slice(0, LONGEST_MARK).arrayBuffer());
  const text = String.fromCharCode(...first);
  const kind = KINDS.find(([begin]) => text.startsWith(begin));
  return { isGzip: text.startsWith(GZIP), sentences: kind ? file.name + " " + kind[1] : "" };
}
