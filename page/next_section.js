// Where a bad game ends, by guess: before the next line that begins a tag section. The rule is that
// of bin/gillspoon: both call the library.
import { startsWithByteOrderMark } from "./text.js";

const MARK_SIZE = 3;

// The place where a bad game ends that begins at a place of a text in the module's memory, or null:
// with the text.
export function endOfBadGame(module, text, length, begin, fault) {
  const place = module.nextSection(text, length, begin, fault);
  const end = place - MARK_SIZE;
  // a byte order mark at the end is passed
  const isMark = place !== null && end >= begin &&
    startsWithByteOrderMark(module.bytes, text + end);
  return isMark ? end : place;
}
