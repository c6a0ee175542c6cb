// Unpacks files that are compressed with gzip, where the browser can.

// What does not fit into the memory of a page is not unpacked to its end.
const MOST_BYTES = 2 ** 32;

export class TooLarge extends Error {}

export function canUnpack() {
  return typeof DecompressionStream === "function";
}

// The file that comes out, under the same name. `passed` is called with the number of bytes so far.
export async function unpacked(file, passed) {
  let size = 0;
  const counter = new TransformStream({
    transform(bytes, controller) {
      size += bytes.length;
      if (size > MOST_BYTES) {
        throw new TooLarge();
      }
      passed(size);
      controller.enqueue(bytes);
    },
  });
  const stream = file.stream().pipeThrough(new DecompressionStream("gzip")).pipeThrough(counter);
  try {
    return new File([await new Response(stream).blob()], file.name);
  } catch (error) {
    // some browsers say only that it has failed
    throw size > MOST_BYTES ? new TooLarge() : error;
  }
}
