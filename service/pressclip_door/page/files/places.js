/** Places in texts: the door counts bytes of UTF-8, the page counts characters as JavaScript does. */

const TOKEN = /"(?:\\.|[^"\\])*"?|[^\s()"]+|\S|\s+/suy;

/**
 * How many bytes of UTF-8 a character takes.
 * @param {number} code its number in Unicode
 * @returns {number}
 */
function bytesOf(code) {
  if (code < 0x80) {
    return 1;
  }
  if (code < 0x800) {
    return 2;
  }
  return code < 0x10000 ? 3 : 4;
}

/** Which index of a text stands at which byte of it. Cost: linear in the text once, and constant for each byte. */
export class ByteIndex {
  #indices;
  #bytes = 0;

  /** @param {string} text */
  constructor(text) {
    this.text = text;
    this.#indices = new Uint32Array(3 * text.length);
    let index = 0;
    for (const character of text) {
      const next = this.#bytes + bytesOf(character.codePointAt(0) ?? 0);
      this.#indices.fill(index, this.#bytes, next);
      this.#bytes = next;
      index += character.length;
    }
  }

  /**
   * The index of the character that a byte is of; the text's length behind its end.
   * @param {number} byte
   * @returns {number}
   */
  of(byte) {
    return byte < this.#bytes ? this.#indices[byte] : this.text.length;
  }
}

/**
 * The end of the part of a query that begins at an index: a quoted text, a word with its signs, or one sign.
 * @param {string} text
 * @param {number} index
 * @returns {number}
 */
export function endOfPart(text, index) {
  TOKEN.lastIndex = index;
  const found = TOKEN.exec(text);
  return found ? index + found[0].length : index;
}

/**
 * Where the marked pieces of a text stand in it, each as a beginning and an end.
 * @param {string[]} pieces
 * @returns {[number, number][]}
 */
export function spansOf(pieces) {
  /** @type {[number, number][]} */
  const spans = [];
  let index = 0;
  pieces.forEach((piece, place) => {
    if (place % 2 === 1) {
      spans.push([index, index + piece.length]);
    }
    index += piece.length;
  });
  return spans;
}
