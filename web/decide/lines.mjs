// The lines of a text, and how one is refused (FORMATS, "Certificates" and "Refusals").

/** The most bytes of a text, and of a line without its LF. */
export const MOST_BYTES = 67_108_864;
export const MOST_LINE = 4096;

/** The text is no certificate: where, and why. A file that is too large is refused at no line. */
export class Refused extends Error {
  /**
   * @param {number} line from 1
   * @param {number} column from 1
   * @param {string} reason
   */
  constructor(line, column, reason) {
    super(`line ${line} column ${column}: ${reason}`);
    this.line = line;
    this.column = column;
    this.reason = reason;
  }
}

/**
 * The range of a number, both ends in it.
 * @typedef {{least: bigint, most: bigint}} Range
 * A part of a line: this word, one of these words, or a number of this range.
 * @typedef {string | readonly string[] | Range} Part
 */

/**
 * @param {number | bigint} least
 * @param {number | bigint} most
 * @returns {Range}
 */
export const range = (least, most) => ({least: BigInt(least), most: BigInt(most)});

/**
 * At most so much in size.
 * @param {number | bigint} most
 */
export const inSize = most => range(-BigInt(most), most);

/**
 * Below 2^bits in size.
 * @param {number} bits
 */
export const belowPower = bits => inSize((1n << BigInt(bits)) - 1n);

const NUMBER = /^(?:0|-?[1-9][0-9]*)$/;

/**
 * The number that a word spells, or -1.
 * @param {string | undefined} word
 */
export const numberOr = word => (word !== undefined && NUMBER.test(word) ? BigInt(word) : -1n);

/**
 * Whether a word is spelled as a part is; a number need not be in its range.
 * @param {string} word
 * @param {Part} part
 */
function fits(word, part) {
  if (typeof part === 'string') return word === part;
  return 'least' in part ? NUMBER.test(word) : part.includes(word);
}

/** Takes the lines of a text in turn. The text has one character for each byte. */
export class LineReader {
  /** @param {string} text */
  constructor(text) {
    this.text = text;
    this.at = 0;
    this.line = 0;
  }

  /**
   * Refuses the present line.
   * @param {number} [column]
   * @param {string} [reason]
   * @returns {never}
   */
  refuse(column = 1, reason = 'bad line') {
    throw new Refused(this.line, column, reason);
  }

  /**
   * The words of the next line.
   * @returns {string[]}
   */
  words() {
    this.line++;
    const end = this.text.indexOf('\n', this.at);
    const line = this.text.slice(this.at, end < 0 ? this.text.length : end);
    if (line.length > MOST_LINE) this.refuse(1, 'line too long');
    if (end < 0) this.refuse();
    this.at = end + 1;
    return line.split(' ');
  }

  /**
   * The numbers of a line, and the words that were chosen of several. It has one of these shapes and its numbers are
   * in their ranges, or it is refused.
   * @param {readonly string[]} words
   * @param {...(readonly Part[])} shapes
   * @returns {{chosen: string[], numbers: bigint[]}}
   */
  match(words, ...shapes) {
    const shape = shapes.find(it => it.length === words.length && it.every((part, k) => fits(words[k], part)));
    if (!shape) return this.refuse();
    /** @type {string[]} */
    const chosen = [];
    /** @type {bigint[]} */
    const numbers = [];
    let column = 1;
    for (const [k, part] of shape.entries()) {
      if (typeof part === 'object' && 'least' in part) numbers.push(this.within(part, words[k], column));
      else if (typeof part === 'object') chosen.push(words[k]);
      column += words[k].length + 1;
    }
    return {chosen, numbers};
  }

  /**
   * The number that a word spells, refused out of its range.
   * @param {Range} part
   * @param {string} word
   * @param {number} column of the word
   */
  within({least, most}, word, column) {
    const number = BigInt(word);
    if (number < least || number > most) this.refuse(column, 'number out of range');
    return number;
  }

  /**
   * The next line, of one of these shapes.
   * @param {...(readonly Part[])} shapes
   */
  take(...shapes) {
    return this.match(this.words(), ...shapes);
  }

  /** Refuses whatever comes after the last line. */
  end() {
    if (this.at === this.text.length) return;
    this.words();
    this.refuse();
  }
}
