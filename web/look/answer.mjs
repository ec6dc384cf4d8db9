// What check.mjs answers to a text: the words of recipes/check_certificate.py, on both streams, and its status.
import {check, wordsOf} from '../decide/decide.mjs';
import {notesOf} from './notes.mjs';
import {vectorLines} from './vector.mjs';

/**
 * A status, and the lines on standard output and on standard error.
 * @typedef {{status: number, out: string[], err: string[]}} Answer
 */

export const STATUS = {
  certified: 0, 'not certified': 1, usage: 2, refused: 3, 'read fault': 4, 'write fault': 5, 'no memory': 6,
  'not decided': 7,
};

/**
 * @param {string} name of the file, as it may stand on a screen
 * @param {string} text one character for each byte
 * @param {boolean} isStrict whether a note is to end with status 1 and no vector
 * @param {number} mostVisits
 * @returns {Answer}
 */
export function answerTo(name, text, isStrict, mostVisits) {
  const verdict = check(text, {mostVisits}), words = wordsOf(verdict);
  if (verdict.kind === 'refused') {
    const line = `refused: ${name}${verdict.line === 0 ? ':' : ''} ${words}`;
    return {status: STATUS.refused, out: [], err: [line]};
  }
  const notes = notesOf(verdict.cert), err = notes.map(note => `note: ${note}`);
  if (verdict.kind === 'not decided') return {status: STATUS['not decided'], out: [], err: [...err, words]};
  if (verdict.kind === 'not certified') return {status: STATUS['not certified'], out: [words], err};
  if (isStrict && notes.length > 0) return {status: STATUS['not certified'], out: [words], err};
  return {status: STATUS.certified, out: [words, ...vectorLines(verdict.cert)], err};
}
