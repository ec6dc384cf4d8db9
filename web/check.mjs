#!/usr/bin/env node
// node check.mjs [--strict] [--visits N] [--] FILE: decides a certificate of `fix` or of `track` again, from its rows
// alone.
//
// On standard output it prints what `baseline check` and `check-track` print, and of a certified text the vector or
// the places in metres, each with its bound in millimetres; on standard error a line `note: ..` for each way in which
// the text isn't as the program writes it. Statuses: 0 certified, 1 not certified, 2 usage error, 3 refused, 4 read
// fault, 5 write fault, 7 not decided: its own limit of visits of both searches together (--visits, 5,000,000) was
// reached before the budget that the text names. With --strict a note ends with status 1, and no vector is printed.
import {closeSync, openSync, readSync, writeSync} from 'node:fs';
import {MOST_BYTES} from './decide/lines.mjs';
import {STATUS, answerTo} from './look/answer.mjs';

const USAGE = 'usage: check.mjs [--strict] [--visits N] [--] CERT';
const MOST_VISITS = 5_000_000;
/** The form of a number of visits. No two searches come near the greatest. */
const VISITS = /^[1-9][0-9]{0,17}$/;
const PIECE = 1 << 20, WAIT_MS = 10;
/** What could say something on a screen: all but letters, marks, numbers, signs and the blank. */
const ODD = /[\p{C}\p{Zl}\p{Zp}]|(?! )\p{Zs}/gu;

/**
 * What the words after the program's name ask for, or null for a usage error. Options stand before the file's name.
 * @param {string[]} words
 */
function readWords(words) {
  const left = [...words];
  let isStrict = false, visits = '';
  while (left.length > 0 && left[0].startsWith('-') && left[0] !== '-') {
    const option = left.shift();
    if (option === '--') break;
    if (option === '--strict' && !isStrict) isStrict = true;
    else if (option === '--visits' && visits === '' && VISITS.test(left[0] ?? '')) visits = left.shift() ?? '';
    else return null;
  }
  return left.length === 1 ? {file: left[0], isStrict, mostVisits: visits ? Number(visits) : MOST_VISITS} : null;
}

/**
 * A name as it may stand on a screen: what isn't seen there stands by its bytes.
 * @param {string} name
 */
const shown = name => name.replace(ODD, it =>
  [...Buffer.from(it)].map(byte => `\\x${byte.toString(16).padStart(2, '0')}`).join(''));

/**
 * The bytes of a file, at most one more than a certificate may have, one character for each.
 * @param {string} name
 */
function readText(name) {
  const file = openSync(name, 'r'), pieces = [];
  try {
    for (let left = MOST_BYTES + 1; left > 0;) {
      const piece = Buffer.allocUnsafe(Math.min(left, PIECE)), got = readSync(file, piece, 0, piece.length, null);
      if (got === 0) break;
      pieces.push(piece.subarray(0, got));
      left -= got;
    }
  } finally {
    closeSync(file);
  }
  return Buffer.concat(pieces).toString('latin1');
}

/**
 * Writes all lines to a stream of the system, or throws.
 * @param {number} stream
 * @param {string[]} lines
 */
function write(stream, lines) {
  const wait = new Int32Array(new SharedArrayBuffer(4));
  for (let bytes = Buffer.from(lines.map(line => `${line}\n`).join('')); bytes.length > 0;) {
    try {
      bytes = bytes.subarray(writeSync(stream, bytes));
    } catch (why) {
      // a pipe that is full for now
      if (/** @type {{code?: string}} */ (why).code !== 'EAGAIN') throw why;
      Atomics.wait(wait, 0, 0, WAIT_MS);
    }
  }
}

/**
 * Lines on standard error. Where it can't be written the status alone says it.
 * @param {string[]} lines
 */
function complain(lines) {
  try {
    write(2, lines);
  } catch { /* nobody reads it */ }
}

/**
 * @param {string[]} words
 * @returns {number} the status
 */
function main(words) {
  const asked = readWords(words);
  if (!asked) {
    complain([USAGE]);
    return STATUS.usage;
  }
  const name = shown(asked.file);
  let text;
  try {
    text = readText(asked.file);
  } catch {
    complain([`read fault: ${name}`]);
    return STATUS['read fault'];
  }
  const {status, out, err} = answerTo(name, text, asked.isStrict, asked.mostVisits);
  complain(err);
  try {
    write(1, out);
  } catch {
    complain(['write fault']);
    return STATUS['write fault'];
  }
  return status;
}

process.exitCode = main(process.argv.slice(2));
