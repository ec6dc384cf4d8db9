#!/usr/bin/env node
// node compare.mjs PROGRAM FOLDER..: compares the answers of check.mjs on every text of the folders with those of the
// built program (verdict, cause, line, column and reason; residuals to the micrometre) and of
// recipes/check_certificate.py (status and both streams: notes, vector and bound too). Ends with 1 where something
// differs. The environment may name another copy of the Python checker in CHECKER.
import {readFileSync, readdirSync} from 'node:fs';
import {spawnSync} from 'node:child_process';
import {dirname, join} from 'node:path';
import {fileURLToPath} from 'node:url';
import {ROOT} from './texts.mjs';
import {answerTo} from '../look/answer.mjs';
import {readCertificate} from '../decide/certificate.mjs';
import {residualsOf} from '../look/residuals.mjs';

/** @typedef {{status: number | null, out: string, err: string}} Said */

const MOST_VISITS = 5_000_000, MOST_SHOWN = 40, NOT_DECIDED = 7, REFUSED = 3;
const CHECKER = process.env.CHECKER ?? join(ROOT, 'recipes', 'check_certificate.py');
const [program, ...folders] = process.argv.slice(2);

/**
 * What the program says.
 * @param {string[]} words
 * @returns {Said}
 */
function ofProgram(...words) {
  const {status, stdout, stderr} = spawnSync(program, words, {encoding: 'latin1', maxBuffer: 1 << 28});
  return {status, out: stdout, err: stderr};
}

/**
 * What the Python checker says of each file.
 * @param {string[]} paths
 * @returns {Said[]}
 */
function ofPython(paths) {
  const script = join(dirname(fileURLToPath(import.meta.url)), 'ask_checker.py'), input = paths.join('\n');
  const options = {input, encoding: /** @type {const} */ ('utf8'), maxBuffer: 1 << 30};
  const {status, stdout, stderr} = spawnSync('python3', [script, CHECKER], options);
  if (status !== 0) throw new Error(stderr);
  const answers = stdout.trimEnd().split('\n').map(line => JSON.parse(line));
  return answers.map(([code, out, err]) => ({status: code, out, err}));
}

/**
 * What check.mjs says.
 * @param {string} path
 * @param {string} text
 * @returns {Said}
 */
function mine(path, text) {
  const {status, out, err} = answerTo(path, text, false, MOST_VISITS);
  return {status, out: out.map(line => `${line}\n`).join(''), err: err.map(line => `${line}\n`).join('')};
}

/**
 * The same without what the program doesn't print: notes, vector and bound.
 * @param {Said} said
 * @returns {Said}
 */
const ofCheck = ({status, out, err}) =>
  ({status, out: out.replace(/\n[^]*/, '\n'), err: err.replace(/^note: .*\n/gm, '')});

/**
 * The residuals of a text as the program prints them.
 * @param {string} text
 */
function residualLines(text) {
  const cert = readCertificate(text), residuals = residualsOf(cert);
  if (residuals.length === 0) return 'nothing to show\n';
  return cert.pairs.flatMap((pair, k) =>
    pair.rows.map((row, i) => `${[pair.number, row.arc, ...residuals[k][i]].join(' ')}\n`)).join('');
}

const paths = folders.flatMap(folder => readdirSync(folder).sort().map(name => join(folder, name)));
const python = ofPython(paths), differ = [], isSame = (/** @type {Said} */ one, /** @type {Said} */ other) =>
  one.status === other.status && one.out === other.out && one.err === other.err;
/** @type {Map<string, number>} */
const seen = new Map();
let rows = 0, noted = 0;
for (const [k, path] of paths.entries()) {
  const text = readFileSync(path, 'latin1'), said = mine(path, text), isTrack = text.startsWith('baseline-track');
  const word = (said.out || said.err).split('\n')[0].replace(/^refused: .*: /, 'refused: ').replace(/(weak) .*/, '$1');
  seen.set(word, (seen.get(word) ?? 0) + 1);
  if (/^note: /m.test(said.err)) noted++;
  if (!isSame(said, python[k])) differ.push(`${path}: Python: ${JSON.stringify([said, python[k]])}`);
  const theirs = ofProgram(isTrack ? 'check-track' : 'check', path);
  if (said.status !== NOT_DECIDED && !isSame(ofCheck(said), theirs)) {
    differ.push(`${path}: program: ${JSON.stringify([ofCheck(said), theirs])}`);
  }
  if (isTrack || said.status === REFUSED) continue;
  const lines = residualLines(text);
  rows += lines.split('\n').length - 1;
  if (lines !== ofProgram('residuals', path).out) differ.push(`${path}: residuals`);
}
for (const word of [...seen.keys()].sort()) console.log(`${String(seen.get(word)).padStart(6)} ${word}`);
console.log(`${paths.length} texts, ${noted} with notes, ${rows} rows of residuals: ${differ.length} differ`);
differ.slice(0, MOST_SHOWN).forEach(line => console.log(line));
process.exitCode = differ.length ? 1 : 0;
