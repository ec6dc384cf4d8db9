// The decision of the rows, and whether the text says it (DEFINITIONS, sections 4, 5 and 11).
import {Refused, MOST_BYTES} from './lines.mjs';
import {NotFixed, PAIRS_BETWEEN, frontOf, normalMatrix, sumOfFronts} from './normal.mjs';
import {Stopped, Visits, twoBest} from './search.mjs';
import {baselineAt, upperSum} from './upper.mjs';
import {ceilDiv, compareEntries} from './whole.mjs';
import {readCertificate} from './certificate.mjs';

/**
 * @typedef {import('./certificate.mjs').Certificate} Certificate
 * @typedef {import('./tail.mjs').Vectors} Vectors
 *
 * Is told what is being done and how much of it is done, from 0 to 1. Nobody knows the end of a search, so its part
 * stays 0.
 * @typedef {(step: string, part: number) => void} Progress
 *
 * `mostVisits` is the checker's own limit of both searches together, whatever budget the text names.
 * @typedef {{progress?: Progress, mostVisits?: number}} Options
 *
 * Of line 0 where the file is too large.
 * @typedef {{kind: 'refused', line: number, column: number, reason: string}} RefusedVerdict
 * @typedef {{kind: 'certified', cert: Certificate}} CertifiedVerdict
 * @typedef {{kind: 'not certified', cause: string, cert: Certificate}} OtherVerdict
 * By the checker's own limit.
 * @typedef {{kind: 'not decided', visits: number, cert: Certificate}} StoppedVerdict
 * @typedef {RefusedVerdict | CertifiedVerdict | OtherVerdict | StoppedVerdict} Verdict
 *
 * The fronts of all groups of pairs with one baseline, and the form that they have together.
 * @typedef {{fronts: import('./normal.mjs').Front[], h: bigint, form: bigint[][]}} JoinedForm
 */

/**
 * The verdict of a text.
 * @param {string} text one character for each byte
 * @param {Options} [options]
 * @returns {Verdict}
 */
export function check(text, options = {}) {
  const {progress = () => {}, mostVisits = Infinity} = options;
  if (text.length > MOST_BYTES) return {kind: 'refused', line: 0, column: 0, reason: 'file too large'};
  let cert;
  try {
    cert = readCertificate(text, part => progress('reading the text', part));
  } catch (why) {
    if (!(why instanceof Refused)) throw why;
    return {kind: 'refused', line: why.line, column: why.column, reason: why.reason};
  }
  try {
    const found = decide(cert, progress, mostVisits);
    return isSaid(cert.tail, found) ? {kind: 'certified', cert} : {kind: 'not certified', cause: 'tail', cert};
  } catch (why) {
    if (why instanceof NotFixed) return {kind: 'not certified', cause: why.message, cert};
    if (why instanceof Stopped) return {kind: 'not decided', visits: why.visits, cert};
    throw why;
  }
}

/**
 * The numbers of the tail that the rows have. Throws `NotFixed` where they aren't fixed, and `Stopped`.
 * @param {Certificate} cert
 * @param {Progress} progress
 * @param {number} mostVisits
 * @returns {Vectors}
 */
export function decide(cert, progress, mostVisits) {
  const {fronts, h, form} = cert.isTrack ? trackForm(cert, progress) : sessionForm(cert, progress);
  const searching = 'the search for the two best sets of integers';
  progress(searching, 0);
  const visits = new Visits(mostVisits, made => progress(`${searching}, ${made} visits`, 0));
  const [best, next] = twoBest(form, 3, cert.budget, visits), z1 = best.integers;
  const moves = fronts.map(front => baselineAt(front.baseline, z1));
  const t = ceilDiv(wholeSum(cert, z1, moves, progress), 1n << h);
  if (1000n * next.value <= 64n * cert.ratio * t) throw new NotFixed('unseparated');
  return {z1, z2: next.integers, moves, h, p1: best.value, p2: next.value, t};
}

/**
 * U, over all pairs.
 * @param {Certificate} cert
 * @param {bigint[]} z
 * @param {bigint[][]} moves
 * @param {Progress} progress
 */
function wholeSum(cert, z, moves, progress) {
  let sum = 0n;
  for (const [k, pair] of cert.pairs.entries()) {
    if (k % PAIRS_BETWEEN === 0) progress('the sum of squares of the best', k / cert.pairs.length);
    sum += upperSum(cert, pair, z, moves[cert.isTrack ? k : 0]);
  }
  return sum;
}

/**
 * @param {Certificate} cert
 * @param {Progress} progress
 * @returns {JoinedForm}
 */
function sessionForm(cert, progress) {
  const front = frontOf(normalMatrix(cert, cert.pairs, part => progress('the normal matrix', part)));
  return {fronts: [front], h: front.h, form: front.form};
}

/**
 * @param {Certificate} cert
 * @param {Progress} progress
 * @returns {JoinedForm}
 */
function trackForm(cert, progress) {
  const fronts = cert.pairs.map((pair, k) => {
    if (k % PAIRS_BETWEEN === 0) progress('the normal matrices of the pairs', k / cert.pairs.length);
    return frontOf(normalMatrix(cert, [pair]));
  });
  return {fronts, ...sumOfFronts(fronts)};
}

/**
 * Whether a tail says these numbers.
 * @param {import('./tail.mjs').Tail} tail
 * @param {Vectors} found
 */
function isSaid({vectors: said, isFixed}, found) {
  if (!said || !isFixed) return false;
  const vectors = [[said.z1, found.z1], [said.z2, found.z2], ...said.moves.map((move, k) => [move, found.moves[k]])];
  return vectors.every(([one, other]) => compareEntries(one, other) === 0)
    && said.h === found.h && said.p1 === found.p1 && said.p2 === found.p2 && said.t === found.t;
}

/**
 * A verdict in the words of `check`; `not decided: ..` is this checker's own.
 * @param {Verdict} verdict
 */
export function wordsOf(verdict) {
  if (verdict.kind === 'certified') return 'certified';
  if (verdict.kind === 'not certified') return `not certified ${verdict.cause}`;
  if (verdict.kind === 'not decided') return `not decided: stopped after ${verdict.visits} visits`;
  const {line, column, reason} = verdict;
  return line === 0 ? reason : `line ${line} column ${column}: ${reason}`;
}
