// The normal matrix of the rows and its elimination (DEFINITIONS, section 2, "The normal matrix and the integer
// form"). Its columns are the three of the baseline, the integers, the constant.
import {ceilDiv, nearestDiv, nearestShift, someReach, upTo, zeroMatrix} from './whole.mjs';

/**
 * @typedef {import('./certificate.mjs').Certificate} Certificate
 * @typedef {import('./certificate.mjs').Pair} Pair
 * @typedef {import('./certificate.mjs').Row} Row
 * @typedef {import('./certificate.mjs').Signal} Signal
 *
 * C of some pairs, whose value is the sum of squares at the centres, and for each own entry the sum of the squares of
 * the radii.
 * @typedef {{matrix: bigint[][], radii: bigint[]}} Normal
 *
 * What some steps of the elimination leave: what is kept of each pivot, the factors of each step with the later
 * columns, and the form.
 * @typedef {{pivots: bigint[], factors: bigint[][], form: bigint[][]}} Elimination
 *
 * The front of a session or of a pair of a track: the factors of the baseline's columns, and the form of the integers
 * and the constant that is left. 2^h times its value is at most 64 times the sum of squares, whatever the data in the
 * boxes and the baseline are.
 * @typedef {{h: bigint, baseline: bigint[][], form: bigint[][]}} Front
 */

/** The rows don't give a fix. The message is what `check` prints after `not certified`. */
export class NotFixed extends Error {}

/** A multiple of each number of rows that a pair may have. */
export const SHARE = 360_360n;
const ENTRY_LIMIT = 1n << 52n, LEAST_PIVOT = 1n << 20n;
/** Of 64 parts of the sum at the centres, those that are kept, and what the squares of the radii take. */
const KEPT = 63n, RADII_TAKE = 16_128n;
/** After how many pairs a step says how far it is. */
export const PAIRS_BETWEEN = 50;

/**
 * The place of an integer among all: free arcs in their order, in each the bands.
 * @param {Certificate} cert
 * @param {number} arc a free one
 * @param {string} band
 */
export const integerOf = (cert, arc, band) => cert.arcs[arc].ambiguity * cert.bands.length + cert.bands.indexOf(band);

/**
 * @param {Certificate} cert
 * @param {Pair[]} pairs
 * @param {(part: number) => void} [progress] is told how much is done, from 0 to 1
 * @returns {Normal}
 */
export function normalMatrix(cert, pairs, progress = () => {}) {
  const size = 4 + cert.freeArcs * cert.bands.length, normal = {matrix: zeroMatrix(size), radii: Array(size).fill(0n)};
  for (const [k, pair] of pairs.entries()) {
    if (k % PAIRS_BETWEEN === 0) progress(k / pairs.length);
    cert.signals.forEach((_, q) => addSignal(normal, cert, pair.rows, q));
  }
  mirror(normal.matrix);
  return normal;
}

/**
 * Adds the rows of a pair as one signal sees them.
 * @param {Normal} normal
 * @param {Certificate} cert
 * @param {Row[]} rows
 * @param {number} q the signal's place in a row
 */
function addSignal({matrix, radii}, cert, rows, q) {
  const weight = SHARE * cert.signals[q].weight, last = matrix.length - 1;
  /** @type {Map<number, bigint>} */
  const sums = new Map();
  for (const row of rows) {
    const seen = seenBy(cert, row, q);
    addSquare(matrix, seen, weight);
    for (const [column, entry] of seen) sums.set(column, (sums.get(column) ?? 0n) + entry);
    row.radii.forEach((radius, i) => { radii[i] += weight * radius * radius; });
    radii[last] += weight * row.yRadius * row.yRadius;
  }
  addSquare(matrix, [...sums].sort(([a], [b]) => a - b), -weight / BigInt(rows.length));
}

/**
 * The entries of a row that aren't 0, as one signal sees it, each with its column; columns rise.
 * @param {Certificate} cert
 * @param {Row} row
 * @param {number} q the signal's place in a row
 * @returns {[number, bigint][]}
 */
function seenBy(cert, {arc, y, direction: [u0, u1, u2]}, q) {
  const {isPhase, band, wavelength} = cert.signals[q], isFree = isPhase && !cert.arcs[arc].isDatum;
  /** @type {[number, bigint][]} */
  const integer = isFree ? [[3 + integerOf(cert, arc, band), -wavelength]] : [];
  return [[0, -u0], [1, -u1], [2, -u2], ...integer, [3 + cert.freeArcs * cert.bands.length, y[q]]];
}

/**
 * Adds a factor times the square of a row to the upper half.
 * @param {bigint[][]} matrix
 * @param {[number, bigint][]} seen
 * @param {bigint} factor
 */
function addSquare(matrix, seen, factor) {
  for (let i = 0; i < seen.length; i++) {
    const [own, entry] = seen[i], scaled = factor * entry, into = matrix[own];
    for (let j = i; j < seen.length; j++) into[seen[j][0]] += scaled * seen[j][1];
  }
}

/**
 * Fills the lower half of a matrix by the upper.
 * @param {bigint[][]} matrix
 */
function mirror(matrix) {
  for (let i = 0; i < matrix.length; i++) for (let j = 0; j < i; j++) matrix[i][j] = matrix[j][i];
}

/**
 * h: the least exponent at which what is kept of each own entry is below 2^(50 + h).
 * @param {bigint[][]} matrix
 */
export function exponentOf(matrix) {
  let h = 0n;
  while (matrix.some((row, i) => KEPT * row[i] >= 1n << (50n + h))) h++;
  return h;
}

/**
 * The first rounding: what is kept of the matrix over 2^h, other entries to the nearest, own ones down and less the
 * number of columns.
 * @param {Normal} normal
 * @returns {{h: bigint, form: bigint[][]}}
 */
function firstRounding({matrix, radii}) {
  const size = BigInt(matrix.length), h = exponentOf(matrix);
  const form = matrix.map((row, i) => row.map((x, j) => (j <= i || x === 0n ? 0n : nearestShift(KEPT * x, h))));
  matrix.forEach((row, i) => { form[i][i] = ((KEPT * row[i] - RADII_TAKE * radii[i]) >> h) - size; });
  mirror(form);
  refuseWide(form);
  return {h, form};
}

/** @param {bigint[][]} form */
function refuseWide(form) {
  if (form.some((row, i) => someReach(row.slice(i), ENTRY_LIMIT))) throw new NotFixed('overwidth entry');
}

/**
 * Steps of the elimination.
 * @param {bigint[][]} form
 * @param {number} count of the steps
 * @param {number} first the number of the first column, as `weak` names it
 * @returns {Elimination}
 */
export function eliminate(form, count, first) {
  /** @type {Elimination} */
  const done = {pivots: [], factors: [], form};
  for (const step of upTo(count)) {
    const [pivot, ...others] = done.form[0];
    if (pivot < LEAST_PIVOT) throw new NotFixed(`weak ${first + step} ${pivot}`);
    const factors = others.map(r => (r === 0n ? 0n : nearestDiv(r << 30n, pivot)));
    if (someReach(factors, ENTRY_LIMIT)) throw new NotFixed('overwidth factor');
    done.pivots.push(pivot - ceilDiv(pivot, 1n << 20n));
    done.factors.push(factors);
    done.form = withoutFirst(done.form);
    refuseWide(done.form);
  }
  return done;
}

/**
 * What a step leaves of a form.
 * @param {bigint[][]} form
 * @returns {bigint[][]}
 */
function withoutFirst(form) {
  const [pivot, ...others] = form[0], n = BigInt(others.length), rounding = n + ceilDiv(n * pivot, 1n << 42n);
  const left = form.slice(1).map(row => row.slice(1)), used = upTo(others.length).filter(i => others[i] !== 0n);
  others.forEach((r, i) => { left[i][i] -= ceilDiv(r * r, pivot) + rounding; });
  for (const i of used) for (const k of used) if (k > i) left[i][k] -= nearestDiv(others[i] * others[k], pivot);
  mirror(left);
  return left;
}

/**
 * The front of some rows.
 * @param {Normal} normal
 * @returns {Front}
 */
export function frontOf(normal) {
  const {h, form} = firstRounding(normal);
  const {factors, form: left} = eliminate(form, 3, 0);
  return {h, baseline: factors, form: left};
}

/**
 * The forms of the pairs of a track over one power of two (DEFINITIONS, section 11, "Its form").
 * @param {Front[]} fronts
 * @returns {{h: bigint, form: bigint[][]}}
 */
export function sumOfFronts(fronts) {
  let extra = 0n;
  while (1n << extra < 2n * BigInt(fronts.length)) extra++;
  const h = extra + fronts.reduce((most, front) => (front.h > most ? front.h : most), 0n);
  const form = zeroMatrix(fronts[0].form.length), size = BigInt(form.length);
  for (const front of fronts) {
    const bits = h - front.h;
    front.form.forEach((row, i) => {
      form[i][i] += (row[i] >> bits) - size;
      for (let j = i + 1; j < row.length; j++) form[i][j] += nearestShift(row[j], bits);
    });
  }
  mirror(form);
  return {h, form};
}
