// The baseline at the best integers, and the most that the sum of squares may be there (DEFINITIONS, section 2, "The
// float point", and section 4).
import {NotFixed, SHARE, integerOf} from './normal.mjs';
import {abs, ceilDiv, dot, nearestShift, someReach} from './whole.mjs';

/**
 * @typedef {import('./certificate.mjs').Certificate} Certificate
 * @typedef {import('./certificate.mjs').Pair} Pair
 * @typedef {import('./certificate.mjs').Row} Row
 */

/** A direction, in 2^-24, times a move, in 2^-5 iota, is in 2^-16 of the unit of a row. */
const MOVE_BITS = 16n, FACTOR_BITS = 30n;
const MOVE_LIMIT = 1n << 46n, RESIDUAL_LIMIT = 1n << 33n;

/**
 * The baseline at z, in 2^-5 iota, by the factors of its three columns.
 * @param {bigint[][]} factors
 * @param {bigint[]} z
 */
export function baselineAt(factors, z) {
  let point = [...z, 1n].map(x => x << MOVE_BITS);
  for (const row of [...factors].reverse()) point = [-nearestShift(dot(row, point), FACTOR_BITS), ...point];
  const move = point.slice(0, 3);
  if (someReach(move, MOVE_LIMIT)) throw new NotFixed('overwidth float');
  return move;
}

/**
 * S: the residual of a row's centres as a signal sees it, rounded down, in 2^-13 iota.
 * @param {Certificate} cert
 * @param {Row} row
 * @param {number} q the signal's place in a row
 * @param {bigint[]} z
 * @param {bigint[]} move
 */
export function residualOf(cert, row, q, z, move) {
  const {isPhase, band, wavelength} = cert.signals[q];
  const rounded = ((row.y[q] << MOVE_BITS) - dot(row.direction, move)) >> MOVE_BITS;
  if (!isPhase || cert.arcs[row.arc].isDatum) return rounded;
  return rounded - wavelength * z[integerOf(cert, row.arc, band)];
}

/**
 * U of a pair: the sum of squares is at most this, for all data in the boxes.
 * @param {Certificate} cert
 * @param {Pair} pair
 * @param {bigint[]} z
 * @param {bigint[]} move
 */
export function upperSum(cert, pair, z, move) {
  const sizes = move.map(abs), share = SHARE / BigInt(pair.rows.length);
  const far = pair.rows.map(row => row.yRadius + ceilDiv(dot(row.radii, sizes), 1n << MOVE_BITS) + 1n);
  let total = 0n;
  for (const [q, {weight}] of cert.signals.entries()) {
    const residuals = pair.rows.map(row => residualOf(cert, row, q, z, move));
    if (residuals.some((s, i) => abs(s) + far[i] >= RESIDUAL_LIMIT)) throw new NotFixed('overwidth sum');
    total += share * weight * squaresOfGaps(residuals, far);
  }
  return total;
}

/**
 * The sum of the squares of the gaps of each two residuals.
 * @param {bigint[]} residuals
 * @param {bigint[]} far how far from each the residual of data in the boxes may be
 */
function squaresOfGaps(residuals, far) {
  let sum = 0n;
  for (let i = 1; i < residuals.length; i++) {
    for (let k = 0; k < i; k++) {
      const gap = abs(residuals[i] - residuals[k]) + far[i] + far[k];
      sum += gap * gap;
    }
  }
  return sum;
}
