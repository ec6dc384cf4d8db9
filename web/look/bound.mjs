// How far the least-squares baseline of any data in the boxes may lie from the printed move, with the printed integers
// held (crates/vector_bound/specs/VectorBounds.antt, `IsVectorBound`): for all data in the boxes, every baseline whose
// sum of squares is at most that of the move is at most so far from it, in each coordinate.
import {abs, ceilDiv, dot, nearestShift} from '../decide/whole.mjs';
import {exponentOf, normalMatrix} from '../decide/normal.mjs';
import {upperSum} from '../decide/upper.mjs';

/**
 * @typedef {import('../decide/certificate.mjs').Certificate} Certificate
 * @typedef {import('../decide/normal.mjs').Normal} Normal
 *
 * The integers and the move of some pairs, and what their sum of squares is at most, in units of 2^h.
 * @typedef {{h: bigint, z: bigint[], move: bigint[], t: bigint}} Solution
 */

/** What is kept of the normal matrix, of 64 parts, and what the squares of the radii take. */
const KEPT = 59n, RADII_TAKE = (1n << 32n) + 16_128n;
const MOST_REACH = 1n << 30n;

/**
 * Of the vector, or of each place of a track, in 0.01 mm; null where there is none.
 * @param {Certificate} cert that is certified
 * @returns {(bigint | null)[]}
 */
export function boundsOf(cert) {
  const {vectors} = cert.tail;
  if (!vectors) return [];
  const {h, z1, moves, t} = vectors;
  if (!cert.isTrack) return [boundOf(normalMatrix(cert, cert.pairs), {h, z: z1, move: moves[0], t})];
  return cert.pairs.map((pair, k) => {
    const normal = normalMatrix(cert, [pair]), own = exponentOf(normal.matrix);
    const top = ceilDiv(upperSum(cert, pair, z1, moves[k]), 1n << own);
    return boundOf(normal, {h: own, z: z1, move: moves[k], t: top});
  });
}

/**
 * @param {Normal} normal of the pairs
 * @param {Solution} solution
 */
function boundOf(normal, solution) {
  const curvature = curvatureOf(normal, solution.h);
  const reach = curvature === null ? null : leastReach(curvature, steepness(normal, solution), slack(normal, solution));
  return reach === null ? null : hundredths(reach);
}

/**
 * A number of 2^-5 iota in 0.01 mm, rounded up.
 * @param {bigint} units
 */
const hundredths = units => ceilDiv(units * 299_792_458n, 695_705_472n);

/**
 * A number that, times the square of a coordinate of a vector, is at most what is kept of the form there; null where
 * there is none.
 * @param {Normal} normal
 * @param {bigint} h
 */
function curvatureOf({matrix, radii}, h) {
  const bits = h + 10n, other = (/** @type {bigint} */ x) => nearestShift(KEPT * x, bits);
  const [a, b, c] = [0, 1, 2].map(j => ((KEPT * matrix[j][j] - RADII_TAKE * radii[j]) >> bits) - 3n);
  const [ab, ac, bc] = [matrix[0][1], matrix[0][2], matrix[1][2]].map(other);
  const minors = [a * b - ab * ab, a * c - ac * ac, b * c - bc * bc];
  if ([a, b, ...minors].some(x => x < 1n)) return null;
  const determinant = a * minors[2] - ab * (ab * c - bc * ac) + ac * (ab * bc - b * ac);
  const curvature = determinant / minors.reduce((most, x) => (x > most ? x : most));
  return curvature < 1n ? null : curvature;
}

/**
 * How steep the sum of squares is at the move: the sizes of its slopes by the three coordinates.
 * @param {Normal} normal
 * @param {Solution} solution
 */
function steepness({matrix}, {h, z, move}) {
  const at = [...move, ...z.map(x => x << 16n), 1n << 16n];
  return ceilDiv([0, 1, 2].reduce((sum, j) => sum + abs(dot(matrix[j], at)), 0n), 1n << (h + 3n));
}

/**
 * What the data and the share of the sum of squares add.
 * @param {Normal} normal
 * @param {Solution} solution
 */
function slack({radii}, {h, move, t}) {
  const squares = move.reduce((sum, m, j) => sum + radii[j] * m * m, radii[radii.length - 1] << 32n);
  return 16n * t + ceilDiv(4n * squares, 1n << h);
}

/**
 * The least whole x from 1 on with curvature·x² >= steepness·x + slack, in 2^-5 iota; null beyond 2^30.
 * @param {bigint} curvature
 * @param {bigint} steep
 * @param {bigint} rest
 */
function leastReach(curvature, steep, rest) {
  const isEnough = (/** @type {bigint} */ x) => curvature * x * x >= steep * x + rest;
  let low = 0n, high = MOST_REACH;
  if (!isEnough(high)) return null;
  while (high - low > 1n) {
    const middle = (low + high) >> 1n;
    if (isEnough(middle)) high = middle;
    else low = middle;
  }
  return high;
}
