// The vector, or the places of a track, from the lines base, point or at, and move (FORMATS, "What `fix` prints" and
// "What `track` and `check-track` print"), with the bound of each.
import {abs, nearestDiv} from '../decide/whole.mjs';
import {boundsOf} from './bound.mjs';

/** @typedef {import('../decide/certificate.mjs').Certificate} Certificate */

/** 2^-5 iota in 0.1 mm, as a fraction. */
const MOVE_NUM = 299_792_458n, MOVE_DEN = 6_957_054_720n;

/**
 * From the base to the rover, in 0.1 mm: one vector, of a track one for each pair; none where the tail has no
 * vectors.
 * @param {Certificate} cert
 * @returns {bigint[][]}
 */
export function vectorsOf({base, pairs, isTrack, point, tail}) {
  return (tail.vectors?.moves ?? []).map((move, k) => {
    const from = isTrack ? pairs[k].point : point;
    return move.map((m, i) => from[i] - base[i] + nearestDiv(m * MOVE_NUM, MOVE_DEN));
  });
}

/**
 * A number with so many places, of its last place.
 * @param {bigint} units
 * @param {number} places
 */
function withPlaces(units, places) {
  const digits = String(abs(units)).padStart(places + 1, '0');
  return `${units < 0n ? '-' : ''}${digits.slice(0, -places)}.${digits.slice(-places)}`;
}

/**
 * A number of 0.1 mm in metres.
 * @param {bigint} tenths
 */
export const metres = tenths => withPlaces(tenths, 4);

/**
 * A number of 0.01 mm in millimetres.
 * @param {bigint} hundredths
 */
export const millimetres = hundredths => withPlaces(hundredths, 2);

/**
 * The lines after `certified`: the vector or the places in metres, then how far each may be from the least-squares one,
 * in millimetres.
 * @param {Certificate} cert that is certified
 */
export function vectorLines(cert) {
  const numbers = cert.isTrack ? cert.pairs.map(pair => [String(pair.number)]) : [[]];
  const name = cert.isTrack ? 'place' : 'baseline';
  const vectors = vectorsOf(cert).map((vector, k) => [name, ...numbers[k], ...vector.map(metres)].join(' '));
  const bounds = boundsOf(cert).flatMap((bound, k) =>
    (bound === null ? [] : [['bound', ...numbers[k], millimetres(bound)].join(' ')]));
  return [...vectors, ...bounds];
}

/**
 * P2/(64·T) in thousandths, rounded down: how many times as great the sum of squares of the next best integers is, at
 * least. Null where T is 0, or the tail has no vectors.
 * @param {Certificate} cert
 */
export function reachedRatio({tail: {vectors}}) {
  return vectors && vectors.t > 0n ? (1000n * vectors.p2) / (64n * vectors.t) : null;
}
