// Whole numbers of any size (DEFINITIONS, the head). Every number that decides is a BigInt, and nothing is rounded
// but where the definitions round.

/** @param {bigint} z */
export const abs = z => (z < 0n ? -z : z);

/**
 * The floor of z/m, for m > 0.
 * @param {bigint} z
 * @param {bigint} m
 */
export function floorDiv(z, m) {
  const quotient = z / m;
  return z < 0n && quotient * m !== z ? quotient - 1n : quotient;
}

/**
 * The ceiling of z/m, for m > 0.
 * @param {bigint} z
 * @param {bigint} m
 */
export function ceilDiv(z, m) {
  const quotient = z / m;
  return z > 0n && quotient * m !== z ? quotient + 1n : quotient;
}

/**
 * The nearest whole number to z/m, of two equally near the greater, for m > 0.
 * @param {bigint} z
 * @param {bigint} m
 */
export const nearestDiv = (z, m) => floorDiv(2n * z + m, 2n * m);

/**
 * The nearest whole number to z/2^bits, of two equally near the greater, for bits >= 0.
 * @param {bigint} z
 * @param {bigint} bits
 */
export const nearestShift = (z, bits) => (bits === 0n ? z : (z + (1n << (bits - 1n))) >> bits);

/**
 * @param {readonly bigint[]} xs
 * @param {readonly bigint[]} ys as many
 */
export function dot(xs, ys) {
  let sum = 0n;
  for (let i = 0; i < xs.length; i++) if (xs[i] !== 0n) sum += xs[i] * ys[i];
  return sum;
}

/**
 * Below 0, 0 or above 0 where the entries xs come before those of ys, are these or come after.
 * @param {readonly bigint[]} xs
 * @param {readonly bigint[]} ys as many
 */
export function compareEntries(xs, ys) {
  for (let i = 0; i < xs.length; i++) if (xs[i] !== ys[i]) return xs[i] < ys[i] ? -1 : 1;
  return 0;
}

/**
 * Whether some entry is the bound or more in size.
 * @param {readonly bigint[]} xs
 * @param {bigint} bound
 */
export const someReach = (xs, bound) => xs.some(x => x >= bound || -x >= bound);

/**
 * The whole numbers from 0 on, as many as asked for.
 * @param {number} count
 */
export const upTo = count => Array.from({length: count}, (_, i) => i);

/**
 * A square matrix of zeros.
 * @param {number} size
 * @returns {bigint[][]}
 */
export const zeroMatrix = size => upTo(size).map(() => Array(size).fill(0n));
