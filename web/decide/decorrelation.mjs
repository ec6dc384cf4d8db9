// The reduction of a search (DEFINITIONS, section 3, "The reduction"), after the decorrelation of LAMBDA. Any
// unimodular map gives the same two vectors; this one is that of the definitions, since the budget counts the visits
// in its coordinates.
import {nearestDiv, nearestShift, someReach, upTo, zeroMatrix} from './whole.mjs';

/**
 * `weights` are the d of the integers, `factors[i][m]` is that of integer i with the integer m before it, in 2^-30;
 * `columns` are those of the map, `inverse` the rows of its inverse.
 * @typedef {{weights: bigint[], factors: bigint[][], columns: bigint[][], inverse: bigint[][]}} State
 *
 * What a turn makes of the factors of its later integer: how often each earlier integer is taken off, what is left of
 * the factors, and the later integer's column.
 * @typedef {{times: bigint[], left: bigint[], column: bigint[]}} Fall
 */

const FACTOR_BITS = 30n, SQUARE_BITS = 60n, MOST_TURNS = 4000;
const FALLING_LIMIT = 1n << 62n, FACTOR_LIMIT = 1n << 52n, MAP_LIMIT = 1n << 30n;

/**
 * @param {number} n
 * @returns {bigint[][]}
 */
export function identity(n) {
  const unit = zeroMatrix(n);
  unit.forEach((row, i) => { row[i] = 1n; });
  return unit;
}

/**
 * The columns of the map: the turn at the lowest place at which one is possible, until there is none.
 * @param {import('./normal.mjs').Elimination} triangle of the integers' columns
 * @returns {bigint[][]}
 */
export function decorrelate({pivots, factors}) {
  const n = pivots.length, ofInteger = upTo(n).map(i => upTo(i).map(m => factors[m][i - m - 1]));
  /** @type {State} */
  let state = {weights: pivots, factors: ofInteger, columns: identity(n), inverse: identity(n)};
  for (let turns = 0; turns < MOST_TURNS; turns++) {
    const next = firstTurn(state);
    if (!next) break;
    state = next;
  }
  return state.columns;
}

/**
 * What the turn at the lowest place leaves at which one is possible, or null.
 * @param {State} state
 */
function firstTurn(state) {
  for (let j = 0; j + 1 < state.weights.length; j++) {
    const next = turnAt(state, j);
    if (next) return next;
  }
  return null;
}

/**
 * Integers j and j + 1 change places, where that makes the first weight less and nothing gets too large.
 * @param {State} state
 * @param {number} j
 * @returns {State | null}
 */
function turnAt(state, j) {
  const {weights, factors, columns, inverse} = state, a = weights[j], b = weights[j + 1], factor = factors[j + 1][j];
  const r = factor - (nearestShift(factor, FACTOR_BITS) << FACTOR_BITS);
  if (4n * (a * r * r + (b << SQUARE_BITS)) >= 3n * (a << SQUARE_BITS)) return null;
  const fall = fallAt(state, j);
  if (!fall || someReach(fall.column, MAP_LIMIT)) return null;
  const first = b + ((a * r * r) >> SQUARE_BITS), between = nearestDiv(a * r, first);
  const newFactors = factors.map((row, i) => (i > j + 1 ? turnedFactors(row, j, r, between) : row));
  [newFactors[j], newFactors[j + 1]] = [fall.left.slice(0, j), [...factors[j], between]];
  const added = inverse[j + 1], newInverse = inverse.map((row, i) => withTimes(row, fall.times[i] ?? 0n, added));
  if (newFactors.slice(j).some(row => someReach(row, FACTOR_LIMIT))) return null;
  if (newInverse.some(row => someReach(row, MAP_LIMIT))) return null;
  const newColumns = [...columns], newWeights = [...weights];
  [newColumns[j], newColumns[j + 1]] = [fall.column, columns[j]];
  [newInverse[j], newInverse[j + 1]] = [newInverse[j + 1], newInverse[j]];
  [newWeights[j], newWeights[j + 1]] = [first, (a * b) / first];
  return {weights: newWeights, factors: newFactors, columns: newColumns, inverse: newInverse};
}

/**
 * The factors of integer j + 1 fall by multiples of those of j, of j - 1, and so on to 0. Null where a value on the way
 * is too large.
 * @param {State} state
 * @param {number} j
 * @returns {Fall | null}
 */
function fallAt({factors, columns}, j) {
  const left = [...factors[j + 1]];
  /** @type {bigint[]} */
  const times = Array(j + 1).fill(0n);
  let column = columns[j + 1];
  for (let m = j; m >= 0; m--) {
    times[m] = nearestShift(left[m], FACTOR_BITS);
    for (let k = 0; k < m; k++) left[k] -= times[m] * factors[m][k];
    left[m] -= times[m] << FACTOR_BITS;
    if (someReach(left, FALLING_LIMIT)) return null;
    column = withTimes(column, -times[m], columns[m]);
  }
  return {times, left, column};
}

/**
 * xs with so many times ys added.
 * @param {bigint[]} xs
 * @param {bigint} times
 * @param {bigint[]} ys
 */
const withTimes = (xs, times, ys) => (times === 0n ? xs : xs.map((x, k) => x + times * ys[k]));

/**
 * The factors of an integer after both that change places.
 * @param {bigint[]} row
 * @param {number} j
 * @param {bigint} r
 * @param {bigint} between the new factor of the two
 */
function turnedFactors(row, j, r, between) {
  const turned = [...row], v = row[j] - nearestShift(r * row[j + 1], FACTOR_BITS);
  turned[j] = row[j + 1] + nearestShift(between * v, FACTOR_BITS);
  turned[j + 1] = v;
  return turned;
}
