// The two least vectors of a form, by value and then by entries, within a budget of visits (DEFINITIONS, section 3,
// "The search and the reduction").
import {NotFixed, eliminate} from './normal.mjs';
import {compareEntries, dot, nearestShift, someReach} from './whole.mjs';
import {decorrelate, identity} from './decorrelation.mjs';

/**
 * A full vector with its value; `integers` are in the form's own coordinates.
 * @typedef {{value: bigint, integers: bigint[]}} Candidate
 */

const FACTOR_BITS = 30n, SQUARE_BITS = 60n, FACTOR_UNIT = 1n << FACTOR_BITS;
const ENTRY_LIMIT = 1n << 30n, VALUE_LIMIT = 1n << 62n, MAPPED_LIMIT = 1n << 52n;
/** After how many visits a search says how many it has made. */
const VISITS_BETWEEN = 8192;

/** The checker's own limit was reached, whatever budget the text names: nothing is decided. */
export class Stopped extends Error {
  /** @param {number} visits */
  constructor(visits) {
    super(`stopped after ${visits} visits`);
    this.visits = visits;
  }
}

/** Counts the visits of both searches together, up to the checker's own limit. */
export class Visits {
  /**
   * @param {number} most
   * @param {(made: number) => void} [report] is told now and then how many were made
   */
  constructor(most, report = () => {}) {
    this.most = most;
    this.report = report;
    this.made = 0;
  }

  /** Stops the search where no visit is left. */
  ask() {
    if (this.made === this.most) throw new Stopped(this.made);
  }

  add() {
    this.made++;
    if (this.made % VISITS_BETWEEN === 0) this.report(this.made);
  }
}

/**
 * The best and the next best: in the coordinates of the reduction, or where that search has no answer in the form's
 * own. Each may visit as many suffixes as the budget says.
 * @param {bigint[][]} form of the integers and the constant
 * @param {number} first the number of its first column, as `weak` names it
 * @param {bigint} budget
 * @param {Visits} visits
 * @returns {[Candidate, Candidate]}
 */
export function twoBest(form, first, budget, visits) {
  const triangle = eliminate(form, form.length - 1, first), columns = decorrelate(triangle);
  try {
    const mapped = mappedForm(form, columns);
    return new Search(mapped, eliminate(mapped, columns.length, first), columns, budget, visits).run();
  } catch (why) {
    if (!(why instanceof NotFixed)) throw why;
  }
  return new Search(form, triangle, identity(columns.length), budget, visits).run();
}

/**
 * The form in the coordinates of a map.
 * @param {bigint[][]} form
 * @param {bigint[][]} columns
 * @returns {bigint[][]}
 */
function mappedForm(form, columns) {
  const n = columns.length, full = [...columns.map(column => [...column, 0n]), [...Array(n).fill(0n), 1n]];
  const half = full.map(column => form.map(row => dot(column, row)));
  const mapped = full.map(column => half.map(row => dot(column, row)));
  if (mapped.some(row => someReach(row, MAPPED_LIMIT))) throw new NotFixed('overwidth search');
  return mapped;
}

/**
 * The entries of one integer before a suffix, the nearest to its centre first, of two as near the greater. The centre
 * is where the offset 2^30·x + rest is 0.
 */
class Entries {
  /**
   * @param {number} integer
   * @param {bigint} rest what the suffix adds to an offset
   * @param {bigint} low the suffix's lower sum
   * @param {bigint} weight d of the integer
   */
  constructor(integer, rest, low, weight) {
    this.integer = integer;
    this.low = low;
    this.weight = weight;
    this.above = -(rest >> FACTOR_BITS);
    this.offset = (this.above << FACTOR_BITS) + rest;
    this.below = this.above - 1n;
    this.offsetBelow = this.offset - FACTOR_UNIT;
  }

  get isAboveNearer() {
    return this.offset <= -this.offsetBelow;
  }

  get entry() {
    return this.isAboveNearer ? this.above : this.below;
  }

  /** The lower sum of the suffix with this entry before it. */
  get sum() {
    const offset = this.isAboveNearer ? this.offset : this.offsetBelow;
    return this.low + this.weight * offset * offset;
  }

  /** Goes on to the next entry. */
  next() {
    if (this.isAboveNearer) {
      this.above++;
      this.offset += FACTOR_UNIT;
    } else {
      this.below--;
      this.offsetBelow -= FACTOR_UNIT;
    }
  }
}

/**
 * A search visits every suffix, from the last integer to the first, but those whose lower sum is over 2^60 times the
 * second value of the vectors before it.
 */
class Search {
  /**
   * @param {bigint[][]} form
   * @param {import('./normal.mjs').Elimination} triangle of all its integers
   * @param {bigint[][]} columns of the map to the coordinates of the answer
   * @param {bigint} budget
   * @param {Visits} visits
   */
  constructor(form, {pivots, factors, form: [[constant]]}, columns, budget, visits) {
    const n = pivots.length;
    this.n = n;
    this.form = form;
    this.weights = pivots;
    this.factors = factors;
    this.columns = columns;
    this.least = constant << SQUARE_BITS;
    this.visits = visits;
    this.left = Number(budget);
    /** @type {bigint[]} */
    this.z = Array(n).fill(0n);
    // of the suffix from each integer on: its value, and its image, made when it is asked for; those from
    // `imagesFrom` on are of the present entries
    /** @type {bigint[]} */
    this.values = Array(n + 1).fill(form[n][n]);
    /** @type {bigint[][]} */
    this.images = Array.from({length: n + 1}, () => Array(n).fill(0n));
    this.imagesFrom = n;
  }

  /**
   * What the entries after the integer i add to its offset.
   * @param {number} i
   */
  rest(i) {
    const row = this.factors[i];
    let sum = row[this.n - i - 1];
    for (let k = i + 1; k < this.n; k++) if (this.z[k] !== 0n) sum += row[k - i - 1] * this.z[k];
    return sum;
  }

  /**
   * Puts an entry before the suffix from i + 1 on.
   * @param {number} i
   * @param {bigint} x
   */
  put(i, x) {
    const row = this.form[i];
    let mixed = row[this.n];
    for (let k = i + 1; k < this.n; k++) if (this.z[k] !== 0n) mixed += row[k] * this.z[k];
    this.z[i] = x;
    this.values[i] = this.values[i + 1] + x * (2n * mixed + row[i] * x);
    if (this.imagesFrom <= i) this.imagesFrom = i + 1;
  }

  /**
   * The vector z, which the answer may need: refused where an entry is too large, here or in the answer's coordinates.
   * @returns {Candidate}
   */
  candidate() {
    while (this.imagesFrom > 0) {
      const i = --this.imagesFrom, x = this.z[i], before = this.images[i + 1], column = this.columns[i];
      this.images[i] = x === 0n ? before : before.map((sum, k) => sum + column[k] * x);
    }
    const integers = this.images[0];
    if (someReach(this.z, ENTRY_LIMIT) || someReach(integers, ENTRY_LIMIT)) throw new NotFixed('overwidth search');
    return {value: this.values[0], integers};
  }

  /**
   * The rounded point and its neighbour, in the order of candidates.
   * @returns {[Candidate, Candidate]}
   */
  start() {
    for (let i = this.n - 1; i >= 0; i--) this.put(i, nearestShift(-this.rest(i), FACTOR_BITS));
    const rounded = this.candidate(), x = this.z[0], offset = (x << FACTOR_BITS) + this.rest(0);
    this.put(0, offset <= 0n ? x + 1n : x - 1n);
    const neighbour = this.candidate();
    if (rounded.value >= VALUE_LIMIT || neighbour.value >= VALUE_LIMIT) throw new NotFixed('overwidth search');
    return compareCandidates(rounded, neighbour) < 0 ? [rounded, neighbour] : [neighbour, rounded];
  }

  /**
   * The entries of the integer before the present suffix.
   * @param {number} integer
   * @param {bigint} low the suffix's lower sum
   */
  entriesOf(integer, low) {
    return new Entries(integer, this.rest(integer), low, this.weights[integer]);
  }

  /**
   * Counts the visit of a suffix with this entry first.
   * @param {bigint} entry
   */
  visit(entry) {
    if (this.left === 0) throw new NotFixed('spent');
    this.visits.ask();
    if (entry >= ENTRY_LIMIT || -entry >= ENTRY_LIMIT) throw new NotFixed('overwidth search');
    this.left--;
    this.visits.add();
  }

  /** @returns {[Candidate, Candidate]} */
  run() {
    let [best, second] = this.start(), bound = second.value << SQUARE_BITS;
    const open = [this.entriesOf(this.n - 1, this.least)];
    while (open.length > 0) {
      const entries = open[open.length - 1], {integer, entry, sum} = entries;
      if (sum > bound) {
        open.pop();
        continue;
      }
      this.visit(entry);
      entries.next();
      this.put(integer, entry);
      if (integer > 0) open.push(this.entriesOf(integer - 1, sum));
      else if (this.values[0] <= second.value) {
        [best, second] = twoOf(best, second, this.candidate());
        bound = second.value << SQUARE_BITS;
      }
    }
    return [best, second];
  }
}

/**
 * Order by value, then by entries.
 * @param {Candidate} a
 * @param {Candidate} b
 */
function compareCandidates(a, b) {
  if (a.value !== b.value) return a.value < b.value ? -1 : 1;
  return compareEntries(a.integers, b.integers);
}

/**
 * The first two of three in their order; the third may be one of the others.
 * @param {Candidate} best
 * @param {Candidate} second
 * @param {Candidate} third
 * @returns {[Candidate, Candidate]}
 */
function twoOf(best, second, third) {
  const order = compareCandidates(third, best);
  if (order < 0) return [third, best];
  return order > 0 && compareCandidates(third, second) < 0 ? [best, third] : [best, second];
}
