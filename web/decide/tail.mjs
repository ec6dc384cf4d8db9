// The last lines of a certificate: what the text says of its rows (FORMATS, "A tail is five lines with vectors, or
// one line").
import {belowPower, range} from './lines.mjs';

/**
 * The best integers and the next best, the moves (of a track one for each pair) and the numbers that decide.
 * @typedef {{z1: bigint[], z2: bigint[], moves: bigint[][], h: bigint, p1: bigint, p2: bigint, t: bigint}} Vectors
 *
 * `vectors` is null where the tail is one line; `last` is the last line.
 * @typedef {{vectors: Vectors | null, isFixed: boolean, last: string}} Tail
 *
 * What was read before: the number of integers, and the pairs' numbers.
 * @typedef {{isTrack: boolean, budget: bigint, integers: number, pairs: number[]}} Before
 */

const MOVE = Array(3).fill(belowPower(46));
const VALUES = [range(0, 127), ...Array(3).fill(belowPower(126))];
const PLACES = ['y', 'factor', 'entry', 'float', 'point', 'search', 'sum'];

/**
 * @param {import('./lines.mjs').LineReader} reader
 * @param {Before} before
 * @returns {Tail}
 */
export function readTail(reader, {isTrack, budget, integers, pairs}) {
  const words = reader.words();
  if (words[0] !== 'z1') {
    reader.match(words, ...causes(isTrack, budget));
    return {vectors: null, isFixed: false, last: words.join(' ')};
  }
  const entries = Array(integers).fill(belowPower(30));
  const z1 = reader.match(words, ['z1', ...entries]).numbers;
  const z2 = reader.take(['z2', ...entries]).numbers;
  const numbers = isTrack ? pairs.map(number => [range(number, number)]) : [[]];
  const moves = numbers.map(number => reader.take(['move', ...number, ...MOVE]).numbers.slice(-3));
  const [h, p1, p2, t] = reader.take(['values', ...VALUES]).numbers;
  const last = reader.words();
  reader.match(last, ['fixed'], ['declined', 'unseparated']);
  return {vectors: {z1, z2, moves, h, p1, p2, t}, isFixed: last[0] === 'fixed', last: last.join(' ')};
}

/**
 * The shapes of a tail of one line.
 * @param {boolean} isTrack
 * @param {bigint} budget
 * @returns {import('./lines.mjs').Part[][]}
 */
function causes(isTrack, budget) {
  const stage = isTrack ? [] : ['fine'];
  const weak = ['weak', ...stage, range(0, 62), belowPower(52)], wide = ['overwidth', ...stage, PLACES];
  const lines = [weak, wide, ['spent', range(budget, budget)]];
  if (!isTrack) lines.push(['unsettled', 'fine', belowPower(46)]);
  return lines.map(line => ['declined', ...line]);
}
